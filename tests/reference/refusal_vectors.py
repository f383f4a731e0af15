"""Makes the stored vectors for the first refusal of unrolling (document 01: 7 or 8, whichever the walk meets first). One visit finds it in both directions, so the cases have a NISS group and pairs with
-2147483648 before and after one another in a list, in the lists of every kind of group, and in groups that turn the direction or are never entered.

The lines are those of entry_vectors.py, with the answers of the reference.
"""
import itertools

from entry_vectors import COUNT, FLATTEN, SEEK, line_of

LEAST = "(-2147483648,0)"
# What is refused forward, inverted, in both directions, in neither since it is never reached, and never.
MET = (f"({LEAST})'", LEAST, "^(R)", f"(^(R) ({LEAST})')0", "R")
LISTS = ("{} {}", "({} {})'", "({} {})2'", "({} {})0", "(({} {})')'", "[{} {}: R]'", "[R: {} {}]'", "[{} {}, R]'", "[R, {} {}]'")
BINARY = ("[{}, {}]", "[{}, {}]'", "[{}: {}]", "[{}: {}]'", "([{}, {}]')'", "[{}, {}]0", "[{}: {}]0")
THREE = ("[{} {}: {}]'", "[{} {}, {}]", "[{}, {} {}]'", "{} ({} {})'")


def lines():
    """Each case with its answer."""
    for around in LISTS + BINARY:
        for met in itertools.product(MET, repeat=2):
            text = around.format(*met)
            yield line_of(COUNT, text)
            yield line_of(FLATTEN, text)
    for around in THREE:
        for met in itertools.product(MET[:3], repeat=3):
            text = around.format(*met)
            yield line_of(COUNT, text)
            yield line_of(SEEK, text, number=0)
