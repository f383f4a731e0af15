"""Makes the stored vectors for the lister's listing, of the fixed inputs of lister_cases.py. A case is a line like those of entry_vectors.py with the letter `o`,
the whole input of the lister as its text and no tree."""
import lister
import lister_cases
from lines import refused, spelled, value

MOST_WRITTEN = 100000  # larger outputs are left to lister_cases.py


def line_of(data, room, out):
    answer = value(len(out), out) if len(out) <= room else refused(5)
    return f"o{room:06x}{0:016x}{0:08x}0{spelled(data)}|", answer


def lines():
    """Each case with its answer: a buffer with bytes to spare, an exact one and one that is a byte short."""
    for i, data in enumerate(lister_cases.fixed()):
        out = lister.lister(data)
        if len(out) > MOST_WRITTEN:
            continue
        yield line_of(data, len(out) + 3, out)
        if i % 8 == 0:
            yield line_of(data, len(out), out)
            yield line_of(data, len(out) - 1, out)
