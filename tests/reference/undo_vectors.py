"""Makes the stored vectors for the undo view (document 02, request 13): of each text that has a deep inverse, that inverse inverted deep again, which is the text's tree; the
inverse's printed form read; and where both views exist, the steps of the shallow inverse, of the deep one, and of its printed form read back.

That the second deep inverse is the tree and that the views play the same steps is asserted here, on the reference's answers. The lines are those of reading_vectors.py and
entry_vectors.py.
"""
import random

import notation as n
from entry_vectors import DEEP, FLATTEN, LARGE, NISS, PAIRS, TEXTS, line_of, random_texts, tree_of
from lines import ROOM, spelled
from reading_vectors import MAX, answer

MOST_STEPS = 200
# The closed examples of the definitions: what is inverted, what is never played and refused all the same, what is not entered.
EXAMPLES = (
    "[R: U]", "[R, U]'", "((R U)' ((F)2')')2", "[(R U)': [F: D]2]'", "[[R, U], F]'", "(R)0 [U2, F0]' .", "(^(R))0 U", "((-2147483648,0))0 U", "([^(R): U])0 F", "([(-2147483648,0), R])0 U",
    "[[[R: U]: F]: D]'", "[R: [U: [F: D]']']", "[[R, [U, F]'], D]2'", "([R: U]' [F, D]2)3'", "!(&(R .)2 [(1,0): / D++]0)' @x2", "(2147483647,-2147483647) ((-5,0))'",
)


def refusal_of(rule):
    try:
        rule()
    except n.Refused as r:
        return r.number
    return 0


def unrollable(text, tree):
    """Gives whether demand 3 speaks of the text, and its list is short."""
    if refusal_of(lambda: n.count_steps(text, tree)) or n.count_steps(text, tree) > MOST_STEPS:
        return False
    return all(n.LEAST not in (step.number, step.d) for step in n.unroll(n.opened(text, tree)))


def views(text):
    text = text.encode()
    tree = tree_of(text)
    if refusal_of(lambda: n.inv_deep(text, tree)):
        yield line_of(DEEP, text, tree)
        return
    deep = n.inv_deep(text, tree)
    assert n.inv_deep(text, deep) == tree, text
    yield line_of(DEEP, text, deep)
    shown = n.display(text, deep)
    line, room = answer(MAX, shown, ROOM)
    yield f"r{MAX:02x}{room:06x}{spelled(shown)}", line
    if unrollable(text, tree):
        assert n.shallow_view(text, tree) == n.deep_view(text, tree, n.MAXIMAL), text
        yield line_of(FLATTEN, text, n.inv(text, tree))
        yield line_of(FLATTEN, text, deep)
        yield line_of(FLATTEN, shown)


def lines():
    """Each case with its answer."""
    random.seed(13)
    for text in (*EXAMPLES, *TEXTS, *NISS, *PAIRS, *LARGE, *random_texts(60)):
        yield from views(text)
