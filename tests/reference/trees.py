"""Makes packed trees by hand, right or wrong: records by their fields, single fields changed, and counts put in.

Nothing here says what an entry answers; that is notation.py's to say.
"""
import notation as n

PLACE = {}  # of each field: how many bits stand behind it, and how many it has
behind = 8 * n.RECORD
for name, size in n.FIELDS:
    behind -= size
    PLACE[name] = (behind, size)


def records(tree):
    """Gives the records of a tree; the last one may be short."""
    return [tree[i:i + n.RECORD] for i in range(0, len(tree), n.RECORD)]


def rec(kind, **fields):
    """Gives a record with these fields, whatever they are. A leaf stores the count 1; that of a group is put in by `with_counts`."""
    return n.packed({"kind": kind, "count": int(kind >= n.ROTATION), **fields})


def move(**fields):
    return rec(n.MOVE, **{"number": 1, "family_size": 1, **fields})


def set_field(record, name, value):
    """Gives a whole record with one field changed."""
    shift, size = PLACE[name]
    mask = (1 << size) - 1
    bits = int.from_bytes(record, "big") & ~(mask << shift) | (value & mask) << shift
    return bits.to_bytes(n.RECORD, "big")


def set_in(tree, number, name, value):
    """Gives a tree with one field of one record changed."""
    a = n.RECORD * number
    return tree[:a] + set_field(tree[a:a + n.RECORD], name, value) + tree[a + n.RECORD:]


def true_counts(tree):
    """Gives the count of each whole record by its other fields, not capped, from the last record to the first. A list that ends past the tree is cut there, so that
    trees with other faults get counts too."""
    parts = [n.unpack(r) for r in records(tree) if len(r) == n.RECORD]
    counts, ends = [1] * len(parts), [i + 1 for i in range(len(parts))]

    def total(at, end):
        found = 0
        while at < end:
            found += counts[at]
            at = ends[at]
        return found

    for i, f in reversed(list(enumerate(parts))):
        if f["kind"] >= n.ROTATION:
            continue
        middle = min(i + 1 + f["first"], len(parts))
        ends[i] = min(middle + (f["second"] if f["kind"] >= n.COMMUTATOR else 0), len(parts))
        a, b = total(i + 1, middle), total(middle, ends[i])
        once = {n.NISS: 0, n.COMMUTATOR: 2 * (a + b), n.CONJUGATE: 2 * a + b}.get(f["kind"], a)
        counts[i] = abs(f["number"]) * once
    return counts


def with_counts(tree):
    """Gives a tree with the counts that its other fields call for, capped where they are too large."""
    parts = records(tree)
    for i, c in enumerate(true_counts(tree)):
        parts[i] = set_field(parts[i], "count", min(c, n.CAP))
    return b"".join(parts)
