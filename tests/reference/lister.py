"""The lister program of document 01 in plain Python, over the reference beside this file. It was written from the paper alone."""
import itertools

import notation as n

MOST_TEXT = 3072
SHOWN = 1000


def steps(nodes, known, inverted=False):
    """Gives the steps one by one, so that the first of very many can be had. `known` has the counts of the groups met so far."""
    for node in reversed(nodes) if inverted else nodes:
        if not node.lists:
            yield n.undo(node) if inverted else node
            continue
        if id(node) not in known:
            known[id(node)] = n.count([node])
        if known[id(node)]:
            for _ in range(abs(node.number)):
                for part, d in n.repeated(node, inverted):
                    yield from steps(part, known, d)


def counted(nodes):
    n.unroll_check(nodes)
    total = n.count(nodes)
    if total > n.MOST_STEPS:
        raise n.Refused(9)
    return total


def lines(text, features):
    try:
        nodes = n.read(text, features)
    except n.Refused as r:
        yield f"text refused {r.number}"
        return
    yield "text " + n.show_list(nodes)
    try:
        yield "inverse " + n.show_list(n.inverse(nodes))
    except n.Refused as r:
        yield f"inverse refused {r.number}"
    try:
        total = counted(nodes)
    except n.Refused as r:
        yield f"steps refused {r.number}"
        return
    yield f"steps {total}"
    for place, step in enumerate(itertools.islice(steps(nodes, {}), SHOWN)):
        yield f"{place} {n.show(step)}"


def lister(data):
    """Gives what the program writes for what it reads."""
    features = {b"w\n": n.WCA, b"m\n": n.MAXIMAL}.get(data[:2])
    text = data[2:]
    if features is None or len(text) > MOST_TEXT:
        return b"refused input\n"
    return "".join(line + "\n" for line in lines(text, features)).encode()
