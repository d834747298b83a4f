"""Cases for the bill program: writes NAME.ohg and NAME.txt, a stored form and what must be printed for it, into a folder.

    python3 tests/bill.py FOLDER

The catalogue is written down once more from T-07; the choice is the one of tests/report.py, which has the drawings' form too. Refusals are written down by hand.
"""
import random
import sys

from report import P6, PACKET_PATH, SPIDER, choice, form, write_cases

CATALOGUE = [
    ("receive", 0, 1, 4200),
    ("transmit", 1, 0, 4200),
    ("parser", 1, 2, 1150),
    ("hash", 2, 1, 640),
    ("server table", 1, 1, 2300),
    ("pick", 2, 1, 390),
    ("rewriter", 2, 1, 870),
    ("probe", 1, 1, 510),
    ("counter", 1, 1, 120),
    ("splitter", 1, 2, 95),
    ("joiner", 2, 1, 95),
    ("flow store", 2, 2, 3100),
]


def amount(hundredths):
    return f"{hundredths // 100}.{hundredths % 100:02}"


def listed(counts, buffers):
    """The text of so many of each kind and so many buffers."""
    rows = [(name, n, price) for (name, _, _, price), n in zip(CATALOGUE, counts)] + [("loop buffer", buffers, 260)]
    lines = [f"{name} {n} {amount(n * price)}" for name, n, price in rows]
    return "".join(line + "\n" for line in [*lines, f"total {amount(sum(n * price for _, n, price in rows))}"])


def bill(nodes, edges):
    """The text of a drawing whose parts are in order."""
    labels = [label for label, _, _ in edges]
    return listed([labels.count(kind) for kind in range(1, 13)], len(choice(nodes, edges)[0]))


def part(rng, kind, nodes):
    """An edge of a kind, from nodes to nodes by chance."""
    _, sources, targets, _ = CATALOGUE[kind - 1]
    return kind, [rng.randrange(nodes) for _ in range(sources)], [rng.randrange(nodes) for _ in range(targets)]


def cases():
    """Each case: a name, the bytes, and the text or the refusal's number."""
    rng = random.Random(1)
    yield "packet-path", form(*PACKET_PATH), bill(*PACKET_PATH)
    yield "nothing", form([], []), bill([], [])
    of_each = [5, 6, 7], [part(rng, kind, 3) for kind in range(1, 13)]
    yield "one-of-each", form(*of_each), bill(*of_each)
    spiders = [5, 6], [(SPIDER, [0] * k, [1] * (3 - k)) for k in range(4)] + [(9, [1], [0])]
    yield "spiders", form(*spiders), bill(*spiders)
    outgrown = [7] * 2049, PACKET_PATH[1]
    yield "version-2", form(*outgrown, version=2), bill(*outgrown)
    for k in range(40):
        nodes = rng.randint(1, 12)
        drawing = [5] * nodes, [part(rng, rng.randint(1, 12), nodes) for _ in range(rng.randint(0, 30))]
        yield f"drawn-{k}", form(*drawing), bill(*drawing)

    # as many of each kind as either version holds, each alone; all nodes in one ring of counters, and every node a loop of its own
    for version, most in (1, 2048), (2, 16384):
        for kind in range(1, 13):
            name, sources, targets, _ = CATALOGUE[kind - 1]
            edges = [(kind, [0] * sources, [1] * targets)] * most
            counts = [most if kind == k else 0 for k in range(1, 13)]
            yield f"version-{version}-all-{name.replace(' ', '-')}", form([7] * most, edges, version=version), listed(counts, 0)
        counters = [0] * 8 + [most] + [0] * 3
        ring = [(9, [v], [(v + 1) % most]) for v in range(most)]
        yield f"version-{version}-ring", form([7] * most, ring, version=version), listed(counters, 1)
        loops = [(9, [v], [v]) for v in range(most)]
        yield f"version-{version}-loops", form([7] * most, loops, version=version), listed(counters, most)
    stores = [(12, [v, v], [v, v]) for v in range(16384)]
    dearest = form([7] * 16384, stores, version=2)
    yield "dearest-of-loops", dearest, listed([0] * 11 + [16384], 16384)

    # the first at fault decides: 14 before 15 at one edge, else the earlier edge; 8 before both
    yield "label-0", form([7], [(0, [], [])]), 14
    yield "label-13", form([7], [(13, [0], [0])]), 14
    yield "label-of-a-kind-in-16-bits", form([7], [(9 + 65536, [0], [0])]), 14
    yield "label-below-the-spider", form([7], [(SPIDER - 1, [0], [0])]), 14
    yield "a-port-more", form([7], [(9, [0], [0, 0])]), 15
    yield "a-port-less", form([7], [(3, [0], [0])]), 15
    yield "ports-exchanged", form([7], [(4, [0], [0, 0])]), 15
    yield "ports-first", form([7], [(9, [0], [0]), (9, [], [0]), (0, [], [])]), 15
    yield "label-first", form([7], [(9, [0], [0]), (0, [], []), (9, [], [0])]), 14
    yield "pair-first", form([7, 7], [(0, [], [])], pairs=[(0, 1)]), 8
    yield "pair", form(*P6, pairs=[(0, 1)]), 8

    path = form(*PACKET_PATH)
    yield "empty", b"", 1
    yield "no-mark", form(*PACKET_PATH, mark=b"OHX"), 2
    yield "version-3", form(*PACKET_PATH, version=3), 3
    yield "nodes-over", path[:5] + b"\1\x08" + path[7:], 4
    yield "one-byte-short", path[:-1], 5
    yield "one-byte-more", path + b"\0", 5
    yield "unknown-id", form([7], [(9, [1], [0])]), 6
    yield "version-2-not-needed", form(*PACKET_PATH, version=2), 13

    # longer than any form: what is said of the front is said of all, however much follows
    yield "dearest-and-one", dearest + b"\0", 5
    yield "buffer-full", dearest + bytes(2**20 - len(dearest)), 5
    yield "five-megabytes", dearest + bytes(5000000), 5
    yield "no-form-and-more", bytes(5000000), 2


if __name__ == "__main__":
    write_cases(sys.argv[1], cases())
