"""Cases for the report program: writes NAME.ohg and NAME.txt, a stored form and what must be printed for it, into a folder.

    python3 tests/report.py FOLDER          the cases
    python3 tests/report.py --slowly FILE N the file on standard output, N bytes at a time with a pause now and then

The choice is worked out here from its definition alone, with no queue and nothing kept from one stage to the next. Refusals are written down by hand.
"""
import collections
import os
import random
import struct
import sys
import time

SPIDER = 4294967295


def form(nodes, edges, sources=(), targets=(), pairs=(), version=1, mark=b"OHG"):
    """The stored form of a drawing: node labels, edges as (label, sources, targets), global lists, pairs. In version 2 counts and ids have 4 bytes."""
    width = "I" if version == 2 else "H"
    ids = lambda xs: struct.pack(f"<{len(xs)}{width}", *xs)
    counts = [len(nodes), len(edges), len(sources), len(targets), len(pairs)]
    labels = [*nodes, *(label for label, _, _ in edges)]
    body = [ids([len(s), len(t), *s, *t]) for _, s, t in edges]
    ends = [*sources, *targets, *(end for pair in pairs for end in pair)]
    return mark + struct.pack("<H", version) + ids(counts) + struct.pack(f"<{len(labels)}I", *labels) + b"".join(body) + ids(ends)


def header(nodes=0, edges=0, sources=0, targets=0, pairs=0):
    """Fifteen bytes that call for a drawing of these sizes."""
    return b"OHG" + struct.pack("<6H", 1, nodes, edges, sources, targets, pairs)


def core(arcs, rest):
    """Takes away vertices without an arc in or without an arc out, arcs counted among what remains, until there is none."""
    while True:
        arcs = [(u, v) for u, v in arcs if u in rest and v in rest]
        out = collections.Counter(u for u, _ in arcs)
        into = collections.Counter(v for _, v in arcs)
        loose = {v for v in rest if not into[v] or not out[v]}
        if not loose:
            return arcs, rest, into, out
        rest = rest - loose


def choice(nodes, edges):
    """The chosen ids, ascending, and how many vertices were removed freely."""
    arcs = []
    for e, (_, sources, targets) in enumerate(edges, len(nodes)):
        arcs += [(x, e) for x in sources] + [(e, x) for x in targets]
    rest = set(range(len(nodes) + len(edges)))
    ids, free = [], 0
    while True:
        arcs, left, into, out = core(arcs, rest)
        free += len(rest) - len(left)
        if not left:
            return sorted(ids), free
        best = min((v for v in left if v < len(nodes)), key=lambda v: (-into[v] * out[v], v))
        ids.append(best)
        rest = left - {best}


def report(nodes, edges):
    ids, free = choice(nodes, edges)
    ports = sum(len(s) + len(t) for _, s, t in edges)
    lines = ["OHG 1", f"nodes {len(nodes)} edges {len(edges)} ports {ports}", f"cut {len(ids)} free {free}", *map(str, ids)]
    return "".join(line + "\n" for line in lines)


# the drawings of document 01
P2 = [5], [(0, [0], [0])]
P3 = [5, 5, 5], [(0, [1], [2]), (SPIDER, [], [0, 1]), (SPIDER, [0, 2], [])]
P6 = [5, 6], [(0, [0], [1]), (0, [1], [0])]
P7 = [7, 7, 7], [(9, [0], [0, 1, 1]), (10, [1, 1, 2], [2])]

# the packet path of examples/: the bits that each wire carries, and the blocks by their kinds
PACKET_PATH = [512, 512, 512, 104, 16, 1, 512, 512, 512], [
    (1, [], [0]),  # receive
    (11, [0, 8], [1]),  # joiner
    (3, [1], [2, 3]),  # parser
    (6, [3, 5], [4]),  # pick
    (8, [4], [5]),  # probe
    (7, [2, 4], [6]),  # rewriter
    (10, [6], [7, 8]),  # splitter
    (2, [7], []),  # transmit
]


def drawn(rng, nodes, edges, most):
    """A drawing at random, with repeated ports and some spiders."""
    pick = lambda: [rng.randrange(nodes) for _ in range(rng.randint(0, most))] if nodes else []
    return [rng.randrange(9) for _ in range(nodes)], [(rng.choice([1, 2, SPIDER]), pick(), pick()) for _ in range(edges)]


def cases():
    """Each case: a name, the bytes, and the text or the refusal's number."""
    p7 = form(*P7)
    yield "p1", form([], []), report([], [])
    for name, drawing in ("p2", P2), ("p3", P3), ("p6", P6), ("p7", P7), ("packet-path", PACKET_PATH):
        yield name, form(*drawing), report(*drawing)
    yield "p4", form([5], [], [0], [0]), report([5], [])
    yield "p9", form(*P6, pairs=[(0, 1)]), 8

    yield "empty", b"", 1
    yield "fourteen-bytes", p7[:14], 1
    yield "fourteen-other-bytes", b"x" * 14, 1
    yield "no-mark", form(*P7, mark=b"OHX"), 2
    yield "no-mark-nor-version", form(*P7, mark=b"ohg", version=9), 2
    for version in 0, 3, 256, 257, 258, 512, 513, 65535:
        yield f"version-{version}", form(*P7, version=version), 3
    # the program stays with version 1: of the other it looks at no more than the mark and the version, once there are 15 bytes
    in_2 = form(*P7, version=2)
    yield "version-2", in_2, 3
    yield "version-2-outgrown", form([7] * 2049, P7[1], version=2), 3
    for length in (14, 15, 16, 24, 25, len(in_2) - 1):
        yield f"version-2-cut-at-{length}", in_2[:length], 1 if length < 15 else 3
    yield "version-2-counts-over", in_2[:5] + b"\xff" * 20, 3
    yield "version-2-and-one", in_2 + b"\0", 3
    yield "version-2-unknown-id", form([7], [(0, [1], [])], version=2), 3
    yield "version-2-no-mark", form(*P7, version=2, mark=b"OHX"), 2
    for name, limit in ("nodes", 2048), ("edges", 2048), ("sources", 1024), ("targets", 1024), ("pairs", 1024):
        yield f"{name}-over", header(**{name: limit + 1}), 4
        yield f"{name}-all-missing", header(**{name: limit}), 5
    over = [(0, [0] * 4096, [0] * 4096), (0, [0], [])]
    yield "ports-over", form([0], over), 4
    yield "ports-over-in-one", form([0], [])[:7] + b"\x01\x00" + bytes(6) + bytes(8) + struct.pack("<2H", 8192, 1), 4
    yield "ports-at-most", form([0], over[:1]), report([0], over[:1])

    yield "one-byte-short", p7[:-1], 5
    yield "one-byte-more", p7 + b"\0", 5
    yield "labels-cut", p7[:34], 5
    yield "edge-counts-cut", p7[:38], 5
    yield "edge-ids-cut", p7[:46], 5
    yield "twice", p7 + p7, 5
    yield "source-unknown", form([7, 7], [(0, [2], [])]), 6
    yield "target-unknown", form([7, 7], [(0, [], [65535])]), 6
    yield "global-source-unknown", form([7], [], sources=[1]), 6
    yield "global-target-unknown", form([7], [], targets=[1]), 6
    yield "pair-unknown", form(*P6, pairs=[(0, 2)]), 6
    yield "unknown-and-short", form([7, 7], [(0, [2], [])])[:-1], 5

    rng = random.Random(1)
    for k in range(60):
        nodes, edges = drawn(rng, rng.randint(0, 12), rng.randint(0, 12), rng.choice([1, 2, 3]))
        ends = [rng.randrange(len(nodes)) for _ in range(rng.randint(0, 4))] if nodes else []
        yield f"drawn-{k}", form(nodes, edges, ends, ends[::-1]), report(nodes, edges)
    medium = drawn(rng, 300, 300, 4)
    yield "drawn-medium", form(*medium), report(*medium)

    # the largest drawing, and every node cut
    nodes = [rng.randrange(2**32) for _ in range(2048)]
    edges = [(rng.randrange(2**32), *(rng.sample(range(2048), 2) for _ in "st")) for _ in nodes]
    ends = [rng.randrange(2048) for _ in range(1024)]
    pairs = [(a, b) for a, b in zip(ends, ends[::-1])]
    largest = form(nodes, edges, ends, ends, pairs)
    assert len(largest) == 49167
    yield "largest-unpaired", form(nodes, edges, ends, ends), report(nodes, edges)
    yield "largest", largest, 8
    loops = [(0, [v, v], [v, v]) for v in range(2048)]
    yield "all-cut", form(nodes, loops), report(nodes, loops)

    # the largest drawing of version 2, longer than what the program reads
    loops = [(0, [v, v], [v, v]) for v in range(16384)]
    zeros = [0] * 8192
    in_2 = form([7] * 16384, loops, zeros, zeros, [(0, 0)] * 8192, version=2)
    assert len(in_2) == 655385
    yield "version-2-largest", in_2, 3

    # longer than any form of version 1: what is said of the front is said of all, however much follows
    yield "longest-and-one", largest + b"\0", 5
    yield "longest-and-more", largest + bytes(150833), 5
    yield "buffer-full", largest + bytes(65536 - 49167), 5
    yield "p7-and-more", p7 + bytes(200000), 5
    yield "no-form-and-more", bytes(200000), 2
    yield "five-megabytes", largest + bytes(5000000), 5
    late = edges[:-1] + [(0, [0, 0], [0, 0, 0])]
    yield "port-sum-late-and-more", form(nodes, late, ends, ends, pairs) + bytes(5000000), 4
    yield "unknown-late-and-more", form(nodes, edges[:-1] + [(0, [0, 0], [0, 2048])], ends, ends, pairs) + bytes(5000000), 5


def slowly(file, size):
    """Broken off without a word where nobody reads any more."""
    data = open(file, "rb").read()
    try:
        for k, at in enumerate(range(0, len(data), size)):
            os.write(1, data[at : at + size])
            if k % 16 == 0:
                time.sleep(0.001)
    except BrokenPipeError:
        pass


def write_cases(folder, cases):
    for name, data, expected in cases:
        with open(os.path.join(folder, name + ".ohg"), "wb") as f:
            f.write(data)
        with open(os.path.join(folder, name + ".txt"), "w") as f:
            f.write(expected if isinstance(expected, str) else f"refused {expected}\n")


if __name__ == "__main__":
    if sys.argv[1] == "--slowly":
        slowly(sys.argv[2], int(sys.argv[3]))
    else:
        write_cases(sys.argv[1], cases())
