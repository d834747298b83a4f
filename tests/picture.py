"""Drawings for tests/picture, and what a picture of them has to show.

    python3 tests/picture.py FOLDER           writes NAME.ohg, the stored form of each drawing, into a folder, and prints the names; two large ones,
                                              p7-and-more and large, are written besides
    python3 tests/picture.py --shows NAME SVG whether a picture shows the drawing; prints what it does not

What has to be seen is worked out from the drawing alone: every wire, block, spider and global entry with its text, every arc and every pair in order
and at its port, which wires are filled and why, and which lines are thick.
"""
import collections
import random
import re
import sys
import xml.etree.ElementTree

from report import P2, P3, P6, P7, PACKET_PATH, SPIDER, core, form

KINDS = "receive,transmit,parser,hash,server table,pick,rewriter,probe,counter,splitter,joiner,flow store".split(",")
FILLED = "#ffb347"

Drawing = collections.namedtuple("Drawing", "nodes edges sources targets pairs", defaults=[(), (), ()])

# the wire back of the packet path as two pins that are joined: 8 at the splitter, 9 at the joiner
PINS = [*PACKET_PATH[0], 512], [(label, [9 if x == 8 else x for x in sources], targets) for label, sources, targets in PACKET_PATH[1]]

# wires that enter and leave several times, in another order than their ids; the labels around the catalogue's last
GLOBALS = [8, 8, 16, 16, 32, 32, 64, 64], [
    (12, [0, 1], [3, 2]),
    (11, [2, 4], [5]),
    (10, [5], [4, 6]),
    (13, [6, 3], [7]),
    (SPIDER, [7], []),
]

DRAWINGS = {
    "p1": Drawing([], []),
    "p2": Drawing(*P2),
    "p3": Drawing(*P3),
    "p4": Drawing([5], [], [0], [0]),
    "p5": Drawing([5, 5, 5], [(SPIDER, [1], [0]), (SPIDER, [0], [2])], [1], [2]),
    "p6": Drawing(*P6),
    "p7": Drawing(*P7),
    "p8": Drawing(*P7, pairs=[(0, 1), (2, 0)]),
    "p9": Drawing(*P6, pairs=[(0, 1)]),
    "packet-path": Drawing(*PACKET_PATH),
    "pins": Drawing(*PINS, pairs=[(8, 9)]),
    "globals": Drawing(*GLOBALS, sources=[1, 0, 1], targets=[7, 5]),
}


def arcs_of(drawing):
    """The arcs, nodes and then edges being numbered."""
    arcs = []
    for e, (_, sources, targets) in enumerate(drawing.edges, len(drawing.nodes)):
        arcs += [(x, e) for x in sources] + [(e, x) for x in targets]
    return arcs


def reasons(drawing):
    """Of each chosen node its stage and its arcs in and out."""
    arcs, rest, said = arcs_of(drawing), set(range(len(drawing.nodes) + len(drawing.edges))), {}
    while not drawing.pairs:
        arcs, rest, into, out = core(arcs, rest)
        if not rest:
            break
        best = min((v for v in rest if v < len(drawing.nodes)), key=lambda v: (-into[v] * out[v], v))
        said[best] = len(said) + 1, into[best], out[best]
        rest = rest - {best}
    return said


def around(drawing):
    """The arcs of the loop that is shown: from the lowest node always on to the lowest vertex."""
    if drawing.pairs:
        return []
    arcs, rest, _, _ = core(arcs_of(drawing), set(range(len(drawing.nodes) + len(drawing.edges))))
    walk = [min(rest)] if rest else []
    while walk:
        following = min(v for u, v in arcs if u == walk[-1])
        if following in walk:
            walk = walk[walk.index(following):]
            return list(zip(walk, walk[1:] + walk[:1]))
        walk.append(following)
    return []


def vertices(drawing):
    """Every vertex of the picture: its name, texts, whether it is filled and whether it is thick."""
    chosen, thick = reasons(drawing), {v for arc in around(drawing) for v in arc}
    for v, label in enumerate(drawing.nodes):
        why = ["buffer", "stage {}:".format(chosen[v][0]), "{} in, {} out".format(*chosen[v][1:])] if v in chosen else []
        yield f"n{v}", [f"{v} : {label}", *why], v in chosen, v in thick
    for e, (label, _, _) in enumerate(drawing.edges):
        name = [] if label == SPIDER else [KINDS[label - 1] if 1 <= label <= len(KINDS) else str(label)]
        yield f"e{e}", name, False, len(drawing.nodes) + e in thick
    if drawing.sources:
        yield "sources", [f"source {i}" for i in range(len(drawing.sources))], False, False
    if drawing.targets:
        yield "targets", [f"target {i}" for i in range(len(drawing.targets))], False, False


def lines(drawing):
    """Every line of the picture in order: from where, to where, whether it is thick and whether it is dotted."""
    thick = set(around(drawing))

    def line(u, v, tail, head):
        is_thick = (u, v) in thick
        thick.discard((u, v))
        return tail, head, is_thick, False

    for x in drawing.sources:
        yield "sources", f"n{x}", False, False
    for e, (_, sources, targets) in enumerate(drawing.edges):
        v = len(drawing.nodes) + e
        for x in sources:
            yield line(x, v, f"n{x}", f"e{e}")
        for x in targets:
            yield line(v, x, f"e{e}", f"n{x}")
    for x in drawing.targets:
        yield f"n{x}", "targets", False, False
    for x, y in drawing.pairs:
        yield f"n{x}", f"n{y}", False, True


class Seen:
    """What an SVG by `dot` has."""

    def __init__(self, file):
        self.root = xml.etree.ElementTree.parse(file).getroot()
        self.graph = self.root.find("{*}g")

    def groups(self, kind):
        found = [g for g in self.graph.findall("{*}g") if g.get("class") == kind]
        return sorted(found, key=lambda g: int(re.sub(r"\D", "", g.get("id"))))

    @staticmethod
    def has(group, attribute, value):
        return any(part.get(attribute) == value for part in group)

    def vertices(self):
        for group in self.groups("node"):
            texts = [text.text for text in group.findall("{*}text")]
            yield group.find("{*}title").text, texts, self.has(group, "fill", FILLED), self.has(group, "stroke-width", "3")

    def lines(self):
        for group in self.groups("edge"):
            tail, head = (end.split(":")[0] for end in group.find("{*}title").text.split("->"))
            dotted = any(part.get("stroke-dasharray") for part in group)
            yield tail, head, self.has(group, "stroke-width", "3"), dotted

    def points(self, element, attribute):
        numbers = [float(n) for n in re.findall(r"-?[0-9.]+", element.get(attribute))]
        return list(zip(numbers[::2], numbers[1::2]))

    def ports(self):
        """Of each box where arrows meet its left side and where they leave its right side, in the order of the lines."""
        sides = {}
        for group in self.groups("node"):
            border = group.find("{*}polygon")
            if border is not None:
                xs = [x for x, _ in self.points(border, "points")]
                sides[group.find("{*}title").text] = min(xs), max(xs)
        met = collections.defaultdict(lambda: ([], []))
        for group in self.groups("edge"):
            tail, head = (end.split(":")[0] for end in group.find("{*}title").text.split("->"))
            if head in sides:
                tip = min(self.points(group.find("{*}polygon"), "points"), key=lambda point: abs(point[0] - sides[head][0]))
                met[head][0].append((tip, sides[head][0]))
            if tail in sides:
                met[tail][1].append((self.points(group.find("{*}path"), "d")[0], sides[tail][1]))
        return met

    def legend(self):
        return " ".join(text.text for text in self.graph.findall("{*}text"))


def faults(drawing, seen):
    """What a picture shows otherwise than it has to."""
    for name, due, shown in ("vertices", vertices(drawing), seen.vertices()), ("lines", lines(drawing), seen.lines()):
        due, shown = list(due), list(shown)
        if sorted(due) != sorted(shown) or name == "lines" and due != shown:
            yield f"{name}: {[x for x in shown if x not in due]} for {[x for x in due if x not in shown]}, or in another order"
    for name, columns in seen.ports().items():
        for column in columns:
            heights = [y for (_, y), _ in column]
            if heights != sorted(set(heights)):
                yield f"the ports of {name} are not from top to bottom: {heights}"
            if any(abs(x - side) > 3 for (x, _), side in column):
                yield f"an arrow of {name} is not at its side: {column}"
    count = len(reasons(drawing))
    due = "Merge first" if drawing.pairs else f"{count} loop buffer" if count else "No loop"
    if due not in seen.legend():
        yield f"the legend has not: {due}"


def main():
    if sys.argv[1] == "--shows":
        found = list(faults(DRAWINGS[sys.argv[2]], Seen(sys.argv[3])))
        print("".join(fault + "\n" for fault in found), end="")
        sys.exit(1 if found else 0)
    forms = {name: form(*drawing) for name, drawing in DRAWINGS.items()}
    print("\n".join(forms))
    # version 2, since version 1 has at most 2,048 nodes
    forms["p7-and-more"] = form([7] * 2049, P7[1], version=2)
    rng = random.Random(1)
    pick = lambda: [rng.randrange(2048), rng.randrange(2048)]
    forms["large"] = form([7] * 2048, [(rng.randint(1, 12), pick(), pick()) for _ in range(2048)])
    for name, stored in forms.items():
        with open(f"{sys.argv[1]}/{name}.ohg", "wb") as file:
            file.write(stored)


if __name__ == "__main__":
    main()
