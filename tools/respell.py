#!/usr/bin/env python3
"""Brings the repository's own definitions and lemmas to snake case, once, after port.py: `read-edge` and `readEdge` become `read_edge`.

usage: python3 tools/respell.py [--check]     at the top of the repository

It reads the names that specs/ and proofs/ declare, and those that their files bind, and turns them wherever they stand as whole words: in .antt files, in .rt files outside of comments and strings,
in the texts of must-fail edits, and in code spans of comments and pages. What port.py turned itself is turned in edits and pages too. Functions of src/, exported names, strings, inputs and outputs have no such names and stay.
A lemma that would have its definition's name gets `_lem`. Names that Rattle makes (goals, steps, places) stay as they are: the check says which they are today.
--check writes nothing and prints the table.
"""

import collections
import os
import re
import sys

WORD = re.compile(r"[^\s(){}.;,@\"«»\[\]`]+")
HEAD = re.compile(
    r"^( *)(?:(?:abbrev|unfoldable|data|record)\s+)?(pub\s+)?(?:(?:abbrev|unfoldable|data|record)\s+)?([^\s(){}.;,@\"«»\[\]]+)\s*((?:\{[^}]*\}|\([^)]*\)|\s)*):(?!=)([^\n]*)",
    re.M,
)
USE = re.compile(r"^use\s+([^\s;{]+?)\.\{([^}]*)\}", re.M)
COMMENT = re.compile(r"(?<![^\s(){}.;,@\"«»])--[^\n]*")
RUST = re.compile(r'//[^\n]*|/\*.*?\*/|b?"(?:\\.|[^"\\])*"', re.S)
BOUND = re.compile(r"[a-z][A-Za-z0-9]*(?:-[A-Za-z0-9]+)*'*")
SPAN = re.compile(r"`[^`\n]+`")
FENCE = re.compile(r"^```.*?^```[^\n]*$", re.M | re.S)


def snake(name):
    """The name with underscores for dashes and humps; a name that begins with a capital or a sign keeps its head."""
    name = re.sub(r"(?<=[\w'])-(?=[\w'])", "_", name)
    if re.match(r"◌?[a-z]", name):
        name = re.sub(r"(?<=[a-z0-9])([A-Z])", lambda m: "_" + m.group(1).lower(), name)
    return name


def files(root, endings):
    for folder, inside, names in os.walk(root):
        inside[:] = sorted(d for d in inside if d not in ("out", "target", ".git"))
        for name in sorted(names):
            if name.endswith(endings):
                yield os.path.join(folder, name)


def read(path):
    with open(path, encoding="utf-8") as f:
        return f.read()


def declared():
    """name -> [(file, whether it is a record's field)]; the names that only Rattle's own modules give are left out."""
    found = collections.defaultdict(list)
    for path in files("crates", (".antt",)):
        text = COMMENT.sub("", read(path))
        for m in HEAD.finditer(text):
            indent, _, name, _, rest = m.groups()
            if rest.lstrip().startswith(("tie.", "goal.")) or name.endswith("-spec") and "statement" in rest or not re.search(r"[A-Za-z]", name):
                continue
            # a lemma of a block has its equation below at the same depth, a field has none
            field = bool(indent) and not re.search(rf"^{indent}{re.escape(name)}(?=[\s])[^:\n]*=", text[m.end() :], re.M)
            found[name].append((path, field))
    return found


def borrowed(own):
    """The names that some file takes from a library, and from where."""
    found = collections.defaultdict(set)
    for path in files("crates", (".antt",)):
        for m in USE.finditer(read(path)):
            head = m.group(1).split(".")
            if not (head[0] == "Rattle" and len(head) > 1 and head[1] in own):
                for item in m.group(2).split(","):
                    found[item.strip().split(" as ")[0]].add(path)
    return found


def table():
    found = declared()
    kin = collections.defaultdict(set)
    for name in found:
        kin[snake(name)].add(name)
    turned, fields = {}, {}
    for to, names in kin.items():
        # a definition keeps the plain name: camel case, or else a name of specs/
        rank = lambda n: (not re.match(r"[a-z].*[A-Z]", n), not any("/specs/" in p and not f for p, f in found[n]), "-" in n, n)
        first = min(names, key=rank)
        for name in names:
            plain = name == first or all(f for _, f in found[name])
            new = to if plain else to + "_lem"
            if new != name:
                turned[name] = new
            if not plain and any(f for _, f in found[name]):
                fields[name] = to
    # mixfix names are used in parts
    for name in [n for n in turned if "◌" in n]:
        for a, b in zip(name.split("◌"), turned[name].split("◌")):
            if a != b:
                turned[a] = b
    return turned, fields


def turner(turned, fields, skip, known=(), bound=False):
    """known: the names as they are now, where port.py left the old ones; bound: variables that a file binds turn too."""

    def words(text):
        out, end = [], 0
        for m in WORD.finditer(text):
            w = m.group(0)
            behind = text[m.start() - 1 : m.start()] == "."
            field = re.match(r"\s*=[^=>]", text[m.end() : m.end() + 4]) and re.search(r"(?:[{;]|^)\s*$", text[max(0, m.start() - 80) : m.start()]) and w in fields
            if w in skip:
                continue
            if w in turned:
                new = fields[w] if w in fields and (behind or field) else turned[w]
                out += [text[end : m.start()], new]
                end = m.end()
            elif snake(w) != w and (snake(w) in known or bound and not behind and BOUND.fullmatch(w)):
                out += [text[end : m.start()], snake(w)]
                end = m.end()
        return "".join(out) + text[end:]

    return words


def by_parts(text, quiet, words):
    """The words of a text, but in what is quiet only those of code spans."""
    out, end = [], 0
    for m in quiet.finditer(text):
        out += [words(text[end : m.start()]), SPAN.sub(lambda s: words(s.group(0)), m.group(0))]
        end = m.end()
    return "".join(out) + words(text[end:])


def main():
    check = "--check" in sys.argv
    own = set(os.listdir("crates"))
    turned, fields = table()
    lent = borrowed(own)
    known = {turned.get(name, name) for name in declared()}
    if check:
        for name in sorted(turned):
            print(name, turned[name], sep="\t")
        for name in sorted(set(turned) & set(lent)):
            print("of a library too:", name, *sorted(lent[name]))
    n = 0
    for path in list(files("crates", (".antt", ".rt", ".edit"))) + list(files(".", (".md",))):
        text = read(path)
        skip = {name for name in turned if path in lent.get(name, ())}
        if not path.endswith(".antt"):
            skip |= {name for name in turned if re.fullmatch(r"[a-z0-9_']+", name)}
        if path.endswith(".antt") and not path.endswith("/Proof.antt"):
            skip |= {name for name in lent if path in lent[name]}
            text_names = {w for m in USE.finditer(text) for w in WORD.findall(m.group(1))}
            words = turner(turned, fields, skip | text_names, bound=True)
        else:
            words = turner(turned, fields, skip, known if path.endswith((".edit", ".md")) else ())
        if path.endswith(".antt"):
            new = by_parts(text, COMMENT, words)
        elif path.endswith(".rt"):
            new = by_parts(text, RUST, words)
        elif path.endswith(".edit"):
            new = "\n".join(words(l) if l.startswith(("old:", "new:")) else l for l in text.split("\n"))
        else:
            new = SPAN.sub(lambda s: words(s.group(0)), text)
        if new != text:
            n += 1
            if not check:
                with open(path, "w", encoding="utf-8") as f:
                    f.write(new)
    print(f"respell: {len(turned)} names, {n} files")


if __name__ == "__main__":
    main()
