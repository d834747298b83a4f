"""Cases for the range program: writes NAME.ohg and NAME.txt, a slice of drawings and what must be printed for it, into a folder.

    python3 tests/range.py FOLDER

The single answers are those of tests/bill.py, taken from the text of each bill; the report over them is written down once more from T-13.
"""
import random
import sys

from bill import CATALOGUE, amount
from bill import cases as bills
from report import write_cases


def prefixed(form):
    return len(form).to_bytes(4, "little") + form


def single(expected):
    """The counts with the buffers behind them, of a bill's text; or the number of a refusal."""
    if isinstance(expected, int):
        return expected
    return [int(line.rsplit(" ", 2)[1]) for line in expected.splitlines()[:13]]


def report(answers):
    """The text of these answers: lists of counts, and numbers of refusals."""
    prices = [price for _, _, _, price in CATALOGUE] + [260]
    names = [name for name, _, _, _ in CATALOGUE] + ["loop buffer"]
    lists = [(i, a) for i, a in enumerate(answers) if not isinstance(a, int)]
    totals = [(sum(n * p for n, p in zip(a, prices)), -i) for i, a in lists]
    lines = [f"drawings {len(answers)} priced {len(lists)}"]
    lines += [f"refused by {n}: {answers.count(n)}" for n in range(1, 18) if n in answers]
    for k, name in enumerate(names):
        count = sum(a[k] for _, a in lists)
        lines.append(f"{name} {count} {amount(count * prices[k])}")
    whole = sum(total for total, _ in totals)
    lines.append(f"sum {amount(whole)}")
    if totals:
        lines.append(f"dearest {-max(totals)[1]}")
    mean, rest = divmod(whole, len(totals)) if totals else (0, 0)
    lines.append(f"mean {amount(mean)} remainder {rest}")
    return "".join(line + "\n" for line in lines)


def cases():
    """Each case: a name, the bytes, and the text or the refusal's number."""
    rng = random.Random(13)
    known = [(form, single(expected)) for _, form, expected in bills() if len(form) < 2000]
    refused = {a: (form, a) for form, a in known if isinstance(a, int)}
    priced = [(form, a) for form, a in known if not isinstance(a, int)]

    def case(name, drawings):
        return name, b"".join(prefixed(form) for form, _ in drawings), report([a for _, a in drawings])

    yield case("nothing", [])
    yield case("one", priced[:1])
    yield case("one-refused", [refused[1]])
    yield case("every-refusal", [refused[n] for n in sorted(refused)])
    yield case("a-tie-behind-a-refused-one", [refused[14], priced[0], priced[2], priced[0], priced[2]])
    yield case("all", known)
    for k in range(30):
        yield case(f"drawn-{k}", [rng.choice(known) for _ in range(rng.randint(1, 60))])
    yield case("a-thousand", [rng.choice(known) for _ in range(1000)])
    yield case("a-thousand-empty", [refused[1]] * 1000)
    large = [(form, single(expected)) for name, form, expected in bills() if name in ("dearest-of-loops", "version-2-ring", "version-2-loops")]
    yield case("the-largest", [*large, refused[5], *large[:2]])

    path = prefixed(priced[0][0])
    yield "one-too-many", bytes(4004), 17
    yield "a-thousand-and-a-byte", bytes(4001), 17
    yield "length-cut-short", path + path[:3], 17
    yield "a-byte-past-the-input", path + path[:-1], 17
    yield "far-past-the-input", path + b"\xff" * 4, 17
    yield "as-long-as-can-be", prefixed(bytes(2**22 - 4)), report([2])


if __name__ == "__main__":
    write_cases(sys.argv[1], cases())
