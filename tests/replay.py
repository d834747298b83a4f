"""Damaged copies of the recorded list, and what the replaying program must say of them: writes NAME.list and NAME.txt into a folder.

    python3 tests/replay.py LIST FOLDER

A program that found every call right would pass the recorded list, so it is also given lists in which each call has one recorded byte wrong.
tests/differential/README.md says how the list is laid out.
"""
import struct
import sys


def records(data):
    """Of each record: the places of its answer bytes, of the number due, and its end."""
    at = 8
    while at < len(data):
        at += 1
        at += 1 + 4 * data[at]
        answers = []
        for kept in (None, answers):
            count, at = data[at], at + 1
            for _ in range(count):
                (length,) = struct.unpack_from("<I", data, at)
                if kept is not None:
                    kept.extend(range(at + 4, at + 4 + length))
                at += 4 + length
        due, at = at + 4, at + 12
        yield answers, due, at


def told(calls, wrong):
    """What is printed: the first ten calls that differ, and the counts."""
    lines = [f"call {i + 1} differs\n" for i in wrong[:10]]
    return "".join(lines) + f"{calls} calls replayed, {len(wrong)} differ\n"


def changed(data, places):
    """The list with one bit of each of these bytes turned round."""
    copy = bytearray(data)
    for place in places:
        copy[place] ^= 1
    return bytes(copy)


def cases(data):
    """The cases: name, list, and which calls of how many differ."""
    found = list(records(data))
    every = list(range(len(found)))
    answered = [i for i in every if found[i][0]]
    yield "as-recorded", data, len(found), []
    yield "every-number", changed(data, [due for _, due, _ in found]), len(found), every
    yield "every-place", changed(data, [due + 4 for _, due, _ in found]), len(found), every
    yield "every-high-byte", changed(data, [due + 7 for _, due, _ in found]), len(found), every
    yield "every-first-byte", changed(data, [found[i][0][0] for i in answered]), len(found), answered
    yield "every-last-byte", changed(data, [found[i][0][-1] for i in answered]), len(found), answered
    yield "one-number", changed(data, [found[1000][1]]), len(found), [1000]
    yield "cut-short", data[:-1], len(found), every[-1:]
    yield "no-mark", changed(data, [0]), 1, [0]
    yield "no-list", b"", 1, [0]


def main(recorded, folder):
    with open(recorded, "rb") as file:
        data = file.read()
    for name, damaged, calls, wrong in cases(data):
        with open(f"{folder}/{name}.list", "wb") as file:
            file.write(damaged)
        with open(f"{folder}/{name}.txt", "w") as file:
            file.write(told(calls, wrong))


if __name__ == "__main__":
    main(*sys.argv[1:])
