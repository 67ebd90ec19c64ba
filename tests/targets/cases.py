#!/usr/bin/env python3
"""cases.py CASES NAMES [--most SIZE]: writes the vectors of tests/vectors and the sample drawings as digest.c reads them, and
their names, a line each. With --most, only those of up to SIZE bytes. Run it in the repository."""
import glob
import re
import struct
import sys


def vectors(path):
    """Of each case of a file of vectors: name, words of a place or None, bytes."""
    name, place, data = None, None, bytearray()
    for line in open(path, encoding="utf-8"):
        word, _, rest = line.rstrip("\n").partition(" ")
        if word == "case":
            if name is not None:
                yield name, place, bytes(data)
            name, place, data = rest, None, bytearray()
        elif word == "from":
            place = words_of(rest)
        elif word == "hex":
            piece, _, times = rest.partition("*")
            data += bytes.fromhex(piece) * int(times or 1)
    yield name, place, bytes(data)


def words_of(text):
    """The place of `4 cell - layer 64 run 72+2 library fresh ended`."""
    at, cell, layer, run, marks = re.fullmatch(r"(\S+) cell (\S+) layer (\S+) run (\S+)(.*)", text).groups()
    first, _, count = run.partition("+")
    bits = {"library": 1, "fresh": 2, "ended": 4}
    numbers = [0 if n in ("-", "") else int(n) for n in (at, cell, layer, first, count)]
    return numbers + [sum(bits[mark] for mark in marks.split())]


def drawings(folder):
    for path in sorted(glob.glob(folder + "/*.cgx")):
        with open(path, "rb") as drawing:
            yield path, None, drawing.read()


def main():
    cases, names = sys.argv[1:3]
    most = int(sys.argv[4]) if sys.argv[3:4] == ["--most"] else 2**31
    with open(cases, "wb") as stream, open(names, "w", encoding="utf-8") as listed:
        for source in (*map(vectors, sorted(glob.glob("tests/vectors/*.txt"))), drawings("examples/drawings")):
            for name, place, data in source:
                if len(data) <= most:
                    stream.write(struct.pack("<6QII", *(place or [0] * 6), place is not None, len(data)) + data)
                    listed.write(name + "\n")
        listed.write("calls\nreals\n")


main()
