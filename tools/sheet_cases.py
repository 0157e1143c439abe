#!/usr/bin/env python3
"""Writes the sheets of crates/cases_sheet with what its program must print.

usage: tools/sheet_cases.py        (from the root of the repository)

The expected answers come from a model that shares nothing with the reader: each kind of line is a
regular expression, and the first byte that cannot continue a line is found by partial matching.
Needs the Python module `regex`.
"""
import os
import shutil
import regex

NUMBER = r"(0|[1-9][0-9]{0,3})"
SIGNED = r"(0|-?[1-9][0-9]{0,3})"
MAP = r"(one|block|cyclic(?::(?:0|[1-9][0-9]{0,3}))?)"
FORMS = {
    "grid": rf"grid={NUMBER},{NUMBER}\n",
    "arrays": rf"arrays={NUMBER}\n",
    "array": rf"array={NUMBER},{NUMBER},{MAP},{MAP}\n",
    "sweeps": rf"sweeps={NUMBER}\n",
    "stmts": rf"stmts={NUMBER}\n",
    "stmt": rf"stmt=(all|seq),{NUMBER},{NUMBER},{NUMBER},{NUMBER}\n",
    "put": rf"put={NUMBER},{NUMBER},{SIGNED},{NUMBER},{SIGNED}\n",
    "base": rf"base={NUMBER}\n",
    "reads": rf"reads={NUMBER}\n",
    "read": rf"read={NUMBER},{NUMBER},(i|j),{NUMBER},{SIGNED},(i|j),{NUMBER},{SIGNED}\n",
}


class Fault(Exception):
    pass


class Text:
    def __init__(self, data):
        self.data, self.at, self.line = data.decode("latin-1"), 0, 1

    def read(self, kind):
        """The fields of the line that is due, each with its byte."""
        rest, form = self.data[self.at:], regex.compile(FORMS[kind])
        end = rest.find("\n") + 1 or len(rest)
        whole = form.fullmatch(rest[:end])
        if whole is None:
            good = max(k for k in range(end + 1) if k == 0 or form.fullmatch(rest[:k], partial=True))
            raise Fault(1, self.line, good + 1)
        self.fields = [(whole.group(g), whole.start(g) + 1) for g in range(1, form.groups + 1)]
        self.now, self.at, self.line = self.line, self.at + end, self.line + 1
        return self

    def fail(self, number, k):
        raise Fault(number, self.now, self.fields[k][1])

    def number(self, k, low, high):
        n = int(self.fields[k][0])
        if not low <= n <= high:
            self.fail(2, k)
        return n

    def map(self, k):
        word = self.fields[k][0]
        if ":" in word and not 1 <= int(word.split(":")[1]) <= 32:
            self.fail(2, k)
        return word


def element(t, arrays, spans, number, array, row, column):
    """Refusals 4 and 6: row and column are (field, values that the variable takes, factor, offset)."""
    if number > len(arrays):
        t.fail(4, array)
    for size, (k, values, factor, offset) in zip(arrays[number - 1], (row, column)):
        if any(not 1 <= factor * v + offset <= size for v in values):
            t.fail(6, k)


def model(data):
    t, said = Text(data), []
    t.read("grid")
    q, s = t.number(0, 1, 8), t.number(1, 1, 8)
    if q * s > 8:
        t.fail(3, 0)
    said.append(f"grid={q},{s}")
    count, arrays = t.read("arrays").number(0, 1, 4), []
    for _ in range(count):
        t.read("array")
        arrays.append((t.number(0, 1, 32), t.number(1, 1, 32)))
        said.append("array=%d,%d,%s,%s" % (*arrays[-1], t.map(2), t.map(3)))
    said.append("sweeps=%d" % t.read("sweeps").number(0, 0, 1000))
    for _ in range(t.read("stmts").number(0, 1, 8)):
        t.read("stmt")
        ends = [t.number(k, 1, 32) for k in (1, 2, 3, 4)]
        for low, high, k in ((0, 1, 1), (2, 3, 3)):
            if ends[low] > ends[high]:
                t.fail(5, k)
        spans = {"i": range(ends[0], ends[1] + 1), "j": range(ends[2], ends[3] + 1)}
        said.append("stmt=%s,%d,%d,%d,%d" % (t.fields[0][0], *ends))
        t.read("put")
        n, a, c, b, d = (t.number(k, low, high) for k, low, high in ((0, 1, 4), (1, 1, 4), (2, -64, 64), (3, 1, 4), (4, -64, 64)))
        element(t, arrays, spans, n, 0, (1, spans["i"], a, c), (3, spans["j"], b, d))
        said.append(f"put={n},{a},{c},{b},{d}")
        said.append("base=%d" % t.read("base").number(0, 0, 7))
        for _ in range(t.read("reads").number(0, 0, 4)):
            t.read("read")
            ranges = ((0, 0, 7), (1, 1, 4), (3, 0, 4), (4, -64, 64), (6, 0, 4), (7, -64, 64))
            k, n, a, c, b, d = (t.number(f, low, high) for f, low, high in ranges)
            v, w = t.fields[2][0], t.fields[5][0]
            element(t, arrays, spans, n, 1, (3, spans[v], a, c), (6, spans[w], b, d))
            said.append(f"read={k},{n},{v},{a},{c},{w},{b},{d}")
    if t.at < len(t.data):
        raise Fault(1, t.line, 1)
    return " ".join(said)


SAMPLE = b"""grid=2,1
arrays=1
array=6,1,block,one
sweeps=1
stmts=1
stmt=all,2,6,1,1
put=1,1,0,1,0
base=0
reads=1
read=1,1,i,1,-1,j,1,0
"""
WIDE = b"""grid=2,2
arrays=2
array=8,8,block,cyclic
array=32,32,cyclic:3,one
sweeps=10
stmts=2
stmt=seq,1,8,1,8
put=1,1,0,1,0
base=7
reads=2
read=3,2,j,4,0,i,0,5
read=1,1,j,1,0,i,1,0
stmt=all,1,10,1,10
put=2,3,2,3,-2
base=0
reads=0
"""


def with_line(sheet, number, text):
    lines = sheet.split(b"\n")
    lines[number - 1] = text
    return b"\n".join(lines)


def without_line(sheet, number):
    lines = sheet.split(b"\n")
    del lines[number - 1]
    return b"\n".join(lines)


def cases():
    yield "sample", SAMPLE
    yield "wide", WIDE
    yield "empty", b""
    changes = {
        1: [b"grid=4,2", b"grid=4,3", b"grid=8,1", b"grid=1,8", b"grid=8,8", b"grid=0,1", b"grid=1,0", b"grid=9,1", b"grid=1,9",
            b"grid=3,3", b"grid=2", b"grid=2,", b"grid=2,1,", b"grid=02,1", b"grid=-2,1", b"grid=2 ,1", b"Grid=2,1", b"grid 2,1",
            b"grid=2,1\r", b"grid=2,1 ", b" grid=2,1", b"grid=12345,1", b"grid=9999,1", b"", b"\x00", b"grid=\xff,1", b"grids=2,1"],
        2: [b"arrays=0", b"arrays=5", b"arrays=4", b"arrays=1,", b"arrays=", b"arrays=00", b"array=6,1,block,one", b"arrays=10000"],
        3: [b"array=1,1,one,one", b"array=32,1,block,one", b"array=33,1,block,one", b"array=0,1,block,one", b"array=6,33,block,one",
            b"array=6,1,blocc,one", b"array=6,1,blocks,one", b"array=6,1,cyclic,cyclic", b"array=6,1,cyclic:2,cyclic:32",
            b"array=6,1,cyclic:,one", b"array=6,1,cyclic:05,one", b"array=6,1,cyclic:33,one", b"array=6,1,cyclic:0,one",
            b"array=6,1,block,cyclic:33", b"array=6,1,cyclic:10000,one", b"array=6,1,one,", b"array=6,1,one", b"array=6,1,o,one",
            b"array=6,1,star,one", b"array=6,1,block,one,", b"array=6,1,block,one2", b"array=33,33,cyclic:99,cyclic:99"],
        4: [b"sweeps=0", b"sweeps=1000", b"sweeps=1001", b"sweeps=9999", b"sweeps=10000", b"sweeps=01", b"sweeps=-1", b"sweeps=",
            b"sweeps=1 ", b"sweeps=1\r", b"sweep=1", b"sweeps=1\x00", b"sweeps=\x801", b"sweepss=1", b"sweeps:1"],
        5: [b"stmts=0", b"stmts=9", b"stmts=2", b"stmts=8", b"stmt=1", b"stmts=1,1"],
        6: [b"stmt=all,1,6,1,1", b"stmt=all,6,2,1,1", b"stmt=all,2,6,2,1", b"stmt=all,6,2,3,1", b"stmt=all,0,6,1,1", b"stmt=all,2,33,1,1",
            b"stmt=all,2,6,1,33", b"stmt=seq,2,6,1,1", b"stmt=sea,2,6,1,1", b"stmt=al,2,6,1,1", b"stmt=alle,2,6,1,1", b"stmt=ALL,2,6,1,1",
            b"stmt=,2,6,1,1", b"stmt=all,2,6,1", b"stmt=all,2,6,1,1,1", b"stmt=all,2,7,1,1", b"stmt=all,6,6,1,1", b"stmt=all,33,1,0,0",
            b"stmt=all,2,6,1,2", b"stmts=all,2,6,1,1"],
        7: [b"put=1,1,-0,1,0", b"put=1,-1,0,1,0", b"put=1,1,-10000,1,0", b"put=1,1,-9999,1,0", b"put=1,1,-64,1,0", b"put=1,1,-65,1,0",
            b"put=1,1,64,1,0", b"put=1,1,65,1,0", b"put=0,1,0,1,0", b"put=5,1,0,1,0", b"put=2,1,0,1,0", b"put=4,1,0,1,0", b"put=1,0,0,1,0",
            b"put=1,5,0,1,0", b"put=1,2,-3,1,0", b"put=1,1,-1,1,0", b"put=1,1,-2,1,0", b"put=1,1,1,1,0", b"put=1,1,0,2,-1", b"put=1,1,0,1,1",
            b"put=1,1,0,1,-1", b"put=1,1,0,4,-3", b"put=1,1,0,5,0", b"put=1,1,-,1,0", b"put=1,1,--1,1,0", b"put=1,1,+1,1,0", b"put=3,9,99,9,99",
            b"put=1,1,0,1", b"put=1,1,0,1,0,"],
        8: [b"base=7", b"base=8", b"base=", b"base=00", b"base=-1", b"bass=0", b"base=1234", b"base=12345"],
        9: [b"reads=0", b"reads=2", b"reads=4", b"reads=5", b"reads=", b"read=1,1,i,1,-1,j,1,0", b"reads=1\t"],
        10: [b"read=7,1,i,1,-1,j,1,0", b"read=8,1,i,1,-1,j,1,0", b"read=1,2,i,1,-1,j,1,0", b"read=1,5,i,1,-1,j,1,0", b"read=1,0,i,1,-1,j,1,0",
             b"read=1,1,k,1,-1,j,1,0", b"read=1,1,i,0,1,j,0,1", b"read=1,1,i,0,0,j,1,0", b"read=1,1,i,0,6,j,1,0", b"read=1,1,i,0,7,j,1,0",
             b"read=1,1,i,5,-1,j,1,0", b"read=1,1,i,1,-2,j,1,0", b"read=1,1,i,1,1,j,1,0", b"read=1,1,j,4,2,i,0,1", b"read=1,1,i,1,-1,i,1,0",
             b"read=1,1,i,1,-1,j,1,65", b"read=1,1,i,1,-1,j,1,-65", b"read=1,1,i,1,-1,j,4,-3", b"read=1,1,i,1,-1,j,1", b"read=1,1,i,1,-1,j,1,0,",
             b"read=1,1,ij,1,-1,j,1,0", b"read=1,1,i,1,-1,J,1,0", b"read=9,9,i,9,99,j,9,99", b"read=1,1,i,1,-64,j,1,0", b"reads=1"],
    }
    for number, texts in changes.items():
        for k, text in enumerate(texts, 1):
            yield f"line{number:02}-{k:02}", with_line(SAMPLE, number, text)
    for number in range(1, 11):
        yield f"without{number:02}", without_line(SAMPLE, number)
    for number in (3, 4, 11, 12, 16):
        yield f"wide-without{number:02}", without_line(WIDE, number)
    for cut in (1, 5, 8, 9, 10, 37, 60, 90, len(SAMPLE) - 2, len(SAMPLE) - 1):
        yield f"cut{cut:03}", SAMPLE[:cut]
    for k, tail in enumerate((b"\n", b"x", b"grid=2,1\n", b"\x00", b" \n"), 1):
        yield f"tail{k}", SAMPLE + tail
    yield "crlf", SAMPLE.replace(b"\n", b"\r\n")
    yield "large", b"grid=1,1\narrays=4\n" + b"array=32,32,cyclic:32,cyclic:32\n" * 4 + b"sweeps=1000\nstmts=8\n" + (
        b"stmt=all,10,32,10,32\nput=4,1,0,1,0\nbase=7\nreads=4\n" + b"read=7,4,i,1,-9,j,1,-9\n" * 4) * 8


def main():
    crate = os.path.join(os.path.dirname(os.path.abspath(__file__)), "..", "crates", "cases_sheet")
    data = os.path.join(crate, "data")
    shutil.rmtree(data, ignore_errors=True)
    os.makedirs(data)
    names, answers = [], []
    for name, sheet in cases():
        with open(os.path.join(data, name), "wb") as f:
            f.write(sheet)
        try:
            answer = model(sheet)
        except Fault as fault:
            answer = "fault=%d,%d,%d" % fault.args
        names.append(name)
        answers.append(f"{name}: {answer}")
    with open(os.path.join(crate, "args"), "w") as f:
        f.write("".join(name + "\n" for name in names))
    with open(os.path.join(crate, "stdout"), "w") as f:
        f.write("".join(line + "\n" for line in answers))
    print(f"{len(names)} sheets")


if __name__ == "__main__":
    main()
