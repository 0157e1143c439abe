#!/usr/bin/env python3
"""Writes the sheets of crates/cases_run with what its program must print: every element after a sequential run.

usage: tools/run_cases.py        (from the root of the repository)

The model keeps each array as a table of rows, evaluates every right side of an `all` statement before it stores one,
and does integer arithmetic modulo 2^32 and float arithmetic in IEEE doubles.
"""
import os
import shutil
import struct

from map_cases import owners

INTEGERS = [0, 1, -1, 65537, 2**31 - 1, -2**31, 7, 1000003]
FLOATS = [0.0, 1.0, -1.0, 0.1, 1e308, float("inf"), float("nan"), -0.0]


def wrap(n):
    return (n + 2**31) % 2**32 - 2**31


def fields(line):
    return line.split("=")[1].split(",")


def parse(text):
    lines = iter(text.split("\n"))
    next(lines)
    arrays = []
    for _ in range(int(fields(next(lines))[0])):
        f = fields(next(lines))
        arrays.append((int(f[0]), int(f[1])))
    sweeps, statements = int(fields(next(lines))[0]), []
    for _ in range(int(fields(next(lines))[0])):
        head, put, base = fields(next(lines)), fields(next(lines)), int(fields(next(lines))[0])
        reads = [fields(next(lines)) for _ in range(int(fields(next(lines))[0]))]
        statements.append((head, put, base, reads))
    return arrays, sweeps, statements


def run(text, start, coefficients, add, multiply, zero):
    arrays, sweeps, statements = parse(text)
    total = sum(r * c for r, c in arrays)
    numbers = iter(start(total))
    tables = [[[next(numbers) for _ in range(c)] for _ in range(r)] for r, c in arrays]
    held = [[[zero] * c for _ in range(r)] for r, c in arrays]
    for _ in range(sweeps):
        for head, put, base, reads in statements:
            stored = []
            for i in range(int(head[1]), int(head[2]) + 1):
                for j in range(int(head[3]), int(head[4]) + 1):
                    at, value = {"i": i, "j": j}, coefficients[base]
                    for k, t, v, a, c, w, b, d in reads:
                        element = tables[int(t) - 1][int(a) * at[v] + int(c) - 1][int(b) * at[w] + int(d) - 1]
                        value = add(value, multiply(coefficients[int(k)], element))
                    target = (int(put[0]) - 1, int(put[1]) * i + int(put[2]) - 1, int(put[3]) * j + int(put[4]) - 1)
                    if head[0] == "seq":
                        tables[target[0]][target[1]][target[2]] = value
                    stored.append((target, value))
            for (t, x, y), value in stored:
                tables[t][x][y] = held[t][x][y] = value
    return [v for t in tables for r in t for v in r], [v for t in held for r in t for v in r]


def integer_start(total):
    values, n = [], 1
    for _ in range(total):
        values.append(n)
        n = wrap(wrap(n * 48271) + 11)
    return values


def float_start(total):
    return [FLOATS[(k % 11) % 8] for k in range(total)]


def bits(x):
    return "nan" if x != x else "%x" % struct.unpack("<Q", struct.pack("<d", x))[0]


def sections(text, values):
    """The elements board by board, array by array, each board's rows and columns in order."""
    lines = text.split("\n")
    q, s = map(int, fields(lines[0]))
    arrays, start = [], 0
    for line in lines[2:2 + int(fields(lines[1])[0])]:
        r, c, by_rows, by_columns = fields(line)
        arrays.append((start, int(c), owners(by_rows, q, int(r)), owners(by_columns, s, int(c))))
        start += int(r) * int(c)
    return [values[start + x * c + y] for p in range(q * s) for start, c, rows, columns in arrays
            for x in range(len(rows)) if rows[x] == p % q for y in range(c) if columns[y] == p // q]


def answer(name, text):
    whole, held = run(text, integer_start, INTEGERS, lambda a, b: wrap(a + b), lambda a, b: wrap(a * b), 0)
    floats, kept = run(text, float_start, FLOATS, lambda a, b: a + b, lambda a, b: a * b, 0.0)
    untouched = integer_start(len(whole))
    return [name, "  integers refused=false", "  arrays " + " ".join(map(str, whole)), "  held " + " ".join(map(str, held)),
            "  floats refused=false", "  arrays " + " ".join(map(bits, floats)), "  held " + " ".join(map(bits, kept)),
            "  refused true true true", "  untouched " + " ".join(map(str, untouched)),
            "  gathered back=true refusals 7 8", "  sections " + " ".join(map(str, sections(text, untouched)))]


def sheet(arrays, sweeps, statements, grid="2,1", maps=("block,one",)):
    words = [maps[k % len(maps)] for k in range(len(arrays))]
    lines = ["grid=" + grid, "arrays=%d" % len(arrays)] + ["array=%s,%s" % pair for pair in zip(arrays, words)] + ["sweeps=%d" % sweeps, "stmts=%d" % len(statements)]
    for head, put, base, reads in statements:
        lines += ["stmt=" + head, "put=" + put, "base=%d" % base, "reads=%d" % len(reads)] + ["read=" + r for r in reads]
    return "\n".join(lines) + "\n"


def cases():
    shift = "1,1,i,1,-1,j,1,0"
    yield "shift-all", sheet(["6,1"], 1, [("all,2,6,1,1", "1,1,0,1,0", 0, [shift])])
    yield "shift-seq", sheet(["6,1"], 1, [("seq,2,6,1,1", "1,1,0,1,0", 0, [shift])])
    yield "no-sweeps", sheet(["3,3"], 0, [("all,1,3,1,3", "1,1,0,1,0", 4, [])])
    yield "thousand", sheet(["4,1"], 1000, [("seq,1,3,1,1", "1,1,1,1,0", 1, ["3,1,i,1,0,j,1,0", "6,1,i,0,1,j,1,0"])])
    yield "transpose", sheet(["4,4", "4,4"], 2, [("all,1,4,1,4", "2,1,0,1,0", 0, ["1,1,j,1,0,i,1,0"]), ("all,1,4,1,4", "1,1,0,1,0", 2, ["2,2,j,1,0,i,1,0"])])
    yield "transpose-self", sheet(["4,4"], 3, [("all,1,4,1,4", "1,1,0,1,0", 1, ["1,1,j,1,0,i,1,0"]), ("seq,1,4,1,4", "1,1,0,1,0", 0, ["3,1,j,1,0,i,1,0"])])
    yield "stride", sheet(["9,4", "5,2"], 2, [("all,1,4,1,2", "1,2,1,2,0", 6, ["7,2,i,1,1,j,1,0"]), ("seq,1,5,1,2", "2,1,0,1,0", 2, ["4,1,i,2,-1,j,2,-1", "5,1,i,0,9,j,0,4"])])
    yield "corners", sheet(["3,3"], 1, [("all,1,3,1,3", "1,1,0,1,0", k, ["%d,1,i,1,0,j,1,0" % k]) for k in range(8)])
    yield "four-reads", sheet(["5,5"], 4, [("all,2,4,2,4", "1,1,0,1,0", 0, ["1,1,i,1,-1,j,1,0", "2,1,i,1,1,j,1,0", "3,1,i,1,0,j,1,-1", "6,1,i,1,0,j,1,1"])])
    yield "gauss-seidel", sheet(["5,5"], 4, [("seq,2,4,2,4", "1,1,0,1,0", 0, ["1,1,i,1,-1,j,1,0", "2,1,i,1,1,j,1,0", "3,1,i,1,0,j,1,-1", "6,1,i,1,0,j,1,1"])])
    yield "four-arrays", sheet(["2,2", "1,3", "3,1", "2,1"], 5, [("seq,1,1,1,3", "2,1,0,1,0", 7, ["1,1,i,1,1,j,0,2", "2,3,j,1,0,i,1,0"]), ("all,1,2,1,1", "4,1,0,1,0", 1, ["4,2,j,1,0,i,1,1"])])
    yield "offsets", sheet(["8,8"], 2, [("all,1,2,1,2", "1,4,-3,3,2", 5, ["3,1,i,4,-2,j,3,-2"]), ("seq,7,8,1,1", "1,1,0,4,-3", 2, ["1,1,i,1,-6,j,2,6"])])


def dealt_cases():
    still = [("all,1,1,1,1", "1,1,0,1,0", 1, [])]
    yield "deal-blocks", sheet(["7,5", "4,9"], 1, still, "2,3", ("block,block",))
    yield "deal-cyclic", sheet(["7,5", "4,9", "1,1"], 1, still, "4,2", ("cyclic,cyclic:2", "cyclic:3,block"))
    yield "deal-one", sheet(["3,8", "8,3"], 1, still, "1,8", ("one,cyclic", "block,one"))
    yield "deal-large", sheet(["32,2", "2,32"], 1, still, "8,1", ("cyclic:5,cyclic:32",))


def main():
    crate = os.path.join(os.path.dirname(os.path.abspath(__file__)), "..", "crates", "cases_run")
    data = os.path.join(crate, "data")
    shutil.rmtree(data, ignore_errors=True)
    os.makedirs(data)
    names, lines = [], []
    for name, text in [*cases(), *dealt_cases()]:
        with open(os.path.join(data, name), "w") as f:
            f.write(text)
        names.append(name)
        lines += answer(name, text)
    with open(os.path.join(crate, "args"), "w") as f:
        f.write("".join(n + "\n" for n in names))
    with open(os.path.join(crate, "stdout"), "w") as f:
        f.write("".join(line + "\n" for line in lines))


if __name__ == "__main__":
    main()
