#!/usr/bin/env python3
"""Writes what crates/cases_post must print for the cases of its stdin.

usage: tools/post_cases.py        (from the root of the repository)

The model keeps one Python list for each pair of boards, and does integer arithmetic modulo 2^32 and float arithmetic in
IEEE doubles.
"""
import math
import os
from decimal import Decimal


class NotACase(Exception):
    pass


def natural(word):
    if not word.isdigit() or int(word) >= 2**64:
        raise NotACase
    return int(word)


def integer(word):
    n = int(word)
    if not -2**31 <= n < 2**31:
        raise NotACase
    return n


def wrap(n):
    return (n + 2**31) % 2**32 - 2**31


def float_text(x):
    if math.isnan(x):
        return "NaN"
    if math.isinf(x):
        return "inf" if x > 0 else "-inf"
    if x == 0:
        return "-0" if math.copysign(1, x) < 0 else "0"
    text = format(Decimal(repr(x)), "f")
    return text[:-2] if text.endswith(".0") else text


# how a letter is read and written, and its sum and product
KINDS = {
    "i32": (integer, str, lambda a, b: wrap(a + b), lambda a, b: wrap(a * b)),
    "f64": (float, float_text, lambda a, b: a + b, lambda a, b: a * b),
}


class Model:
    def __init__(self, boards, letters):
        self.boards = min(max(boards, 1), 8)
        self.depth = min(letters // self.boards**2, 4096)
        self.rows = {}

    def row(self, sender, receiver):
        if sender >= self.boards or receiver >= self.boards:
            return None
        return self.rows.setdefault((sender, receiver), [])

    def put(self, sender, receiver, letter):
        row = self.row(sender, receiver)
        if row is None:
            return "refused-14"
        if len(row) == self.depth:
            return "full"
        row.append(letter)
        return "joined"

    def take(self, sender, receiver):
        """The oldest letter, or the word that says why there is none."""
        row = self.row(sender, receiver)
        if row is None:
            return None, "refused-14"
        return (row.pop(0), None) if row else (None, "none")

    def waiting(self):
        def count(sender, receiver):
            row = self.row(sender, receiver)
            return "14" if row is None else str(len(row))
        around = range(self.boards + 1)
        return "".join(" |" + "".join(" " + count(s, r) for r in around) for s in around)


def call_case(words):
    read, show, _, _ = KINDS[words[0]]
    post, said, at, calls = Model(natural(words[1]), natural(words[2])), [], 3, 0
    while at < len(words):
        pair = natural(words[at + 1]), natural(words[at + 2])
        if words[at] == "p":
            said.append(post.put(*pair, read(words[at + 3])))
            at += 4
        elif words[at] == "t":
            letter, why = post.take(*pair)
            said.append(why or show(letter))
            at += 3
        else:
            raise NotACase
        calls += 1
    if calls >= 48:
        raise NotACase
    tail = "".join(" " + word for word in said) + "; waiting" + post.waiting()
    return ["  %s boards %d depth %d:%s" % (make, post.boards, post.depth, tail) for make in ("lanes", "belt")]


def term_case(words):
    read, show, add, multiply = KINDS[words[1]]
    post = Model(1, natural(words[2]))
    element, coefficient, value = (read(word) for word in words[3:6])
    post.put(0, 0, element)
    letter, why = post.take(0, 0)
    answer = why or show(add(value, multiply(coefficient, letter)))
    return ["  lanes %s, belt %s" % (answer, answer)]


def answer(line):
    words = line.split()
    if not words or words[0] == "#":
        return []
    try:
        if words[0] == "term":
            return term_case(words)
        return call_case(words)
    except (NotACase, ValueError, IndexError, KeyError):
        return ["  not a case"]


def main():
    crate = os.path.join(os.path.dirname(os.path.abspath(__file__)), "..", "crates", "cases_post")
    with open(os.path.join(crate, "stdin")) as f:
        lines = f.read().splitlines()
    with open(os.path.join(crate, "stdout"), "w") as f:
        for line in lines:
            f.write("".join(text + "\n" for text in [line, *answer(line)]))


if __name__ == "__main__":
    main()
