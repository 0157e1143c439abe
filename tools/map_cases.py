#!/usr/bin/env python3
"""Writes what crates/cases_maps must print: sums of all answers of all maps, by counting alone.

usage: tools/map_cases.py        (from the root of the repository)
"""
import os

MASK = 0xFFFFFFFF


def owners(word, boards, length):
    """Deals the positions of a dimension out by hand, one after the other."""
    if word == "one":
        return [0] * length
    if word == "block":
        width = next(b for b in range(1, 33) if b * boards >= length)
    else:
        width = int(word.split(":")[1]) if ":" in word else 1
    row, board, left = [], 0, 0
    for _ in range(length):
        if left == width:
            board, left = (board + 1) % boards, 0
        row.append(board)
        left += 1
    return row


def mixed(total, a, b):
    return (total * 31 + a * 7 + b) & MASK


def sums(word, boards):
    places = positions = counts = refused = 0
    width = int(word.split(":")[1]) if ":" in word else 1
    for length in range(34):
        if not (1 <= boards <= 8 and 1 <= length <= 32 and 1 <= width <= 32):
            refused += 1
            continue
        row = owners(word, boards, length)
        for x in range(34):
            if 1 <= x <= length:
                places = mixed(places, row[x - 1], row[:x - 1].count(row[x - 1]))
            else:
                refused += 1
        for board in range(9):
            mine = [x + 1 for x, owner in enumerate(row) if owner == board]
            for rank in range(33):
                if board >= boards:
                    refused += 1
                elif rank < len(mine):
                    positions = mixed(positions, mine[rank], 1)
                else:
                    positions = mixed(positions, 0, 2)
            for bound in range(35):
                if board >= boards or not 1 <= bound <= length + 1:
                    refused += 1
                else:
                    counts = mixed(counts, sum(1 for x in mine if x < bound), 0)
    return places, positions, counts, refused


def main():
    crate = os.path.join(os.path.dirname(os.path.abspath(__file__)), "..", "crates", "cases_maps")
    makes = ["one", "block", "cyclic"] + ["cyclic:%d" % k for k in (0, 1, 2, 3, 5, 32, 33)]
    with open(os.path.join(crate, "stdout"), "w") as f:
        for word in makes:
            for boards in range(10):
                f.write("%s %d: %d %d %d %d\n" % (word, boards, *sums(word, boards)))


if __name__ == "__main__":
    main()
