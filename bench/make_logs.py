#!/usr/bin/env python3
"""Writes the logs of the measurement: make_logs.py FOLDER

Two halls of 1,024 edges, each with 800 questions over all rules and kinds:

grid-N.log   a grid of 17 by 16 junctions with its corridors in both directions, and one diagonal
dense-N.log  64 junctions round a court, each with 16 leaving edges

A log has at most 65,000 bytes. Where the questions do not fit into one log they go on in the next, which draws the hall again.
The logs are the same at every run.
"""
import os
import sys

MOST_BYTES = 65_000
EDGES = 1_024
QUESTIONS = 800
RULES = ("slots", "ambiguity", "turns")
KINDS = ("distance", "ranked", "weighted", "tally")


def line(*fields):
    return "\t".join(str(field) for field in fields) + "\n"


def corridor(start, end, length, leaving, arriving):
    """Both directions of a corridor."""
    return [
        line("edge", start, end, length, leaving % 360, arriving % 360),
        line("edge", end, start, length, (arriving + 180) % 360, (leaving + 180) % 360),
    ]


def grid():
    """A hall in which most junctions have four ways out, all a little bent."""
    columns, rows = 17, 16
    lines = [line("sectors", 20, 60, 120)]
    for row in range(rows):
        for column in range(columns):
            here = row * columns + column
            length = 80 + 20 * ((3 * row + 5 * column) % 4)
            bend = (7 * row + 11 * column) % 31 - 15
            if column + 1 < columns:
                lines += corridor(here, here + 1, length, 90 + bend, 90 - bend)
            if row + 1 < rows:
                lines += corridor(here, here + columns, length, 180 + bend, 180)
    lines += corridor(0, columns + 1, 150, 135, 135)
    return lines


def dense():
    """A hall in which every junction has the most ways out."""
    junctions = 64
    reaches = (1, 2, 3, 5, 8, 13, 21, 30)
    lines = [line("sectors", 12, 60, 120)]
    for here in range(junctions):
        for reach in reaches:
            for side, quarter in ((reach, 90), (-reach, 270)):
                bearing = (45 * (2 * here + side) // 16 + quarter) % 360
                lines.append(line("edge", here, (here + side) % junctions, 60 + 20 * reach, bearing, bearing))
    return lines


def blocks():
    """The questions, in blocks of all rules and kinds for one pair of edges. During a block one edge is shut; before it one is measured."""
    seed = 1
    asked = 0
    while asked < QUESTIONS:
        edges = []
        while len(edges) < 4:
            seed = (seed * 1_103_515_245 + 12_345) % 2**31
            edge = (seed >> 8) % EDGES
            if edge not in edges:
                edges.append(edge)
        first, last, shut, measured = edges
        pairs = [(rule, kind) for rule in RULES for kind in KINDS][: QUESTIONS - asked]
        asked += len(pairs)
        yield (
            [line("measure", measured, 100 + 10 * (asked % 7)), line("close", shut)]
            + [line("route", rule, kind, first, last) for rule, kind in pairs]
            + [line("open", shut)]
        )


def write(folder, name, hall):
    assert sum(text.startswith("edge\t") for text in hall) == EDGES
    start = "".join(hall)
    logs = [start]
    for block in blocks():
        text = "".join(block)
        if len(logs[-1]) + len(text) > MOST_BYTES:
            logs.append(start)
        logs[-1] += text
    for number, log in enumerate(logs, 1):
        with open(os.path.join(folder, f"{name}-{number}.log"), "w", encoding="ascii", newline="") as file:
            file.write(log)


def main():
    if len(sys.argv) != 2:
        sys.exit("usage: make_logs.py FOLDER")
    write(sys.argv[1], "grid", grid())
    write(sys.argv[1], "dense", dense())


if __name__ == "__main__":
    main()
