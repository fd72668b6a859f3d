#!/usr/bin/env python3
"""Plays random logs against a program and compares it with the reference.

    play_random.py [--seed N] [--count N] [--only N] [--save FILE] [program ...]

The program is crates/study/out/study unless another is named, with its arguments; it
gets each log on standard input, one start for each log. What it prints must be,
byte for byte, what tests/reference.py prints. A program that is ended by a signal
or needs more than a minute for a log counts as a difference too; its exit status
is told at the end but not compared.

Three sorts of logs are mixed, at fixed places of the row so that a short run has
all of them:

  sound    small halls with ties on purpose: equal lengths, symmetric bearings
  full     16 leaving edges, all 1,024 rows, repeated edges, every refusal
  hostile  random bytes, huge numbers, odd tabs, long lines, about 65,000 bytes

The reference lists walks and would take long on some halls. A log for which it
begins more than MOST_WALKS walks is thrown away and another drawn in its place.

Log number n of a seed is always the same; --only plays that one and saves it.
Exit status: 0 without differences, 1 with some, 2 if the program cannot be run.
"""

import argparse
import collections
import os
import random
import subprocess
import sys
import time

sys.path.insert(0, os.path.dirname(os.path.abspath(__file__)))
import reference  # noqa: E402

MOST_WALKS = 6_000
MOST_SECONDS = 60
RULES = ("slots", "ambiguity", "turns")
KINDS = ("distance", "ranked", "weighted", "tally")
# Numbers at the borders, and such as become small ones when cut to 8 or 16 bits.
BORDERS = (0, 1, 2, 15, 16, 17, 90, 179, 180, 181, 255, 256, 257, 359, 360, 361, 1022, 1023,
           1024, 1025, 32767, 32768, 65000, 65535, 65536, 65537, 99999, 100000, 100001,
           131072, 165536, 262144, 524288, 999998, 999999)
NO_NUMBERS = ("", "00", "007", "01", "+1", "-1", "-0", " 1", "1 ", "1\r", "0x1", "1e3", "1.0",
              "1,000", "1000000", "0000001", "4294967295", "4294967296", "4294967297",
              "18446744073709551616", "9" * 40, "1" + "0" * 300, "\u0661", "\x00", "1\x00", "a",
              "65535a", "\u00b2", "route", "_1", "1_0", "/", ":", "9:", "8/")
SEVEN_DIGITS = ("1000000", "1000001", "9999999", "0000000", "0000001", "0000020")
NO_WORDS = ("", "Close", "CLOSE", "close ", " close", "close\r", "closed", "clos", "edge\x00",
            "edg", "edges", "Edge", "sector", "sectorss", "Sectors", "opens", "ope", "measur",
            "measured", "rout", "routes", "ROUTE", "ok", "refused", "slots", "#", "quit",
            "slot", "ambiguit", "turn", "charge", "rank", "weighte", "tally\r", "tallyy")


def line(*fields):
    return "\t".join(str(field) for field in fields)


def as_log(lines, newline_at_end=True):
    log = "\n".join(lines) + ("\n" if newline_at_end and lines else "")
    return log.encode("utf-8")


# ---------------------------------------------------------------- halls
# A hall is a list of edges (start, end, length, leaving, arriving). Where a way leads
# through it, the way in is its first edge and the way out its last.

def limits_for(rng):
    usual = [(20, 60, 120), (12, 12, 180), (12, 60, 120), (0, 0, 0), (0, 0, 180), (45, 45, 45),
             (44, 89, 179), (45, 90, 135), (180, 180, 180), (0, 90, 180), (89, 90, 180)]
    if rng.random() < 0.75:
        return rng.choice(usual)
    return tuple(sorted(rng.randint(0, 180) for _ in range(3)))


def odd_limits(rng):
    """Limits near what is just lawful, and near the largest ones."""
    limits = [rng.choice((0, 1, 20, 179, 180, 181, rng.choice(BORDERS)))]
    while len(limits) < 3:
        limits.append(max(0, limits[-1] + rng.choice((-1, 0, 0, 1, 20, 256))))
    if rng.random() < 0.3:
        limits[rng.randrange(3)] = rng.choice(BORDERS)
    return limits


def lengths_for(rng):
    """A way of choosing lengths, mostly such that walks tie."""
    few = rng.choice([(100,), (1,), (100_000,), (100,), (50, 100), (1, 2), (100, 106, 118),
                      (100, 100, 100, 150, 200), tuple(range(64, 140, 6)),
                      tuple(range(1, 100_001, 9_999))])
    return lambda: rng.choice(few)


def bearings_for(rng):
    few = rng.choice([(0, 90, 180, 270), (0, 180), (45, 90, 135), (0, 45, 90, 135, 180, 225,
                      270, 315), (0, 1, 179, 180, 181, 359), (0, 20, 21, 340, 339), None])
    return (lambda: rng.randint(0, 359)) if few is None else (lambda: rng.choice(few))


def tangle(rng):
    """Random edges between few junctions."""
    junctions = rng.randint(3, 7)
    pairs = [(a, b) for a in range(junctions) for b in range(junctions) if a != b]
    pairs = rng.sample(pairs, min(len(pairs), rng.randint(3, 20)))
    length, bearing = lengths_for(rng), bearings_for(rng)
    bent = rng.random() < 0.5
    hall = []
    for start, end in pairs:
        leaving = bearing()
        hall.append((start, end, length(), leaving, bearing() if bent else leaving))
    return hall


def one_way_grid(rng):
    """Streets that lead east and north, so that many walks are equally long."""
    wide, high = rng.randint(2, 7), rng.randint(2, 5)
    length = lengths_for(rng)
    at = lambda x, y: 2 + y * wide + x  # noqa: E731
    hall = [(0, at(0, 0), length(), 90, 90)]
    for y in range(high):
        for x in range(wide):
            if x + 1 < wide:
                hall.append((at(x, y), at(x + 1, y), length(), 90, 90))
            if y + 1 < high:
                hall.append((at(x, y), at(x, y + 1), length(), 0, 0))
    hall.append((at(wide - 1, high - 1), 1, length(), 90, 90))
    return hall


def two_way_grid(rng):
    """Few crossings with every street both ways: no going straight back."""
    wide, high = rng.choice([(2, 2), (3, 2), (4, 2), (2, 4), (3, 3), (3, 3)])
    length = lengths_for(rng)
    at = lambda x, y: y * wide + x  # noqa: E731
    hall = []
    for y in range(high):
        for x in range(wide):
            for end, there, back, lies_in in ((at(x + 1, y), 90, 270, x + 1 < wide),
                                              (at(x, y + 1), 0, 180, y + 1 < high)):
                if lies_in and rng.random() < 0.92:
                    one, other = length(), length()
                    hall.append((at(x, y), end, one, there, there))
                    hall.append((end, at(x, y), one if rng.random() < 0.7 else other, back, back))
    return hall


def diamonds(rng):
    """Places where the walk parts to the left and to the right and meets again."""
    length = lengths_for(rng)
    lean, count = rng.choice((30, 45, 60, 90)), rng.randint(1, 6)
    branches, direct = rng.choice((2, 2, 3)), rng.random() < 0.3
    hall, here, fresh = [(0, 1, length(), 90, 90)], 1, 2
    for _ in range(count):
        meet, fresh = fresh, fresh + 1
        for side in (-lean, lean, 0)[:branches]:
            middle, fresh = fresh, fresh + 1
            one = length()
            hall.append((here, middle, one, (90 + side) % 360, (90 + side) % 360))
            hall.append((middle, meet, one, (90 - side) % 360, (90 - side) % 360))
        if direct:  # as long as the two edges of a branch together
            hall.append((here, meet, min(2 * one, 100_000), 90, 90))
        here = meet
    hall.append((here, fresh, length(), 90, 90))
    return hall


def layers(rng):
    """Rows of junctions, each joined to all of the next row: very many equal walks."""
    length, bearing = lengths_for(rng), bearings_for(rng)
    by_side = rng.random() < 0.6
    hall, row, fresh = [(0, 1, length(), 90, 90)], [1], 2
    for _ in range(rng.randint(1, 5)):
        wide = rng.choice((2, 2, 3, 4))
        following = list(range(fresh, fresh + wide))
        fresh += wide
        for place, start in enumerate(row):
            for other, end in enumerate(following):
                there = (90 + 30 * (other - place)) % 360 if by_side else bearing()
                hall.append((start, end, length(), there, there if by_side else bearing()))
        row = following
    hall += [(start, fresh, length(), 90, 90) for start in row]
    hall.append((fresh, fresh + 1, length(), 90, 90))
    return hall


def skips(rng):
    """A straight corridor with longer edges over several junctions, as long in all."""
    count, unit = rng.randint(4, 12), rng.choice((1, 10, 100, 6))
    hall = [(n, n + 1, unit, 90, 90) for n in range(count)]
    for _ in range(rng.randint(1, 14)):
        start = rng.randint(1, count - 2)
        end = rng.randint(start + 1, count - 1)
        if all((start, end) != edge[:2] for edge in hall):
            side = rng.choice((0, 0, 10, 30, 90))
            length = unit * (end - start) + rng.choice((0, 0, 0, 6, 18, -1, 1))
            hall.insert(1, (start, end, length, 90 + side, 90 - side))
    return hall


def hub(rng):
    """Junctions with up to 16 leaving edges behind each other."""
    length, bearing = lengths_for(rng), bearings_for(rng)
    hall, here, fresh = [(0, 1, length(), 90, 90)], 1, 2
    for _ in range(rng.randint(1, 2)):
        meet, fresh = fresh, fresh + 1
        for _ in range(rng.choice((3, 4, 5, 15, 16, 16))):
            middle, fresh = fresh, fresh + 1
            hall.append((here, middle, length(), bearing(), bearing()))
            hall.append((middle, meet, length(), bearing(), bearing()))
        here = meet
    if rng.random() < 0.5:
        hall.append((1, 0, length(), bearing(), bearing()))  # counts for the degree, is no step
    hall.append((here, fresh, length(), 90, 90))
    return hall


def ring(rng):
    count = rng.randint(3, 40)
    length, bearing = lengths_for(rng), bearings_for(rng)
    hall = [(n, (n + 1) % count, length(), bearing(), bearing()) for n in range(count)]
    if rng.random() < 0.5:
        hall += [(end, start, length(), arriving, leaving)
                 for start, end, _, leaving, arriving in hall]
    return hall


HALLS = (tangle, tangle, one_way_grid, two_way_grid, diamonds, layers, skips, skips, hub, ring)


def any_hall(rng, halls=HALLS):
    """A hall in random order of edges, at random junctions; and its way in and way out."""
    hall = rng.choice(halls)(rng)
    order = list(range(len(hall)))
    if rng.random() < 0.7:
        rng.shuffle(order)
    ways = order.index(0), order.index(len(hall) - 1)
    hall = [hall[place] for place in order]
    if rng.random() < 0.5:
        place = rng.sample(range(1024), 1 + max(max(edge[:2]) for edge in hall))
        place[rng.randrange(len(place))] = 1023 if 1023 not in place else place[0]
        if len(set(place)) == len(place):
            hall = [(place[edge[0]], place[edge[1]]) + edge[2:] for edge in hall]
    return hall, ways


# ---------------------------------------------------------------- lines after the hall

def two_edges(rng, drawn, ways):
    """A first and a last edge: the ways in and out, or nearly, or any two."""
    first, last = rng.randrange(drawn), rng.randrange(drawn)
    chance = rng.random()
    if chance < 0.5:
        return ways
    if chance < 0.6:
        return ways[0], last
    if chance < 0.7:
        return first, ways[1]
    return (first, last) if chance < 0.97 else (first, first)


def question(rng, drawn, ways):
    return line("route", rng.choice(RULES), rng.choice(KINDS), *two_edges(rng, drawn, ways))


def all_questions(rng, drawn, ways):
    """The same two edges under every rule and kind."""
    first, last = two_edges(rng, drawn, ways)
    return [line("route", rule, kind, first, last) for rule in RULES for kind in KINDS]


def close_or_open(rng, drawn, shut):
    """Mostly what can be done, at times refusal 9."""
    n = rng.choice(sorted(shut) if shut and rng.random() < 0.4 else range(drawn))
    if rng.random() < 0.1:
        return line("open" if n not in shut else "close", n)
    if n in shut:
        shut.remove(n)
        return line("open", n)
    shut.add(n)
    return line("close", n)


def edgy(rng, usual):
    """Mostly a usual number, at times one at a border."""
    return rng.choice(BORDERS) if rng.random() < 0.35 else usual


def troubled(rng, hall):
    """A line that is likely refused, by any number but 10, 13 and 14."""
    drawn = len(hall)
    start, end, length, leaving, arriving = rng.choice(hall)
    sort = rng.randrange(9)
    if sort == 0:
        return line("sectors", edgy(rng, 20), edgy(rng, 60), edgy(rng, 120))
    if sort == 1:
        return line("edge", edgy(rng, start), edgy(rng, end), edgy(rng, length),
                    edgy(rng, leaving), edgy(rng, arriving))
    if sort == 2:
        return line("edge", start, rng.choice((start, end, 1024, edgy(rng, end))),
                    rng.choice((0, 1, 100_000, 100_001)), rng.choice((0, 359, 360)),
                    rng.choice((0, 359, 360)))
    if sort == 3:
        return line("edge", start, end, 1, 0, 0)
    if sort == 4:
        return line(rng.choice(("close", "open")), rng.choice((drawn - 1, drawn, edgy(rng, 0))))
    if sort == 5:
        return line("measure", rng.choice((drawn - 1, drawn, edgy(rng, 0))),
                    rng.choice((0, 1, 100_000, 100_001, edgy(rng, 100))))
    if sort == 6:
        return line("route", rng.choice(RULES), rng.choice(KINDS),
                    rng.choice((0, drawn - 1, drawn, edgy(rng, 0))),
                    rng.choice((0, drawn - 1, drawn, edgy(rng, 0))))
    if sort == 7:
        return line("edge", start, rng.randrange(1024), length, leaving, arriving)
    return unsound(rng)


def unsound(rng):
    """A line with something wrong in some of its fields."""
    fields = rng.choice([["sectors", 20, 60, 120], ["edge", 0, 1, 100, 90, 90], ["close", 0],
                         ["open", 0], ["measure", 0, 100],
                         ["route", rng.choice(RULES), rng.choice(KINDS), 0, 1]])[:]
    for _ in range(rng.choice((1, 1, 1, 2, 3))):
        place = rng.randrange(len(fields)) if fields else 0
        what = rng.randrange(7)
        if what == 0:
            fields.append(rng.choice(("", 0, "x", "\r")))
        elif what == 1:
            fields = fields[:place + rng.randint(0, 1)]
        elif what == 2:
            fields.insert(place, rng.choice(("", 0, "slots", "ranked")))
        elif fields:
            fields[place] = rng.choice(rng.choice((NO_NUMBERS, NO_NUMBERS, SEVEN_DIGITS, NO_WORDS,
                                                   RULES, KINDS)))
    return line(*fields)


# ---------------------------------------------------------------- the three sorts of logs

def sound_lines(rng):
    hall, ways = any_hall(rng)
    lines = [line("sectors", *limits_for(rng))]
    shut = set()
    asks_early = rng.random() < 0.2
    for drawn, edge in enumerate(hall, start=1):
        lines.append(line("edge", *edge))
        if asks_early and rng.random() < 0.2:
            lines.append(question(rng, drawn, ways))
    length = lengths_for(rng)
    for _ in range(rng.randint(3, 18)):
        chance = rng.random()
        if chance < 0.58:
            lines.append(question(rng, len(hall), ways))
        elif chance < 0.68:
            lines += all_questions(rng, len(hall), ways)
        elif chance < 0.83:
            lines.append(close_or_open(rng, len(hall), shut))
        elif chance < 0.95:
            among = sorted(shut) if shut and rng.random() < 0.3 else range(len(hall))
            lines.append(line("measure", rng.choice(among), length()))
        else:
            lines.append(troubled(rng, hall))
    return lines


def sound_log(rng):
    return as_log(sound_lines(rng), rng.random() < 0.9)


def full_log(rng):
    """Limits reached, with much that is refused in between."""
    lines = []
    for _ in range(rng.choice((0, 1, 2, 4))):  # before any limits are accepted
        lines.append(rng.choice((line("sectors", *odd_limits(rng)), "edge\t0\t1\t100\t90\t90",
                                 line("sectors", *odd_limits(rng)), unsound(rng))))
    lines.append(line("sectors", *limits_for(rng)))
    hall, ways = any_hall(rng, HALLS if rng.random() < 0.5 else (hub,))
    shut = set()
    for edge in hall:
        lines.append(line("edge", *edge))
        if rng.random() < 0.1:
            lines.append(line("edge", *edge))
    if rng.random() < 0.5:  # fill a junction of the hall to the brim and beyond
        start = rng.choice(hall)[0]
        for end in rng.sample(range(1024), rng.randint(14, 20)):
            lines.append(line("edge", start, end, 100, rng.choice((0, 90, 180)), 0))
    for _ in range(rng.randint(5, 30)):
        chance = rng.random()
        if chance < 0.6:
            lines.append(troubled(rng, hall))
        elif chance < 0.8:
            lines.append(close_or_open(rng, len(hall), shut))
        else:
            lines.append(question(rng, len(hall), ways))
    return as_log(lines, rng.random() < 0.8)


def brimful_log(rng):
    """All 1,024 rows in use: one long ring, or 16 edges from each of 64 junctions."""
    lines = [line("sectors", *limits_for(rng))]
    length, bearing = lengths_for(rng), bearings_for(rng)
    shut = []
    what = rng.randrange(3)
    if what == 0:
        place = list(range(1024))
        if rng.random() < 0.5:
            rng.shuffle(place)
        hall = [(place[n], place[(n + 1) % 1024], length(), bearing(), bearing())
                for n in range(1024)]
        if rng.random() < 0.5:
            rng.shuffle(hall)
        asked = [(0, 1023), (1023, 0), (rng.randrange(1024), rng.randrange(1024))]
    elif what == 1:  # edges to later junctions only: few ways are left near the end
        hall = [(n, n + step, length(), bearing(), bearing())
                for n in range(64) for step in range(1, 17)]
        asked = [(1023 - rng.randrange(150), 1023 - rng.randrange(32)) for _ in range(6)]
    else:  # edges between any junctions, all shut but those between a few of them
        pairs = [(start, end) for start in range(64)
                 for end in rng.sample([end for end in range(64) if end != start], 16)]
        rng.shuffle(pairs)
        hall = [(start, end, length(), bearing(), bearing()) for start, end in pairs]
        few = rng.randint(5, 9)
        shut = [n for n, pair in enumerate(pairs) if max(pair) >= few]
        ways = [n for n, pair in enumerate(pairs) if max(pair) < few] or [0]
        asked = [(rng.choice(ways), rng.choice(ways)) for _ in range(12)]
    missing = rng.choice((0, 0, 1, 2))  # so many rows stay free for now
    lines += [line("edge", *edge) for edge in hall[:1024 - missing]]
    lines += [line("close", n) for n in shut]
    beyond = [line("edge", 1000, 5, 1, 0, 0), line("edge", 1024, 1024, 0, 360, 360),
              line("edge", 1001, 5, 100_000, 359, 359), line("edge", *hall[0]), "edge\t0\t1"]
    for _ in range(6):
        lines.append(rng.choice(beyond))
        lines.append(troubled(rng, hall))
    for first, last in asked:
        lines.append(line("route", rng.choice(RULES), rng.choice(KINDS), first, last))
    lines += [line("close", 1023), line("close", 1024), line("open", 1023),
              line("measure", 1023, 99_999), line("measure", 1024, 100_000),
              line("route", "turns", "tally", 1024, 1023), line("route", "turns", "tally", 0, 1024)]
    return as_log(lines)


def random_bytes(rng):
    return rng.randbytes(rng.choice((0, 1, 2, 10, 100, rng.randint(0, 2_000))))


def token_soup(rng):
    """Words, numbers, tabs and newlines in no order at all."""
    tokens = [word.encode() for word in ("sectors", "edge", "close", "open", "measure", "route",
              "0", "1", "20", "60", "120", *RULES, *KINDS)]
    tokens += [b"\t"] * 12 + [b"\n"] * 5
    tokens += [b"\r\n", b"\r", b" ", b"\x00", b"\xff", b"\t\t", b"\n\n", b"\x0b", b"\x0c",
               b"\xe2\x80\xa8", b"\xc2\x85"]
    soup = b"".join(rng.choice(tokens) for _ in range(rng.randint(1, 200)))
    return (b"sectors\t20\t60\t120\n" if rng.random() < 0.5 else b"") + soup


def spoiled(rng):
    """A sound log with a few bytes changed, or all its lines ended in another way."""
    log = bytearray(sound_log(rng))
    if rng.random() < 0.15:
        log = bytearray(log.replace(b"\n", rng.choice((b"\r\n", b"\r", b"\t\n", b"\n\n", b" \n",
                                                       b"\n\t", b"\x00\n"))))
    if rng.random() < 0.08:
        log = bytearray(log.replace(b"\t", rng.choice((b" ", b"\t\t", b" \t", b",", b"\t "))))
    head = log.find(b"\n") + 1 if rng.random() < 0.8 else 0  # mostly keep the limits
    for _ in range(rng.randint(0, 6)):
        at = rng.randint(head, len(log))
        what = rng.randrange(5)
        odd = rng.choice((b"\t", b"\n", b"\r", b"\r\n", b" ", b"0", b"9", b"00000", b"\x00",
                          b"\x7f", b"\x80", b"\xff", b"-", bytes([rng.randrange(256)])))
        if what == 0:
            log[at:at] = odd
        elif what == 1:
            log[at:at + len(odd)] = odd
        elif what == 2:
            del log[at:at + rng.randint(1, 4)]
        elif what == 3:
            log[at:at] = rng.choice(NO_NUMBERS).encode()
        else:
            end = min(len(log), at + rng.randint(1, 40))
            log[at:at] = log[at:end]
    return bytes(log)


def unsound_lines(rng):
    lines = [line("sectors", 20, 60, 120)] if rng.random() < 0.7 else []
    lines += ["edge\t0\t1\t100\t90\t90", "edge\t1\t2\t100\t90\t90"]
    lines += [unsound(rng) for _ in range(rng.randint(1, 30))]
    return as_log(lines, rng.random() < 0.5)


def long_line(rng, size):
    """One line of a size, sound at most at its beginning."""
    head = rng.choice((b"", b"close\t", b"close\t1", b"edge\t0\t1\t100\t90\t90\t", b"sectors\t20\t",
                       b"sectors\t20\t60\t120\t", b"route\tslots\t", b"measure\t0\t100"))
    body = rng.choice((b"0", b"1", b"9", b"\t", b"\t0", b"a", b" ", b"\r", b"\x00", b"\xff",
                       b"close\t0"))
    return (head + body * (size // len(body) + 1))[:size]


def long_lines(rng):
    parts = [sound_log(rng)] if rng.random() < 0.6 else []
    parts += [long_line(rng, rng.choice((200, 255, 256, 257, 1023, 1024, 1025, 4095, 4096, 4097,
                                         rng.randint(1, 9_000)))) + b"\n"
              for _ in range(rng.randint(1, 4))]
    rng.shuffle(parts)
    log = b"".join(parts)
    return log[:-1] if rng.random() < 0.3 else log


def great_log(rng):
    """About 65,000 bytes, or far more; cut or filled up to the byte."""
    size = rng.choice((64_998, 64_999, 65_000, 65_000, 65_000, 65_001, 65_001, 65_001, 65_002,
                       65_535, 65_536, 65_537, 66_000, 131_072 + rng.randint(0, 50), 300_000))
    log = sound_log(rng)
    if not log.endswith(b"\n"):
        log += b"\n"
    room = size - len(log)
    what = rng.randrange(5)
    if what == 0:
        filling = b"\n" * room
    elif what == 1:
        filling = b"close\t0\nopen\t0\n" * (room // 14 + 1)
    elif what == 2:
        filling = long_line(rng, room)
    elif what == 3:
        filling = b"x\n" * (room // 2 + 1)
    else:
        filling = b"\n".join(unsound(rng).encode() for _ in range(200)) + b"\n"
        filling *= room // len(filling) + 1
    log += filling[:room]
    if rng.random() < 0.5:
        log = log[:-1] + rng.choice((b"\n", b"0", b"\t"))
    return log


HOSTILE = (random_bytes, token_soup, spoiled, spoiled, spoiled, spoiled, unsound_lines,
           unsound_lines, long_lines)


def hostile_log(rng):
    return rng.choice(HOSTILE)(rng)


def sort_of_log(n):
    """The sort of log number n: the rare ones are spread evenly, from the first on."""
    if n % 200 in (3, 97):
        return "full", brimful_log
    if n % 200 in (5, 99, 150):
        return "hostile", great_log
    return (("sound", sound_log), ("full", full_log), ("sound", sound_log),
            ("hostile", hostile_log), ("sound", sound_log), ("sound", sound_log),
            ("full", full_log), ("sound", sound_log), ("hostile", hostile_log),
            ("hostile", hostile_log))[n % 10]


def log_and_replies(seed, n):
    """Log number n of a seed, what is due for it, its sort, and the logs thrown away."""
    rng = random.Random(f"{seed}/{n}")
    sort, make = sort_of_log(n)
    thrown_away = 0
    while True:
        log = make(rng)
        try:
            return log, reference.play(log, MOST_WALKS), sort, thrown_away
        except reference.TooManyWalks:
            thrown_away += 1


# ---------------------------------------------------------------- playing

def run_program(program, log):
    """What the program prints, and its exit status, or a word for what went wrong."""
    try:
        done = subprocess.run(program, input=log, stdout=subprocess.PIPE,
                              stderr=subprocess.DEVNULL, timeout=MOST_SECONDS, check=False)
    except subprocess.TimeoutExpired:
        return b"", "too slow"
    if done.returncode < 0:
        return done.stdout, f"ended by signal {-done.returncode}"
    return done.stdout, done.returncode


def shorten(data):
    return repr(data if len(data) <= 200 else data[:200] + b"...")


def tell_difference(n, sort, log, due, printed, status):
    due_lines, printed_lines = due.split(b"\n"), printed.split(b"\n")
    place = 0
    while (place < min(len(due_lines), len(printed_lines))
           and due_lines[place] == printed_lines[place]):
        place += 1
    log_lines = log.split(b"\n")
    at = lambda lines: shorten(lines[place]) if place < len(lines) else "nothing"  # noqa: E731
    print(f"log {n} ({sort}, {len(log)} bytes) differs, status {status}, at line {place + 1}:")
    print(f"  log      {at(log_lines)}")
    print(f"  due      {at(due_lines)}")
    print(f"  printed  {at(printed_lines)}")


def count_replies(due, replies):
    for reply in due.split(b"\n")[:-1]:
        fields = reply.split(b"\t")
        name = fields[0].decode()
        replies[(name, int(fields[1])) if name == "refused" else (name, 0)] += 1


def main():
    parser = argparse.ArgumentParser(description="Plays random logs against a program.")
    parser.add_argument("--seed", type=int, default=1)
    parser.add_argument("--count", type=int, default=10_000)
    parser.add_argument("--only", type=int, help="play this log number alone and save it")
    parser.add_argument("--save", default="differing.log", help="file for the first differing log")
    parser.add_argument("program", nargs="*", default=["crates/study/out/study"],
                        help="the program and its arguments, crates/study/out/study unless given")
    options = parser.parse_args()
    program = options.program

    began = time.monotonic()
    differences = thrown_away = 0
    sorts, replies, statuses = (collections.Counter() for _ in range(3))
    chosen = range(options.count) if options.only is None else [options.only]
    for n in chosen:
        log, due, sort, thrown = log_and_replies(options.seed, n)
        thrown_away += thrown
        sorts[sort] += 1
        count_replies(due, replies)
        try:
            printed, status = run_program(program, log)
        except OSError as error:
            print(f"cannot run {program[0]}: {error}")
            return 2
        statuses[status] += 1
        differs = printed != due or isinstance(status, str)
        if differs:
            differences += 1
            if differences <= 5:
                tell_difference(n, sort, log, due, printed, status)
        if options.only is not None or (differs and differences == 1):
            with open(options.save, "wb") as file:
                file.write(log)
            print(f"  log {n} is saved in {options.save}")

    told = ", ".join(f"{name} {count}" for name, count in sorted(sorts.items()))
    print(f"{len(chosen)} logs ({told}), {differences} differences, seed {options.seed}, "
          f"{time.monotonic() - began:.0f} seconds, {thrown_away} logs thrown away")
    told = ", ".join(f"{name} {number or ''}".strip() + f": {count}"
                     for (name, number), count in sorted(replies.items()))
    print(f"replies due: {told}")
    told = ", ".join(f"{status}: {count}" for status, count in statuses.items())
    print(f"exit statuses of the program: {told}")
    return 1 if differences else 0


if __name__ == "__main__":
    sys.exit(main())
