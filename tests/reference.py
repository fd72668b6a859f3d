#!/usr/bin/env python3
"""Reference player of logs: prints what the program `study` should print.

    reference.py < some.log
    reference.py some.log

It was written from docs/RULES.md alone and shares nothing with the program.
It is meant to be obviously right and not to be fast. A question is answered by
listing walks, reckoning the cost row of each of them as a tuple, and taking the
least by the tie rule, word for word.

Why it is enough to list the walks that use no edge twice: let a walk use an edge
twice. Leave out the part behind the first use up to and with the second. What is
left is still a walk from the same first to the same last edge, for what follows
the second use may as well follow the first, and every charge and length left in
it is one that the longer walk has too. Nothing that is added to a cost is below
zero, so it costs no more, and it has fewer edges. The tie rule therefore never
picks the longer walk. So there are finitely many walks to list, each with at most
as many edges as are drawn.

Listing takes long where many ways lead around. The caller of `play` may give a
number of walks, after which TooManyWalks is raised.
"""

import sys
from collections import namedtuple

MOST_BYTES = 65_000
MOST_ROWS = 1_024
MOST_LEAVING = 16
MOST_JUNCTION = 1_023
MOST_LENGTH = 100_000
MOST_BEARING = 359
MOST_LIMIT = 180

STRAIGHT, BEAR_RIGHT, RIGHT, SHARP_RIGHT, BEAR_LEFT, LEFT, SHARP_LEFT = range(7)

Limits = namedtuple("Limits", "s b h")
Edge = namedtuple("Edge", "start end length leaving arriving")


class Refusal(Exception):
    """A call or a line that is turned down."""

    def __init__(self, number, detail, layer):
        super().__init__(number, detail, layer)
        self.number, self.detail, self.layer = number, detail, layer


class TooManyWalks(Exception):
    """More walks were begun than the caller of `play` allows."""


# ---------------------------------------------------------------- turns

def make_limits(s, b, h):
    """The sector limits, or refusal 1."""
    before = 0
    for place, limit in enumerate((s, b, h), start=1):
        if limit > MOST_LIMIT or limit < before:
            raise Refusal(1, place, "plan")
        before = limit
    return Limits(s, b, h)


def turn_angle(arriving, leaving):
    """The angle of a turn, from -179 to 180."""
    angle = leaving - arriving
    if angle > 180:
        angle -= 360
    if angle < -179:
        angle += 360
    return angle


def turn_class(limits, arriving, leaving):
    """The class of a turn."""
    angle = turn_angle(arriving, leaving)
    to_the_right = angle > 0
    m = abs(angle)
    if m <= limits.s:
        return STRAIGHT
    if m <= limits.b:
        return BEAR_RIGHT if to_the_right else BEAR_LEFT
    if m <= limits.h:
        return RIGHT if to_the_right else LEFT
    return SHARP_RIGHT if to_the_right else SHARP_LEFT


# ---------------------------------------------------------------- the study

class Study:
    """The drawing with its limits, and the closing sheet."""

    def __init__(self, limits):
        self.limits = limits
        self.edges = []
        self.leaving = [[] for _ in range(MOST_JUNCTION + 1)]  # edge numbers by start
        self.sheet = [0] * MOST_ROWS

    def draw(self, start, end, length, leaving, arriving):
        """Draws an edge and answers its number."""
        if len(self.edges) >= MOST_ROWS:
            raise Refusal(2, len(self.edges), "plan")
        if start > MOST_JUNCTION or start == end:
            raise Refusal(3, start, "plan")
        if end > MOST_JUNCTION:
            raise Refusal(3, end, "plan")
        self.check_length(length)
        for bearing in (leaving, arriving):
            if bearing > MOST_BEARING:
                raise Refusal(5, bearing, "plan")
        for other in self.leaving[start]:
            if self.edges[other].end == end:
                raise Refusal(6, other, "plan")
        if len(self.leaving[start]) >= MOST_LEAVING:
            raise Refusal(7, start, "plan")
        number = len(self.edges)
        self.edges.append(Edge(start, end, length, leaving, arriving))
        self.leaving[start].append(number)
        return number

    def measure(self, n, length):
        """Replaces the length of a drawn edge."""
        self.check_length(length)
        self.check_drawn(n, "plan")
        self.edges[n] = self.edges[n]._replace(length=length)

    # Refusal 10 never happens here: each list has 1,024 places, as many as rows.

    def close_or_open(self, n, byte):
        """Shuts an open edge (byte 1) or opens a shut one (byte 0)."""
        self.check_drawn(n, "plan")
        if self.sheet[n] == byte:
            raise Refusal(9, n, "plan")
        self.sheet[n] = byte

    def check_length(self, length):
        if not 1 <= length <= MOST_LENGTH:
            raise Refusal(4, length, "plan")

    def check_drawn(self, n, layer):
        if n >= len(self.edges):
            raise Refusal(8, n, layer)

    def is_shut(self, n):
        return self.sheet[n] != 0

    def steps_out(self, e):
        """The edges f with a step from e to f, shut ones too."""
        return [f for f in self.leaving[self.edges[e].end]
                if self.edges[f].end != self.edges[e].start]

    def class_of(self, e, f):
        return turn_class(self.limits, self.edges[e].arriving, self.edges[f].leaving)

    # ---- turn rules, for a step from e to f

    def slots(self, e, f):
        degree = len(self.leaving[self.edges[e].end])
        if self.class_of(e, f) == STRAIGHT:
            return 1
        if degree in (1, 2):
            return 4
        if degree == 3 and all(self.class_of(e, g) != STRAIGHT for g in self.steps_out(e)):
            return 6
        return 5 + degree

    def ambiguity(self, e, f):
        return sum(1 for g in self.steps_out(e)
                   if g != f and self.class_of(e, g) == self.class_of(e, f))

    def turns(self, e, f):
        return 0 if self.class_of(e, f) == STRAIGHT else 1

    def walks(self, first, last, most_walks):
        """Every walk from first to last that uses no edge twice."""
        begun = 0
        unfinished = [] if self.is_shut(first) else [(first,)]
        while unfinished:
            walk = unfinished.pop()
            begun += 1
            if most_walks is not None and begun > most_walks:
                raise TooManyWalks()
            if walk[-1] == last:
                yield walk  # going on to the last edge again would use it twice
                continue
            for f in self.steps_out(walk[-1]):
                if not self.is_shut(f) and f not in walk:
                    unfinished.append(walk + (f,))

    def question(self, rule, kind, first, last, most_walks=None):
        """Answers the sum of charges, the sum of lengths and the route."""
        self.check_drawn(first, "question")
        self.check_drawn(last, "question")
        charge_by_rule = {b"slots": self.slots, b"ambiguity": self.ambiguity,
                          b"turns": self.turns}[rule]
        known = {}

        def charge(e, f):
            """The charge of a step; kept, since the drawing stands still meanwhile."""
            if (e, f) not in known:
                known[e, f] = charge_by_rule(e, f)
            return known[e, f]

        def charges(walk):
            """0 for the first edge, then the charge of each step."""
            return [0] + [charge(e, f) for e, f in zip(walk, walk[1:])]

        def lengths(walk):
            return [self.edges[e].length for e in walk]

        def by_tie_rule(walk):
            """Least cost, then fewest edges, then from the back the lower numbers."""
            row = cost_row(kind, zip(charges(walk), lengths(walk)))
            return row, len(walk), walk[::-1]

        route = min(self.walks(first, last, most_walks), key=by_tie_rule, default=None)
        if route is None:
            raise Refusal(11, last, "question")
        return sum(charges(route)), sum(lengths(route)), route


# ---------------------------------------------------------------- kinds of cost

def added(kind, charge, length):
    """What one charge and one length add to each place of the row."""
    if kind == b"distance":
        return (length,)
    if kind == b"ranked":
        return (charge, length)
    if kind == b"weighted":
        return (1 * length + 6 * charge,)
    if kind == b"tally":
        return (int(charge >= 8), int(4 <= charge <= 7), int(1 <= charge <= 3), length)
    raise ValueError(kind)


def cost_row(kind, additions):
    """The row after all additions, each of them a charge and a length."""
    amounts = [added(kind, charge, length) for charge, length in additions]
    return tuple(sum(place) for place in zip(*amounts))


# ---------------------------------------------------------------- lines

def is_number(field):
    return (1 <= len(field) <= 6
            and all(byte in b"0123456789" for byte in field)
            and (field == b"0" or field[:1] != b"0"))

def is_rule(field):
    return field in (b"slots", b"ambiguity", b"turns")

def is_kind(field):
    return field in (b"distance", b"ranked", b"weighted", b"tally")

FIELDS_AFTER_WORD = {
    b"sectors": [is_number] * 3,
    b"edge": [is_number] * 5,
    b"close": [is_number],
    b"open": [is_number],
    b"measure": [is_number] * 2,
    b"route": [is_rule, is_kind, is_number, is_number],
}


def lowest_wrong_field(fields, has_limits):
    """The place of the lowest wrong field, or None for a sound line."""
    word = fields[0]
    if word not in FIELDS_AFTER_WORD or (word == b"sectors") == has_limits:
        return 1
    place = 1
    for is_right in FIELDS_AFTER_WORD[word]:
        place += 1
        if place > len(fields) or not is_right(fields[place - 1]):
            return place
    if len(fields) > place:
        return place + 1
    return None


def lines_of(log):
    """The lines of a log without their newlines."""
    lines = log.split(b"\n")
    if lines[-1] == b"":
        lines.pop()
    return lines


class Player:
    """Plays lines one after the other; has no study until limits are accepted."""

    def __init__(self, most_walks=None):
        self.study = None
        self.most_walks = most_walks

    def accepted(self, line):
        """The fields of the reply to a line; raises a refusal of it."""
        fields = line.split(b"\t")
        wrong = lowest_wrong_field(fields, self.study is not None)
        if wrong is not None:
            raise Refusal(12, wrong, "text")
        word = fields[0]
        if word == b"route":
            charge, length, route = self.study.question(
                fields[1], fields[2], int(fields[3]), int(fields[4]), self.most_walks)
            return ["route", charge, length, len(route), *route]
        numbers = [int(field) for field in fields[1:]]
        if word == b"edge":
            return ["edge", self.study.draw(*numbers)]
        if word == b"sectors":
            self.study = Study(make_limits(*numbers))
        elif word == b"close":
            self.study.close_or_open(*numbers, 1)
        elif word == b"open":
            self.study.close_or_open(*numbers, 0)
        elif word == b"measure":
            self.study.measure(*numbers)
        return ["ok"]

    def reply(self, line_number, line):
        """The fields of the reply to a line, accepted or refused."""
        try:
            return self.accepted(line)
        except Refusal as no:
            return ["refused", no.number, no.detail, line_number, no.layer]


def play(log, most_walks=None):
    """All bytes that the program should print for a log."""
    if len(log) > MOST_BYTES:
        replies = [["refused", 13, 0, 0, "text"]]
    else:
        player = Player(most_walks)
        replies = [player.reply(*numbered) for numbered in enumerate(lines_of(log), start=1)]
    printed = ["\t".join(str(field) for field in reply) + "\n" for reply in replies]
    return "".join(printed).encode("ascii")


def main():
    with open(sys.argv[1], "rb") if len(sys.argv) > 1 else sys.stdin.buffer as file:
        sys.stdout.buffer.write(play(file.read()))


if __name__ == "__main__":
    main()
