#!/usr/bin/env python3
"""Certificates by a second and independent reading of docs/CERTIFICATE.md: making, judging and running them.

Usage: certificates.py make STRIP CERTIFICATE     writes the certificate of a strip
       certificates.py trials FOLDER              prints what the program trials should, for its data folder
       certificates.py plans STRIP..              prints what the program vectors should, for these strips
       certificates.py drive STRIP CERTIFICATE    prints what the program drive should, for the events on standard input
"""
import os
import sys

from strips import Fault, read

NO_MOVE = 65535


def two(value):
    return value.to_bytes(2, "big")


class Plant:
    """An arena: sizes, owners, marks and moves."""

    def __init__(self, bs):
        self.n, self.k, rows = read(bs)
        self.owner = [row[0] for row in rows]
        self.marks = [set(row[1]) for row in rows]
        self.moves = [row[2] for row in rows]


def reach(plant, side, targets, inside):
    """The rounds in which a side reaches the targets inside a set of positions."""
    rounds = {p: 0 for p in targets}
    number = 0
    while True:
        number += 1
        new = []
        for p in inside:
            if p in rounds:
                continue
            ways = [q for q in plant.moves[p] if q in inside]
            if plant.owner[p] == side:
                if any(q in rounds for q in ways):
                    new.append(p)
            elif all(q in rounds for q in ways):
                new.append(p)
        if not new:
            return rounds
        for p in new:
            rounds[p] = number


def make(plant):
    """The certificate: stages given to the traffic until the controller reaches every goal from all that is left."""
    left = set(range(plant.n))
    given = {}
    stage = 0
    while True:
        for g in range(plant.k):
            got = reach(plant, 0, [p for p in left if g in plant.marks[p]], left)
            core = left - set(got)
            if core:
                break
        else:
            break
        stage += 1
        for p, approach in reach(plant, 1, core, left).items():
            given[p] = (g, stage, approach)
        left = {p for p in left if p not in given}
    ranks = [reach(plant, 0, [p for p in left if g in plant.marks[p]], left) for g in range(plant.k)]

    def good(p, q):
        if q not in given:
            return False
        (g, s, a), (h, t, b) = given[p], given[q]
        return t < s or (t == s and h == g and (b < a or a == b == 0))

    out = b"\x43\x48" + two(plant.n) + two(plant.k)
    for p in range(plant.n):
        if p in given:
            g, s, a = given[p]
            move = min(q for q in plant.moves[p] if good(p, q)) if plant.owner[p] == 1 else NO_MOVE
            out += b"\x43\x50\x01" + bytes([g]) + two(s) + two(a) + two(move) + bytes(4 * plant.k)
        else:
            out += b"\x43\x50" + bytes(8)
            for g in range(plant.k):
                rank = ranks[g]
                near = [q for q in plant.moves[p] if q in left and (rank[p] == 0 or rank[q] < rank[p])]
                out += two(rank[p]) + two(near[0] if plant.owner[p] == 0 else NO_MOVE)
    return out + b"\x43\x45" + two(plant.n)


class Table:
    """The fields of bytes read as a certificate; past the end they are zero."""

    def __init__(self, plant, bs):
        self.k, self.bs = plant.k, bs

    def byte(self, i):
        return self.bs[i] if i < len(self.bs) else 0

    def number(self, i):
        return 256 * self.byte(i) + self.byte(i + 1)

    def start(self, p):
        return 6 + p * (10 + 4 * self.k)

    def mark(self, i):
        return (self.byte(i), self.byte(i + 1))

    def side(self, p):
        return self.byte(self.start(p) + 2)

    def goal(self, p):
        return self.byte(self.start(p) + 3)

    def stage(self, p):
        return self.number(self.start(p) + 4)

    def approach(self, p):
        return self.number(self.start(p) + 6)

    def move(self, p):
        return self.number(self.start(p) + 8)

    def rank(self, g, p):
        return self.number(self.start(p) + 10 + 4 * g)

    def goal_move(self, g, p):
        return self.number(self.start(p) + 12 + 4 * g)


def length(plant):
    return plant.n * (10 + 4 * plant.k) + 10


def sized(plant, bs):
    if not 1 <= plant.n <= 4096:
        raise Fault(1)
    if not 1 <= plant.k <= 8:
        raise Fault(2)
    if len(bs) != length(plant):
        raise Fault(3)


def check(plant, bs):
    """The number of records with side 0."""
    sized(plant, bs)
    t, n, goals = Table(plant, bs), plant.n, range(plant.k)

    def require(clause, position, ok):
        if not ok:
            raise Fault(14, clause, position)

    def nearer(g, p, q):
        return t.side(q) == 0 and (t.rank(g, p) == 0 or t.rank(g, q) < t.rank(g, p))

    def good(p, q):
        if t.side(q) != 1:
            return False
        if t.stage(q) < t.stage(p):
            return True
        same = t.stage(q) == t.stage(p) and t.goal(q) == t.goal(p)
        return same and (t.approach(q) < t.approach(p) or t.approach(p) == t.approach(q) == 0)

    end = t.start(n)
    require(1, 0, t.mark(0) == (0x43, 0x48) and t.number(2) == n and t.number(4) == plant.k)
    require(2, 0, t.mark(end) == (0x43, 0x45) and t.number(end + 2) == n)
    for p in range(n):
        side, owner, moves = t.side(p), plant.owner[p], plant.moves[p]
        shape = t.mark(t.start(p)) == (0x43, 0x50) and side in (0, 1)
        if side == 0:
            shape = shape and t.goal(p) == t.stage(p) == t.approach(p) == t.move(p) == 0
        else:
            zero = all(t.rank(g, p) == t.goal_move(g, p) == 0 for g in goals)
            shape = shape and t.stage(p) >= 1 and t.goal(p) < plant.k and zero
        require(3, p, shape)
        if side == 0:
            require(4, p, all(t.rank(g, p) < n and (t.rank(g, p) == 0) == (g in plant.marks[p]) for g in goals))
            if owner == 0:
                require(5, p, all(t.goal_move(g, p) in moves and nearer(g, p, t.goal_move(g, p)) for g in goals))
            else:
                require(6, p, all(t.goal_move(g, p) == NO_MOVE and all(nearer(g, p, q) for q in moves) for g in goals))
        else:
            if t.approach(p) == 0:
                require(7, p, t.goal(p) not in plant.marks[p])
            if owner == 1:
                require(8, p, t.move(p) in moves and good(p, t.move(p)))
            else:
                require(9, p, t.move(p) == NO_MOVE and all(good(p, q) for q in moves))
    return sum(t.side(p) == 0 for p in range(n))


class Runner:
    def __init__(self, plant):
        self.plant, self.place = plant, None

    def on(self, bs, event, number=0):
        plant, t = self.plant, Table(self.plant, bs)
        if event == "start":
            sized(plant, bs)
            if number >= plant.n:
                raise Fault(4)
            if t.side(number) != 0:
                raise Fault(15)
            self.place = (number, 0)
            return self.place
        if self.place is None or plant.owner[self.place[0]] != (0 if event == "go" else 1):
            raise Fault(17)
        if len(bs) != length(plant):
            raise Fault(3)
        p, aim = self.place
        q = t.goal_move(aim, p) if event == "go" else number
        if q not in plant.moves[p]:
            raise Fault(18 if event == "go" else 16)
        self.place = (q, (aim + 1) % plant.k if aim in plant.marks[p] else aim)
        return self.place


def told(call):
    """The text of an answer."""
    try:
        return call()
    except Fault as fault:
        return "refused " + " ".join(str(x) for x in fault.args)


def trials(folder):
    """Each certificate as it is, one byte short, one byte long, and with each byte one more, turned and zero; then a run."""
    for name in open(os.path.join(folder, "list")).read().split():
        plant = Plant(open(os.path.join(folder, name + ".strip"), "rb").read())
        bs = open(os.path.join(folder, name + ".certificate"), "rb").read()

        def say(what, given):
            print(what, told(lambda: "accepted %d" % check(plant, given)))

        say("certificate " + name, bs)
        say("short", bs[:-1])
        say("long", bs + b"\0")
        for i, old in enumerate(bs):
            for new in ((old + 1) % 256, 255 - old, 0):
                say("byte %d %d" % (i, new), bs[:i] + bytes([new]) + bs[i + 1:])
        runner = Runner(plant)

        def tell(what, given, *event):
            print(what, told(lambda: "at %d aim %d" % runner.on(given, *event)))

        tell("start", bs, "start", 0)
        tell("go by no bytes", b"", "go")
        tell("go by another move", bs[:18] + b"\x09" + bs[19:], "go")
        for _ in range(4):
            tell("go", bs, "go")


def plan(bs):
    """The text that the program prints for the bytes of a strip."""
    try:
        plant = Plant(bs)
    except Fault as fault:
        return "refused %d %d\n" % fault.args
    table = Table(plant, make(plant))

    def name(q):
        return "-" if q == NO_MOVE else str(q)

    lines = []
    for p in range(plant.n):
        if table.side(p) == 0:
            parts = ["C"] + ["%d:%s" % (table.rank(g, p), name(table.goal_move(g, p))) for g in range(plant.k)]
        else:
            parts = ["T", str(table.goal(p)), str(table.stage(p)), str(table.approach(p)), name(table.move(p))]
        lines.append(" ".join([str(p)] + parts))
    ours = sum(table.side(p) == 0 for p in range(plant.n))
    stages = max(table.stage(p) for p in range(plant.n))
    return "\n".join(["plan %d %d %d %d" % (plant.n, plant.k, ours, stages)] + lines) + "\n"


def plans(paths):
    for path in paths:
        print("strip " + os.path.basename(path).removesuffix(".strip"))
        print(plan(open(path, "rb").read()), end="")


def drive(strip, certificate):
    try:
        plant = Plant(open(strip, "rb").read())
    except Fault as fault:
        print("strip refused", *fault.args)
        return
    bs = open(certificate, "rb").read()
    try:
        print("certificate accepted", check(plant, bs))
    except Fault as fault:
        print("certificate refused", *fault.args)
        return
    runner = Runner(plant)
    for line in sys.stdin.read().splitlines():
        words = line.split(" ")
        number = int(words[1]) if len(words) > 1 else 0
        if words[0] not in ("start", "go", "moved"):
            print(line + ": no event")
            continue
        print(line + ": " + told(lambda: "at %d aim %d" % runner.on(bs, words[0], number)))


if __name__ == "__main__":
    if sys.argv[1] == "make":
        open(sys.argv[3], "wb").write(make(Plant(open(sys.argv[2], "rb").read())))
    elif sys.argv[1] == "plans":
        plans(sys.argv[2:])
    elif sys.argv[1] == "trials":
        trials(sys.argv[2])
    else:
        drive(sys.argv[2], sys.argv[3])
