#!/usr/bin/env python3
"""Tries wrong rules against the three laws: for each, random runs until a law is broken, or as many as asked for.

    wrong_rules.py [RUNS]     (20,000 runs for each rule unless given)
The right rules come first and must break none. Ends with status 1 where one does, or where a rule is found out that should not be, or the reverse.
"""
import random
import sys

sys.dont_write_bytecode = True
from model import Refusal, Ring  # noqa: E402


# ---- the laws, checked along a run

class Broken(Exception):
    pass


class Watch:
    """Plays a run and holds it to the laws after every call."""

    def __init__(self, ring):
        self.ring, self.calls = ring, []
        self.inserts, self.arrived, self.lookups = {}, {}, {}   # stamp -> (item, value); stamp -> replicas; question -> (item, landed stamps)

    def landed(self, item):
        return [s for s, (k, _) in self.inserts.items() if k == item and len(self.arrived[s]) == self.ring.copies]

    def play(self, name, *numbers):
        ring = self.ring
        message = ring.post[numbers[0]] if name == "deliver" and numbers[0] < len(ring.post) else None
        landed = self.landed(numbers[0]) if name == "lookup" else None
        answer = ring.call(name, *numbers)
        self.calls.append((name,) + numbers + ("->",) + answer)
        if answer[0] == "inserted":
            self.inserts[answer[1]], self.arrived[answer[1]] = numbers, set()
        elif answer[0] == "opened":
            self.lookups[answer[1]] = (numbers[0], landed)
        elif answer[0] in ("kept", "older"):
            self.arrived[message["stamp"]].add(message["replica"])
        elif answer[0] == "found":
            item, before = self.lookups[numbers[0]]
            if self.inserts.get(answer[1]) != (item, answer[2]) or any(s > answer[1] for s in before):
                raise Broken("fresh")
        elif answer[0] == "none" and self.lookups[numbers[0]][1]:
            raise Broken("fresh")
        elif answer[0] == "refused" and message is not None:
            raise Broken("drains")
        if not ring.post:
            self.replicated()

    def replicated(self):
        ring, expected = self.ring, {}
        for stamp, (item, value) in sorted(self.inserts.items()):
            for r in range(1, ring.copies + 1):
                expected[(ring.owner(ring.place(item, r)), r, ring.place(item, r))] = (stamp, value)
        if expected != ring.shelf:
            raise Broken("replicated")

    def drain(self, rng):
        waiting, done = len(self.ring.post), 0
        while self.ring.post:
            self.play("deliver", rng.randrange(len(self.ring.post)))
            done += 1
            if done > 2 * waiting:
                raise Broken("drains")


def one_run(rng, kind):
    size, copies = rng.choice([(2, 1), (3, 1), (4, 2), (6, 2), (6, 3), (8, 2)])
    watch = Watch(kind(size, copies, rng.choice([copies, 2 * copies, 40]), rng.choice([4, 30])))
    ring, items = watch.ring, [rng.randrange(size) for _ in range(2)]
    for _ in range(rng.choice([8, 15, 30])):
        name = rng.choices(["join", "leave", "insert", "lookup", "deliver", "collect"], (4, 2, 4, 3, 9, 2))[0]
        if name in ("join", "leave"):
            watch.play(name, rng.randrange(size))
        elif name == "insert":
            watch.play(name, rng.choice(items), rng.randrange(100))
        elif name == "lookup":
            watch.play(name, rng.choice(items), rng.randint(1, copies))
        elif name == "deliver" and ring.post:
            watch.play(name, rng.randrange(len(ring.post)))
        elif name == "collect" and ring.questions:
            watch.play(name, rng.choice(list(ring.questions)))
    watch.drain(rng)
    for number in list(ring.questions):
        watch.play("collect", number)


def tried(kind, runs):
    rng = random.Random(1)
    for run in range(runs):
        try:
            one_run(rng, kind)
        except Broken as broken:
            return str(broken), run + 1
    return None, runs


# ---- wrong rules, each as a ring of its own

class AddressedKeeps(Ring):
    """An ADDITEM is kept by its addressee, also after a join moved the place."""

    def owner(self, i):
        return self.forced if self.forced is not None else super().owner(i)

    forced = None

    def deliver(self, position):
        if position < len(self.post) and self.post[position]["kind"] == "add" and self.post[position]["to"] in self.peers:
            self.forced = self.post[position]["to"]
        try:
            return super().deliver(position)
        finally:
            self.forced = None


class Overwrites(Ring):
    """A handover overwrites a newer copy."""

    def handover(self, filler, giver, start, end):
        for c in [c for c in self.shelf if c[0] == giver and self.in_arc(start, end, c[2])]:
            self.shelf.pop((filler, c[1], c[2]), None)
        return super().handover(filler, giver, start, end)


class AnswersNone(Ring):
    """A filling owner answers none in its arc."""

    def collect(self, number):
        answer = super().collect(number)
        return ("none",) if answer == ("notyet",) else answer


class CountsKeptOnly(Ring):
    """The cell count leaves out the waiting ADDITEM messages."""

    def insert(self, item, value):
        cells, waiting = self.cells, sum(1 for m in self.post if m["kind"] == "add")
        self.cells += waiting
        try:
            return super().insert(item, value)
        finally:
            self.cells = cells

    def deliver(self, position):
        if position < len(self.post) and self.post[position]["kind"] == "add":
            m = self.post[position]
            if self.owner(m["place"]) == m["to"] and len(self.shelf) == self.cells and (m["to"], m["replica"], m["place"]) not in self.shelf:
                raise Refusal(17)
        return super().deliver(position)


class DropsReplica(Ring):
    """An insert leaves out its last replica."""

    def insert(self, item, value):
        answer = super().insert(item, value)
        self.post.pop()
        return answer


class NeverBusy(Ring):
    """No busy rule: a join or a leave begins while another handover is under way."""

    def settled(self, p):
        return True

    def handover(self, filler, giver, start, end):
        absent = [p for p in (filler, giver) if p not in self.peers]
        for p in absent:
            self.peers[p] = ("settled",)
        if self.peers[giver][0] not in ("giving", "leaving"):
            self.peers[giver] = ("giving",)
        moved = super().handover(filler, giver, start, end)
        for p in absent:
            self.peers.pop(p, None)
        return moved


class OnlySends(Ring):
    """A delivery of an ADDITEM or GETITEM always sends it on."""

    def deliver(self, position):
        if position < len(self.post) and self.post[position]["kind"] in ("add", "get"):
            self.post.append(self.post.pop(position))
            return ("sent",)
        return super().deliver(position)


class OnlySaysSent(Ring):
    """A delivery does its work, and always says sent."""

    def deliver(self, position):
        super().deliver(position)
        return ("sent",)


class SpacedByF(Ring):
    """Copies are spaced by f in place of N / f."""

    def place(self, item, replica):
        return (item + (replica - 1) * self.copies) % self.size


class KeepsOlder(Ring):
    """An ADDITEM is put over a newer copy."""

    def deliver(self, position):
        if position < len(self.post) and self.post[position]["kind"] == "add":
            m = self.post[position]
            if self.owner(m["place"]) == m["to"]:
                self.shelf.pop((m["to"], m["replica"], m["place"]), None)
        return super().deliver(position)


class AlwaysNotYet(Ring):
    """Every question is answered not yet."""

    def collect(self, number):
        answer = super().collect(number)
        return answer if answer == ("withdrawn",) else ("notyet",)


SEEN = [AddressedKeeps, Overwrites, AnswersNone, CountsKeptOnly, DropsReplica, NeverBusy, OnlySends, KeepsOlder]
UNSEEN = [OnlySaysSent, SpacedByF, AlwaysNotYet]


def main():
    runs = int(sys.argv[1]) if sys.argv[1:] else 20_000
    wrong = False
    for kind in [Ring] + SEEN + UNSEEN:
        law, count = tried(kind, runs)
        said = f"broken: {law}, in run {count}" if law else f"none broken in {count} runs"
        wrong |= (law is None) != (kind not in SEEN)
        print(f"{kind.__name__}: {'the rules' if kind is Ring else kind.__doc__} {said}")
    sys.exit(1 if wrong else 0)


main()
