#!/usr/bin/env python3
"""An executable model of the ring's rules, written from their text and sharing nothing with the definitions of specs/.

It makes random runs of calls and works out each answer, and what table, shelf and post hold at the end.
    model.py OUT_DIR    writes the runs as antt files (Week.antt, Runs1.antt ..)
    model.py --count    says how many calls there are, and how often each answer comes
"""
import random
import re
import sys
from collections import Counter


class Refusal(Exception):
    def __init__(self, number, figure=0):
        self.number, self.figure = number, figure


class Ring:
    PEERS, OPEN, NUMBERS = 64, 64, 1_000_000

    def __init__(self, size, copies, cells, slots):
        self.size, self.copies, self.cells, self.slots = size, copies, cells, slots
        self.peers = {}        # identifier -> ("settled",) | ("filling", giver, start, end) | ("giving",) | ("leaving",)
        self.shelf = {}        # (peer, replica, place) -> (stamp, value)
        self.post = []         # dicts with a kind
        self.questions = {}    # number -> None while it waits, else its answer
        self.stamps = 0        # how many were given
        self.numbers = 0

    # ---- identifiers, places, owners
    def distance(self, s, i):
        return (i - s) % self.size

    def place(self, item, replica):
        return (item + (replica - 1) * (self.size // self.copies)) % self.size

    def in_arc(self, start, end, i):
        return 0 < self.distance(start, i) <= self.distance(start, end)

    def members(self):
        return [p for p, state in self.peers.items() if state[0] != "leaving"]

    def owner(self, i):
        return min(self.members(), key=lambda p: self.distance(i, p))

    def successor(self, p):
        return min((c for c in self.members() if c != p), key=lambda c: self.distance(p, c))

    def predecessor(self, p):
        return min((a for a in self.members() if a != p), key=lambda a: self.distance(a, p))

    def settled(self, p):
        return self.peers[p][0] == "settled"

    # ---- refusals
    def need_identifier(self, i):
        if i >= self.size:
            raise Refusal(6)

    def need_room(self, wanted):
        free = self.slots - len(self.post)
        if free < wanted:
            raise Refusal(18, free)

    # ---- the calls
    def join(self, p):
        self.need_identifier(p)
        if p in self.peers:
            raise Refusal(9)
        if len(self.peers) == self.PEERS:
            raise Refusal(10)
        if not self.members():
            self.peers[p] = ("settled",)
            return ("ok",)
        a, c = self.predecessor(p), self.successor(p)
        if not self.settled(c):
            raise Refusal(14)
        self.need_room(1)
        self.peers[p] = ("filling", c, a, p)
        self.peers[c] = ("giving",)
        self.post.append(dict(kind="retrieve", to=c, sender=p, start=a, end=p))
        return ("ok",)

    def leave(self, p):
        self.need_identifier(p)
        if p not in self.members():
            raise Refusal(11)
        if len(self.members()) == 1:
            raise Refusal(13)
        a, c = self.predecessor(p), self.successor(p)
        if not (self.settled(p) and self.settled(c)):
            raise Refusal(14)
        self.need_room(1)
        self.peers[p] = ("leaving",)
        self.peers[c] = ("filling", p, a, p)
        self.post.append(dict(kind="replicate", to=c, sender=p, start=a, end=p))
        return ("ok",)

    def insert(self, item, value):
        self.need_identifier(item)
        if not self.members():
            raise Refusal(12)
        if self.stamps == self.NUMBERS:
            raise Refusal(15)
        waiting = sum(1 for m in self.post if m["kind"] == "add")
        if len(self.shelf) + waiting + self.copies > self.cells:
            raise Refusal(17, self.cells - len(self.shelf) - waiting)
        self.need_room(self.copies)
        self.stamps += 1
        for r in range(1, self.copies + 1):
            i = self.place(item, r)
            self.post.append(dict(kind="add", to=self.owner(i), replica=r, place=i, stamp=self.stamps, value=value))
        return ("inserted", self.stamps)

    def lookup(self, item, replica):
        self.need_identifier(item)
        if replica == 0 or replica > self.copies:
            raise Refusal(7)
        if not self.members():
            raise Refusal(12)
        if self.numbers == self.NUMBERS:
            raise Refusal(15)
        if len(self.questions) == self.OPEN:
            raise Refusal(16)
        self.need_room(1)
        self.numbers += 1
        self.questions[self.numbers] = None
        i = self.place(item, replica)
        self.post.append(dict(kind="get", to=self.owner(i), replica=replica, place=i, question=self.numbers))
        return ("opened", self.numbers)

    def deliver(self, position):
        if position >= len(self.post):
            raise Refusal(19)
        m = self.post.pop(position)
        if m["kind"] == "retrieve":
            self.post.append(dict(kind="replicate", to=m["sender"], sender=m["to"], start=m["start"], end=m["end"]))
            return ("asked",)
        if m["kind"] == "replicate":
            return ("moved", self.handover(m["to"], m["sender"], m["start"], m["end"]))
        owner = self.owner(m["place"])
        if owner != m["to"]:
            self.post.append(dict(m, to=owner))
            return ("sent",)
        where = (owner, m["replica"], m["place"])
        there = self.shelf.get(where)
        if m["kind"] == "add":
            if there is not None and there[0] > m["stamp"]:
                return ("older",)
            self.shelf[where] = (m["stamp"], m["value"])
            assert len(self.shelf) <= self.cells
            return ("kept",)
        state = self.peers[owner]
        if state[0] == "filling" and self.in_arc(state[2], state[3], m["place"]):
            self.questions[m["question"]] = ("notyet",)
        elif there is None:
            self.questions[m["question"]] = ("none",)
        else:
            self.questions[m["question"]] = ("found",) + there
        return ("answered",)

    def handover(self, filler, giver, start, end):
        owed = [c for c in self.shelf if c[0] == giver and self.in_arc(start, end, c[2])]
        owed.sort(key=lambda c: (self.distance(start, c[2]), c[1]))
        for c in owed:
            entry = self.shelf.pop(c)
            target = (filler, c[1], c[2])
            if target not in self.shelf or self.shelf[target][0] <= entry[0]:
                self.shelf[target] = entry
        self.peers[filler] = ("settled",)
        if self.peers[giver][0] == "giving":
            self.peers[giver] = ("settled",)
        else:
            del self.peers[giver]
        return len(owed)

    def collect(self, number):
        if number not in self.questions:
            raise Refusal(20)
        answer = self.questions.pop(number)
        if answer is None:
            self.post = [m for m in self.post if not (m["kind"] == "get" and m["question"] == number)]
            return ("withdrawn",)
        return answer

    def call(self, name, *numbers):
        try:
            return getattr(self, name)(*numbers)
        except Refusal as refusal:
            return ("refused", refusal.number, refusal.figure)


# ---- runs

def random_run(rng, calls, size, copies, cells, slots):
    ring, run = Ring(size, copies, cells, slots), []
    moods = rng.choice([(2, 2, 4, 4, 12, 3), (3, 4, 3, 3, 12, 2), (1, 1, 6, 4, 9, 3), (2, 3, 4, 3, 16, 2), (2, 3, 6, 3, 9, 1)])
    items = [rng.randrange(size) for _ in range(3)]
    for _ in range(calls):
        name = rng.choices(["join", "leave", "insert", "lookup", "deliver", "collect"], moods)[0]
        if not ring.peers and rng.random() < 0.7:
            name = "join"
        if name == "leave" and len(ring.members()) < 2 and rng.random() < 0.7:
            name = "join"
        if not ring.post and name == "deliver" and rng.random() < 0.8:
            name = "insert"
        item = rng.choice(items) if rng.random() < 0.9 else rng.randrange(size + 2)
        if name == "join":
            away = [p for p in range(size) if p not in ring.peers]
            args = (rng.choice(away) if away and rng.random() < 0.8 else rng.randrange(size + 1),)
        elif name == "leave":
            args = (rng.choice(list(ring.peers)) if ring.peers and rng.random() < 0.9 else rng.randrange(size + 1),)
        elif name == "insert":
            args = (item, rng.randrange(1000))
        elif name == "lookup":
            args = (item, rng.randint(1, copies) if rng.random() < 0.93 else rng.choice([0, copies + 1]))
        elif name == "deliver":
            waiting = len(ring.post)
            args = (rng.randrange(waiting) if waiting and rng.random() < 0.95 else waiting + rng.randrange(2),)
        else:
            args = (rng.choice(list(ring.questions)) if ring.questions and rng.random() < 0.85 else rng.randrange(1, ring.numbers + 3),)
        run.append(((name,) + args, ring.call(name, *args)))
    return ring, run


def scripted(size, copies, cells, slots, calls):
    ring = Ring(size, copies, cells, slots)
    return ring, [(c, ring.call(*c)) for c in calls]


def week():
    """Five working days of an office: stations come and go while results are kept and asked for."""
    monday = [("join", 3), ("join", 8), ("insert", 5, 77), ("leave", 3), ("lookup", 5, 1), ("deliver", 5), ("collect", 1)]
    tuesday = [("deliver", 0)] * 6 + [("lookup", 5, 2), ("deliver", 0), ("collect", 2), ("insert", 5, 78), ("lookup", 5, 1), ("deliver", 4), ("collect", 3)]
    wednesday = [("join", 14), ("join", 1), ("deliver", 0), ("deliver", 0)] + [("deliver", 0)] * 8 + [("lookup", 5, r) for r in (1, 2, 3, 4, 5)] + [("deliver", 0)] * 4 + [("collect", q) for q in (4, 5, 6, 7, 8)]
    thursday = [("insert", 15, 9), ("leave", 8), ("deliver", 4), ("deliver", 0), ("deliver", 0), ("deliver", 0), ("deliver", 0), ("lookup", 15, 2), ("collect", 8), ("insert", 16, 1)]
    friday = [("leave", 3), ("deliver", 0), ("leave", 14), ("deliver", 0), ("leave", 1), ("lookup", 15, 4), ("lookup", 0, 1), ("deliver", 1), ("deliver", 0), ("collect", 9), ("collect", 10), ("collect", 11)]
    return scripted(16, 4, 64, 16, monday + tuesday + wednesday + thursday + friday)


def full_table():
    """More peers than the table holds: each join is handed its arc before the next."""
    calls = []
    for p in range(66):
        calls += [("join", p)] + [("deliver", 0)] * (2 if 0 < p < 64 else 0)
    return scripted(70, 1, 4, 4, calls)


def full_questions():
    """More questions than may be open."""
    calls = [("join", 0)]
    for _ in range(66):
        calls += [("lookup", 0, 1), ("deliver", 0)]
    return scripted(1, 1, 1, 2, calls + [("collect", 9), ("lookup", 0, 1)])


SIZES = [(1, 1), (2, 1), (2, 2), (3, 3), (4, 2), (4, 4), (6, 2), (6, 3), (8, 2), (8, 4), (8, 8), (12, 3), (16, 4)]


def all_runs():
    rng = random.Random(11)
    runs = []
    for number in range(110):
        size, copies = rng.choice(SIZES)
        cells = rng.choice([0, 2 * copies, 3 * copies, 40, 40, 40])
        slots = rng.choice([0, copies, copies + 1, 2 * copies + 2, 30, 30, 30, 30, 30])
        runs.append(random_run(rng, rng.choice([12, 25, 40, 60]), size, copies, cells, slots))
    return runs


# ---- as antt

CALLS = {"join": "Join", "leave": "Leave", "insert": "Insert", "lookup": "Lookup", "deliver": "Deliver", "collect": "Collect"}
ANSWERS = {"ok": "Done", "inserted": "Inserted", "opened": "Opened", "asked": "Asked", "moved": "Moved", "sent": "Sent", "kept": "Kept", "older": "Older",
           "answered": "Answered", "found": "Found", "none": "Nothing", "notyet": "NotYet", "withdrawn": "Withdrawn"}
FAULTS = {6: "Identifier", 7: "Replica", 9: "OnTable", 10: "TableFull", 11: "NotMember", 12: "NoMember", 13: "OnlyMember", 14: "NotSettled",
          15: "NumbersSpent", 16: "QuestionsOpen", 17: "ShelfFull", 18: "PostFull", 19: "NoMessage", 20: "NoQuestion"}


def words(head, numbers):
    return f"({head} {' '.join(map(str, numbers))})" if numbers else head


def answer_text(answer):
    if answer[0] == "refused":
        return f"(Refused {words(FAULTS[answer[1]], [answer[2]] if answer[1] in (17, 18) else [])})"
    return words(ANSWERS[answer[0]], answer[1:])


def peer_text(p, state):
    return f"(peer {p} {words(state[0].capitalize(), state[1:])})"


def message_text(m):
    if m["kind"] in ("retrieve", "replicate"):
        return words("RetrieveItems" if m["kind"] == "retrieve" else "Replicate", [m["to"], m["sender"], m["start"], m["end"]])
    if m["kind"] == "add":
        return words("AddItem", [m["to"], m["replica"], m["place"], m["stamp"], m["value"]])
    return words("GetItem", [m["to"], m["replica"], m["place"], m["question"]])


def listed(parts):
    return "(" + "".join(p + " ∷ " for p in parts) + "[])"


def run_text(name, ring, run):
    copies = sorted(ring.shelf.items(), key=lambda c: (c[0][0], c[0][2], c[0][1]))
    shelf = listed(words("kept", list(c) + list(e)) for c, e in copies)
    return "\n".join([
        f"pub {name} : Worked",
        f"{name} =",
        f"    worked (settings {ring.size} {ring.copies} {ring.cells} {ring.slots})",
        "    " + listed(words(CALLS[c[0]], c[1:]) for c, _ in run),
        "    " + listed(answer_text(a) for _, a in run),
        "    " + listed(peer_text(p, state) for p, state in ring.peers.items()),
        "    " + shelf,
        "    " + listed(message_text(m) for m in ring.post), ""])


IMPORTS = [
    ("Rattle.std.specs.Prelude", "List [] ◌∷◌"),
    ("Rattle.faults.specs.declared.Fault.TheVariants", "Identifier Replica OnTable TableFull NotMember NoMember OnlyMember NotSettled "
     "NumbersSpent QuestionsOpen ShelfFull PostFull NoMessage NoQuestion"),
    ("Rattle.messages.specs.declared.Message.TheVariants", "RetrieveItems Replicate AddItem GetItem"),
    ("Rattle.rules.specs.declared.PeerState.TheVariants", "Settled Filling Giving Leaving"),
    ("Rattle.rules.specs.declared.Call.TheVariants", "Join Leave Insert Lookup Deliver Collect"),
    ("Rattle.rules.specs.declared.Answer.TheVariants", "Done Inserted Opened Asked Moved Sent Kept Older Answered Found Nothing NotYet Withdrawn Refused"),
    ("Rattle.rules.specs.State", "peer"),
    ("Rattle.rule_checks.specs.Worked", "Worked worked settings kept"),
]


def import_lines(body):
    """The imports of the names that a file uses, and of no others, as `rt tidy` leaves them."""
    used = set(re.findall(r"\w+|\[\]", body)) | {"◌∷◌"}
    for module, names in IMPORTS:
        needed = [name for name in names.split() if name in used]
        if needed:
            yield f"use {module}.{{{', '.join(needed)}}}\n"


def file_text(title, runs):
    body = "\n".join("abbrev " + run_text(name, ring, run) for name, ring, run in runs)
    names = listed(name for name, _, _ in runs)
    body += f"\nabbrev pub runs : List Worked\nruns = {names}\n"
    return f"-- {title} Made by scripts/model.py; not to be edited.\n" + "".join(import_lines(body)) + "\n" + body


def main():
    special = [("week", *week()), ("full_table", *full_table()), ("full_questions", *full_questions())]
    plain = [(f"run_{n}", ring, run) for n, (ring, run) in enumerate(all_runs(), 1)]
    if sys.argv[1:] == ["--count"]:
        seen = Counter()
        for _, _, run in special + plain:
            for call, answer in run:
                seen[(call[0],) + (answer[:2] if answer[0] == "refused" else answer[:1])] += 1
        for key in sorted(seen, key=str):
            print(*key, seen[key])
        print(sum(seen.values()), "calls in", len(special + plain), "runs")
        return
    out = sys.argv[1]
    files = {"Week": ("A worked week, a full table and the most open questions.", special)}
    for part in range(0, len(plain), 37):
        files[f"Runs{part // 37 + 1}"] = ("Random runs of calls, with their answers and what is left.", plain[part:part + 37])
    for name, (title, runs) in files.items():
        with open(f"{out}/{name}.antt", "w") as f:
            f.write(file_text(title, runs))


if __name__ == "__main__":
    main()
