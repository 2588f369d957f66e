#!/usr/bin/env python3
"""Times `opaq decide` on made and recorded inputs: bench/search.py PROGRAM [WORD]. PROGRAM is the built program,
crates/opaq/out/opaq; with WORD only the inputs run whose names have it.

Full size is 64 logs, 1,024 transactions of 254 records and 256 objects, 64 of each kind, that all transactions share. So many
transactions run at a time, and they take effect in the order of their ends, of their beginnings, or of a point drawn between.
Where a read is spoiled, a read of a register near the end answers a value that was there before. `opaq check` runs on the same
input, with the order of the effects, to compare. The small inputs have all invocations before any other event. The recorded runs
are those of `examples/runs`. Each is run three times, and the least processor time and the
most memory are printed: other work on the machine changes the clock more than that. The same numbers come with each run."""

import glob
import os
import random

from timing import tell, timed
from harness import TOP, asked, compact as line, read
from oracle import Objects
from runs import KINDS, WITH_ARGUMENT, at_once, declared

OPERATIONS = 126
MIX = {"x": ("write", "read", "read", "read"), "c": ("inc", "get", "get", "get"), "s": ("add", "remove", "contains", "contains"), "q": ("deq", "enq")}


class Memory:
    """256 objects, 64 of each kind, and of each register what it held before the last write."""

    def __init__(self):
        self.objects = Objects({f"{letter}{number}": kind for letter, kind in KINDS.items() for number in range(64)})
        self.before = {}

    def call(self, draw):
        """An operation's object, name, argument and answer."""
        letter, number, value = "xcsq"[draw.randrange(4)], draw.randrange(64), draw.randrange(50)
        name, op = f"{letter}{number}", draw.choice(MIX[letter])
        if op == "write":
            self.before[name] = self.objects.held[name]
        argument = value if op in WITH_ARGUMENT else None
        return name, op, argument, self.objects.call(name, op, argument)


def scheduled(draw, at_a_time, count, operations=OPERATIONS):
    """Which transaction does a step, step by step: a step for each operation and one to commit, so many transactions at a time."""
    steps, running, following = [], [], 0
    while following < count or running:
        while len(running) < at_a_time and following < count:
            running.append([following, operations + 1])
            following += 1
        at = draw.randrange(len(running))
        steps.append(running[at][0])
        running[at][1] -= 1
        if not running[at][1]:
            running.pop(at)
    return steps


def full_size(at_a_time, effects, spoiled):
    draw = random.Random(11)
    count = 1024
    steps = scheduled(draw, at_a_time, count)
    first, last = {}, {}
    for at, tx in enumerate(steps):
        first.setdefault(tx, at)
        last[tx] = at
    point = {"ends": lambda tx: last[tx], "begins": lambda tx: first[tx], "drawn": lambda tx: draw.uniform(first[tx], last[tx])}
    order = sorted(range(count), key=point[effects])
    memory, events = Memory(), {}
    for place, tx in enumerate(order):
        events[tx] = []
        for _ in range(OPERATIONS):
            ob, op, argument, answer = memory.call(draw)
            old = memory.before.get(ob, 0) if op == "read" else None
            if spoiled and place >= 1000 and op == "read" and old != answer:
                answer, spoiled = old, False
            asked = {"ev": "inv", "ob": ob, "op": op}
            if argument is not None:
                asked["arg"] = argument
            events[tx].append([asked, {"ans": answer, "ev": "ret", "ob": ob, "op": op}])
        events[tx].append([{"ev": "tryc"}, {"ev": "commit"}])
    text = ['{"format":1,"logs":64,"objects":256}']
    for letter, kind in KINDS.items():
        opening = {"open": 0} if kind in ("register", "counter") else {}
        text += [line(kind=kind, name=f"{letter}{number}", **opening) for number in range(64)]
    places, stamp, lines = [0] * 64, 0, []
    done = {tx: iter(events[tx]) for tx in events}
    for tx in steps:
        for event in next(done[tx]):
            log = tx % 64
            lines.append(line(at=places[log], log=log, stamp=stamp, tx=tx, **event))
            places[log] += 1
            stamp += 1
    lines += [line(end=places[log], log=log) for log in range(64)]
    return "\n".join(text + lines) + "\n", " ".join(f"{tx}c" for tx in order)


def small():
    """Names and texts of the small inputs, none of which is opaque."""
    x, c, q = declared("register", "x"), declared("counter", "c"), line(kind="queue", name="q")
    many = [x] + [declared("register", f"y{number}") for number in range(255)]
    yield "24 readers and a bad read", at_once([x], [("x", "read", None, 0)] * 24 + [("x", "read", None, 1)])
    written = [("x", "write", value, "done") for value in range(1, 15)]
    yield "14 writers and a bad read", at_once([x], written + [("x", "read", None, -1)])
    yield "20 increments and a bad get", at_once([c], [("c", "inc", None, "done")] * 20 + [("c", "get", None, 21)])
    queued = [("q", "enq", value, "done") for value in range(1, 10)]
    yield "9 enqueues and a bad deq", at_once([q], queued + [("q", "deq", None, -1)])
    yield "14 writers of one object among 256 and a bad read", at_once(many, written + [("x", "read", None, -1)])
    apart = [(f"y{number}", "write", 1, "done") for number in range(16)]
    yield "16 writers of an object each among 256 and a bad read", at_once(many, apart + [("x", "read", None, -1)])


def main():
    program, word = [*asked(__doc__, 1, 2), ""][:2]
    for path in sorted(glob.glob(f"{TOP}/examples/runs/*.jsonl")):
        name = os.path.basename(path)
        if word in name:
            tell(name, timed([program, "decide"], read(path), read(f"{path.removesuffix('jsonl')}verdict").strip()))
    for name, text in small():
        if word in name:
            tell(name, timed([program, "decide"], text, "not opaque"))
    for effects in ["ends", "begins", "drawn"]:
        for at_a_time in [2, 4, 8, 16]:
            for spoiled in [False, True]:
                name = f"full size, {at_a_time} at a time, by {effects}" + (", one read spoiled" if spoiled else "")
                if word in name:
                    text, order = full_size(at_a_time, effects, spoiled)
                    check = timed([program, "check", "--order", order], text, "order refused" if spoiled else "opaque")
                    figures = timed([program, "decide"], text, "not opaque" if spoiled else "opaque")
                    tell(name, figures, f"; check {check[0]:.0f} ms, {figures[0] / check[0]:.2f} times")


if __name__ == "__main__":
    main()
