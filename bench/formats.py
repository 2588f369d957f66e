#!/usr/bin/env python3
"""Times opaq on runs of the second format: bench/formats.py PROGRAM [AT_A_TIME]. PROGRAM is the built program, crates/opaq/out/opaq.

64 logs and 262,144 records, less some where they do not divide, over 256 objects of all five kinds, as 1,024 transactions of 254
records and as 4,096 of 62; so many transactions at a time, four where nothing is said, in the order of their ends. For each the
least processor time and the most memory of three runs of `check`, of `decide` and of an audit of four nodes, and, with one look of
a map spoiled, of `decide` and of `verify` over the certificate that `decide --cert` wrote. The same numbers come with each run."""

import random
import subprocess

from timing import tell, timed
from harness import asked, compact as line
from oracle import Objects
from search import scheduled

KINDS = {"register": "x", "counter": "c", "set": "s", "queue": "q", "map": "m"}
NAMES = [f"{letter}{number}" for number in range(52) for letter in KINDS.values()][:256]


MIX = {
    "x": ("write", "read", "read", "read"), "c": ("plus", "get", "get", "get"), "s": ("add", "remove", "contains", "contains"), "q": ("deq", "enq"),
    "m": ("put", "del", "look", "look", "look"),
}


class Memory:
    """256 objects of five kinds."""

    def __init__(self, draw):
        self.draw = draw
        letters = {letter: kind for kind, letter in KINDS.items()}
        self.objects = Objects({name: letters[name[0]] for name in NAMES})

    def call(self):
        """The object, what is asked, and the answer."""
        name, value = self.draw.choice(NAMES), self.draw.randrange(50)
        op = self.draw.choice(MIX[name[0]])
        asked = {"op": op}
        if op not in ("read", "get", "deq"):
            asked["arg"] = value % 8 if name[0] == "m" else value
        if op == "put":
            asked["val"] = value
        return name, asked, self.objects.call(name, **asked)


def made(count, at_a_time, spoiled):
    """The text of a run, and the order that shows it where no look is spoiled; else one is after so many hundredths of the run."""
    draw = random.Random(11)
    operations = 262_144 // count // 2 - 2
    steps = scheduled(draw, at_a_time, count, operations)
    last = {tx: at for at, tx in enumerate(steps)}
    order, memory, events = sorted(range(count), key=last.get), Memory(draw), {}
    for place, tx in enumerate(order):
        events[tx] = []
        for _ in range(operations):
            name, asked, answer = memory.call()
            if spoiled is not None and place * 100 >= count * spoiled and asked["op"] == "look":
                answer, spoiled = -1, None
            events[tx].append([{"ev": "inv", "ob": name} | asked, {"ans": answer, "ev": "ret", "ob": name, "op": asked["op"]}])
        events[tx].append([{"ev": "tryc"}, {"ev": "commit"}])
    text = ['{"format":2,"logs":64,"objects":256}']
    for kind, letter in KINDS.items():
        opening = {"open": 0} if kind in ("register", "counter") else {}
        text += [line(kind=kind, name=name, **opening) for name in NAMES if name[0] == letter]
    places, stamp, done = [0] * 64, 0, {tx: iter(events[tx]) for tx in events}
    for tx in steps:
        for event in next(done[tx]):
            text.append(line(at=places[tx % 64], log=tx % 64, stamp=stamp, tx=tx, **event))
            places[tx % 64], stamp = places[tx % 64] + 1, stamp + 1
    text += [line(end=places[log], log=log) for log in range(64)]
    return "\n".join(text) + "\n", " ".join(f"{tx}c" for tx in order)


def main():
    program, *more = asked(__doc__, 1, 2)
    at_a_time = int(more[0]) if more else 4
    for count in [1024, 4096]:
        named = f"{count} transactions, {at_a_time} at a time"
        text, order = made(count, at_a_time, None)
        tell(f"{named}, {len(text)} bytes: check", timed([program, "check", "--order", order], text, "opaque"))
        tell(f"{named}: decide", timed([program, "decide"], text, "opaque"))
        tell(f"{named}: audit of 4 nodes", timed([program, "audit", "--nodes", "4", "--workers", "1"], text, "opaque"))
        for spoiled in [1, 98] if count == 1024 else [1]:
            text, _ = made(count, at_a_time, spoiled)
            tell(f"{named}, spoiled at {spoiled} %: decide", timed([program, "decide"], text, "not opaque"))
            told = subprocess.run([program, "decide", "--cert"], input=text, stdout=subprocess.PIPE, text=True, check=False)
            certified = text + told.stdout.split("\n", 1)[1]
            tell(f"{named}, spoiled at {spoiled} %: verify", timed([program, "verify"], certified, "not opaque"))


if __name__ == "__main__":
    main()
