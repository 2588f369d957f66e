#!/usr/bin/env python3
"""Writes a run of many threads that all run at once: wide.py THREADS STYLE SEED [spoiled] [--transactions N] [--maps].

Each transaction takes effect at an instant of its own between its first and its last event: the run is opaque by construction. With
'spoiled' one answer is changed into another one of its kind; nothing says then whether the run is opaque. STYLE says where the instant
lies: 'end' (late, as in most memories) or 'any' (anywhere). The seed chooses the objects: registers, counters, sets, queues or all;
with --maps, maps alone or beside others, in the second format. The history is written as opaq reads it, a log a thread.
"""
import random
import sys

from harness import compact
from oracle import OPENING, STEPS

PLANS = [
    [("register", 1)], [("register", 4)], [("register", 16)], [("register", 64)],
    [("counter", 1)], [("counter", 4)], [("counter", 16)],
    [("set", 1)], [("set", 4)],
    [("queue", 1)], [("queue", 4)],
    [("register", 8), ("counter", 8)], [("register", 8), ("set", 4)],
    [("register", 8), ("counter", 4), ("set", 4), ("queue", 2)],
]

MAPS = [
    [("map", 1)], [("map", 4)], [("map", 16)], [("map", 4), ("queue", 2)], [("map", 4), ("counter", 4)], [("register", 4), ("map", 4)],
    [("register", 4), ("counter", 4), ("set", 4), ("queue", 2), ("map", 4)],
]


def objects_of(seed, plans):
    kinds = [kind for kind, count in plans[seed % len(plans)] for _ in range(count)]
    return [{"kind": kind, "name": f"o{n}", "open": 0} if kind in ("register", "counter") else {"kind": kind, "name": f"o{n}"} for n, kind in enumerate(kinds)]


def operation(draw, kind, number):
    """A word and an argument, if it has one. The values that are written are few, so that they come again."""
    if kind == "register":
        return draw.choice([("read", None), ("read", None), ("write", draw.randrange(8) if draw.random() < 0.5 else number)])
    if kind == "counter":
        return draw.choice([("get", None), ("inc", None), ("dec", None)])
    if kind == "set":
        return (draw.choice(["add", "remove", "contains"]), draw.randrange(8))
    if kind == "map":
        return draw.choice([("put", (draw.randrange(8), number)), ("look", draw.randrange(8)), ("look", draw.randrange(8)), ("del", draw.randrange(8))])
    return draw.choice([("enq", number), ("deq", None)])


def transactions_of(draw, threads, style, count, objects):
    """Transactions with the times of their events, in the order in which they take effect."""
    made = []
    clock = [draw.random() * 4 for _ in range(threads)]
    for number in range(count):
        thread = min(range(threads), key=lambda t: clock[t])
        ops = [(ob, *operation(draw, objects[ob]["kind"], 100 + number)) for ob in (draw.randrange(len(objects)) for _ in range(draw.randint(1, 6)))]
        time, times = clock[thread], []
        for _ in range(2 * len(ops) + 2):
            time += draw.expovariate(1.0)
            times.append(time)
        clock[thread] = time + draw.expovariate(2.0)
        share = draw.random() if style == "any" else 1 - draw.random() * 0.1
        ending = draw.choices(["commit", "abort", "pending", "live"], [80, 14, 3, 3])[0]
        made.append({"number": number, "thread": thread, "ops": ops, "times": times, "effect": times[0] + share * (times[-1] - times[0]), "ending": ending})
    return sorted(made, key=lambda t: t["effect"])


def answered(made, objects):
    states = [OPENING[o["kind"]](0) for o in objects]
    for transaction in made:
        own, answers = list(states), []
        for ob, word, argument in transaction["ops"]:
            asked = argument if isinstance(argument, tuple) else (argument, None)
            own[ob], answer = STEPS[objects[ob]["kind"]][word](own[ob], *asked)
            answers.append(answer)
        transaction["answers"] = answers
        transaction["commits"] = transaction["ending"] == "commit" or (transaction["ending"] == "pending" and transaction["number"] % 2 == 0)
        if transaction["commits"]:
            states = own


def spoil(draw, made, objects):
    """Another answer of the same kind that was given on the same object, or one beside it."""
    places = [(t, k) for t in made for k, answer in enumerate(t["answers"]) if answer != "done"]
    transaction, k = draw.choice(places)
    ob, word, _ = transaction["ops"][k]
    old = transaction["answers"][k]
    if isinstance(old, bool):
        transaction["answers"][k] = not old
        return
    others = sorted({a for t in made for (o, w, _), a in zip(t["ops"], t["answers"]) if o == ob and w == word and a != old and not isinstance(a, str)})
    transaction["answers"][k] = draw.choice(others) if others else (old + 1 if not isinstance(old, str) else 1)


def events_of(transaction, objects):
    """The transaction's events with their times."""
    events = []
    times = transaction["times"]
    for k, ((ob, word, argument), answer) in enumerate(zip(transaction["ops"], transaction["answers"])):
        call = {"ev": "inv", "ob": objects[ob]["name"], "op": word}
        if isinstance(argument, tuple):
            call["arg"], call["val"] = argument
        elif argument is not None:
            call["arg"] = argument
        events.append((times[2 * k], call))
        events.append((times[2 * k + 1], {"ans": answer, "ev": "ret", "ob": objects[ob]["name"], "op": word}))
    if transaction["ending"] == "live":
        return events
    events.append((times[-2], {"ev": "tryc"}))
    if transaction["ending"] != "pending":
        events.append((times[-1], {"ev": transaction["ending"]}))
    return events


def write(threads, objects, made, number):
    print(compact(format=number, logs=threads, objects=len(objects)))
    for entry in objects:
        print(compact(**entry))
    all_events = sorted(((time, t["thread"], t["number"], event) for t in made for time, event in events_of(t, objects)), key=lambda e: e[0])
    counts = [0] * threads
    for stamp, (_, thread, tx, event) in enumerate(all_events):
        print(compact(at=counts[thread], log=thread, stamp=stamp, tx=tx, **event))
        counts[thread] += 1
    for thread, count in enumerate(counts):
        print(compact(end=count, log=thread))


def main(words):
    if words in (["--help"], ["-h"]):
        print(__doc__.strip())
        return 0
    count, maps = 400, "--maps" in words
    words = [word for word in words if word != "--maps"]
    if "--transactions" in words:
        k = words.index("--transactions")
        count = int(words[k + 1])
        words = words[:k] + words[k + 2:]
    if len(words) not in (3, 4) or words[1] not in ("end", "any") or words[3:] not in ([], ["spoiled"]):
        sys.stderr.write(__doc__)
        return 64
    threads, style, seed = int(words[0]), words[1], int(words[2])
    draw = random.Random(f"{threads} {style} {seed}")
    objects = objects_of(seed, MAPS if maps else PLANS)
    made = transactions_of(draw, threads, style, count, objects)
    answered(made, objects)
    if len(words) == 4:
        spoil(draw, made, objects)
    write(threads, objects, made, 2 if maps else 1)
    return 0


if __name__ == "__main__":
    sys.exit(main(sys.argv[1:]))
