#!/usr/bin/env python3
"""Runs that tests and benchmarks make: as a program, tests/runs.py writers|increments COUNT prints one.

`writers`: so many transactions write an object each, all at once, and one more reads what nobody wrote. `increments`: so many count one in the same
counter, and one more gets a number that is not reached. No order shows either."""
import random
import sys

from harness import USAGE, compact
from oracle import Objects


def declared(kind, name):
    """The line of an object that opens with 0."""
    return compact(kind=kind, name=name, open=0)


def at_once(plan, bodies):
    """A run of transactions of one operation each, of which all call before any other event, and all commit. The plan is the lines of the objects; a
    body is the object, the operation, its argument or None, and the answer."""
    events = [(tx, {"ev": "inv", "ob": ob, "op": op} | ({} if argument is None else {"arg": argument})) for tx, (ob, op, argument, _) in enumerate(bodies, 1)]
    events += [(tx, {"ans": answer, "ev": "ret", "ob": ob, "op": op}) for tx, (ob, op, _, answer) in enumerate(bodies, 1)]
    for tx in range(1, len(bodies) + 1):
        events += [(tx, {"ev": "tryc"}), (tx, {"ev": "commit"})]
    lines = [compact(at=at, log=0, stamp=at, tx=tx, **event) for at, (tx, event) in enumerate(events)]
    return "\n".join([compact(format=1, logs=1, objects=len(plan)), *plan, *lines, compact(end=len(events), log=0)]) + "\n"


def writers(count):
    plan = [declared("register", f"x{number}") for number in range(count + 1)]
    return at_once(plan, [(f"x{number}", "write", 1, "done") for number in range(count)] + [(f"x{count}", "read", None, 1)])


def increments(count):
    return at_once([declared("counter", "c")], [("c", "inc", None, "done")] * count + [("c", "get", None, count + 1)])


# How many records each transaction of `of_own_objects` has.
PER_TRANSACTION = 256


# The objects of each log, and what may be asked of them.
KINDS = {"x": "register", "c": "counter", "s": "set", "q": "queue"}
OPERATIONS = {"x": ("read", "write"), "c": ("get", "inc"), "s": ("add", "remove", "contains"), "q": ("deq", "enq")}
WITH_ARGUMENT = ("write", "add", "remove", "contains", "enq")


class Thread:
    """One log, with four objects that only it uses."""

    def __init__(self, log, count):
        self.log = log
        self.left = count
        self.lines = []
        self.objects = Objects(KINDS)
        self.waiting = []

    def call(self, draw):
        """An operation's object, name, argument and answer."""
        name, value = "xcsq"[draw.randrange(4)], draw.randrange(50)
        op = draw.choice(OPERATIONS[name])
        argument = value if op in WITH_ARGUMENT else None
        return name, op, argument, self.objects.call(name, op, argument)

    def refill(self, draw):
        """One more transaction."""
        for _ in range(PER_TRANSACTION // 2 - 1):
            name, op, argument, answer = self.call(draw)
            ob = f"{name}{self.log}"
            asked = {"ev": "inv", "ob": ob, "op": op}
            if argument is not None:
                asked["arg"] = argument
            self.waiting += [asked, {"ans": answer, "ev": "ret", "ob": ob, "op": op}]
        self.waiting += [{"ev": "tryc"}, {"ev": "commit"}]


def of_own_objects(logs, records):
    """A run of so many logs and records, in a shuffled order of lines, and the order of its commits, which shows it: each log has four objects that only it
    uses. The same comes each time."""
    draw = random.Random(7)
    threads = [Thread(log, records // logs // PER_TRANSACTION) for log in range(logs)]
    running, order, lines = list(threads), [], []
    numbers = iter(range(records // PER_TRANSACTION))
    for stamp in range(records):
        at = draw.randrange(len(running))
        thread = running[at]
        if not thread.waiting:
            thread.refill(draw)
            thread.tx = next(numbers)
            thread.left -= 1
        event = thread.waiting.pop(0)
        thread.lines.append(stamp)
        event |= {"at": len(thread.lines) - 1, "log": thread.log, "stamp": stamp, "tx": thread.tx}
        lines.append(compact(**event))
        if event["ev"] == "commit":
            order.append(f"{thread.tx}c")
        if not thread.waiting and not thread.left:
            running.pop(at)
    lines += ['{"end":%d,"log":%d}' % (len(it.lines), it.log) for it in threads]
    draw.shuffle(lines)
    plan = ['{"format":1,"logs":%d,"objects":%d}' % (logs, 4 * logs)]
    for log in range(logs):
        plan.append('{"kind":"register","name":"x%d","open":0}' % log)
        plan.append('{"kind":"counter","name":"c%d","open":0}' % log)
        plan.append('{"kind":"set","name":"s%d"}' % log)
        plan.append('{"kind":"queue","name":"q%d"}' % log)
    return "\n".join(plan + lines) + "\n", " ".join(order)


def main(words):
    made = {"writers": writers, "increments": increments}
    if len(words) != 2 or words[0] not in made or not words[1].isdigit():
        print(__doc__.strip(), file=sys.stderr)
        return USAGE
    print(made[words[0]](int(words[1])), end="")
    return 0


if __name__ == "__main__":
    sys.exit(main(sys.argv[1:]))
