#!/usr/bin/env python3
"""Turns a trace into the texts that opaq reads: from_trace.py [TRACE] > RUN. TRACE is a file, or - for standard input, as where it is left out.

A trace is a text with one event a line, in the order in which the events were stamped; what stands after a # is a comment.

    object KIND NAME [OPEN]      declares an object: register, counter, set, queue or map. One that is not declared is of the kind of
                                 its first operation, and a register or counter opens at 0
    THREAD begin                 the next transaction of the thread begins. Where the last one has not ended it is aborted
    THREAD OP OBJECT [VALUE..]   an operation that was answered: `read x 0` (the answer), `write x 1` (the argument), `inc c`,
                                 `dec c`, `get c 3`, `add s 5 true` (the argument, then the answer), `remove s 5 false`,
                                 `contains s 5 true`, `enq q 7`, `deq q 7`, `deq q empty`, `plus c 5`, `put m 4 9` (the key, then the
                                 value), `look m 4 9`, `look m 4 empty`, `del m 4 true`
    THREAD call OP OBJECT [ARG..] an operation is invoked, and perhaps never answered
    THREAD back [ANSWER]         the invoked operation is answered; nothing for `write`, `inc`, `dec`, `plus`, `enq` and `put`
    THREAD try                   the transaction asks to commit
    THREAD commit                it commits; where it has not asked to, it asks just before
    THREAD abort                 it aborts

THREAD is any word, and each thread gets a log. The stamp of `begin` is that of the transaction's first invocation, so `begin` has to
stand before its effect can start; see docs/RECORDING.md. Transactions are numbered from 0 in the order of their first
events; one that began and did nothing leaves no record. The run is in the first format where that has all that it needs, else in the
second, which has maps, `plus`, and transactions up to number 4,095.

A log has at most 4,096 records and a run 4,096 transactions. Where a line would go beyond, the run ends before that line, as opaq.h cuts a run: at
one stamp for all threads. What was cut is told on standard error.

The exit status is 0 where a run was written, also one that was cut, 3 where a line is none of a trace, 4 where the trace cannot be read, and 64
where these words are not understood.
"""

import sys

import recorded

KINDS = {
    "read": "register", "write": "register", "inc": "counter", "dec": "counter", "get": "counter",
    "add": "set", "remove": "set", "contains": "set", "enq": "queue", "deq": "queue",
    "plus": "counter", "put": "map", "look": "map", "del": "map",
}
ARGUMENTS = {"write": 1, "add": 1, "remove": 1, "contains": 1, "enq": 1, "plus": 1, "put": 2, "look": 1, "del": 1}
IS_DONE = {"write", "inc", "dec", "enq", "plus", "put"}
SECOND = {"plus", "put", "look", "del", "map"}
RECORDS_OF_A_LOG, LOGS, OBJECTS = 4096, 64, 256
TRANSACTIONS = {1: 1024, 2: 4096}


class Refused(Exception):
    """A line that is none of a trace."""


class Full(Exception):
    """A line for which a log, or the run, has no room."""


class Thread:
    """A thread's log, and its transaction that has not ended."""

    def __init__(self, log):
        self.log = log
        self.records = 0
        self.leave()

    def leave(self):
        self.transaction = None
        self.reserved = None
        self.pending = None
        self.has_tried = False


class Trace:
    """What was read of a trace so far."""

    def __init__(self):
        self.objects = {}
        self.threads = {}
        self.records = []
        self.stamp = 0
        self.transactions = 0
        self.form = 1

    def mark(self):
        """What was read so far, for a line that is taken back whole."""
        return len(self.records), self.stamp, self.transactions

    def back_to(self, before):
        """Takes back the records of the last line."""
        count, self.stamp, self.transactions = before
        for it in self.records[count:]:
            thread = next(thread for thread in self.threads.values() if thread.log == it["log"])
            thread.records -= 1
        del self.records[count:]

    def draw(self):
        self.stamp += 1
        return self.stamp - 1

    def record(self, thread, event, stamp=None, **fields):
        if thread.records == RECORDS_OF_A_LOG:
            raise Full(f"log {thread.log} is full: {RECORDS_OF_A_LOG:,} records")
        stamp = self.draw() if stamp is None else stamp
        self.records.append({"at": thread.records, "ev": event, "log": thread.log, "stamp": stamp, "tx": thread.transaction, **fields})
        thread.records += 1

    def declare(self, kind, name, opening="0"):
        if kind not in KINDS.values() or name in self.objects:
            raise Refused(f"no such kind, or an object declared or used before: {kind} {name}")
        if len(self.objects) == OBJECTS:
            raise Refused(f"a run has at most {OBJECTS} objects")
        self.objects[name] = {"kind": kind, "name": name}
        self.form = 2 if kind in SECOND else self.form
        if kind in ("register", "counter"):
            self.objects[name]["open"] = number(opening)

    def start(self, thread):
        if self.transactions == TRANSACTIONS[2]:
            raise Full(f"the run is full: {TRANSACTIONS[2]:,} transactions")
        if self.transactions == TRANSACTIONS[1]:
            self.form = 2
        thread.transaction = self.transactions
        self.transactions += 1

    def begin(self, thread):
        if thread.transaction is not None:
            self.abort(thread)
        thread.reserved = self.draw()

    def call(self, thread, operation, name, *arguments):
        if operation not in KINDS:
            raise Refused(f"no such event: {operation}")
        if ARGUMENTS.get(operation, 0) != len(arguments):
            raise Refused(f"a {operation} with an argument too many, or too few")
        if thread.pending:
            raise Refused("the operation before has no answer")
        if thread.transaction is None:
            self.start(thread)
        if name not in self.objects:
            self.declare(KINDS[operation], name)
        self.form = 2 if operation in SECOND else self.form
        given = dict(zip(("arg", "val"), map(number, arguments)))
        stamp, thread.reserved = thread.reserved, None
        self.record(thread, "inv", stamp, ob=name, op=operation, **given)
        thread.pending = (operation, name)

    def back(self, thread, answer=None):
        if not thread.pending:
            raise Refused("no operation waits for an answer")
        operation, name = thread.pending
        if (operation in IS_DONE) != (answer is None):
            raise Refused(f"a {operation} with an answer too many, or with none")
        self.record(thread, "ret", ob=name, op=operation, ans=answered(answer))
        thread.pending = None

    def operation(self, thread, operation, name, *values):
        if thread.transaction is None and thread.reserved is None:
            raise Refused("no transaction began: a line with `begin` is missing")
        count = ARGUMENTS.get(operation, 0)
        self.call(thread, operation, name, *values[:count])
        self.back(thread, *values[count:])

    def ask(self, thread):
        if thread.transaction is None:
            self.start(thread)
        stamp, thread.reserved = thread.reserved, None
        self.record(thread, "tryc", stamp)
        thread.has_tried = True

    def commit(self, thread):
        if not thread.has_tried:
            self.ask(thread)
        self.record(thread, "commit")
        thread.leave()

    def abort(self, thread):
        if thread.transaction is None:
            self.start(thread)
        if not thread.pending and not thread.has_tried:
            stamp, thread.reserved = thread.reserved, None
            self.record(thread, "trya", stamp)
        self.record(thread, "abort")
        thread.leave()

    def take(self, words):
        if words[0] == "object":
            return self.declare(*words[1:])
        if len(words) == 1:
            raise Refused("a line has a thread and an event")
        name, event, *rest = words
        if name not in self.threads and len(self.threads) == LOGS:
            raise Refused(f"a run has at most {LOGS} threads")
        thread = self.threads.setdefault(name, Thread(len(self.threads)))
        events = {"begin": self.begin, "call": self.call, "back": self.back, "try": self.ask, "commit": self.commit, "abort": self.abort}
        if event in events:
            return events[event](thread, *rest)
        return self.operation(thread, event, *rest)

    def run(self):
        ends = {thread.log: thread.records for thread in self.threads.values()}
        return recorded.Run(max(1, len(self.threads)), list(self.objects.values()), closed(self.records), ends or {0: 0}, self.form)


def closed(records):
    """The records with stamps that have no gap: a transaction that began and did nothing leaves a stamp unused."""
    stamps = sorted(it["stamp"] for it in records)
    places = {stamp: place for place, stamp in enumerate(stamps)}
    return [{**it, "stamp": places[it["stamp"]]} for it in records]


def number(word):
    try:
        return int(word)
    except ValueError:
        raise Refused(f"no whole number: {word}") from None


def answered(word):
    words = {None: "done", "true": True, "false": False, "empty": "empty"}
    return words[word] if word in words else number(word)


def read(lines):
    """The run of a trace's lines, and what is said of a cut, or nothing."""
    trace, cut = Trace(), None
    for place, text in enumerate(lines, 1):
        words = text.split("#")[0].split()
        try:
            if words:
                before = trace.mark()
                trace.take(words)
        except Full as why:
            trace.back_to(before)
            cut = f"{trace.transactions} of {attempts(lines)} attempts are in the run (line {place}: {why})"
            break
        except Refused as why:
            raise Refused(f"line {place}: {why}") from None
        except TypeError:
            raise Refused(f"line {place}: words too many, or too few") from None
    return trace.run(), cut


def attempts(lines):
    """How many transactions begin in a trace."""
    return sum(words[1:2] == ["begin"] and words[0] != "object" for words in (text.split("#")[0].split() for text in lines))


def main(words):
    script = recorded.Words("from_trace.py", __doc__, "[TRACE]")
    script.add_argument("trace", nargs="?", default="-")
    given = script.taken(words)
    try:
        run, cut = read(script.bytes_of(given.trace).decode().split("\n"))
    except UnicodeDecodeError as error:
        script.fail(recorded.REFUSED, f"the trace is no text in UTF-8: byte {error.start}")
    except Refused as why:
        print(why, file=sys.stderr)
        return recorded.REFUSED
    recorded.say(run.text().rstrip("\n"))
    if cut:
        print(f"from_trace.py: cut: {cut}", file=sys.stderr)
    return 0


if __name__ == "__main__":
    sys.exit(main(sys.argv[1:]))
