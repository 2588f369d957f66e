#!/usr/bin/env python3
"""Finds the core of a recorded run that is not opaque, a smallest run that still is not: core.py [--budget N] [--most M] OPAQ [RUN [OUT]].

OPAQ is the built program and RUN a file that it reads, or - for standard input, as where it is left out. The program is asked for a refutation. What
that names is the first part that is tried; parts of it are left out then, many at once, then halves of them and so on down to single ones, and opaq
says of each whether the rest is opaque. A part stays out only where the rest is not. Where there is no refutation, or the part that it names is
opaque, the search begins with the whole run. Of a value that was read one writer stays, where the run has one, also one that was not committed.

Every order that shows a run opaque shows what is left of it, too: docs/STORY.md says why, part by part. So where the core is not opaque, the
run is not, for the reason that the core has.

The core is printed as a table in the order of its stamps. Transactions and objects keep their names; stamps, places and logs are numbered anew,
and the table has the old numbers beside the new ones. The core goes to the file OUT, as a run that opaq reads.

Where the search begins with a refutation each part is refuted by clauses, in a second at most, and the search ends after 20 seconds or six questions
without an answer. Else a question that takes opaq more than N expanded beginnings of orders (10,000) is asked again as one for a refutation. One that
takes more than 20 seconds then, or where N is 0, is given up, and the part stays. When opaq was asked about more than M records in all (1,500,000,
mostly less than a minute) no more is left out. Where any of that happened it is said: the core may not be a smallest one.

Where opaq gives up on the whole run, each object is tried alone: one that is not opaque shows that the run is not.

The exit status is 1 where a core was found, 0 where the run is opaque, 2 where opaq gives up on the whole run and each object, 3 where it refuses
the run, 4 where something failed, and 64 where these words are not understood.
"""

import bisect
import gc
import json
import sys
import time

import recorded
import refuted

OPAQUE, NOT_OPAQUE, UNFINISHED, REFUSED, FAILED = 0, 1, 2, 3, 4
OBSERVING = ("read", "get", "contains", "look")
COUNTING = {"inc": 1, "dec": -1}
OPENING_MOST = 1 << 62
CUT_FIRST = 20_000
SOON = 3_000
SECONDS, SECONDS_OF_A_PART, SECONDS_BY_CLAUSES, GIVEN_UP_MOST = 20, 1, 20, 6
NEVER = float("inf")
ANY = "any"
TABLE_MOST = 500
TRIED_FIRST = ("counter", "queue", "set", "map", "register")


class Body:
    """A transaction: its first stamp in the run, its answered operations, and the records of its end."""

    def __init__(self, number, start, calls, ends):
        self.number = number
        self.start = start
        self.calls = calls
        self.ends = ends

    @property
    def end(self):
        """What it came to: 'commit', 'abort', 'tryc' where it has asked to commit and has no answer, or 'live'."""
        return self.ends[-1]["ev"] if self.ends else "live"

    @property
    def may_commit(self):
        return self.end in ("commit", "tryc")

    @property
    def finish(self):
        """The stamp of its commit or abort, or None."""
        return self.ends[-1]["stamp"] if self.end in ("commit", "abort") else None

    @property
    def is_silent(self):
        """Whether no other transaction can see it."""
        return not self.may_commit or all(call["op"] in OBSERVING for call, _ in self.calls)

    def kept(self, keeps):
        """The transaction with those of its operations, and the same end."""
        return Body(self.number, self.start, [it for it in self.calls if keeps(it)], self.ends)

    def records(self):
        return [record for call in self.calls for record in call] + self.ends


class Part:
    """What is left of a run: objects, and transactions that have operations."""

    def __init__(self, objects, bodies, form):
        self.form = form
        self.bodies = [body for body in bodies if body.calls]
        used = {call["ob"] for body in self.bodies for call, _ in body.calls}
        self.objects = [it for it in objects if it["name"] in used]

    def kept(self, keeps):
        """The part with those operations."""
        return Part(self.objects, [body.kept(keeps) for body in self.bodies], self.form)

    def calls(self):
        return [(body, call, answer) for body in self.bodies for call, answer in body.calls]

    def placed(self):
        """The records, each with the stamp at whose place it stands. The first record that is left of a transaction stands at the
        transaction's first stamp, where some other one ended in between: so no transaction comes to begin after the end of another one."""
        finishes = sorted(body.finish for body in self.bodies if body.finish is not None)
        found = []
        for body in self.bodies:
            records = body.records()
            own = records[0]["stamp"]
            has_between = bisect.bisect(finishes, body.start) < bisect.bisect(finishes, own)
            found.append((body.start if has_between else own, records[0]))
            found += [(record["stamp"], record) for record in records[1:]]
        return sorted(found, key=lambda it: it[0])

    def text(self):
        """The part as a run that opaq reads."""
        logs, lines = {}, []
        for stamp, (_, record) in enumerate(self.placed()):
            log, places = logs.setdefault(record["log"], (len(logs), []))
            lines.append(spelled(record, len(places), log, stamp))
            places.append(stamp)
        marks = [recorded.line(end=len(places), log=log) for log, places in logs.values()] or [recorded.line(end=0, log=0)]
        header = recorded.line(format=self.form, logs=max(1, len(logs)), objects=len(self.objects))
        return "\n".join([header, *(recorded.line(**it) for it in self.objects), *lines, *marks]) + "\n"


def spelled(record, place, log, stamp):
    """A record with numbers anew. Its other words are spelled once."""
    if "words" not in record:
        given = "".join(f'"{key}":{value_text(record[key])},' for key in ("ans", "arg") if key in record)
        called = f'"ob":"{record["ob"]}","op":"{record["op"]}",' if "op" in record else ""
        value = f',"val":{record["val"]}' if "val" in record else ""
        record["words"] = (f'{{{given}"at":', f',"ev":"{record["ev"]}","log":', f',{called}"stamp":', f',"tx":{record["tx"]}{value}}}')
    at, event, more, tail = record["words"]
    return f"{at}{place}{event}{log}{more}{stamp}{tail}"


def value_text(value):
    return str(value) if type(value) is int else json.dumps(value)


def part_of(run):
    """The whole run, without operations that have no answer: those ask for nothing and change nothing."""
    bodies = []
    for it in run.transactions().values():
        calls = [(call, answer) for call, answer in it.calls() if answer]
        ends = [record for record in it.records if record["ev"] in ("tryc", "trya", "commit", "abort")]
        if len(ends) == 1 and ends[0]["ev"] == "abort":
            ends = [{key: it.records[-2][key] for key in ("log", "stamp", "tx")} | {"ev": "trya"}, *ends]
        bodies.append(Body(it.number, it.first, calls, ends))
    return Part(run.objects, bodies, run.form)


def is_counting(call):
    return call["op"] in COUNTING or call["op"] == "plus"


def step_of(call):
    """By how much it counts."""
    return call["arg"] if call["op"] == "plus" else COUNTING[call["op"]]


def beginning(part, stamp):
    """What was answered up to that stamp, and of what was answered later the changes that such an answer may rest on: writes of a value that was
    read, all changes of a set or queue that are of a value that was met there, or of a map that are of a key, all counting where the count was
    asked for."""
    early = [(call, answer) for _, call, answer in part.calls() if answer["stamp"] <= stamp]
    met = {thing_of(call, answer) for call, answer in early if call["op"] != "write" and not is_counting(call)}
    return part.kept(lambda it: it[1]["stamp"] <= stamp or not changes_nothing(*it) and thing_of(*it) in met)


def without_transactions(part, numbers):
    return Part(part.objects, [body for body in part.bodies if body.number not in numbers], part.form)


def without_objects(part, names):
    return part.kept(lambda it: it[0]["ob"] not in names)


def thing_of(call, answer):
    """What an operation is about: a value of a register, a set or a queue, a key of a map, or a counter."""
    if "arg" in call and not is_counting(call):
        return call["ob"], call["arg"]
    return call["ob"], None if is_counting(call) or call["op"] == "get" else answer["ans"]


def without_things(part, things):
    """Leaves out values of objects: all that wrote, read, put in, took out or asked for one of them."""
    return part.kept(lambda it: thing_of(*it) not in things)


def without_ends(part, numbers):
    """Has these transactions not end. No other one sees them, so it is the same whether they commit."""
    return Part(part.objects, [Body(it.number, it.start, it.calls, []) if it.number in numbers else it for it in part.bodies], part.form)


def without_calls(part, stamps):
    return part.kept(lambda it: it[0]["stamp"] not in stamps)


def changes_nothing(call, answer):
    """Whether the operation leaves its object as it is, by what it is or by its answer."""
    return call["op"] in OBSERVING or answer["ans"] is False or answer["ans"] == "empty"


def is_written_over(body, place):
    """Whether the transaction itself writes the register again, and does not read it between."""
    name = body.calls[place][0]["ob"]
    return next((call["op"] == "write" for call, _ in body.calls[place + 1 :] if call["ob"] == name), False)


def spare_calls(part):
    """The invocations' stamps of the operations that may be left out, each whatever becomes of the others."""
    read = {(call["ob"], answer["ans"]) for _, call, answer in part.calls() if call["op"] == "read"}
    found = []
    for body in part.bodies:
        last = {call["ob"]: call for call, _ in body.calls}
        for place, (call, answer) in enumerate(body.calls):
            is_unseen = call["op"] == "write" and ((call["ob"], call["arg"]) not in read or is_written_over(body, place))
            is_last = not body.may_commit and last[call["ob"]] is call
            if changes_nothing(call, answer) or is_unseen or is_last:
                found.append(call["stamp"])
    return found


def unseen(part):
    """The invocations' stamps of writes, puts and counting that nobody can see by real time: who could began after all who looked had ended, or
    another one replaced it in between. Of those who left a value that was seen one stays: else it would seem that nobody did."""
    looks, changes = {}, {}
    for body, call, answer in part.calls():
        if call["op"] in ("write", "put") or is_counting(call):
            changes.setdefault(cell_of(call), []).append((body, call))
        elif cell_of(call):
            looks.setdefault(cell_of(call), []).append((body, ANY if call["op"] == "del" else answer["ans"]))
    found = []
    for cell, deeds in changes.items():
        for value in {left_by(call) for _, call in deeds}:
            own = [it for it in deeds if left_by(it[1]) == value]
            seers = [it for it, seen in looks.get(cell, []) if value is None or seen in (value, ANY)]
            gone = [it for it in own if seers and is_unseen(it[0], value, deeds, seers)]
            stays = max(gone, key=lambda it: (it[0].start < seers[0].start, it[0].start)) if value is not None and len(gone) == len(own) else None
            found += [it[1]["stamp"] for it in gone if it is not stays]
    return found


def cell_of(call):
    """A register, a counter or a key of a map; none for what has other answers."""
    if call["op"] in ("put", "look", "del"):
        return call["ob"], call["arg"]
    return (call["ob"],) if call["op"] in ("write", "read", "get") or is_counting(call) else None


def left_by(call):
    return None if is_counting(call) else call["val"] if call["op"] == "put" else call["arg"]


def is_unseen(body, value, changes, seers):
    """Whether none of those who saw that value, or a count, can have seen what the transaction left."""
    if any(it is body for it in seers):
        return False
    if body.start > max(NEVER if it.finish is None else it.finish for it in seers):
        return True
    first = min(it.start for it in seers)
    others = [it for it, _ in changes if it is not body and it.end == "commit"]
    return value is not None and body.finish is not None and any(it.start > body.finish and it.finish < first for it in others)


def found_by(call, answer):
    """A cell, and what the operation found in it, where somebody brought that about; or None."""
    op, said, name = call["op"], answer["ans"], call["ob"]
    if op in ("read", "deq", "look"):
        return None if said == "empty" else (name, call.get("arg"), said)
    if op == "del":
        return (name, call["arg"], ANY) if said else None
    is_in = said is True if op in ("contains", "remove") else op == "add" and said is False
    return (name, call["arg"], True) if is_in else None


def brought_by(call, answer):
    """The cells that the operation changes, each with what it leaves there; of a queue, with what it puts in."""
    op, cell = call["op"], (call["ob"], None if call["op"] in ("write", "enq") else call.get("arg"))
    if op == "put":
        return [(*cell, call["val"]), (*cell, ANY)]
    if op in ("del", "remove"):
        return [(*cell, None)] if answer["ans"] is True else []
    return [(*cell, call["arg"])] if op in ("write", "enq") else [(*cell, True)] if op == "add" and answer["ans"] else []


def without_source(part):
    """What was found of which none of the others in the part brought it about, and that the reader itself had not left there: each with the reader
    and the stamp of its answer."""
    found, brought = [], {}
    opens = {(it["name"], None, it["open"]) for it in part.objects if it["kind"] == "register"}
    for body in part.bodies:
        own = {}
        for call, answer in body.calls:
            thing = found_by(call, answer)
            if thing and thing not in opens and thing[2] not in own.get(thing[:2], ()):
                found.append((thing, body.number, answer["stamp"]))
            for it in brought_by(call, answer):
                brought.setdefault(it, set()).add(body.number)
            own |= {it[:2]: [other[2] for other in brought_by(call, answer)] for it in brought_by(call, answer) if call["op"] != "enq"}
    return {thing: (reader, stamp) for thing, reader, stamp in found if not brought.get(thing, set()) - {reader}}


def with_sources(smaller, part):
    """The smaller part, and of what was found in it one of those in the part who brought it about, where else it would seem that nobody did."""
    missing = without_source(smaller)
    found = sources_in(part, missing) if missing else {}
    if not found:
        return smaller
    stamps, numbers = {call["stamp"] for _, call, _ in smaller.calls()}, set()
    for thing, (_, body, call) in found.items():
        stamps |= {call["stamp"]} | changes_that_hide(body, thing, *missing[thing])
        numbers.add(body.number)
    ends = {it.number: it.ends for it in smaller.bodies}
    bodies = [body.kept(lambda it: it[0]["stamp"] in stamps) for body in part.bodies]
    for body in bodies:
        is_whole = body.number not in ends or body.number in numbers and body.may_commit
        body.ends = body.ends if is_whole else ends[body.number]
    return Part(smaller.objects, bodies, smaller.form)


def sources_in(part, missing):
    """Of each thing who brought it about: not the reader itself, if there is another one; the latest one before the answer, if there is one. What a
    transaction that may commit put into a set or a queue is not looked for: others took it out."""
    found = {}
    for body in part.bodies:
        for call, answer in body.calls:
            for thing in brought_by(call, answer):
                if thing in missing and not (body.may_commit and call["op"] in ("enq", "add")):
                    reader, stamp = missing[thing]
                    is_before = call["stamp"] < stamp
                    rank = (body.number != reader, is_before, call["stamp"] if is_before else -call["stamp"])
                    if thing not in found or found[thing][0] < rank:
                        found[thing] = rank, body, call
    return found


def changes_that_hide(body, thing, reader, stamp):
    """The stamps of the changes that make what a transaction brought about one that cannot be seen: the last change of that cell, where it may
    commit; and the last one before the answer, where it is the reader itself."""
    changes = [call["stamp"] for call, answer in body.calls if any(it[:2] == thing[:2] for it in brought_by(call, answer))]
    found = {changes[-1]} if body.may_commit else set()
    early = [it for it in changes if it < stamp and body.number == reader]
    return found | set(early[-1:])


def first_core(part, steps):
    """What the steps of a refutation name, as far as steps that keep each order may leave out the rest."""
    named = refuted.Named(steps)
    part = part.kept(lambda it: it[0]["ob"] in named.objects and (is_whole(part, it[0]["ob"]) or named.has_element(it[0]["ob"], it[0]["arg"])))
    part = without_transactions(part, {it.number for it in part.bodies if it.is_silent and it.number not in named.transactions})
    kept, before = replacers(part, steps), None

    def is_deed(tx, call):
        return (tx, call["ob"]) in kept or named.has_deed(tx, call["ob"], call.get("arg"))

    while before != size(part):
        before = size(part)
        has_deed = {call["stamp"] for body, call, _ in part.calls() if is_deed(body.number, call)}
        part = without_calls(part, set(spare_calls(part)) - has_deed)
        part = without_calls(part, set(unseen(part)) - has_deed)
    return counted(part)


def replacers(part, steps):
    """Who replaced what a transaction read, where by real time no write of that value, and no opening, can have been what it read: for each one
    transaction and register. A step that names all who may have left a value says nothing of these."""
    writes, found = {}, set()
    for body, call, _ in part.calls():
        if call["op"] == "write":
            writes.setdefault(call["ob"], []).append((body, call["arg"]))
    bodies = {it.number: it for it in part.bodies}
    for tx, name in {(it.cell[0], it.cell[1]) for it in steps if it.reason == "sources" and it.cell[1] in writes and it.cell[0] in bodies}:
        reader = bodies[tx]
        seen = next((answer["ans"] for call, answer in reader.calls if call["ob"] == name and call["op"] == "read"), None)
        ends = [NEVER if it.finish is None else it.finish for it, value in writes[name] if value == seen and it is not reader]
        ends += [-1] if any(it["name"] == name and it["open"] == seen for it in part.objects) else []
        others = [it for it, _ in writes[name] if it.end == "commit" and it.finish < reader.start]
        latest = max(others, key=lambda it: it.start, default=None)
        if latest and any(end < latest.start for end in ends):
            found.add((latest.number, name))
    return found


def is_whole(part, name):
    """Whether the object is no set and no map, whose elements and keys go one by one."""
    return next(it["kind"] for it in part.objects if it["name"] == name) not in ("set", "map")


def counted(part):
    """Has each counter open at what transactions before all that get it left, and leaves their counting out."""
    objects, gone = [], set()
    for it in part.objects:
        if it["kind"] == "counter":
            stamps, more = counted_before(part, it["name"])
            if abs(it["open"] + more) <= OPENING_MOST:
                it = it | {"open": it["open"] + more}
                gone |= stamps
        objects.append(it)
    return without_calls(Part(objects, part.bodies, part.form), gone)


def counted_before(part, name):
    """The counting on a counter that comes before every `get`, whatever the order: by its stamps, and what it comes to."""
    bodies = [(body, [call for call, _ in body.calls if call["ob"] == name]) for body in part.bodies]
    bodies = [(body, calls) for body, calls in bodies if calls]
    first = min((body.start for body, calls in bodies if any(it["op"] == "get" for it in calls)), default=None)
    if first is None:
        return set(), 0
    calls = [it for body, calls in bodies if body.end == "commit" and body.finish < first for it in calls]
    if len(bodies) == 1:
        own = bodies[0][1]
        calls = own[: next(at for at, it in enumerate(own) if it["op"] == "get")]
    return {it["stamp"] for it in calls}, sum(step_of(it) for it in calls)


def pauses(part):
    """By thing: the first stamps of transactions on it, before which all that began earlier on it had ended, the first one aside."""
    found, ended = {}, {}
    for body in sorted(part.bodies, key=lambda body: body.start):
        for thing in dict.fromkeys(thing_of(*it) for it in body.calls):
            if thing in ended and ended[thing] < body.start:
                found.setdefault(thing, []).append(body.start)
            finish = NEVER if body.finish is None else body.finish
            ended[thing] = max(ended.get(thing, finish), finish)
    return found


def without_late(part, thing, start):
    """Leaves out what transactions did with a thing that began at that stamp or later."""
    late = {body.number for body in part.bodies if body.start >= start}
    stamps = {call["stamp"] for body, call, answer in part.calls() if body.number in late and thing_of(call, answer) == thing}
    return without_calls(part, stamps)


def is_undone(part, thing, start):
    """Whether transactions that began before that stamp put as many of the value into the set or queue as they took out. All of them ended."""
    if thing[1] is None or any(it["name"] == thing[0] and it["kind"] in ("register", "map") for it in part.objects):
        return False
    early = [(body, call, answer) for body, call, answer in part.calls() if body.start < start and thing_of(call, answer) == thing]
    put = sum(body.may_commit for body, call, answer in early if call["op"] == "enq" or call["op"] == "add" and answer["ans"])
    taken = sum(body.may_commit for body, call, answer in early if call["op"] == "deq" or call["op"] == "remove" and answer["ans"])
    return put == taken


def may_be_late(part, thing, start):
    """Whether what began on it at that stamp or later may be left out. A queue must not keep what was taken out of it then."""
    kind = next(it["kind"] for it in part.objects if it["name"] == thing[0])
    return kind != "queue" or is_undone(part, thing, start)


def without_early(part, thing, start):
    """Leaves out what transactions did with a thing that began before that stamp."""
    early = {body.number for body in part.bodies if body.start < start}
    stamps = {call["stamp"] for body, call, answer in part.calls() if body.number in early and thing_of(call, answer) == thing}
    return without_calls(part, stamps)


def answer(program, budget, text):
    """What opaq answers of a text in bytes within the budget, or else by clauses: its exit status, and its line."""
    status, line = recorded.ask(program, ["decide", "--budget", str(budget)], text)
    if status == UNFINISHED and budget > 0:
        status, line, _ = refuted.said(program, text, SECONDS)
    return status, line


def first_answer(program, budget, text):
    """The same of the whole run, and the steps of a refutation, where there is one."""
    status, line = recorded.ask(program, ["decide", "--budget", str(min(budget, SOON))], text)
    if budget > 0 and status in (NOT_OPAQUE, UNFINISHED):
        said, its_line, steps = refuted.said(program, text, SECONDS)
        if status == UNFINISHED or steps:
            return said, its_line, steps
    return status, line, []


class Search:
    """The least part that was found not to be opaque, and how often opaq was asked."""

    def __init__(self, program, budget, most, part):
        self.program = program
        self.budget = budget
        self.left = most
        self.whole = self.part = part
        self.by_clauses = self.was_late = False
        self.until = NEVER
        self.asked = 0
        self.given_up = 0
        self.has_found = False
        self.undone = []

    def is_not_opaque(self, part):
        self.left -= size(part)
        if self.left < 0 or self.by_clauses and self.is_late():
            return False
        self.asked += 1
        if self.by_clauses:
            status, line, _ = refuted.said(self.program, part.text().encode(), SECONDS_OF_A_PART)
        else:
            status, line = answer(self.program, self.budget, part.text().encode())
        if status not in (OPAQUE, NOT_OPAQUE, UNFINISHED):
            fail(FAILED, f"a part of the run: {line}")
        self.given_up += status == UNFINISHED
        return status == NOT_OPAQUE

    def is_late(self):
        """Whether a search by clauses is to end: it gave up some questions, or takes much longer than the first refutation took."""
        self.was_late = self.was_late or self.given_up == GIVEN_UP_MOST or time.monotonic() > self.until
        return self.was_late

    def takes(self, part):
        """Goes on with the part, and those who brought about what was found in it, where it is not opaque."""
        fuller = with_sources(part, self.part)
        if fuller is not part and size(fuller) >= size(self.part):
            return False
        part, is_taken = fuller, self.is_not_opaque(fuller)
        if is_taken:
            self.part, self.has_found = part, True
        return is_taken

    def leave_out(self, without, parts):
        """Leaves out what it can: all of it, or else of one half and then of the other."""
        if self.left < 0:
            return
        smaller = without(self.part, set(parts))
        if size(smaller) == size(self.part) or self.takes(smaller) or len(parts) == 1:
            return
        middle = len(parts) // 2
        self.leave_out(without, parts[:middle])
        self.leave_out(without, parts[middle:])

    def leave_alone(self):
        """Looks for an object that alone shows that the run is not opaque. All these questions are as long as one of the whole run."""
        by_kind = sorted(self.part.objects, key=lambda it: -TRIED_FIRST.index(it["kind"]))
        calls = {}
        for body in self.part.bodies:
            for it in body.calls:
                calls.setdefault(it[0]["ob"], {}).setdefault(body.number, []).append(it)
        for it in by_kind if len(by_kind) > 1 else []:
            own = calls[it["name"]]
            bodies = [Body(body.number, body.start, own[body.number], body.ends) for body in self.part.bodies if body.number in own]
            if self.takes(Part([it], bodies, self.part.form)):
                return

    def begin_with(self, steps):
        """Goes on with what a refutation names, then with what the refutation of that names, and so on, as long as it gets less."""
        self.by_clauses = bool(steps)
        self.until = time.monotonic() + SECONDS_BY_CLAUSES
        while steps and self.left >= 0:
            smaller = first_core(self.part, steps)
            if size(smaller) == size(self.part) or not self.takes(smaller):
                break
            steps = refuted.said(self.program, self.part.text().encode(), SECONDS)[2]

    def cut(self):
        """Leaves out what came after the first answer with which it is not opaque."""
        whole = self.part
        stamps = sorted(answer["stamp"] for _, _, answer in whole.calls())
        below, above = -1, len(stamps) - 1
        while above - below > 1:
            middle = (below + above) // 2
            if self.takes(beginning(whole, stamps[middle])):
                above = middle
            else:
                below = middle

    def leave_out_by_time(self, may_go, without, starts_of):
        """Leaves out of each thing what came before or after one of its pauses, as much as it can. Whether something went, by thing."""
        gone = []
        for thing, starts in starts_of.items():
            for start in starts:
                if self.left < 0:
                    return gone
                smaller = without(self.part, thing, start)
                if size(smaller) < size(self.part) and may_go(self.part, thing, start) and self.takes(smaller):
                    gone.append(thing)
                    break
        return gone

    def lessen(self):
        """Tries every kind of part once."""
        by_kind = sorted(self.part.objects, key=lambda it: TRIED_FIRST.index(it["kind"]))
        self.leave_out(without_objects, [it["name"] for it in by_kind])
        self.cut()
        self.leave_out(without_transactions, [body.number for body in self.part.bodies if body.is_silent])
        self.leave_out(without_things, sorted({thing_of(call, answer) for _, call, answer in self.part.calls()}, key=str))
        self.leave_out(without_calls, spare_calls(self.part))
        self.leave_out(without_calls, unseen(self.part))
        self.leave_out_by_time(may_be_late, without_late, pauses(self.part))
        last_first = {thing: starts[::-1] for thing, starts in pauses(self.part).items()}
        self.undone += self.leave_out_by_time(is_undone, without_early, last_first)
        self.leave_out(without_ends, [body.number for body in self.part.bodies if body.is_silent and body.ends])
        fewer = counted(self.part)
        if size(fewer) < size(self.part):
            self.takes(fewer)

    def finish(self):
        """Tries all parts from the front until none goes."""
        before = None
        while before != size(self.part) and self.left >= 0:
            before = size(self.part)
            self.lessen()


def size(part):
    return sum(len(body.records()) for body in part.bodies)


def core_of(program, budget, most, run, is_known, steps=()):
    """The search that ended with a core. It begins with what the steps of a refutation name, where they are given and that is not opaque. Else, of a
    run that is known not to be opaque, and not too long for it, the core is of its first fault: it is cut before all else. Of one that is not known
    `has_found` says at the end whether some part is not opaque."""
    search = Search(program, budget, most, part_of(run))
    search.has_found = is_known
    search.begin_with(steps)
    if search.part is search.whole:
        search.by_clauses = False
        if is_known and size(search.part) <= CUT_FIRST:
            search.cut()
        search.leave_alone()
    if search.has_found:
        search.finish()
    return search


def table(part):
    """The records in the order of their stamps, with the old numbers."""
    logs = {}
    yield "stamp  of run  log  of run"
    for new, (_, record) in enumerate(part.placed()):
        log = logs.setdefault(record["log"], len(logs))
        yield f"{new:5}  {record['stamp']:6}  {log:3}  {record['log']:6}  {recorded.said(record)}"


def openings(run, part):
    """What is said of counters that open at another number than in the run."""
    old = {it["name"]: it.get("open") for it in run.objects}
    for it in part.objects:
        if it.get("open") != old[it["name"]]:
            yield f"{it['name']} opens at {it['open']}, not at {old[it['name']]}: what was counted before every get of it is left out"


def told(run, search):
    """What is printed of a core."""
    part = search.part
    transactions = len({record["tx"] for record in run.records})
    yield f"not opaque: {len(part.bodies)} of {transactions} transactions, {size(part)} of {len(run.records)} records"
    yield from table(part) if size(part) <= TABLE_MOST else [f"more than {TABLE_MOST} records make no table"]
    yield from openings(run, part)
    for name, value in dict.fromkeys(search.undone):
        yield f"{value} was put into {name} and taken out again before all this: that is left out"
    if search.given_up:
        yield f"perhaps not a smallest one: opaq gave up on {search.given_up} of {search.asked} questions"
    elif search.was_late:
        yield f"perhaps not a smallest one: the search was ended after {SECONDS_BY_CLAUSES} seconds"
    if search.left < 0:
        yield "perhaps not a smallest one: opaq was asked about too many records, see --most"


def fail(status, said):
    """Ends the script."""
    print(f"core.py: {said}", file=sys.stderr)
    sys.exit(status)


def words_of(words):
    asked = recorded.Words("core.py", __doc__, "[--budget N] [--most M] OPAQ [RUN [OUT]]")
    asked.add_argument("--budget", type=recorded.number_of, default=10_000)
    asked.add_argument("--most", type=recorded.number_of, default=1_500_000)
    asked.add_argument("opaq")
    asked.add_argument("run", nargs="?", default="-")
    asked.add_argument("out", nargs="?")
    return asked, asked.taken(words)


def main(words):
    gc.disable()  # a run of full size is a million small things, none of which goes
    script, asked = words_of(words)
    text = script.bytes_of(asked.run)
    try:
        status, line, steps = first_answer(asked.opaq, asked.budget, text)
        if status in (OPAQUE, REFUSED):
            print(line)
            return status
        if status not in (NOT_OPAQUE, UNFINISHED):
            fail(FAILED, line)
        run = recorded.read(text.decode())
        search = core_of(asked.opaq, asked.budget, asked.most, run, status == NOT_OPAQUE, steps)
        if not search.has_found:
            status, line = answer(asked.opaq, asked.budget, text)
            if status in (OPAQUE, UNFINISHED):
                print(line)
                return status
            search = core_of(asked.opaq, asked.budget, asked.most, run, True)
    except OSError as error:
        fail(FAILED, f"{error.filename}: {error.strerror}")
    recorded.say("\n".join(told(run, search)))
    if asked.out:
        write(asked.out, search.part.text())
    return NOT_OPAQUE


def write(name, text):
    """The core, in a file. Where it cannot be written the table stands printed."""
    try:
        with open(name, "w", encoding="utf-8") as file:
            file.write(text)
    except OSError as error:
        fail(FAILED, f"{name}: {error.strerror}")


if __name__ == "__main__":
    sys.exit(main(sys.argv[1:]))
