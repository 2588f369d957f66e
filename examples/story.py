#!/usr/bin/env python3
"""Tells why a small run is not opaque, in sentences: story.py [--opaq OPAQ] [--run RUN] [--all] [CORE]. core.py finds the small run.

CORE is a file, or - for standard input, as where it is left out. Each sentence follows from the values that were read and written, from what ended
before what began, or from sentences above it. It says of two transactions which one stands before the other, in every order that shows the run. A
circle of such sentences has no order. Before a sentence is printed it is checked: it has to follow from the run and the sentences above it alone.

With --opaq, the built program, runs have a story that are larger, or that have no such circle: the program is asked for a refutation, which it
judges itself, and its steps are told. A step with several ways out becomes a part that begins with 'Suppose'. More than a page is cut; --all
prints it all.

With --run, the run that the core is of, a first line names the kind of fault, and the last lines say what became of each transaction in the run, in
which thread, and at which stamps; of many transactions, of those that the story is about. Who wrote a value that was not to be seen is told by all
records of the run then. With --opaq too, a run that has a story of a page is told in place of a core that has none.

Where there is no story the script says so, and prints the run in the order of its stamps.

The exit status is 0 where a story was told, 1 where there is none, 3 where the input is no run, or has more than 64 transactions and --opaq is
missing, 4 where something failed, and 64 where these words are not understood.
"""

import sys

import fates
import recorded
import refuted

TOLD, NOT_TOLD = 0, 1
MOST, LISTED, FEW = 64, 8, 3
FEW_ENOUGH, SHORT, PAGE, FEW_FATES, SHORT_STEPS = 24, 12, 50, 12, 200


class Sentence:
    """What follows: that one transaction stands `before` another, that one `commits`, or that it can `never` be; the relations it needs; by what it
    follows; the cell that it is about, if it is about one; and of what nobody can have seen, those who brought it about all the same."""

    def __init__(self, follows, words, needs=(), by="time", cell=None, unseen=()):
        self.follows = follows
        self.words = words
        self.needs = tuple(needs)
        self.by = by
        self.cell = cell
        self.unseen = unseen


class Deeds:
    """What one transaction did to one cell: a register, a value of a set, or a key of a map. What it saw from outside, and what it left."""

    def __init__(self):
        self.looks = []
        self.left = None
        self.wrong = None
        self.before = None
        self.any = None

    def look(self, seen, said):
        if self.left is None:
            self.looks.append((seen, said))
        elif self.left != seen:
            self.is_wrong(said)

    def is_wrong(self, said):
        """Notes the first look that did not find what the transaction itself had left there, and that."""
        if self.wrong is None:
            self.wrong, self.before = said, self.left

    def look_for_any(self, said):
        """It saw that a key has a value, and not which."""
        if self.left is None:
            self.any = self.any or said
        elif self.left == NOTHING:
            self.is_wrong(said)


class Story:
    """The values of a run, by transactions; with the run that it is a part of, whose words about who brought something about are exact."""

    def __init__(self, run, whole=None):
        self.run = run
        self.whole = whole
        self.deeds_of = {}
        self.all_deeds = None
        self.all = run.transactions()
        self.kinds = {it["name"]: it["kind"] for it in run.objects}
        self.opens = {it["name"]: NOTHING if it["kind"] == "map" else it.get("open", False) for it in run.objects}
        self.finish = {tx: it.last for tx, it in self.all.items() if it.end != "live"}
        self.may = {tx for tx, it in self.all.items() if it.records[-1]["ev"] in ("commit", "tryc")}
        self.committed = {tx for tx, it in self.all.items() if it.end == "committed"}
        self.calls = {tx: [pair for pair in it.calls() if pair[1]] for tx, it in self.all.items()}
        self.cells = self.deeds()

    def deeds(self):
        """By cell and transaction what was done: of a register by its name, of a set by its name and the value, of a map with the key, too."""
        cells = {}
        for tx, calls in self.calls.items():
            for call, answer in calls:
                kind = self.kinds[call["ob"]]
                if kind == "register":
                    do_register(cells.setdefault((call["ob"],), {}).setdefault(tx, Deeds()), call, answer)
                elif kind == "set":
                    do_set(cells.setdefault((call["ob"], call["arg"]), {}).setdefault(tx, Deeds()), call, answer)
                elif kind == "map":
                    do_map(cells.setdefault((call["ob"], call["arg"], "key"), {}).setdefault(tx, Deeds()), call, answer)
        return cells

    def sentences(self, known):
        """All that follows from values, real time and what is known."""
        yield from self.by_time()
        for cell, deeds in self.cells.items():
            for tx, done in deeds.items():
                yield from self.of_deeds(known, cell, tx, done)
        for name, kind in self.kinds.items():
            if kind == "counter":
                yield from self.by_counter(known, name, self.all)
            elif kind == "queue":
                yield from marked(self.by_queue(known, name), "queue", name)

    def sentences_of(self, known, place):
        """What follows for one transaction from one object, and one of its elements or keys: the place has all that there are of these."""
        tx, name = place[:2]
        kind = self.kinds[name]
        if kind == "counter":
            yield from self.by_counter(known, name, [tx])
        elif kind == "queue":
            yield from marked(self.by_queue(known, name), "queue", name)
        else:
            cell = {"register": (name,), "set": (name, *place[2:]), "map": (name, *place[2:], "key")}[kind]
            done = self.cells.get(cell, {}).get(tx)
            if done:
                yield from self.of_deeds(known, cell, tx, done)
                if kind == "set" and done.looks:
                    yield from self.by_element(known, cell, tx, *done.looks[0])

    def of_deeds(self, known, cell, tx, done):
        yield from self.by_itself(cell, tx, done)
        yield from marked(self.by_any(cell, tx, done), "nowhere", cell)
        for seen, said in done.looks:
            yield from self.by_cell(known, cell, tx, seen, said)

    def by_time(self):
        for one, ended in self.finish.items():
            for other, it in self.all.items():
                if ended < it.first:
                    how = "committed" if one in self.committed else "was aborted"
                    words = f"transaction {one} {how} before transaction {other} began: so {one} stands before {other}"
                    yield Sentence(("before", one, other), words)

    def by_itself(self, cell, tx, done):
        """What no place in any order explains, whatever the others did."""
        if done.wrong:
            yield Sentence(("never",), f"transaction {tx} {done.wrong}, after it had itself {did_itself(cell, done.before)}", by="itself", cell=cell)
        seen = {value: said for value, said in done.looks}
        if len(seen) > 1:
            one, other = list(seen.values())[:2]
            yield Sentence(("never",), f"transaction {tx} {one} and {other}, and changed nothing of it between", by="again", cell=cell)

    def by_any(self, cell, tx, done):
        """What was under a key came from some other transaction."""
        putters = [it for it, other in self.cells[cell].items() if it != tx and it in self.may and other.left not in (None, NOTHING)]
        if done.any and not putters:
            unseen = self.brought(cell, tx, fates.ANY)
            why = fates.why_unseen(unseen, "put there", bool(self.whole)) if unseen else "and nobody else put a value there"
            yield Sentence(("never",), f"transaction {tx} {done.any}, {why}", unseen=unseen)

    def by_cell(self, known, cell, tx, seen, said):
        """Where the value that a transaction saw came from, and what that says of those that replaced it."""
        writers = {it: done.left for it, done in self.cells[cell].items() if done.left is not None and it != tx}
        opens = self.opens[cell[0]]
        sources = [it for it, left in writers.items() if left == seen and it in self.may]
        sources = ([None] if opens == seen else []) + sources
        start = f"transaction {tx} {said}"
        if len(sources) == 1:
            yield from self.from_one(known, cell, tx, start, sources[0], writers, "", [])
            return
        gone = [(source, self.not_from(known, source, tx, writers)) for source in sources]
        left_over = [source for source, need in gone if not need]
        needs = [it for _, need in gone for it in need]
        words = listed(excluded(tx, [(source, need) for source, need in gone if need]))
        if not left_over:
            if words:
                yield Sentence(("never",), f"{start}, but {words}", needs, "gone", cell)
            else:
                yield self.nowhere(start, cell, tx, seen)
        elif len(left_over) == 1:
            yield from self.from_one(known, cell, tx, start, left_over[0], writers, f" ({words})", needs)

    def not_from(self, known, source, tx, writers):
        """The relations by which what the transaction saw was not left by that source, or none; None is the opening."""
        if source is not None and known.has_before(tx, source):
            return [("before", tx, source)]
        for other in sorted(writers, key=lambda it: -self.all[it].first):
            if other != source and known.commits(other) and known.has_before(other, tx):
                if source is None:
                    return [("before", other, tx), ("commits", other)]
                if known.has_before(source, other):
                    return [("before", other, tx), ("commits", other), ("before", source, other)]
        return []

    def nowhere(self, start, cell, tx, seen):
        """A value that can have come from nowhere, and why: who brought it about, and why that cannot be seen; or that nobody did."""
        unseen = self.brought(cell, tx, seen)
        nobody = "which nobody wrote" if len(cell) == 1 else "which nobody brought about"
        if not unseen:
            itself = any(it.tx == tx for it in self.brought(cell, None, seen))
            nobody = nobody.replace("nobody", "nobody else") if itself else nobody
        why = fates.why_unseen(unseen, put(cell, seen), bool(self.whole)) if unseen else nobody
        return Sentence(("never",), f"{start}, {why}", (), "nowhere", cell, unseen)

    def has_more(self, cell, tx, source, value, writers):
        """Whether the run has others who brought that about, and were not to be seen: aborted ones, say."""
        if self.all_deeds is None:
            self.all_deeds = fates.deeds_of(self.whole or self.run)
        told = {it for it, left in writers.items() if left == value and it in self.may}
        return bool(self.all_deeds.get((cell, value), set()) - told - {tx, source})

    def brought(self, cell, tx, value):
        """Who but that transaction brought about what is in a cell, by all records of the run that this is a part of."""
        key = (cell, tx, value)
        if key not in self.deeds_of:
            self.deeds_of[key] = fates.brought(self.whole or self.run, cell, tx, value)
        return self.deeds_of[key]

    def from_one(self, known, cell, tx, start, source, writers, beside, needs):
        """What follows where what the transaction saw can have one source alone; None is the opening."""
        value = self.opens[cell[0]] if source is None else writers[source]
        where = at_start(cell) if source is None else f"which only transaction {source} {put(cell, value)}"
        if self.has_more(cell, tx, source, value, writers):
            where += f", of {'what' if source is None else 'those whom'} {tx} can have seen"
        if source is not None:
            words = f"{start}, {where}{beside}"
            if source not in self.committed:
                yield Sentence(("commits", source), f"{words}: so {source}, which asked to commit, commits", needs, "source", cell)
            yield Sentence(("before", source, tx), f"{words}: so {tx} stands after {source}", needs, "source", cell)
        for other in writers:
            if other == source or not known.commits(other):
                continue
            needed = [*needs, ("commits", other)]
            one, then = f"{start}, {where}{beside}; transaction {other}", f"{replaced(cell, writers[other])} and committed"
            if source is None:
                yield Sentence(("before", tx, other), f"{one} {then}: so {tx} stands before {other}", needed, "replaced", cell)
            elif known.has_before(source, other):
                words = f"{one}, which stands after {source}, {then}: so {tx} stands before {other}"
                yield Sentence(("before", tx, other), words, [*needed, ("before", source, other)], "replaced", cell)
            elif known.has_before(other, tx):
                words = f"{one}, which stands before {tx}, {then}: so {other} stands before {source}"
                yield Sentence(("before", other, source), words, [*needed, ("before", other, tx)], "earlier", cell)

    def by_counter(self, known, name, transactions):
        """What a count that one of these transactions got says of those that counted, by the most and the least that it can be."""
        steps = {tx: sum(step_of(call) for call, _ in calls if call["ob"] == name) for tx, calls in self.calls.items()}
        for tx in transactions:
            own, seen = 0, set()
            for call, answer in self.calls[tx]:
                if call["ob"] == name and call["op"] == "get":
                    seen.add(answer["ans"] - own)
                    start = f"transaction {tx} got {answer['ans']} from {name}"
                    basis = (("it opens at", self.opens[name]), COUNTED, own)
                    yield from marked(self.by_sum(known, tx, start, answer["ans"], basis, steps), "count", name)
                elif call["ob"] == name:
                    own += step_of(call)
            if len(seen) > 1:
                words = f"transaction {tx} got two counts of {name}, and what it counted itself between is not the difference"
                yield Sentence(("never",), words, (), "count", name)

    def by_element(self, known, cell, tx, seen, said):
        """What finding an element says of those that added and removed it: the additions less the removals come to one where it is found, else to
        none."""
        steps = {}
        for other, calls in self.calls.items():
            own = [call["op"] for call, answer in calls if call["ob"] == cell[0] and call.get("arg") == cell[1] and answer["ans"] is True]
            steps[other] = own.count("add") - own.count("remove")
        start = f"transaction {tx} {said}"
        basis = (("the additions less the removals before it begin at", 0), ADDED, 0)
        yield from marked(self.by_sum(known, tx, start, int(seen), basis, steps), "element", cell)

    def by_sum(self, known, tx, start, count, basis, steps):
        """What a sum that a transaction found says of those that change it. The basis: what it is at the start, in words and as a number; how a
        share is told; and the transaction's own share."""
        others = {it: step for it, step in steps.items() if step and it != tx and it in self.may and not known.aborts(it)}
        after = [it for it in others if known.has_before(tx, it)]
        sure = [it for it in others if it not in after and known.has_before(it, tx) and known.commits(it)]
        free = [it for it in others if it not in after and it not in sure]
        base = basis[0][1] + basis[2] + sum(others[it] for it in sure)
        needs = [("before", tx, it) for it in after] + [need for it in sure for need in (("before", it, tx), ("commits", it))]
        early = {it for it in sure if it in self.finish and self.finish[it] < self.all[tx].first}
        of = shares(basis, early, [it for it in sure if it not in early], free, others)
        if not is_sum(count - base, [others[it] for it in free]):
            yield Sentence(("never",), f"{start}, {beyond(count, base, [others[it] for it in free])}: {of}", needs)
            return
        for it in free:
            rest = [others[other] for other in free if other != it]
            if not is_sum(count - base, rest):
                words = f"{start}, which cannot be without {it}: {of}"
                yield Sentence(("before", it, tx), f"{words}: so {tx} stands after {it}", needs)
                if it not in self.committed:
                    yield Sentence(("commits", it), f"{words}: so {it}, which asked to commit, commits", needs)
            elif not is_sum(count - base - others[it], rest) and known.commits(it):
                yield Sentence(("before", tx, it), f"{start}, which cannot be with {it}: {of}: so {tx} stands before {it}", [*needs, ("commits", it)])

    def by_queue(self, known, name):
        """What taking a value from a queue says, where it was put in only once."""
        puts, takes = {}, {}
        for tx, calls in self.calls.items():
            for place, (call, answer) in enumerate(calls):
                if call["ob"] == name and call["op"] == "enq":
                    puts.setdefault(call["arg"], []).append((tx, place))
                elif call["ob"] == name:
                    takes.setdefault(answer["ans"], []).append((tx, place))
        once = {value: found[0] for value, found in puts.items() if len(found) == 1}
        for value, found in takes.items():
            for tx, place in found:
                if value == "empty":
                    yield from self.by_empty(known, name, tx, place, once, takes)
                elif value not in puts:
                    unseen = self.brought((name,), tx, value)
                    why = fates.why_unseen(unseen, "put in", bool(self.whole)) if unseen else "which nobody put in"
                    yield Sentence(("never",), f"transaction {tx} took {value} from {name}, {why}", unseen=unseen)
                elif value in once:
                    yield from self.by_taking(known, name, tx, place, value, once, takes)

    def by_taking(self, known, name, tx, place, value, once, takes):
        start, (putter, at) = f"transaction {tx} took {value} from {name}", once[value]
        if putter != tx and putter not in self.may:
            unseen = self.brought((name,), tx, value)
            yield Sentence(("never",), f"{start}, {fates.why_unseen(unseen, 'put in', bool(self.whole))}", unseen=unseen)
            return
        if putter != tx:
            words = f"{start}, which only transaction {putter} put in"
            if putter not in self.committed:
                yield Sentence(("commits", putter), f"{words}: so {putter}, which asked to commit, commits")
            yield Sentence(("before", putter, tx), f"{words}: so {tx} stands after {putter}")
        for other, _ in takes[value]:
            if other != tx and known.commits(other):
                words = f"{start}, which was put in once and which transaction {other} took and committed"
                yield Sentence(("before", tx, other), f"{words}: so {tx} stands before {other}", [("commits", other)])
        for first, (other, early) in once.items():
            is_before = other == putter and early < at or other != putter and known.has_before(other, putter) and known.commits(other)
            if first != value and is_before and putter != tx != other:
                needs = [] if other == putter else [("before", other, putter), ("commits", other)]
                since = f"transaction {putter} put it in earlier" if other == putter else f"{other} put it in and stands before {putter}"
                words = f"{start}, and {first} stands before {value} in it, since {since}"
                yield from self.gone_before(name, tx, place, first, takes, words, needs)

    def by_empty(self, known, name, tx, place, once, takes):
        for value, (putter, _) in once.items():
            if putter == tx or not known.commits(putter):
                continue
            start = f"transaction {tx} found {name} empty"
            others = [it for it, _ in takes.get(value, []) if it != tx and it in self.may]
            if known.has_before(putter, tx):
                words = f"{start}, and {putter}, which stands before {tx}, put in {value}"
                yield from self.gone_before(name, tx, place, value, takes, words, [("before", putter, tx), ("commits", putter)])
            elif not others and not self.took_itself(tx, place, value, takes):
                words = f"{start}, and transaction {putter} put in {value}, which nobody else took"
                yield Sentence(("before", tx, putter), f"{words}: so {tx} stands before {putter}", [("commits", putter)])

    @staticmethod
    def took_itself(tx, place, value, takes):
        return any(it == tx and at < place for it, at in takes.get(value, []))

    def gone_before(self, name, tx, place, value, takes, words, needs):
        """A value that stands in the queue before what the transaction got was taken before."""
        if self.took_itself(tx, place, value, takes):
            return
        takers = sorted({it for it, _ in takes.get(value, []) if it != tx and it in self.may})
        if not takers:
            yield Sentence(("never",), f"{words}, and nobody else took {value} before", needs)
        elif len(takers) == 1:
            yield Sentence(("before", takers[0], tx), f"{words}; only transaction {takers[0]} took {value}: so {tx} stands after {takers[0]}", needs)


STEP = {"inc": 1, "dec": -1}
NOTHING = "nothing"
COUNTED = ("counts", "count", "the transaction itself counted")
ADDED = ("changes it by", "change it by", "the transaction itself changed it by")


def marked(sentences, by, cell):
    """The sentences, with by what they follow, and of which cell."""
    for it in sentences:
        it.by, it.cell = by, cell
        yield it


def shares(basis, early, sure, free, steps):
    """What a sum can be made of, in words. Where there are many transactions they are told together."""
    (opening, base), (one, many, itself), own = basis
    words = [f"{opening} {base}"]
    if len(early) > FEW:
        words.append(f"{len(early)} transactions that ended before come to {sum(steps[it] for it in early):+d}")
    else:
        sure = [*sorted(early), *sure]
    words += [f"{tx}, which stands before, {one} {steps[tx]:+d}" for tx in sure]
    if len(free) > LISTED:
        more, less = sum(max(0, steps[it]) for it in free), sum(min(0, steps[it]) for it in free)
        words.append(f"{len(free)} that may stand before {many} at most {more:+d} and at least {less:+d} together")
    else:
        words += [f"{tx} {one} {steps[tx]:+d}" for tx in free]
    return listed(words + ([f"{itself} {own:+d}"] if own else []))


def step_of(call):
    """By how much it counts."""
    return call["arg"] if call["op"] == "plus" else STEP.get(call["op"], 0)


def is_sum(wanted, steps):
    """Whether some of the steps come to the wanted number."""
    sums = {0}
    for step in steps:
        sums |= {it + step for it in sums}
    return wanted in sums


def beyond(count, base, steps):
    """Where a count is that cannot be."""
    most, least = base + sum(max(0, it) for it in steps), base + sum(min(0, it) for it in steps)
    if least <= count <= most:
        return "to which no choice of those that count comes there"
    return f"which is at most {most} there" if count > most else f"which is at least {least} there"


def do_register(done, call, answer):
    if call["op"] == "write":
        done.left = call["arg"]
    else:
        done.look(answer["ans"], f"read {call['ob']} = {answer['ans']}")


def do_set(done, call, answer):
    """An operation on a value of a set sees whether it is a member; where it changes that it leaves the opposite."""
    op, said = call["op"], answer["ans"]
    was = not said if op == "add" else said
    known = {"add": "could add" if said else "could not add", "remove": "could remove" if said else "could not remove"}
    words = f"{known[op]} {call['arg']} {'to' if op == 'add' else 'from'}" if op in known else f"found {call['arg']} {'in' if said else 'not in'}"
    done.look(was, f"{words} {call['ob']}")
    if op != "contains" and said:
        done.left = op == "add"


def do_map(done, call, answer):
    """An operation on a key of a map: a look sees the value under it, a removal whether there is one."""
    op, said, where = call["op"], answer["ans"], f"under {call['arg']} of {call['ob']}"
    if op == "put":
        done.left = call["val"]
    elif op == "look":
        done.look(NOTHING if said == "empty" else said, f"found {NOTHING if said == 'empty' else said} {where}")
    elif said:
        done.look_for_any(f"removed what was {where}")
        done.left = NOTHING
    else:
        done.look(NOTHING, f"found {NOTHING} {where} to remove")


def at_start(cell):
    return f"which {cell[0]} holds only at the start" if len(cell) == 1 else "which is so only at the start"


def replaced(cell, value):
    if len(cell) == 1:
        return f"replaced it by {value}"
    if len(cell) == 3:
        return f"removed {cell[1]}" if value == NOTHING else f"put {value} under {cell[1]}"
    return f"{'added' if value else 'removed'} {cell[1]}"


def did_itself(cell, value):
    """What a transaction did to a cell, by what that left there."""
    if len(cell) == 3:
        return f"removed {cell[1]} from {cell[0]}" if value == NOTHING else f"put {value} under {cell[1]} of {cell[0]}"
    return f"written {value} to {cell[0]}" if len(cell) == 1 else f"{'added' if value else 'removed'} {cell[1]} {'to' if value else 'from'} {cell[0]}"


def put(cell, value):
    if len(cell) == 1:
        return "wrote"
    if len(cell) == 3:
        return "removed" if value == NOTHING else "put there"
    return "added" if value else "removed"


def excluded(tx, gone):
    """Why what a transaction saw was not left by these sources, in words."""
    words, by_other = [], {}
    for source, need in gone:
        if need[0][1] == tx:
            words.append(f"{source} stands after {tx}")
        else:
            by_other.setdefault(need[0][1], []).append(source)
    for other, sources in by_other.items():
        from_others = [str(it) for it in sources if it is not None]
        what = listed((["the opening"] if None in sources else []) + ([f"that of {listed(from_others)}"] if from_others else []))
        words.append(f"{other} replaced {what} before {tx}")
    return words


def listed(words):
    return "" if not words else words[0] if len(words) == 1 else f"{', '.join(words[:-1])} and {words[-1]}"


def numbers(transactions):
    return listed([f"transaction {it}" for it in transactions])


class Known:
    """What sentences say so far: which transaction stands before which, each by the fewest sentences, and which commit."""

    def __init__(self, committed):
        self.sure = {tx: [] for tx in committed}
        self.paths = {}

    def has_before(self, one, other):
        return (one, other) in self.paths

    def commits(self, tx):
        return tx in self.sure

    def aborts(self, tx):
        """Nothing is known of that but what the records say."""
        return False

    def because(self, need):
        """The sentences that a relation rests on, those first that others rest on."""
        return self.paths[need[1:]] if need[0] == "before" else self.sure[need[1]]

    def story_of(self, sentence):
        found = []
        for need in sentence.needs:
            found += [it for it in self.because(need) if it not in found]
        return found + [sentence]

    def assume(self, need):
        """Takes a relation as said."""
        if need[0] == "before":
            self.paths[need[1:]] = []
        else:
            self.sure.setdefault(need[1], [])

    def take(self, sentence):
        """Takes what a sentence says, where it is new or told in fewer sentences; whether it was."""
        story = self.story_of(sentence)
        kept, key = (self.paths, sentence.follows[1:]) if sentence.follows[0] == "before" else (self.sure, sentence.follows[1])
        if key in kept and len(kept[key]) <= len(story):
            return False
        kept[key] = story
        return True

    def close(self, transactions):
        """What stands before what by way of others."""
        for middle in transactions:
            for one in transactions:
                if (one, middle) in self.paths:
                    for other in transactions:
                        if (middle, other) in self.paths:
                            self.join(one, middle, other)

    def join(self, one, middle, other):
        story = list(self.paths[one, middle])
        story += [it for it in self.paths[middle, other] if it not in story]
        if (one, other) not in self.paths or len(story) < len(self.paths[one, other]):
            self.paths[one, other] = story


def told(run, whole=None):
    """The sentences of a story, in order, the last of which closes a circle or can never be; none where there is no such story."""
    story = Story(run, whole)
    known = Known(story.committed)
    while True:
        found = [it for it in story.sentences(known)]
        ends = [known.story_of(it) for it in found if it.follows == ("never",)]
        news = [known.take(it) for it in found if it.follows != ("never",)]
        known.close(sorted(story.all))
        ends += [known.paths[tx, tx] for tx in story.all if (tx, tx) in known.paths]
        if ends or not any(news):
            return min(ends, key=lambda it: (len(it), it[-1].follows == ("never",))) if ends else []


def checked(run, sentences, whole=None):
    """Whether each sentence follows from the run and from what those above it say, and the last ones end the story."""
    story = Story(run, whole)
    said = Known(story.committed)
    for sentence in sentences:
        needed = Known(story.committed)
        for need in sentence.needs:
            if not (said.has_before(*need[1:]) if need[0] == "before" else said.commits(need[1])):
                return False
            needed.assume(need)
        if (sentence.follows, sentence.words) not in {(it.follows, it.words) for it in story.sentences(needed)}:
            return False
        if sentence.follows == ("never",):
            return sentence is sentences[-1]
        said.take(sentence)
        said.close(sorted(story.all))
    return any(one == other for one, other in said.paths)


def circle_of(sentences):
    """The transactions of the circle in its order, beginning and ending with the same; none where the last sentence can never be."""
    steps = {}
    for sentence in sentences:
        if sentence.follows[0] == "before":
            steps.setdefault(sentence.follows[1], []).append(sentence.follows[2])
    for start in steps:
        paths = [[start]]
        for path in paths:
            if len(path) > 1 and path[-1] == start:
                return path
            paths += [[*path, it] for it in steps.get(path[-1], []) if it == start or it not in path]
    return []


class Tale:
    """A story in lines, the transactions at fault, and what it rests on."""

    def __init__(self, lines, at_fault, marks):
        self.lines = lines
        self.at_fault = at_fault
        self.marks = marks

    def named_of(self, run):
        """The transactions of a core, where they are few, or else those that the story is about."""
        return set(run.transactions()) if len(run.transactions()) <= FEW_FATES else self.at_fault


def tale_of(run, program=None, most=None, whole=None):
    """The story of a run, or None where there is none: a circle of sentences, or, where the program is given and these are none or many, of the
    refutation that it prints, if that has not more than the most steps. With the run that it is a part of the words are true of that, too."""
    few = len(run.transactions()) <= (FEW_ENOUGH if program else MOST)
    sentences = told(run, whole) if few else []
    if program and not 0 < len(sentences) <= SHORT:
        steps = refuted.said(program, run.text().encode())[2]
        if steps and (most is None or len(steps) <= most):
            lines, at_fault, found = refuted.lines_of(Story(run, whole), steps)
            unseen = {other.tx for it in found for other in it.mark.unseen}
            return Tale(lines, at_fault | unseen & set(run.transactions()), [it.mark for it in found])
    if not sentences or not checked(run, sentences, whole):
        return None
    lines = [f"{place}. {sentence.words}" for place, sentence in enumerate(sentences, 1)]
    marks = [fates.Mark(it.by, it.follows, it.cell, first_named(it), it.words, it.unseen) for it in sentences]
    circle = [] if sentences[-1].follows == ("never",) else circle_of(sentences)
    if circle:
        at_fault = set(circle).union(*(rested_on(it) for it in sentences))
        return Tale([*lines, f"So {' before '.join(str(it) for it in circle)}: no order has that."], at_fault, marks)
    return Tale([*lines, "No place in an order has that."], named_in(sentences[-1], run) & set(run.transactions()), marks)


def rested_on(sentence):
    """The transactions of the orders that a sentence says and needs."""
    return {it for need in (sentence.follows, *sentence.needs) if need[0] == "before" for it in need[1:]}


def first_named(sentence):
    """The transaction that a sentence begins with."""
    words = sentence.words.split(maxsplit=2)
    return int(words[1]) if words[0] == "transaction" else None


def lines_of(run, program=None):
    """The story in lines and the transactions at fault, or None."""
    tale = tale_of(run, program)
    return (tale.lines, tale.at_fault) if tale else None


def named_in(sentence, run):
    """The transactions that a sentence is about."""
    words = sentence.words.replace(",", " ").replace(":", " ").split()
    named = {int(after) for before, after in zip(words, words[1:]) if before == "transaction" and after.isdigit()}
    return named | {it for need in sentence.needs for it in need[1:]} & set(run.transactions())


def table(run):
    yield "stamp  log"
    for record in run.records:
        yield f"{record['stamp']:5}  {record['log']:3}  {recorded.said(record)}"


def words_of(words):
    asked = recorded.Words("story.py", __doc__, "[--opaq OPAQ] [--run RUN] [--all] [CORE]")
    asked.add_argument("--opaq")
    asked.add_argument("--run")
    asked.add_argument("--all", action="store_true")
    asked.add_argument("core", nargs="?", default="-")
    return asked, asked.taken(words)


def shorter(tale, whole, program):
    """The story of the core, or that of the run itself, where the first has more than a page and the second is shorter."""
    if tale and whole and program and len(tale.lines) > PAGE:
        other = tale_of(whole, program, SHORT_STEPS, whole)
        if other and len(other.lines) < len(tale.lines):
            return Tale(["The run itself has a shorter story than the core:", *other.lines], other.at_fault, other.marks)
    return tale


def page(lines, is_whole):
    """The lines, or as many as a page has."""
    if is_whole or len(lines) <= PAGE:
        return lines
    return [*lines[: PAGE - 2], f"and so on: {len(lines) - PAGE + 1} more lines, which --all prints", lines[-1]]


def main(words):
    script, asked = words_of(words)
    run = script.run_of(script.bytes_of(asked.core))
    whole = script.run_of(script.bytes_of(asked.run)) if asked.run else None
    if whole and set(run.transactions()) - set(whole.transactions()):
        script.fail(recorded.REFUSED, f"{asked.run} is another run: it has not all transactions of this one")
    if len(run.transactions()) > MOST and not asked.opaq:
        many = f"{len(run.transactions())} transactions are too many for a story without --opaq OPAQ"
        script.fail(recorded.REFUSED, f"{many}; core.py finds the few that matter")
    try:
        tale = shorter(tale_of(run, asked.opaq, None, whole), whole, asked.opaq)
    except OSError as error:
        script.fail(recorded.FAILED, f"{error.filename}: {error.strerror}")
    fate = list(fates.lines_of(whole, sorted(run.transactions() if tale is None else tale.named_of(run)))) if whole else []
    if tale is None:
        recorded.say("\n".join(["Values and real time make no circle of such sentences. The run, in the order of its stamps:", *table(run), *fate]))
        return NOT_TOLD
    first = [fates.class_of(tale.marks, whole)] if whole else []
    recorded.say("\n".join([it for it in first if it] + page(tale.lines, asked.all) + fate))
    return TOLD


if __name__ == "__main__":
    sys.exit(main(sys.argv[1:]))
