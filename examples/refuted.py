"""Puts a refutation of a run into sentences, for story.py and core.py: what `opaq refute` answers, followed step by step.

A refutation is a list of clauses (docs/REFUTATIONS.md). The last step names steps each of which leaves one thing: these become sentences, and the
contradiction is the end. A clause that was derived itself becomes a part of its own: suppose that none of it holds, and see that this cannot be.

Each sentence says that something holds in every order in which what is said above it holds. Where story.py derives the same from the values, its
words are taken; else the words of the law, as steps.py has them.
"""

import json

import fates
import recorded
import steps

SECONDS = 60
LISTED, LONG = 6, 500
BY = {
    "stands": "source", "between": "replaced", "sources": "gone", "counter": "count", "remainder": "count", "counts": "count", "items": "queue", "item": "queue",
}


def literal_of(raw):
    """A literal as a tuple. The contrary of `before` is the other order, that of a fate the other fate."""
    if raw[0] == "not":
        return contrary(literal_of(raw[1:]))
    return tuple(tuple(it) if isinstance(it, list) else it for it in raw)


def contrary(literal):
    word = literal[0]
    if word == "before":
        return ("before", literal[2], literal[1])
    if word in ("commits", "aborts"):
        return ("aborts" if word == "commits" else "commits", literal[1])
    return literal[1:] if word == "not" else ("not", *literal)


class Step:
    """A clause, and its reason."""

    def __init__(self, raw):
        self.reason = raw["by"][0]
        self.fields = [tuple(it) if isinstance(it, list) else it for it in raw["by"][1:]]
        self.clause = [literal_of(it) for it in raw["c"]]

    @property
    def cell(self):
        """The transaction and the object, with the element or key, that a law is about."""
        name = self.fields[1] if isinstance(self.fields[1], tuple) else (self.fields[1],)
        return (self.fields[0], *name, self.fields[2]) if self.reason == "element" else (self.fields[0], *name)

    def transactions(self):
        """The transactions that the step names."""
        named = set()
        if self.reason == "turn":
            named |= set(self.fields)
        elif self.reason != "units":
            places = {"stands": (0, 2), "between": (0, 2, 3), "item": (0, 3), "place": (0, 3), "gone": (0, 3, 5), "left": (0, 3)}
            named |= {self.fields[place] for place in places.get(self.reason, (0,))}
        for it in self.clause:
            it = it[1:] if it[0] == "not" else it
            named |= set(it[1:3]) if it[0] == "before" else {it[1]} if len(it) == 2 else {it[1], it[3] if it[0] == "sees" else it[4]}
        return named - {None}


def steps_of(text):
    """The steps of a refutation, up to the first that leaves nothing."""
    found = []
    for line in text.splitlines():
        if line.startswith('{"by":'):
            found.append(Step(json.loads(line)))
            if not found[-1].clause:
                break
    return found


def said(program, text, seconds=SECONDS):
    """What `opaq refute` answers of a run in bytes: its exit status, its line, and the steps of the refutation; 2 where it takes longer."""
    status, lines = recorded.ask(program, ["refute"], text, seconds) or (2, "unfinished")
    return status, lines.split("\n", 1)[0], steps_of(lines) if status == 1 else []


class Fact:
    """A literal that a step leaves, by others; or one that is supposed, by no step."""

    def __init__(self, literal, step, needs):
        self.literal = literal
        self.step = step
        self.needs = needs


class Chain:
    """What a step that names others comes to: the facts that they leave in turn, and the last one's contradiction; only what that needs."""

    def __init__(self, all_of, number):
        self.supposed = [contrary(it) for it in all_of[number].clause]
        facts = {it: Fact(it, None, []) for it in self.supposed}
        self.end = None
        for place in all_of[number].fields:
            clause = all_of[place].clause
            left = [it for it in clause if contrary(it) not in facts]
            needs = [contrary(it) for it in clause if it not in left]
            if not left:
                self.end = Fact(None, place, needs)
                break
            facts.setdefault(left[0], Fact(left[0], place, needs))
        self.facts = needed(facts, self.end)


def needed(facts, end):
    """The facts that the end rests on, in the order in which they were found."""
    wanted, open_ones = set(), list(end.needs)
    while open_ones:
        it = open_ones.pop()
        if it not in wanted:
            wanted.add(it)
            open_ones += facts[it].needs
    return [fact for literal, fact in facts.items() if literal in wanted]


class Known:
    """What holds at a place of a chain, in the form that story.py asks for: real time, fates, and the facts above."""

    def __init__(self, reader, facts):
        self.reader = reader
        self.facts = set(facts)

    def has_before(self, one, other):
        ended = self.reader.finish.get(one)
        return ended is not None and ended < self.reader.all[other].first or ("before", one, other) in self.facts

    def commits(self, tx):
        return tx in self.reader.committed or ("commits", tx) in self.facts

    def aborts(self, tx):
        return tx not in self.reader.may or ("aborts", tx) in self.facts


class Told:
    """A sentence: what it says, that it follows from real time and those facts, and the object that it is about, if it is about one."""

    def __init__(self, words, literal, needs, name, mark):
        self.words = words
        self.literal = literal
        self.needs = frozenset(needs)
        self.name = name
        self.mark = mark


class Teller:
    """Goes through a refutation, and makes its sentences."""

    def __init__(self, reader, all_of):
        self.reader = reader
        self.speech = Speech(reader)
        self.all_of = all_of
        self.lines = []
        self.told = []
        self.places = {}
        self.quiet = {}
        self.count = 0
        self.at_fault = set()

    def tell(self):
        last = len(self.all_of) - 1
        if self.all_of[last].reason == "units":
            self.tell_chain(last, 0)
        else:
            self.end_by(Fact(None, last, []), [], 0)

    def say(self, words, depth):
        """A line with a number; two that say what follows from the same become one."""
        start, so, rest = words.rpartition(": so ")
        if so and self.lines and self.lines[-1].startswith(f"{'   ' * depth}{self.count}. {start}: so "):
            self.lines[-1] += f", and {rest}"
            return self.count
        self.count += 1
        self.lines.append(f"{'   ' * depth}{self.count}. {words}")
        return self.count

    def take(self, words, literal, facts, step, depth, sentence=None):
        is_law = step.reason not in ("units", "turn")
        by = (sentence.by if sentence else BY.get(step.reason, step.reason)) if is_law else "time"
        cell, tx = (step.cell[1:], step.cell[0]) if is_law else (None, None)
        mark = fates.Mark(by, literal, cell, tx, words, sentence.unseen if sentence else ())
        self.told.append(Told(words, literal, facts, cell and cell[0], mark))
        self.at_fault |= step.transactions() if is_law else set()
        return self.say(words, depth)

    def tell_chain(self, number, depth):
        chain = Chain(self.all_of, number)
        for fact in [*chain.facts, chain.end]:
            if fact.step is not None and self.is_derived(fact.step) and fact.step not in self.places:
                self.tell_part(fact.step, depth)
        known = list(chain.supposed)
        for fact in chain.facts:
            if fact.step is not None:
                self.tell_fact(fact, known, depth)
                known.append(fact.literal)
        self.end_by(chain.end, known, depth)

    def is_derived(self, place):
        return self.all_of[place].reason == "units"

    def tell_part(self, number, depth):
        """A clause that was derived: suppose the contrary of all of it."""
        clause = self.all_of[number].clause
        supposed = " and ".join(self.speech.literal(contrary(it)) for it in clause)
        self.lines.append(f"{'   ' * depth}Suppose that {supposed}.")
        self.tell_chain(number, depth + 1)
        self.places[number] = self.say(f"So {' or '.join(self.speech.literal(it) for it in clause)}.", depth)

    def tell_fact(self, fact, known, depth):
        """What operations saw, and orders by way of others, are said where they are used, if at all."""
        step = self.all_of[fact.step]
        is_said = step.reason == "units" and len(step.clause) == 1
        if is_said or step.reason == "turn" or step.reason != "units" and fact.literal[0] in ("sees", "takes", "not"):
            self.quiet[fact.literal] = fact
            return
        sentence = None if step.reason == "units" else self.worded(step, fact.literal, known)
        self.take(sentence.words if sentence else self.plain(fact, known, depth), fact.literal, known, step, depth, sentence)

    def plain(self, fact, known, depth):
        """What a step says in the words of its law. What it rests on is said before it."""
        for need in fact.needs:
            if need in self.quiet and self.all_of[self.quiet[need].step].reason not in ("turn", "units"):
                before = self.quiet.pop(need)
                facts = known[: known.index(need)]
                self.take(self.plain(before, facts, depth), need, facts, self.all_of[before.step], depth)
        step = self.all_of[fact.step]
        why = f"by {self.places[fact.step]}" if step.reason == "units" else self.speech.law(step)
        return f"{why}{self.speech.since(fact.needs)}: {'so ' + self.speech.literal(fact.literal) if fact.literal else 'that cannot be'}"

    def end_by(self, end, known, depth):
        step, start = self.all_of[end.step], "   " * depth
        if step.reason == "units":
            self.lines.append(f"{start}That contradicts {self.places[end.step]}.")
        elif step.reason == "turn":
            for one, other in zip(step.fields, (*step.fields[1:], step.fields[0])):
                if ("before", one, other) not in known:
                    self.take(self.by_time(one, other), ("before", one, other), [], step, depth)
            self.at_fault |= set(step.fields)
            self.lines.append(f"{start}So {' before '.join(map(str, [*step.fields, step.fields[0]]))}: no order has that.")
        else:
            sentence = self.worded(step, ("never",), known)
            self.take(sentence.words if sentence else self.plain(end, known, depth), ("never",), known, step, depth, sentence)
            self.lines.append(f"{start}No place in an order has that.")

    def by_time(self, one, other):
        how = "committed" if one in self.reader.committed else "was aborted"
        return f"transaction {one} {how} before transaction {other} began: so {one} stands before {other}"

    def worded(self, step, literal, facts):
        """The sentence of story.py, where it derives the same from the values and what is known. A story of very many steps does without: it would
        take minutes."""
        if len(self.all_of) > LONG:
            return None
        known = Known(self.reader, facts)
        for sentence in self.reader.sentences_of(known, step.cell):
            if sentence.follows == literal:
                return sentence
        return None


class Speech:
    """What literals and laws say, in words that name values rather than places."""

    def __init__(self, reader):
        self.taken, self.put = {}, {}
        for tx, calls in reader.calls.items():
            for call, answer in calls:
                if call["op"] == "deq" and answer["ans"] != "empty":
                    self.taken.setdefault((tx, call["ob"]), []).append(answer["ans"])
                elif call["op"] == "enq":
                    self.put.setdefault((tx, call["ob"]), []).append(call["arg"])

    def item(self, tx, name, number):
        """What a transaction took, by its value, and by its place where it took the same twice."""
        values = self.taken[tx, name]
        again = f", its item {number + 1}" if values.count(values[number]) > 1 else ""
        return f"the {values[number]} that {tx} took from {name}{again}"

    def source(self, tx, name, number):
        values = self.put[tx, name]
        again = f", as its item {number + 1}" if values.count(values[number]) > 1 else ""
        return f"the one that {tx} put in{again}"

    def literal(self, it):
        """A literal in words."""
        is_not, it = it[0] == "not", it[1:] if it[0] == "not" else it
        if it[0] == "takes":
            return f"{self.item(*it[1:4])} is {'not ' if is_not else ''}{self.source(it[4], it[2], it[5])}"
        raw = [list(field) if isinstance(field, tuple) else field for field in (("not", *it) if is_not else it)]
        return steps.literal_text(raw)

    def law(self, step):
        """Why a law holds."""
        reason, fields = step.reason, [list(it) if isinstance(it, tuple) else it for it in step.fields]
        if reason == "items":
            return f"{self.item(*fields)} was put in by somebody"
        if reason == "item":
            return f"{self.item(*fields[:3])} was put in before"
        if reason == "place":
            what = f"where {self.item(*fields[:3])} is {self.source(fields[3], fields[1], fields[4])}"
            return f"{what}, as many were taken before it as were put in before it"
        if reason == "empty":
            return f"transaction {fields[0]} found {fields[1]} empty, so as many were taken before it as were put in before it"
        if reason == "gone":
            what = f"where {self.item(*fields[:3])} is {self.source(fields[3], fields[1], fields[4])}"
            return f"{what}, the {fields[6]} that {fields[5]} put in earlier was taken earlier"
        if reason == "left":
            return f"transaction {fields[0]} found {fields[1]} empty, so the {fields[4]} that {fields[3]} put in before it was taken before it"
        return steps.REASONS[reason](*fields)

    def since(self, needs):
        """The facts that a step rests on, in words."""
        if len(needs) > LISTED:
            return f", and {len(needs)} things said above"
        return "".join(f", and {self.literal(it)}" for it in needs)


def lines_of(reader, all_of):
    """The story of a refutation in lines, the transactions that it names, and its sentences."""
    teller = Teller(reader, all_of)
    teller.tell()
    return teller.lines, teller.at_fault, teller.told


class Named:
    """What the steps of a refutation name: transactions, objects, elements and keys of objects, and who did something where."""

    def __init__(self, all_of):
        laws = [it for it in all_of if it.reason not in ("units", "turn")]
        self.transactions = set().union(*(it.transactions() for it in all_of))
        self.objects = {it.cell[1] for it in laws}
        self.elements = {it.cell[1:] for it in laws if len(it.cell) > 2}
        self.deeds = {(tx, *it.cell[1:]) for it in laws for tx in it.transactions()}

    def has_element(self, name, element):
        """Whether it is of an object all of which matters, or is named itself."""
        return (name, element) in self.elements or not any(it[0] == name for it in self.elements)

    def has_deed(self, tx, name, element):
        return (tx, name) in self.deeds or (tx, name, element) in self.deeds
