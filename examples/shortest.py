#!/usr/bin/env python3
"""Finds the shortest beginning of a recorded run that is not opaque: shortest.py [--quick] OPAQ [RUN [OUT]].

OPAQ is the built program and RUN a file that it reads, or - for standard input, as where it is left out. The run is cut after its first N stamps. The
shortest beginning that is not opaque goes to the file OUT, and its last record is what no serial order explains any more: that record's
transaction got an answer, or an end, that it could not get there.

A run that is not opaque is halved: that finds, in few steps, a beginning that is not opaque and is opaque without its last record. A shorter one, or
one of a run that is opaque, can be not opaque where a transaction read what another one had written and not yet asked to commit. The order that opaq
prints of the longer beginning says where that can be: where an answer came after a change in that order, and before the one that changed it asked to
commit. Of all other beginnings the order, as far as it goes, shows that they are opaque. So only those are asked about, the shorter first; with
--quick none are.

The exit status is 1 where some beginning is not opaque, 0 where none is, 3 where opaq refuses the run, 4 where something failed, and 64 where these
words are not understood.
"""

import itertools
import sys

import recorded

OPAQUE, NOT_OPAQUE, REFUSED, FAILED = 0, 1, 3, 4
CHANGING = ("write", "inc", "dec", "plus", "add", "remove", "enq", "deq", "put", "del")
BLIND = ("write", "inc", "dec", "plus", "enq", "put")


def fail(status, said):
    """Ends the script."""
    print(f"shortest.py: {said}", file=sys.stderr)
    sys.exit(status)


def ends_of_interest(run):
    """How many records each beginning has that may be the first one that is not opaque: no other event takes an order away."""
    return [count for count, it in enumerate(run.records, 1) if it["ev"] in ("ret", "commit", "abort")]


def asked(program, run, count):
    """What opaq says of a beginning: the order that shows it, or none where it is not opaque."""
    status, line = recorded.ask(program, ["decide"], run.beginning(count).text().encode())
    if status not in (OPAQUE, NOT_OPAQUE):
        fail(FAILED, f"the first {count} records: {line}")
    return None if status == NOT_OPAQUE else line


def halved(program, run):
    """A beginning that is not opaque, where the one before it is opaque, and the order of that one."""
    counts = ends_of_interest(run)
    below, above, order = -1, len(counts) - 1, "opaque none"
    while above - below > 1:
        middle = (below + above) // 2
        found = asked(program, run, counts[middle])
        if found is None:
            above = middle
        else:
            below, order = middle, found
    return counts[above], order


def in_doubt(run, count, order):
    """The beginnings shorter than that one of which the order of it does not say that they are opaque."""
    whole = run.beginning(count)
    decided = {int(word[:-1]): (place, word[-1] == "c") for place, word in enumerate(order.removeprefix("opaque ").split()) if word != "none"}
    looks, changes = {}, {}
    for tx, it in whole.transactions().items():
        if tx not in decided:
            continue
        place, commits = decided[tx]
        asks = next((record["stamp"] for record in it.records if record["ev"] == "tryc"), it.last)
        for call, answer in it.calls():
            if answer and call["op"] not in BLIND:
                key = (call["ob"], place)
                looks[key] = min(answer["stamp"], looks.get(key, answer["stamp"]))
            if answer and commits and call["op"] in CHANGING:
                changes[call["ob"], place] = asks
    return doubted(run, count, looks, changes)


def doubted(run, count, looks, changes):
    """Of the looks and changes of an object, by places in the order: the counts of records that have a look, and not the request of a change that
    stands before it."""
    stamps = [record["stamp"] for record in run.records[:count]]
    edges = dict.fromkeys((0, len(stamps) + 1), 0)
    for name in {name for name, _ in looks}:
        own = sorted((place, asks) for (of, place), asks in changes.items() if of == name)
        latest = list(itertools.accumulate((asks for _, asks in own), max))
        at = 0
        for place, seen in sorted((place, seen) for (of, place), seen in looks.items() if of == name):
            while at < len(own) and own[at][0] < place:
                at += 1
            if at and latest[at - 1] > seen:
                edges[seen + 1] = edges.get(seen + 1, 0) + 1
                edges[latest[at - 1] + 1] = edges.get(latest[at - 1] + 1, 0) - 1
    found, depth = set(), 0
    for stamp, after in itertools.pairwise(sorted(edges)):
        depth += edges[stamp]
        found |= set(range(stamp, after)) if depth else set()
    return [it for it in ends_of_interest(run) if it in found and it < count]


def shortest(program, run, line, quick):
    """How many records the beginning has that was looked for, or None. The line is what opaq says of the run."""
    found, count, order = None, len(run.records) + 1, line
    if line == "not opaque":
        found, order = halved(program, run)
        count = found
    if quick:
        return found
    return next((it for it in in_doubt(run, count, order) if asked(program, run, it) is None), found)


def words_of(words):
    script = recorded.Words("shortest.py", __doc__, "[--quick] OPAQ [RUN [OUT]]")
    script.add_argument("--quick", action="store_true")
    script.add_argument("opaq")
    script.add_argument("run", nargs="?", default="-")
    script.add_argument("out", nargs="?")
    return script, script.taken(words)


def main(words):
    script, given = words_of(words)
    text = script.bytes_of(given.run)
    try:
        status, line = recorded.ask(given.opaq, ["decide"], text)
        if status == REFUSED:
            print(line)
            return REFUSED
        if status not in (OPAQUE, NOT_OPAQUE):
            fail(FAILED, line)
        run = recorded.read(text.decode())
        count = shortest(given.opaq, run, line, given.quick)
        if count is None:
            print(f"{line}; no shorter beginning that is not opaque was found" if given.quick else "opaque, and each beginning is")
            return OPAQUE
        if given.out:
            with open(given.out, "w", encoding="utf-8") as file:
                file.write(run.beginning(count).text())
    except OSError as error:
        fail(FAILED, f"{error.filename}: {error.strerror}")
    last = run.records[count - 1]
    print(f"not opaque: the first {count} of {len(run.records)} records, up to stamp {last['stamp']}, where {recorded.said(last)}")
    return NOT_OPAQUE


if __name__ == "__main__":
    sys.exit(main(sys.argv[1:]))
