"""What kind of fault a story is about, and what became of its transactions in the run, for story.py and draw.py.

A core has fewer records than its run, other stamps and logs, and often no ends. So the fates, the threads and the stamps are taken from the run.
"""

FATES = {"committed": "was committed", "aborted": "was aborted later", "live": "had not ended"}
NOTHING, ANY, MANY = "nothing", "any", 6
MANY_UNSEEN = ("several transactions changed, none of which left it", "several transactions put in, none of which was committed")
CHANGING = ("write", "put", "del", "add", "remove", "enq")
QUEUES = {"place": "Lost or doubled queue item", "empty": "Lost queue item", "left": "Lost queue item", "gone": "Lost queue item"}


class Mark:
    """One thing that a story rests on: by what it follows, what it says, of which cell, and of which transaction it is; and of what nobody can have
    seen, those who brought it about all the same."""

    def __init__(self, by, follows, cell, tx, words="", unseen=()):
        self.by = by
        self.follows = follows
        self.cell = cell
        self.tx = tx
        self.words = words
        self.unseen = unseen


class Bringer:
    """Who brought something about that nobody can have seen: the transaction, how it ended ('not answered' where it asked to commit), the stamps of
    that, of the deed, and of its own next deed in the same place, if there is one."""

    def __init__(self, it, stamp, replaced):
        self.tx = it.number
        self.end = "not answered" if it.end == "live" and it.records[-1]["ev"] == "tryc" else it.end
        self.last = it.last
        self.stamp = stamp
        self.replaced = replaced

    @property
    def is_gone(self):
        return self.end in ("aborted", "live")


def brought(run, cell, tx, value):
    """Who but that transaction brought about what is in a cell, by all records of a run, in the order of their first stamps. Also by an operation
    that has no answer: a memory may write in place before it answers."""
    found, numbers = [], {it["tx"] for it in run.records if it["tx"] != tx and is_bringing(it, cell, value)}
    for it in run.transactions().values() if numbers else []:
        if it.number in numbers:
            deeds = [(call["stamp"], is_bringing(call, cell, value)) for call, answer in it.calls() if is_deed(call, answer, cell)]
            at = next((at for at, (_, is_it) in enumerate(deeds) if is_it), None)
            if at is not None:
                later = [stamp for stamp, is_it in deeds[at + 1 :] if not is_it]
                found.append(Bringer(it, deeds[at][0], later[0] if later else None))
    return found


def is_deed(call, answer, cell):
    """Whether an operation changes a cell, or may have done so where it has no answer."""
    if call["ob"] != cell[0] or call["op"] not in CHANGING:
        return False
    return (len(cell) == 1 or call["arg"] == cell[1]) and (answer is None or answer["ans"] is not False)


def is_bringing(record, cell, value):
    """Whether an invocation asks to bring that about."""
    if record["ev"] != "inv" or record["ob"] != cell[0]:
        return False
    op, argument = record["op"], record.get("arg")
    if len(cell) == 1:
        return op in ("write", "enq") and argument == value
    if len(cell) == 3:
        return argument == cell[1] and (op == "put" and value in (record["val"], ANY) or op == "del" and value == NOTHING)
    return argument == cell[1] and op == ("add" if value else "remove")


def deeds_of(run):
    """By cell and by what is in it then, who brought that about, by all records of a run."""
    found = {}
    for it in run.transactions().values():
        for call, answer in it.calls():
            op, argument = call["op"], call.get("arg")
            if op in CHANGING and (answer is None or answer["ans"] is not False):
                cell = (call["ob"], argument) if op in ("add", "remove") else (call["ob"], argument, "key") if op in ("put", "del") else (call["ob"],)
                value = {"put": call.get("val"), "del": NOTHING, "add": True, "remove": False}.get(op, argument)
                found.setdefault((cell, value), set()).add(it.number)
    return found


def why_unseen(bringers, did, has_stamps):
    """Why nobody can have seen what these brought about, with their stamps where these are of the whole run."""
    if len(bringers) == 1:
        return why_one(bringers[0], did, has_stamps)
    named = [f"transaction {it.tx}" for it in bringers[:MANY]]
    named += [f"{len(bringers) - MANY} more"] if len(bringers) > MANY else []
    start = f"which only {', '.join(named[:-1])} and {named[-1]} {did}"
    return f"{start}, and these were not committed" if all(it.is_gone for it in bringers) else f"{start}, and none of that can be seen"


def why_one(it, did, has_stamps):
    deed, again, last = (f" (stamp {stamp})" if has_stamps else "" for stamp in (it.stamp, it.replaced, it.last))
    words = f"which only transaction {it.tx} {did}{deed}"
    if it.replaced is not None:
        words += f" and itself replaced{again}"
    if it.is_gone and not has_stamps:
        return f"{words}, and that was not committed"
    if it.is_gone:
        return f"{words}, and which {'was aborted' + last if it.end == 'aborted' else 'had not ended'}"
    return words if it.replaced is not None else f"{words}, and that cannot be seen"


def ended(whole, tx):
    """What became of a transaction in the run."""
    it = whole.transactions().get(tx) if whole else None
    if it is None:
        return ""
    if it.end == "live" and it.records[-1]["ev"] == "tryc":
        return "asked to commit and had no answer"
    return FATES[it.end]


def short_fate(whole, tx):
    """The same in a word, for a picture."""
    it = whole.transactions()[tx]
    return "not answered" if it.end == "live" and it.records[-1]["ev"] == "tryc" else it.end


def with_fate(whole, tx):
    return f"transaction {tx}, which {ended(whole, tx)}" if ended(whole, tx) else f"transaction {tx}"


def lines_of(whole, transactions):
    """A line for each of these transactions: its fate, its thread and its stamps in the run."""
    all_of = whole.transactions()
    for tx in transactions:
        it = all_of[tx]
        yield f"transaction {tx}, {short_fate(whole, tx)} in the run: thread {it.log}, stamps {it.first} to {it.last}"


def circle_class(marks, whole):
    """The class of a story that is a circle, by the reads that found a value which somebody replaced."""
    replaced = {(it.follows[1], it.follows[2]): it for it in marks if it.by == "replaced" and it.follows[0] == "before"}
    later = {it.follows[1:] for it in marks if it.by == "time" and it.follows[0] == "before"}
    for it in marks if not replaced else []:
        if it.by == "source" and it.follows[0] == "before" and (it.follows[2], it.follows[1]) in later:
            return f"Read of what was written later: made by {with_fate(whole, it.follows[2])}."
    for (one, other), it in replaced.items():
        back = replaced.get((other, one))
        if back and len(replaced) == 2:
            both = f"transactions {one} and {other}"
            ends = {ended(whole, one), ended(whole, other)}
            how = "and both were committed" if ends == {FATES["committed"]} else f"{one} {ended(whole, one)}, {other} {ended(whole, other)}"
            if it.cell == back.cell:
                return f"Lost update: {both} saw the same and replaced it, {how}."
            return f"Write skew: {both} each saw what the other one replaced, {how}."
    for (one, _), it in replaced.items():
        if any(mark.by == "source" and mark.follows == ("before", mark.follows[1], one) for mark in marks):
            return f"Torn snapshot: seen by {with_fate(whole, one)}."
    for (one, _), it in replaced.items():
        if any(mark.by == "time" and mark.follows[2] == one for mark in marks):
            return f"Stale read: made by {with_fate(whole, one)}."
    names = ", ".join(sorted({str(one) for one, _ in replaced}))
    return f"Reads that no order explains together: {names} saw what was replaced." if names else None


def class_of(marks, whole):
    """The sentence that names what kind of fault it is; none where it is none that has a name."""
    last = marks[-1]
    kinds = {it.by for it in marks}
    seen = f"seen by {with_fate(whole, last.tx)}"
    for it in reversed(marks):
        if it.by in ("queue", *QUEUES):
            return queue_class(it, f"seen by {with_fate(whole, it.tx)}", whole)
    if last.by == "nowhere":
        return dirty_class(last, whole, seen) if last.unseen else f"Value that nobody wrote: {seen}."
    if last.by == "itself":
        return f"A transaction that did not see what it did itself: {with_fate(whole, last.tx)}."
    if last.by == "again":
        return f"Unrepeatable read: made by {with_fate(whole, last.tx)}."
    if last.by == "clash":
        return f"Answers to one transaction that do not go together: {with_fate(whole, last.tx)}."
    if last.by == "count":
        return f"Impossible count: {seen}."
    if last.by == "element":
        return f"Element that was lost or doubled: {seen}."
    if last.by == "gone":
        return f"{'Torn snapshot' if 'source' in kinds else 'Stale read'}: {seen}."
    found = circle_class(marks, whole)
    if found is None and kinds & {"count", "element"}:
        first = next(it for it in marks if it.by in ("count", "element"))
        return f"Impossible {'count' if first.by == 'count' else 'elements'}: seen by {with_fate(whole, first.tx)}, together with others."
    return found


def dirty_class(mark, whole, seen):
    """The class of what others did bring about, though nobody can have seen that."""
    one, is_item = mark.unseen[0], mark.by == "queue"
    if not all(it.is_gone or it.replaced is not None for it in mark.unseen):
        return f"{'Doubled queue item' if is_item else 'Element that was lost or doubled'}: {seen}."
    start = f"Dirty read: {with_fate(whole, mark.tx)}, saw"
    if len(mark.unseen) > 1:
        return f"{start} what {MANY_UNSEEN[is_item]}."
    what = "what transaction" if is_item or len(mark.cell) > 1 else "a write of transaction"
    did = " put in" if is_item else " changed" if len(mark.cell) > 1 else ""
    end = {"aborted": "which was aborted", "live": "which had not ended"}.get(one.end, "which itself replaced it")
    return f"{start} {what} {one.tx}{did}, {end}."


def queue_class(mark, seen, whole):
    if mark.by in QUEUES:
        return f"{QUEUES[mark.by]}: {seen}."
    if mark.unseen:
        return dirty_class(mark, whole, seen)
    if "nobody put in" in mark.words:
        return f"Queue item that nobody put in: {seen}."
    return f"{'Doubled' if 'which was put in once and which transaction' in mark.words else 'Lost'} queue item: {seen}."
