#!/usr/bin/env python3
"""Says why opaq refuses a run, and what to do: explain.py [--opaq OPAQ] [--line LINE] [RUN]. RUN is a file, or - for standard input, as where it
is left out.

OPAQ is the built program, or else opaq in the PATH; it is asked with a budget of 0, so the answer comes at once. With --line it is not asked: LINE
is what it printed of the run. A line that opaq printed may stand on standard input in place of a run, too; then it is explained in general:
opaq decide < RUN | explain.py.

Printed are what the line means and what to do, and then what it is about: the line of the run with the key at fault, its value and its limit; the two
lines that clash; the likely cause where the text is no run at all. It is the first fault that is explained; it may hide others.

With --table is printed what to do about all that may be refused, as docs/FAULTS.md has it.

The exit status is 3 where a refusal was explained, 0 where the run is not refused or the table was printed, 4 where something failed, and 64 where
these words are not understood.
"""

import json
import re
import sys

import recorded

EXPLAINED, NOT_REFUSED = 3, 0
SMALL, VALUE, LISTED = (0, (1 << 32) - 1), (-(1 << 63), (1 << 63) - 1), 8
SECOND = ("plus", "put", "look", "del", "map")
CUT = "record rounds, or cut all logs at one stamp"
ONE, ENDS = "look whether the file is a run: one JSON object a line", "write one end mark for each log, which counts all its records"
THREADS, ASK = "record 1 to 64 threads", "record the request (opaq_try) last, before the commit begins"
NAME, ANEW = "name each transaction of the run once, and no other", "make it anew of this run"
# Of each fault what it means, and what to do; tests/scripts compares the numbers with those of docs/FORMAT.md and docs/OUTPUT.md.
FAULTS = {
    "refused 1": ("the line is longer than 4,096 bytes, of a certificate 65,536", ONE),
    "refused 2": ("the line is not one JSON value in UTF-8", ONE),
    "refused 3": ("the line is JSON, and no object", ONE),
    "refused 4": ("a key that must stand is missing, or the text ends too early", "write the missing key; a text that ends early was cut"),
    "refused 5": ("a key or a line stands that may not", "leave out the key or the line"),
    "refused 6": ("a value has a wrong type, or is out of range", "write what the key wants, within its limit"),
    "refused 7": ("a string is none of the words that may stand there", "write a known word; maps and `plus` want \"format\":2"),
    "refused 8 1": ("the plan has no such log", "number logs from 0, and let `logs` count them"),
    "refused 8 2": ("a place in a log is above 4,095, or a count above 4,096", CUT),
    "refused 8 3": ("a stamp is above 262,143", CUT),
    "refused 8 4": ("a transaction's number is above 1,023, in format 2 above 4,095", "write \"format\":2, or record rounds"),
    "refused 8 5": ("the plan has no object of that name", "declare the object, and count it in `objects`"),
    "refused 8 6": ("the object's kind has no such operation in the plan's format", "declare its kind; `plus` wants \"format\":2"),
    "refused 8 7": ("the operation has no such answer", "write done, a value, true, false or empty, as the operation answers"),
    "refused 8 8": ("the argument of plus is not from -2,147,483,648 to 2,147,483,648", "let several `plus` add up to it"),
    "refused 9": ("memory was refused while the text was read", "give the program more memory, or cut the run"),
    "refused 10 1": ("`logs` is 0", THREADS),
    "refused 10 2": ("`logs` is more than 64", THREADS),
    "refused 10 3": ("`objects` is more than 256", "record at most 256 objects"),
    "refused 10 4": ("two objects have one name", "name each object once"),
    "refused 10 5": ("a counter opens beyond -2^62 to 2^62", "open the counter nearer to 0"),
    "refused 10 6": ("a name is not 1 to 32 ASCII letters, digits or underscores", "name the object so: x_0 for x[0]"),
    "refused 10 8": ("the format does not have an object's kind", "write \"format\":2"),
    "conflict 1": ("two different records have one place of one log", "let one thread alone write a log; hand in one run at a time"),
    "conflict 2": ("one stamp stands at two places", "draw all stamps from one counter, by an atomic fetch-and-add"),
    "conflict 3": ("two end marks of one log have different counts", ENDS),
    "conflict 4": ("a record stands at a place that is not below the count of its log", ENDS),
    "conflict 5": ("a later place of a log has no greater stamp", "number places as the thread drew its stamps"),
    "waiting": ("the log has no end mark, or fewer records than it says", "look whether the memory died, or the disk was full"),
    "gap": ("no record has this stamp, and later ones stand there", "record each drawn stamp; look whether a log was cut"),
    "rule 1": ("the event comes after the commit or abort of its transaction", "give each attempt a number of its own"),
    "rule 2": ("the event invokes while an invocation is pending", "record the answer (opaq_back); let no two threads share a transaction"),
    "rule 3": ("the event answers, and no invocation is pending", "record the invocation (opaq_call) before the call"),
    "rule 4": ("the event answers another operation or object than the pending one", "record each answer with its own operation"),
    "rule 5": ("the event asks to commit or abort while an invocation is pending", "record the answer (opaq_back) before the request"),
    "rule 6": ("the event comes after a request to commit or abort, and is neither", ASK),
    "rule 7": ("the event commits, and its transaction did not ask to", ASK),
    "rule 8": ("the event aborts, and nothing is pending that may be aborted", "record a trya before it"),
    "order 1": ("the transaction is not in the history", NAME),
    "order 2": ("the transaction stands twice", NAME),
    "order 3": ("the transaction cannot have that fate", "c if committed, a if aborted or live, either if it asked to commit"),
    "order 4": ("the transaction stands before one that had ended before it began", "move it after the one that ended before it began"),
    "order 5": ("the transaction got an answer that it cannot get there", "try another order, or opaq decide"),
    "order 6": ("the transaction is missing", NAME),
    "certificate refused": ("the certificate is not accepted, which says nothing of the run", ANEW),
    "refutation line L refused": ("a step does not follow, or the refutation has no end", ANEW),
}
SORTS = {"certificate": "see docs/CERTIFICATES.md for the lines of a certificate", "order": "see docs/FORMAT.md for order texts"}


def key_of(line):
    """Which fault a line of opaq is about, or None where it refuses nothing."""
    patterns = (
        r"(?:plan|record|certificate) line \d+ (refused \d+(?: \d+)?)", r"order text (refused \d+)", r"(conflict \d) at log \d+ place \d+",
        r"(waiting) for log \d+", r"(gap) at stamp \d+", r"ill-formed (rule \d) at stamp \d+", r"(certificate refused)",
    )
    for pattern in patterns:
        match = re.fullmatch(pattern, line)
        if match:
            return match[1]
    if match := re.fullmatch(r"order refused (\d) tx \d+", line):
        return f"order {match[1]}"
    return "refutation line L refused" if re.fullmatch(r"refutation line \d+ refused", line) else None


def is_opaqs(line):
    """Whether opaq prints such a line."""
    return key_of(line) is not None or re.fullmatch(r"opaque( \d+[ac])+|opaque none|not opaque|unfinished", line) is not None


def parsed(raw):
    """The value of a line, or None where it is no JSON as opaq reads it."""
    try:
        return json.loads(raw.decode(), parse_constant=refuse)
    except (ValueError, RecursionError):
        return None


def refuse(word):
    raise ValueError(word)


def likely(text):
    """The probable cause where the beginning of a text is no plan."""
    if not text.strip():
        return "the text is empty: perhaps the memory ended before it wrote the run"
    if text[:2] == b"\x1f\x8b":
        return "the text is compressed by gzip: gzip -dc RUN | opaq decide"
    if text[:2] in (b"\xff\xfe", b"\xfe\xff") or b"\0" in text[:40]:
        return "the text is UTF-16: iconv -f UTF-16 -t UTF-8 RUN | opaq decide"
    if text[:3] == b"\xef\xbb\xbf":
        return "the text begins with a byte order mark: tail -c +4 RUN | opaq decide"
    first = text.split(b"\n", 1)[0].decode(errors="replace")
    if first.startswith("<"):
        return "the text is XML, perhaps a picture that draw.py made"
    if is_opaqs(first.strip()):
        return "the text begins with what opaq printed: sed 1d RUN | opaq decide"
    if '"ev"' in first or '"end"' in first:
        return "the first line is a record: the header and the objects come first"
    if not first.startswith(("{", "[")) and (first.startswith("#") or len(first.split()) > 1):
        return "the text is perhaps a trace: examples/from_trace.py RUN | opaq decide"
    return None


def wanted_keys(it, is_plan, is_first):
    """The keys of a line, each with what its value must be in words."""
    if is_plan and is_first:
        return {"format": "1 or 2", "logs": "a number from 1 to 64", "objects": "a number from 0 to 256"}
    if is_plan:
        opens = {"open": "a whole number"} if it.get("kind") in ("register", "counter") else {}
        return {"kind": ", ".join(recorded.OPERATIONS), "name": "a string of 1 to 32 letters, digits or underscores", **opens}
    if "end" in it:
        return {"end": "a number from 0 to 4,096", "log": "a number from 0 to 63"}
    keys = {"at": "a number from 0 to 4,095", "ev": ", ".join(recorded.EVENTS), "log": "a number from 0 to 63", "stamp": "a number from 0 to 262,143",
            "tx": "a number from 0 to 1,023, in format 2 to 4,095"}
    if it.get("ev") in ("inv", "ret"):
        keys |= {"ob": "the name of an object", "op": ", ".join(op for ops in recorded.OPERATIONS.values() for op in ops)}
    if it.get("ev") == "inv" and it.get("op") in recorded.WITH_ARGUMENT:
        keys |= {"arg": "a whole number"} | ({"val": "a whole number"} if it["op"] == "put" else {})
    return keys | ({"ans": "a whole number, true, false, done or empty"} if it.get("ev") == "ret" else {})


def fits(key, value, words, form):
    """Whether the value of a key is what it must be."""
    if key in ("ev", "kind", "op"):
        return value in words.split(", ") and not (form == 1 and value in SECOND)
    if key in ("ob", "name"):
        return isinstance(value, str)
    if key == "ans":
        return isinstance(value, bool) or is_whole(value, VALUE) or value in ("done", "empty")
    return is_whole(value, VALUE if key in ("arg", "val", "open") else (1, 2) if key == "format" else SMALL)


def is_whole(value, limits):
    return type(value) is int and limits[0] <= value <= limits[1]


def at_fault(it, is_plan, is_first, form, fault):
    """Of a line with one of the faults 4 to 7 the key and what it must be, or None."""
    wanted = wanted_keys(it, is_plan, is_first)
    if fault == "refused 4":
        missing = [key for key in wanted if key not in it]
        return f"the key `{missing[0]}` is missing: {wanted[missing[0]]}" if missing else None
    if fault == "refused 5":
        over = [key for key in it if key not in wanted]
        return f"the key `{over[0]}` may not stand here; the keys are {', '.join(wanted)}" if over else None
    for key, words in wanted.items():
        if key in it and not fits(key, it[key], words, form):
            more = ', which is a word of format 2: write "format":2' if form == 1 and it[key] in SECOND else f"; it must be {words}"
            return f"`{key}` is {json.dumps(it[key])}{more}"
    return None


def not_of_plan(it, fault, plan, form):
    """What of a record does not fit the plan."""
    kinds = {line.get("name"): line.get("kind") for line in plan[1:]}
    kind = kinds.get(it.get("ob"))
    names = f"{', '.join(map(str, list(kinds)[:LISTED]))}{', ..' if len(kinds) > LISTED else ''}" if kinds else "no object"
    return {
        "refused 8 1": f"`log` is {it.get('log')}, and the header has \"logs\":{plan[0].get('logs') if plan else '?'}",
        "refused 8 2": f"`end` is {it['end']}" if "end" in it else f"`at` is {it.get('at')}",
        "refused 8 3": f"`stamp` is {it.get('stamp')}",
        "refused 8 4": f"`tx` is {it.get('tx')}; format {form} takes transactions to {'4,095' if form == 2 else '1,023'}",
        "refused 8 5": f"`ob` is {json.dumps(it.get('ob'))}; the plan has {names}",
        "refused 8 6": f"`op` is {json.dumps(it.get('op'))}; {it.get('ob')} is a {kind}, which has {', '.join(recorded.OPERATIONS.get(kind, ()))}",
        "refused 8 7": f"`ans` is {json.dumps(it.get('ans'))}, of {it.get('op')}",
        "refused 8 8": f"`arg` is {it.get('arg')}",
    }.get(fault)


def of_objects(fault, plan):
    """Which objects of a plan are at fault."""
    names = [str(it.get("name")) for it in plan[1:]]
    found = {
        "refused 10 4": {name for name in names if names.count(name) > 1},
        "refused 10 5": {str(it.get("name")) for it in plan[1:] if it.get("kind") == "counter" and abs(it.get("open", 0)) > 1 << 62},
        "refused 10 6": {json.dumps(name) for name in names if not re.fullmatch("[A-Za-z0-9_]{1,32}", name)},
    }.get(fault, set())
    return f"at fault: {', '.join(sorted(found))}" if found else None


class Text:
    """A run's text: its lines, what its plan says as far as that can be read, and its records and end marks with their lines."""

    def __init__(self, text):
        self.text = text
        self.lines = text.split(b"\n")
        values = [(number, parsed(raw)) for number, raw in enumerate(self.lines, 1) if raw]
        values = [(number, it) for number, it in values if isinstance(it, dict)]
        self.plan = [it for number, it in values[:257] if "format" in it or "kind" in it]
        self.form = self.plan[0].get("format") if self.plan else None
        self.facts = [(number, it) for number, it in values if "ev" in it or "end" in it]

    def raw(self, number):
        return self.lines[number - 1] if 0 < number <= len(self.lines) else b""

    def records(self, *tests):
        return [(number, it) for number, it in self.facts if "ev" in it and all(test(it) for test in tests)]

    def marks(self, log):
        return [(number, it) for number, it in self.facts if "end" in it and it.get("log") == log]


def shown(raw):
    """The beginning of a line, with a dot for what cannot be printed."""
    words = "".join(it if it.isprintable() and it != "\ufffd" else "." for it in raw[:200].decode(errors="replace"))
    return words + (" .." if len(raw) > 200 else "")


def of_line(sort, number, fault, text):
    """What of a refused line is at fault."""
    raw = text.raw(number)
    if raw:
        yield f"line {number}: {shown(raw)}"
    if sort == "plan" and number == 1 and likely(text.text):
        yield likely(text.text)
        return
    it = parsed(raw) if raw else None
    if not raw and fault == "refused 4":
        yield f"the text ends before the last of {text.plan[0].get('objects')} objects" if text.plan else "the text has no header"
    elif raw and not raw.strip():
        yield "the line is white space: end lines by line feeds alone"
    elif isinstance(it, dict) and "format" in it and sort == "record":
        yield "a second run begins here: opaq judges one at a time"
    elif isinstance(it, dict) and fault in ("refused 4", "refused 5", "refused 6", "refused 7") and sort in ("plan", "record"):
        yield at_fault(it, sort == "plan", number == 1, text.form, fault)
    elif isinstance(it, dict) and fault.startswith("refused 8"):
        yield not_of_plan(it, fault, text.plan, text.form)
    if fault.startswith("refused 10"):
        yield of_objects(fault, text.plan)


def clashing(line, text):
    """The lines that clash, of a conflict, a gap, a log that waits or a rule that is broken."""
    numbers = [int(word) for word in re.findall(r"\d+", line)]
    if line.startswith("conflict"):
        kind, log, place = numbers
        here = text.records(lambda it: it.get("log") == log and it.get("at") == place)
        stamps = [it.get("stamp") for _, it in here]
        before = text.records(lambda it: it.get("log") == log and it.get("at") == place - 1)
        return {1: here, 2: text.records(lambda it: it.get("stamp") in stamps), 3: text.marks(log), 4: here + text.marks(log), 5: before + here}[kind]
    if line.startswith("gap"):
        return text.records(lambda it: it.get("stamp") in (numbers[0] - 1, numbers[0] + 1))
    if line.startswith("ill-formed"):
        own = {it.get("tx") for _, it in text.records(lambda it: it.get("stamp") == numbers[1])}
        return sorted(text.records(lambda it: it.get("tx") in own and it.get("stamp", 0) <= numbers[1]), key=lambda it: it[1].get("stamp", 0))[-2:]
    if line.startswith("waiting"):
        return text.marks(numbers[0]) + text.records(lambda it: it.get("log") == numbers[0])[-1:]
    return []


def explained(line, text):
    """The lines of the explanation; none where the line refuses nothing. The text may be missing."""
    key = key_of(line)
    if key is None:
        return
    why, what = FAULTS[key]
    yield f"{line}: {why}"
    yield f"what to do: {what}"
    yield SORTS.get(line.split()[0]) if key.startswith("refused") else None
    match = re.match(r"(plan|record|certificate) line (\d+) ", line)
    if text is None:
        return
    if match:
        yield from of_line(match[1], int(match[2]), key, text)
    if line.startswith("waiting"):
        log = int(line.split()[-1])
        yield f"log {log} has {len(text.records(lambda it: it.get('log') == log)):,} records"
    for number, it in clashing(line, text)[:4]:
        yield f"line {number}: {json.dumps(it, separators=(',', ':'))}"


def table():
    """What to do about all that may be refused, in the form of the documents."""
    printed = {"waiting": "waiting for log G", "gap": "gap at stamp S"}
    yield "| what is printed | what to do |"
    yield "|---|---|"
    for what in dict.fromkeys(what for _, what in FAULTS.values()):
        keys = [f"`{printed.get(key, key)}`" for key in FAULTS if FAULTS[key][1] == what]
        yield f"| {', '.join(keys)} | {what} |"


def words_of(words):
    asked = recorded.Words("explain.py", __doc__, "[--opaq OPAQ] [--line LINE] [RUN], or --table")
    asked.add_argument("--opaq", default="opaq")
    asked.add_argument("--line")
    asked.add_argument("--table", action="store_true")
    asked.add_argument("run", nargs="?")
    return asked, asked.taken(words)


def main(words):
    script, asked = words_of(words)
    if asked.table:
        recorded.say("\n".join(table()))
        return NOT_REFUSED
    line = asked.line
    text = None if line is not None and asked.run is None else script.bytes_of(asked.run or "-")
    first = (text or b"").split(b"\n", 1)[0].decode(errors="replace").strip()
    if line is None and is_opaqs(first) and len(text.strip().split(b"\n")) == 1:
        line, text = first, None
    elif line is None:
        try:
            status, line = recorded.ask(asked.opaq, ["decide", "--budget", "0"], text)
        except OSError as error:
            script.fail(recorded.FAILED, f"{asked.opaq}: {error.strerror}")
        line = line.split("\n", 1)[0]
        if status == recorded.FAILED:
            script.fail(recorded.FAILED, line)
    found = [it for it in explained(line, None if text is None else Text(text)) if it]
    if not found and not is_opaqs(line):
        script.fail(recorded.USAGE, f"opaq prints no such line: {line[:100]}")
    recorded.say("\n".join(found) if found else "not refused" if line == "unfinished" else f"not refused: {line}")
    return EXPLAINED if found else NOT_REFUSED


if __name__ == "__main__":
    sys.exit(main(sys.argv[1:]))
