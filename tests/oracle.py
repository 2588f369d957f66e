"""The oracle of the tests: a plain reader of opaq's texts, and a plain judge of small runs, written from docs/FORMAT.md, docs/OUTPUT.md and
docs/CERTIFICATES.md alone. It shares nothing with the program, so that `tests/fuzz` and others can compare the two."""
import itertools
import re

I64 = 2**63
SMALL = 2**32
NUMBER = object()  # a number that is no whole number of 64 bits


class Refused(Exception):
    """The line that the program prints, and its status."""

    def __init__(self, line, status=3):
        super().__init__(line)
        self.answer = (line + "\n", status)


class Fault(Exception):
    """Why one line or one order text is refused: a number, and perhaps an inner one."""

    def __init__(self, *numbers):
        super().__init__(numbers)
        self.numbers = numbers


# ---- JSON

STRING = r'"[^"\\\x00-\x1f]*(?:\\(?:["\\/bfnrt]|u[0-9a-fA-F]{4})[^"\\\x00-\x1f]*)*"'
TOKEN = re.compile(rf"[ \t\n\r]*(?:([{{}}\[\],:])|({STRING})|(-?(?:0|[1-9][0-9]*)(\.[0-9]+)?([eE][+-]?[0-9]+)?)|(true|false|null))")
SPACE = re.compile(r"[ \t\n\r]*")
ESCAPE = re.compile(r"\\(?:u([0-9a-fA-F]{4})(?:\\u([0-9a-fA-F]{4}))?|(.))", re.S)
PLAIN = {"b": "\b", "f": "\f", "n": "\n", "r": "\r", "t": "\t"}
WORDS = {"true": True, "false": False, "null": None}


def unescape(text):
    """What a string holds. Half of a pair of surrogates is no text."""
    parts, at = [], 0
    while True:
        found = ESCAPE.search(text, at)
        if not found:
            return "".join(parts) + text[at:]
        parts.append(text[at : found.start()])
        at = found.end()
        if found[3]:
            parts.append(PLAIN.get(found[3], found[3]))
            continue
        first = int(found[1], 16)
        if 0xD800 <= first < 0xE000:
            second = int(found[2], 16) if found[2] else 0
            if first >= 0xDC00 or not 0xDC00 <= second < 0xE000:
                raise Fault(2)
            parts.append(chr(0x10000 + ((first - 0xD800) << 10) + second - 0xDC00))
            continue
        parts.append(chr(first))
        at = found.start() + 6


def number(text, has_fraction):
    if has_fraction or len(text) > 20 or text == "-0":
        if abs(float(text)) == float("inf"):
            raise Fault(2)
        return NUMBER
    value = int(text)
    return value if -I64 <= value < I64 else NUMBER


class Json:
    """One JSON value, arrays and objects nested at most 127 deep; of a key that comes twice the last value stays."""

    def __init__(self, text):
        self.text = text
        self.at = 0

    def token(self):
        found = TOKEN.match(self.text, self.at)
        if not found:
            raise Fault(2)
        self.at = found.end()
        return found

    def whole(self):
        value = self.value(self.token(), 1)
        if SPACE.match(self.text, self.at).end() != len(self.text):
            raise Fault(2)
        return value

    def value(self, found, depth):
        mark, string, digits, fraction, exponent, word = found.groups()
        if string is not None:
            return unescape(string[1:-1])
        if digits is not None:
            return number(digits, fraction or exponent)
        if word is not None:
            return WORDS[word]
        if mark not in "[{" or depth > 127:
            raise Fault(2)
        return self.array(depth) if mark == "[" else self.object(depth)

    def array(self, depth):
        items = []
        found = self.token()
        if found[1] == "]":
            return items
        while True:
            items.append(self.value(found, depth + 1))
            mark = self.token()[1]
            if mark == "]":
                return items
            if mark != ",":
                raise Fault(2)
            found = self.token()

    def object(self, depth):
        pairs = {}
        found = self.token()
        if found[1] == "}":
            return pairs
        while True:
            if found[2] is None or self.token()[1] != ":":
                raise Fault(2)
            key = unescape(found[2][1:-1])
            pairs[key] = self.value(self.token(), depth + 1)
            mark = self.token()[1]
            if mark == "}":
                return pairs
            if mark != ",":
                raise Fault(2)
            found = self.token()


def value_of(line, longest):
    """The object that the line is."""
    if len(line) > longest:
        raise Fault(1)
    try:
        text = line.decode("utf-8")
    except UnicodeDecodeError:
        raise Fault(2) from None
    value = Json(text).whole()
    if not isinstance(value, dict):
        raise Fault(3)
    return value


def is_whole(value):
    return type(value) is int


def is_small(value):
    return type(value) is int and 0 <= value < SMALL


def has_keys(value, must, may):
    if not must <= value.keys():
        raise Fault(4)
    if not value.keys() <= must | may:
        raise Fault(5)


def lines_of(data):
    """The lines that are not empty, with their numbers, and the number of the line after the last."""
    lines = data.split(b"\n")
    if not lines[-1]:
        lines.pop()
    return [(at + 1, line) for at, line in enumerate(lines) if line], len(lines) + 1


# ---- plans

KINDS = {
    "register": {"read": 0, "write": 1},
    "counter": {"inc": 0, "dec": 0, "get": 0},
    "set": {"add": 1, "remove": 1, "contains": 1},
    "queue": {"enq": 1, "deq": 0},
}
KINDS_TWO = {**KINDS, "counter": {**KINDS["counter"], "plus": 1}, "map": {"put": 2, "look": 1, "del": 1}}
OBSERVING = {"read", "get", "contains", "look"}
ANSWERS = {
    **dict.fromkeys(("read", "get"), "i"),
    **dict.fromkeys(("write", "inc", "dec", "plus", "enq", "put"), "d"),
    **dict.fromkeys(("add", "remove", "contains", "del"), "b"),
    **dict.fromkeys(("deq", "look"), "ie"),
}


class Plan:
    def __init__(self, form, logs):
        self.form, self.logs, self.objects = form, logs, []
        self.kinds = KINDS_TWO if form == 2 else KINDS
        self.ops = {op: asks for kind in self.kinds.values() for op, asks in kind.items()}
        self.last_tx = 4095 if form == 2 else 1023


def header_of(line):
    value = value_of(line, 4096)
    has_keys(value, {"format", "logs", "objects"}, set())
    form, logs, objects = (value[key] for key in ("format", "logs", "objects"))
    if not (is_whole(form) and form in (1, 2) and is_small(logs) and is_small(objects)):
        raise Fault(6)
    for fault, holds in enumerate((logs == 0, logs > 64, objects > 256), 1):
        if holds:
            raise Fault(10, fault)
    return Plan(form, logs), objects


def object_of(plan, line):
    value = value_of(line, 4096)
    kind = value.get("kind")
    is_known = isinstance(kind, str) and kind in plan.kinds
    opens = {"open"} if kind in ("register", "counter") and is_known else set()
    has_keys(value, {"kind", "name"} | opens, set() if is_known else {"open"})
    if not (isinstance(kind, str) and isinstance(value["name"], str) and is_whole(value.get("open", 0))):
        raise Fault(6)
    if not is_known:
        raise Fault(7)
    return value["name"], kind, value.get("open", 0)


def read_plan(lines, after):
    """The plan, and the lines after it."""
    at = None
    try:
        if not lines:
            raise Fault(4)
        at = lines[0][0]
        plan, objects = header_of(lines[0][1])
        for place in range(1, objects + 1):
            at = None
            if place == len(lines):
                raise Fault(4)
            at, line = lines[place]
            plan.objects.append(object_of(plan, line))
        at = 0
        names = [name for name, _, _ in plan.objects]
        if len(set(names)) < len(names):
            raise Fault(10, 4)
        if any(kind == "counter" and abs(opening) > 2**62 for _, kind, opening in plan.objects):
            raise Fault(10, 5)
        if not all(re.fullmatch(r"[A-Za-z0-9_]{1,32}", name, re.A) for name in names):
            raise Fault(10, 6)
    except Fault as fault:
        raise refused("plan", after if at is None else at, fault) from None
    return plan, lines[objects + 1 :]


def refused(what, at, fault):
    return Refused(f"{what} line {at} refused {' '.join(map(str, fault.numbers))}")


# ---- facts

ALWAYS = {"log", "at", "stamp", "tx", "ev"}
EVENTS = ("inv", "ret", "tryc", "trya", "commit", "abort")


def shape_of(plan, value):
    """The keys that a record must have, and those that it may have."""
    event, op = value.get("ev"), value.get("op")
    more = {"ob", "op", "arg", "ans"} | ({"val"} if plan.form == 2 else set())
    if not (isinstance(event, str) and event in EVENTS):
        return ALWAYS, more
    if event == "ret":
        return ALWAYS | {"ob", "op", "ans"}, set()
    if event != "inv":
        return ALWAYS, set()
    if not (isinstance(op, str) and op in plan.ops):
        return ALWAYS | {"ob", "op"}, more
    return ALWAYS | {"ob", "op"} | set(("arg", "val")[: plan.ops[op]]), set()


def is_typed(key, value):
    if key in ("log", "at", "stamp", "tx"):
        return is_small(value)
    if key in ("ev", "ob", "op"):
        return isinstance(value, str)
    return is_whole(value) or key == "ans" and isinstance(value, (bool, str))


def fits(op, ans):
    """Whether it is an answer of the operation."""
    allowed = ANSWERS[op]
    if isinstance(ans, bool):
        return "b" in allowed
    if isinstance(ans, int):
        return "i" in allowed
    return ans[0] in allowed


def check_fact(plan, log, at, most_at, rest):
    if log >= plan.logs:
        raise Fault(8, 1)
    if at > most_at:
        raise Fault(8, 2)
    if not rest:
        return
    if rest["stamp"] > 262143:
        raise Fault(8, 3)
    if rest["tx"] > plan.last_tx:
        raise Fault(8, 4)
    if rest["ev"] not in ("inv", "ret"):
        return
    kind = {name: kind for name, kind, _ in plan.objects}.get(rest["ob"])
    if kind is None:
        raise Fault(8, 5)
    if rest["op"] not in plan.kinds[kind]:
        raise Fault(8, 6)
    if rest["ev"] == "ret" and not fits(rest["op"], rest["ans"]):
        raise Fault(8, 7)
    if rest["ev"] == "inv" and rest["op"] == "plus" and abs(rest["arg"]) > 2**31:
        raise Fault(8, 8)


def read_fact(plan, line):
    """An end mark as (log, count), a record as (log, at, stamp, tx, event), whose parts tell a flag from a number."""
    value = value_of(line, 4096)
    if "end" in value:
        has_keys(value, {"end", "log"}, set())
        if not (is_small(value["end"]) and is_small(value["log"])):
            raise Fault(6)
        check_fact(plan, value["log"], value["end"], 4096, None)
        return value["log"], value["end"]
    has_keys(value, *shape_of(plan, value))
    if not all(is_typed(key, part) for key, part in value.items()):
        raise Fault(6)
    words = [value["ev"] in EVENTS, value.get("op", "read") in plan.ops]
    if not all(words) or isinstance(value.get("ans"), str) and value["ans"] not in ("done", "empty"):
        raise Fault(7)
    check_fact(plan, value["log"], value["at"], 4095, value)
    event = (value["ev"], value.get("ob"), value.get("op"), value.get("arg"), value.get("val"), repr(value.get("ans")))
    return value["log"], value["at"], value["stamp"], value["tx"], event


def read_facts(plan, lines):
    facts = set()
    for at, line in lines:
        try:
            facts.add(read_fact(plan, line))
        except Fault as fault:
            raise refused("record", at, fault) from None
    return facts


def conflicts(records, counts):
    """Each conflict: its kind, and where."""
    stamps, places = {}, {}
    for log, at, stamp, _, _ in records:
        stamps.setdefault(stamp, set()).add((log, at))
        places.setdefault((log, at), []).append(stamp)
    for place, here in places.items():
        if len(here) > 1:
            yield 1, *place
    for here in stamps.values():
        if len(here) > 1:
            yield 2, *min(here)
    for log, here in counts.items():
        if len(here) > 1:
            yield 3, log, min(here)
    for log, at, stamp, _, _ in records:
        if any(at >= count for count in counts.get(log, ())):
            yield 4, log, at
        if any(other[0] == log and other[1] < at and other[2] >= stamp for other in records):
            yield 5, log, at


def sealed(plan, facts):
    """The events of the history in their order, or what is not whole."""
    records = [fact for fact in facts if len(fact) == 5]
    counts = {}
    for log, count in (fact for fact in facts if len(fact) == 2):
        counts.setdefault(log, set()).add(count)
    found = min(conflicts(records, counts), default=None)
    if found:
        raise Refused("conflict {} at log {} place {}".format(*found))
    for log in range(plan.logs):
        if log not in counts or sum(record[0] == log for record in records) < min(counts[log]):
            raise Refused(f"waiting for log {log}")
    stamps = {record[2] for record in records}
    for stamp in range(len(records)):
        if stamp not in stamps:
            raise Refused(f"gap at stamp {stamp}")
    return [(record[3], record[4]) for record in sorted(records, key=lambda record: record[2])]


# ---- histories

class Transaction:
    def __init__(self, tx, first):
        self.tx, self.first, self.last = tx, first, first
        self.state, self.pending, self.end = "idle", None, None
        self.done = []  # what it executed, with the answers

    def rule(self, event):
        """The rule that the event breaks, or None; the event has then happened."""
        name = event[0]
        if self.state == "ended":
            return 1
        if name in ("commit", "abort"):
            if name == "commit" and self.state != "tried c":
                return 7
            if name == "abort" and self.state == "idle":
                return 8
            self.state, self.end = "ended", name
            return None
        if self.state.startswith("tried"):
            return 6
        if name == "inv":
            if self.state == "pending":
                return 2
            self.state, self.pending = "pending", event
            return None
        if name == "ret":
            if self.state != "pending":
                return 3
            if self.pending[1:3] != event[1:3]:
                return 4
            self.done.append((event[1], event[2], self.pending[3], self.pending[4], event[5]))
            self.state = "idle"
            return None
        if self.state == "pending":
            return 5
        self.state = "tried c" if name == "tryc" else "tried a"
        return None

    def fates(self):
        if self.end:
            return "c" if self.end == "commit" else "a"
        return "ca" if self.state == "tried c" else "a"

    def silent(self):
        """Its silent fate, or None."""
        if self.fates() == "a":
            return "a"
        return "c" if all(op in OBSERVING for _, op, _, _, _ in self.done) else None


def counted(count, by):
    """The counter after it, which stays where the next count has no 64 bits, and the answer."""
    return count + by if -I64 <= count + by < I64 else count, "done"


def without(entries, key):
    return frozenset(entry for entry in entries if entry[0] != key)


# what an object is before the first operation, by its `open`, and for each operation the object after it, and the answer: a kind or an
# operation that has no line here is an error
OPENING = {
    "register": lambda opens: opens,
    "counter": lambda opens: opens,
    "set": lambda opens: frozenset(),
    "queue": lambda opens: (),
    "map": lambda opens: frozenset(),
}
STEPS = {
    "register": {
        "read": lambda held, arg, val: (held, held),
        "write": lambda held, arg, val: (arg, "done"),
    },
    "counter": {
        "get": lambda count, arg, val: (count, count),
        "inc": lambda count, arg, val: counted(count, 1),
        "dec": lambda count, arg, val: counted(count, -1),
        "plus": lambda count, arg, val: counted(count, arg),
    },
    "set": {
        "add": lambda members, arg, val: (members | {arg}, arg not in members),
        "remove": lambda members, arg, val: (members - {arg}, arg in members),
        "contains": lambda members, arg, val: (members, arg in members),
    },
    "queue": {
        "enq": lambda items, arg, val: (items + (arg,), "done"),
        "deq": lambda items, arg, val: (items[1:], items[0] if items else "empty"),
    },
    "map": {
        "put": lambda entries, arg, val: (without(entries, arg) | {(arg, val)}, "done"),
        "look": lambda entries, arg, val: (entries, dict(entries).get(arg, "empty")),
        "del": lambda entries, arg, val: (without(entries, arg), arg in dict(entries)),
    },
}


class Objects:
    """Objects of these kinds by their names, which open at 0 or empty, and change by what is asked of them."""

    def __init__(self, kinds):
        self.kinds = kinds
        self.held = {name: OPENING[kind](0) for name, kind in kinds.items()}

    def call(self, name, op, arg=None, val=None):
        """The answer; the object is as it is after it."""
        self.held[name], answer = STEPS[self.kinds[name]][op](self.held[name], arg, val)
        return answer


class History:
    def __init__(self, plan, events):
        self.kinds = {name: kind for name, kind, _ in plan.objects}
        self.opening = tuple((name, OPENING[kind](opening)) for name, kind, opening in plan.objects)
        self.table = {}
        for stamp, (tx, event) in enumerate(events):
            block = self.table.setdefault(tx, Transaction(tx, stamp))
            block.last = stamp
            rule = block.rule(event)
            if rule:
                raise Refused(f"ill-formed rule {rule} at stamp {stamp}")

    def after(self, states, block, fate):
        """The states of all objects after it, or None where an answer is not the object's."""
        held = dict(states)
        for name, op, arg, val, ans in block.done:
            held[name], found = STEPS[self.kinds[name]][op](held[name], arg, val)
            if repr(found) != ans:
                return None
        return tuple((name, held[name]) for name, _ in states) if fate == "c" else states

    def fault(self, placed, states, decision):
        """What is wrong with the decision there, or the states after it."""
        tx, fate = decision
        block = self.table.get(tx)
        if block is None:
            return 1, None
        if tx in placed:
            return 2, None
        if fate not in block.fates():
            return 3, None
        if any(other.end and other.last < block.first and other.tx not in placed for other in self.table.values()):
            return 4, None
        found = self.after(states, block, fate)
        return (5, None) if found is None else (None, found)

    def walk(self, prefix):
        """The set of placed transactions and the states after a good prefix, or the fault and its transaction."""
        placed, states = frozenset(), self.opening
        for decision in prefix:
            fault, found = self.fault(placed, states, decision)
            if fault:
                return None, (fault, decision[0])
            placed, states = placed | {decision[0]}, found
        return (placed, states), None

    def shows(self, order):
        where, fault = self.walk(order)
        if not fault and len(where[0]) < len(self.table):
            fault = 6, min(self.table.keys() - where[0])
        return fault

    def kids(self, where):
        """The decisions after which it is still good, and where they lead."""
        for tx in sorted(self.table):
            for fate in "ca":
                fault, found = self.fault(*where, (tx, fate))
                if not fault:
                    yield (tx, fate), (where[0] | {tx}, found)

    def find(self):
        """An order that shows it, or None."""
        return self.search((frozenset(), self.opening), set())

    def search(self, where, refuted):
        if len(where[0]) == len(self.table):
            return []
        if where in refuted:
            return None
        for decision, place in self.kids(where):
            rest = self.search(place, refuted)
            if rest is not None:
                return [decision, *rest]
        refuted.add(where)
        return None

    def tasks(self, depth):
        """Where the good prefixes of so many decisions lead, and those of fewer that no decision may follow."""
        found = [(frozenset(), self.opening)]
        for _ in range(depth):
            found = [place for where in found for place in [kid for _, kid in self.kids(where)] or [where]]
        return found

    def is_full(self, where):
        return len(where[0]) == len(self.table)

    def is_near(self, where):
        """Whether one more decision makes it full."""
        return any(self.is_full(kid) for _, kid in self.kids(where))

    def can_spend(self, where, budget):
        """Whether a search from there on may expand exactly so many prefixes, of which none has a full kid, and has one more left."""
        if self.is_full(where) or budget == 0 or self.is_near(where):
            return not self.is_full(where) and budget == 0
        waiting, expanded, has_near = [where], 0, False
        while waiting and expanded <= budget:
            kids = [kid for _, kid in self.kids(waiting.pop())]
            waiting += [kid for kid in kids if not self.is_near(kid)]
            has_near = has_near or any(self.is_near(kid) for kid in kids)
            expanded += 1
        return expanded > budget or expanded == budget and has_near

    def is_left_open(self, budget):
        """Whether each task of an audit is refuted or can spend its budget, and one can."""
        tasks = [(self.search(where, set()) is None, self.can_spend(where, budget)) for where in self.tasks(2)]
        return all(is_refuted or is_spent for is_refuted, is_spent in tasks) and any(is_spent for _, is_spent in tasks)


# ---- orders and certificates

def read_order(text):
    if len(text) > 32768:
        raise Fault(1)
    if text == b"none":
        return ()
    words = [re.fullmatch(rb"(0|[1-9][0-9]*)([ca])", word) for word in text.split(b" ")]
    if any(word and (len(word[1]) > 4 or int(word[1]) > 4095) for word in words):
        raise Fault(6)
    if not all(words):
        raise Fault(7)
    return tuple((int(word[1]), word[2].decode()) for word in words)


def certificate_at(lines):
    """The place among the lines where a certificate begins, or None."""
    for place, (_, line) in enumerate(lines):
        try:
            if "cert" in value_of(line, 4096):
                return place
        except Fault:
            pass
    return None


NEEDS = {"kids": set(), "silent": {"d"}, "same": {"as"}}


def certificate_line(line):
    """The line's prefix, and by what it is refuted: (by, prefix, its further order)."""
    value = value_of(line, 65536)
    by, faults, orders = value.get("by"), [], {}
    needs = NEEDS.get(by) if isinstance(by, str) else None
    must = {"by", "p"} | (needs or set())
    if not must <= value.keys():
        faults.append(4)
    if not value.keys() <= must | ({"d", "as"} if needs is None else set()):
        faults.append(5)
    if not isinstance(by, str):
        faults.append(6)
    elif needs is None:
        faults.append(7)
    for key in value.keys() & {"p", "d", "as"}:
        try:
            if not isinstance(value[key], str):
                raise Fault(6)
            orders[key] = read_order(value[key].encode())
            if key == "d" and len(orders[key]) != 1:
                raise Fault(6)
        except Fault as fault:
            faults.append(fault.numbers[0])
    if faults:
        raise Fault(min(faults))
    return by, orders["p"], orders.get("d", orders.get("as"))


def read_certificate(lines, after):
    """The lines of the certificate, whose header is the first of these lines."""
    at, header = lines[0]
    found = []
    try:
        value = value_of(header, 4096)
        has_keys(value, {"cert"}, set())
        if not (is_whole(value["cert"]) and value["cert"] >= 0):
            raise Fault(6)
        for at, line in lines[1 : value["cert"] + 1]:
            found.append(certificate_line(line))
        if len(found) < value["cert"]:
            at = after
            raise Fault(4)
        if len(lines) > value["cert"] + 1:
            at = lines[value["cert"] + 1][0]
            raise Fault(5)
    except Fault as fault:
        raise refused("certificate", at, fault) from None
    return found


def accepts(history, earlier, line):
    by, prefix, other = line
    where, fault = history.walk(prefix)
    if fault:
        return False
    if by == "kids":
        kids = [(*prefix, decision) for decision, _ in history.kids(where)]
        return len(where[0]) < len(history.table) and all(kid in earlier for kid in kids)
    if by == "same":
        return other in earlier and history.walk(other)[0] == where
    (tx, fate) = other[0]
    block = history.table.get(tx)
    longer = (*prefix, other[0])
    return block is not None and block.silent() == fate and not history.walk(longer)[1] and longer in earlier


def is_accepted(history, certificate):
    earlier = set()
    for line in certificate:
        if not accepts(history, earlier, line):
            return False
        earlier.add(line[1])
    return bool(certificate) and certificate[-1][1] == ()


# ---- what the program says

def history_of(lines, after):
    plan, rest = read_plan(lines, after)
    facts = read_facts(plan, rest)
    return plan, facts


def check(data, order):
    try:
        wanted = read_order(order)
    except Fault as fault:
        raise Refused(f"order text refused {fault.numbers[0]}") from None
    plan, facts = history_of(*lines_of(data))
    fault = History(plan, sealed(plan, facts)).shows(wanted)
    if fault:
        raise Refused("order refused {} tx {}".format(*fault))
    return "opaque " + order.decode() + "\n", 0


def decide(data):
    """The history, and whether an order shows it."""
    plan, facts = history_of(*lines_of(data))
    history = History(plan, sealed(plan, facts))
    return history, history.find()


def every_order(history):
    """All orders of all transactions, each with both fates."""
    for txs in itertools.permutations(history.table):
        for fates in itertools.product("ca", repeat=len(txs)):
            yield tuple(zip(txs, fates))


def showing(text):
    """All orders that show the history of the text: each order there is was tried."""
    history, _ = decide(text.encode())
    return [order for order in every_order(history) if not history.shows(order)]


def spelled(order):
    return " ".join(f"{tx}{fate}" for tx, fate in order) or "none"


def verify(data):
    lines, after = lines_of(data)
    place = certificate_at(lines)
    # the text before the certificate ends where its line begins
    plan, facts = history_of(lines[:place], after if place is None else lines[place][0])
    if place is None:
        raise refused("certificate", after, Fault(4))
    certificate = read_certificate(lines[place:], after)
    history = History(plan, sealed(plan, facts))
    if is_accepted(history, certificate):
        return "not opaque\n", 1
    return "certificate refused\n", 3
