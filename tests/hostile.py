"""Hostile texts, made from a seed: valid, nearly valid and wrong ones (`Maker`); and a quick way to ask the program about many (`Program`). `tests/fuzz`
and `tests/audits` call both."""
import os
import random
import re
import signal

import oracle

WHOLE = [0, 1, -1, 2, 3, 63, 64, 65, 255, 256, 257, 1023, 1024, 4095, 4096, 4097, 262143, 262144]
WHOLE += [way * (2**bits + more) for bits in (31, 32, 62, 63, 64) for more in (-1, 0, 1) for way in (1, -1)]
WORDS = ["inv", "ret", "tryc", "trya", "commit", "abort", "begin", "read", "write", "inc", "dec", "get", "plus", "add", "remove"]
WORDS += ["contains", "enq", "deq", "put", "look", "del", "push", "done", "empty", "maybe", "register", "counter", "set", "queue", "map"]
WORDS += ["stack", "kids", "silent", "same", "Read", "read ", "", "x", "y", "none", "1c", "1a", "0c 1c", "01c", "4096c", "true", "1"]
KEYS = ["log", "at", "stamp", "tx", "ev", "ob", "op", "arg", "val", "ans", "end", "format", "logs", "objects", "kind", "name", "open"]
KEYS += ["cert", "by", "p", "d", "as", "why", "", "Log", "log "]
DEEP = (126, 127, 128, 129)
ODD_DECISIONS = ["7c", "1023a", "1024c", "4095c", "4096c", "01c", "c", "1", "1C", "+1c", "-1c", "", " ", "1c1a", "1c,", "é", "0x1c"]
ODD_DECISIONS += ["99999999999999999999c", "none"]
BYTES = [b"\xff\xfe", b"\xc3", b"\xed\xa0\x80", b"\xc0\x80", b"\xf4\x90\x80\x80", b"\x00", b"\x7f", b"\n", b"\r"]
BYTES += [bytes([mark]) for mark in b'"{}0\\,-.e']


class Maker:
    """Makes texts. Every choice comes from the seed."""

    def __init__(self, seed):
        self.random = random.Random(seed)
        self.one = self.random.choice

    def is_so(self, chance):
        return self.random.random() < chance

    # ---- JSON in many spellings

    def string(self, text):
        """A JSON string of the text, now and then with escapes."""
        if not self.is_so(0.06):
            return '"' + "".join(f"\\{mark}" if mark in '"\\' else mark for mark in text) + '"'
        return '"' + "".join(self.escape(mark) if self.is_so(0.5) or mark in '"\\' else mark for mark in text) + '"'

    def escape(self, mark):
        if mark in '"\\/' and self.is_so(0.5):
            return "\\" + mark
        units = mark.encode("utf-16-be")
        spelled = self.one(["\\u%04x", "\\u%04X"])
        return "".join(spelled % int.from_bytes(units[at : at + 2], "big") for at in range(0, len(units), 2))

    def number(self):
        """A number, mostly near a limit, in one of the spellings that there are, and some that there are not."""
        value = str(self.one(WHOLE))
        ways = ["{}"] * 30 + ["{}.0", "{}e0", "{}E+0", "{}e-1", "{}.5", "0{}", "+{}", "{}.", ".{}", "{}e", "{}e+", '"{}"', "-{}", "{} "]
        ways += ["0x{}", "{}_0", "{}00000000000000000000", "{}.00000000000000000000000000", "{}e400", "{}e-400", "{}e99999999999", "{}0e-1"]
        ways += ["1e400", "-0", "NaN", "Infinity", "-Infinity", "1" + "0" * 300, "1" + "0" * 400, "-0.0", "0e9999999999", "00", "--1"]
        ways += ["1e1", "1E2", "0.0e-0"]
        return self.one(ways).format(value)

    def nested(self, depth):
        way = self.one(["[", '{"a":', "mixed"])
        marks = ["[" if way == "[" or way == "mixed" and self.is_so(0.5) else '{"a":' for _ in range(depth)]
        inner = "1" if marks[-1] != "[" or self.is_so(0.5) else ""
        return "".join(marks) + inner + "".join("]" if mark == "[" else "}" for mark in reversed(marks))

    def value(self):
        """The text of some value, or of none."""
        way = self.random.randrange(12)
        if way < 4:
            return self.number()
        if way < 7:
            return self.string(self.one(WORDS))
        if way == 7:
            words = ["true", "false", "null", "True", "nul", "[]", "{}", '{"a":1}', "[1,2]", "[1,]"]
            return self.one([*words, '{"a":1,}', "{1:2}", '{"a"}', "'x'", ""])
        if way == 8:
            return self.nested(self.one(DEEP) - self.one([0, 1]))
        if way == 9:
            halves = ['"\\ud800"', '"\\udc00x"', '"\\ud83d\\ude00"', '"\\ud800\\u0041"']
            return self.one([*halves, '"\\x"', '"\\u12"', '"\t"', '"\\t"', '"\x7f"', '"\\u0000"', '"\\'])
        if way == 10:
            return self.string(self.one(["é", "😀", "x" * self.one([31, 32, 33]), "x.y", "x y", 'a"b', "a\\b", "a/b", "_", "X9"]))
        return str(self.one(WHOLE))

    def space(self):
        if not self.is_so(0.03):
            return ""
        return self.one([" ", "\t", "  ", "\r", " \t\r"]) if self.is_so(0.995) else self.one(["\x0c", "\u00a0", "\x0b", "\ufeff"])

    def spelled(self, pairs):
        """The line of an object of these keys and texts of values."""
        space = self.space
        inner = ",".join(f"{space()}{self.string(key)}{space()}:{space()}{text}{space()}" for key, text in pairs)
        return f"{space()}{{{inner}}}{space()}"

    def broken(self, pairs):
        """The same with one thing changed."""
        pairs = list(pairs)
        way = self.random.randrange(7)
        at = self.random.randrange(len(pairs)) if pairs else 0
        if way == 0 and pairs:
            del pairs[at]
        elif way == 1:
            pairs.insert(self.random.randint(0, len(pairs)), (self.one(KEYS), self.value()))
        elif way == 2 and pairs:
            pairs.insert(self.random.randint(0, len(pairs)), (pairs[at][0], self.value() if self.is_so(0.5) else pairs[at][1]))
        elif way == 3 and pairs:
            pairs[at] = (self.one(KEYS), pairs[at][1])
        elif way == 4 and pairs:
            pairs[at] = (pairs[at][0], self.number())
        elif way == 5 and pairs:
            pairs[at] = (pairs[at][0], self.string(self.one(WORDS)))
        elif pairs:
            pairs[at] = (pairs[at][0], self.value())
        return pairs

    # ---- runs

    def plan(self, form):
        kinds = oracle.KINDS_TWO if form == 2 else oracle.KINDS
        names = self.random.sample(["x", "y", "c", "jobs", "A_9", "n" * 32, "m"], self.one([0, 1, 1, 2, 2, 3, 4]))
        objects = [(name, self.one(list(kinds)), self.one([0, 0, 0, 1, 5, -7])) for name in names]
        return [(name, kind, opening if kind in ("register", "counter") else 0) for name, kind, opening in objects]

    def asked(self, objects, kinds):
        """An operation on one of the objects, with its arguments."""
        name, kind, _ = self.one(objects)
        op = self.one(list(kinds[kind]))
        arg = self.one([0, 1, 2, 5]) if not self.is_so(0.02) else self.one([2**31, -(2**31), oracle.I64 - 1, -oracle.I64])
        if op == "plus" and abs(arg) > 2**31:
            arg = 2**31
        return name, kind, op, arg, self.one([1, 9])

    def block(self, objects, kinds):
        """What a transaction does: operations, and how it ends."""
        asked = [self.asked(objects, kinds) for _ in range(self.one([0, 1, 1, 2, 2, 3]))] if objects else []
        ends = [["tryc", "commit"]] * 6 + [["tryc"]] * 2 + [["tryc", "abort"], ["trya", "abort"], ["trya"], [], ["inv"], ["inv", "abort"]]
        return asked, [step for step in self.one(ends) if step != "inv" or objects]

    def history(self, objects, form):
        """The events of a run of up to five transactions, each with a copy of its own of what was committed as it began."""
        kinds = oracle.KINDS_TWO if form == 2 else oracle.KINDS
        held = {name: oracle.OPENING[kind](opening) for name, kind, opening in objects}
        ids = self.random.sample([0, 1, 2, 3, 4, 5, 1023, 4095 if form == 2 else 1022], self.one([0, 1, 2, 2, 3, 3, 4, 5]))
        running = {tx: [*self.block(objects, kinds), None, []] for tx in ids}
        events = []
        while running:
            tx = self.one(list(running)[: self.one([1, 2, 3])])
            asked, ends, copy, pending = running[tx]
            copy = running[tx][2] = dict(held) if copy is None else copy
            if pending:
                name, kind, op, arg, val = pending.pop()
                copy[name], ans = oracle.STEPS[kind][op](copy[name], arg, val)
                events.append((tx, "ret", name, op, None, None, ans if self.is_so(0.96) else self.other(ans)))
            elif asked:
                pending.append(asked.pop())
                events.append(self.invoked(tx, pending[0], kinds))
            elif ends:
                end = ends.pop(0)
                events.append(self.invoked(tx, self.asked(objects, kinds), kinds) if end == "inv" else (tx, end))
                if end == "commit" or end == "tryc" and self.is_so(0.2):
                    held = {**held, **copy}
            else:
                del running[tx]
        return events

    def invoked(self, tx, asked, kinds):
        name, kind, op, arg, val = asked
        takes = kinds[kind][op]
        return tx, "inv", name, op, arg if takes else None, val if takes == 2 else None

    def other(self, ans):
        """Another answer of the same operation."""
        if isinstance(ans, bool):
            return not ans
        return ans + 1 if isinstance(ans, int) else self.one([1, 5]) if ans == "empty" else ans

    def run(self):
        """The pairs of the lines of a run: those of its plan, and those of its facts."""
        form = self.one([1, 2])
        logs = self.one([1, 1, 1, 2, 2, 3])
        objects = self.plan(form)
        events = self.history(objects, form)
        if self.is_so(0.08) and events:
            self.disturb(events)
        counts, facts = [0] * logs, []
        home = {}
        for stamp, (tx, event, *more) in enumerate(events):
            log = home.setdefault(tx, self.random.randrange(logs))
            pairs = {"log": log, "at": counts[log], "stamp": stamp, "tx": tx, "ev": event}
            pairs |= {key: part for key, part in zip(("ob", "op", "arg", "val", "ans"), more) if part is not None}
            facts.append([(key, self.text(part)) for key, part in sorted(pairs.items())])
            counts[log] += 1
        facts += [[("end", str(count)), ("log", str(log))] for log, count in enumerate(counts)]
        if self.is_so(0.12):
            self.shift(facts)
        if self.is_so(0.5):
            self.random.shuffle(facts)
        head = [[("format", str(form)), ("logs", str(logs)), ("objects", str(len(objects)))]]
        for name, kind, opening in objects:
            opens = [("open", str(opening))] if kind in ("register", "counter") else []
            head.append([("kind", self.text(kind)), ("name", self.text(name)), *opens])
        return head, facts

    def disturb(self, events):
        """Swaps, drops or doubles an event, so that the history may be ill-formed."""
        way, at = self.random.randrange(3), self.random.randrange(len(events))
        if way == 0:
            events[at], events[-1] = events[-1], events[at]
        elif way == 1:
            del events[at]
        else:
            events.insert(self.random.randint(0, len(events)), events[at])

    def shift(self, facts):
        """Changes a number of a fact, or of a copy of it, a little, so that the facts may be in conflict, wait or have a gap."""
        at = self.random.randrange(len(facts))
        pairs = list(facts[at])
        place = self.one([place for place, (key, _) in enumerate(pairs) if key in ("log", "at", "stamp", "tx", "end", "arg")])
        key, text = pairs[place]
        pairs[place] = (key, str(max(0, int(text) + self.one([-2, -1, 1, 2, 100]))))
        facts[at : at + self.one([0, 1])] = [pairs]

    def text(self, part):
        return str(part).lower() if isinstance(part, (bool, int)) else self.string(part)

    # ---- whole texts

    def lines(self, pairs, changes):
        """The lines, with so many changes to what they say."""
        pairs = list(pairs)
        for _ in range(changes):
            if not pairs:
                break
            at = self.random.randrange(len(pairs))
            way = self.random.randrange(10)
            if way < 6:
                pairs[at] = self.broken(pairs[at])
            elif way == 6:
                pairs.insert(self.random.randint(0, len(pairs)), pairs[at])
            elif way == 7:
                del pairs[at]
            elif way == 8:
                other = self.random.randrange(len(pairs))
                pairs[at], pairs[other] = pairs[other], pairs[at]
            else:
                pairs.insert(at, self.broken(pairs[at]))
        found = []
        for line in pairs:
            line = list(line)
            if self.is_so(0.3):
                self.random.shuffle(line)
            found.append(self.spelled(line))
        return found

    def disturbed(self, lines):
        """The text of the lines, some of them disturbed as lines."""
        way = self.random.randrange(30)
        at = self.random.randint(0, len(lines))
        if way < 3:
            lines.insert(at, self.one(["", "", "\r", " ", "[]", "null", "{}", "\x00", "{} {}", "//", "\ufeff{}"]))
        elif way == 3 and at < len(lines):
            lines[at] = self.padded(lines[at], self.one([4095, 4096, 4097]))
        elif way == 4:
            lines.insert(at, self.nested(self.one(DEEP)))
        elif way == 5 and at < len(lines):
            line = lines[at]
            lines[at] = self.one([line + ",", line + line, "[" + line + "]", "\ufeff" + line, line[:-1], line[1:]])
        elif way == 6:
            lines.insert(at, self.one(["[", "{", "x"]) * self.one([4096, 4097, 65536]))
        elif way == 7:
            self.random.shuffle(lines)
        feed = "\r\n" if self.is_so(0.1) else "\n"
        return feed.join(lines) + ("" if self.is_so(0.2) else feed if self.is_so(0.95) else feed * 3)

    def padded(self, line, length):
        """The line with blanks between its parts, so that it has so many bytes."""
        more = max(0, length - len(line.encode()))
        at = self.random.choice([found.end() for found in re.finditer("[{,:]", line)] or [0])
        return line[:at] + " " * more + line[at:]

    def bytes(self, text):
        """The bytes of the text; in one of ten texts some of them are changed, cut or put in."""
        data = text.encode("utf-8", "surrogatepass")
        if not data or not self.is_so(0.1):
            return data
        for _ in range(self.one([1, 1, 1, 2, 3])):
            at = self.random.randrange(len(data) + 1)
            end = min(len(data), at + self.one([0, 1, 1, 2, 20]))
            way = self.random.randrange(6)
            if way == 0:
                data = data[:at]
            elif way == 1:
                data = data[:at] + data[end:]
            elif way == 2:
                data = data[:end] + data[at:]
            elif way == 3:
                data = data[:at] + bytes([self.random.randrange(256)]) + data[end:]
            else:
                data = data[:at] + self.one(BYTES) + data[at:]
            if not data:
                break
        return data

    def changes(self):
        return self.one([0, 0, 0, 1, 1, 1, 2, 3])

    def text_of_run(self):
        """The lines of a run as text, and the pairs that it was made from."""
        head, facts = self.run()
        changes = self.changes()
        in_head = changes if self.is_so(0.3) else 0
        return self.lines(head, in_head) + self.lines(facts, changes - in_head), (head, facts)

    def order(self, whole):
        """An order text: often one that shows the run, or nearly."""
        head, facts = whole
        ids = sorted({int(text) for line in facts for key, text in line if key == "tx"})
        decisions = [f"{tx}{self.one('cca')}" for tx in self.random.sample(ids, len(ids))]
        if self.is_so(0.7):
            found = self.found(whole)
            decisions = found if found else decisions
        if self.is_so(0.3) and decisions:
            at = self.random.randrange(len(decisions))
            other = self.one(ODD_DECISIONS)
            decisions[at : at + self.one([0, 1])] = [self.one([other, decisions[at], decisions[at][:-1] + "a"])]
        if self.is_so(0.05):
            decisions = self.random.sample(decisions, len(decisions))
        text = " ".join(decisions) or self.one(["none", "none", "none", "", " "])
        if self.is_so(0.01):
            text += " 1c" * ((self.one([32766, 32768, 32769, 32771]) - len(text)) // 3)
            text = text.ljust(self.one([len(text), 32768, 32769]), self.one([" ", "0", "c"]))
        return text[self.one([0] * 40 + [1]) :]

    def found(self, whole):
        """The decisions of an order that shows the run as it was made, if there is one."""
        history = self.judged(whole)
        order = history and history.find()
        return order and [f"{tx}{fate}" for tx, fate in order]

    def judged(self, whole):
        """The history of a run as it was made, or None where that is refused."""
        data = "\n".join("{" + ",".join(f"{self.plain_key(key)}:{text}" for key, text in line) + "}" for part in whole for line in part)
        try:
            return oracle.decide(data.encode())[0]
        except oracle.Refused:
            return None

    def plain_key(self, key):
        return f'"{key}"'

    # ---- certificates

    def certificate(self, whole):
        """The pairs of the lines of a certificate: of one that is accepted where the run is not opaque, or of some lines."""
        history = self.judged(whole)
        lines = []
        words = ["kids", "silent", "same"] + (["ahead", "first"] if self.is_so(0.1) else [])
        if history and not history.find() and self.is_so(0.9):
            self.refute(history, (), (frozenset(), history.opening), {}, lines)
        else:
            ids = sorted({int(text) for line in whole[1] for key, text in line if key == "tx"} | {7})
            for _ in range(self.one([0, 1, 2, 3])):
                other = self.some_prefix(ids)
                lines.append((self.one(words), self.some_prefix(ids), other[: self.one([1, 9])]))
            lines += [("kids", (), None)] if self.is_so(0.7) else []
        if self.is_so(0.15) and lines:
            at = self.random.randrange(len(lines))
            by, prefix, other = lines[at]
            changed = [(by, prefix[:-1], other), (by, prefix, prefix), ("silent", prefix, prefix[:1])]
            lines[at] = self.one([*changed, ("kids", prefix, None), ("same", prefix, prefix[::-1])])
        more = {"kids": None, "silent": "d", "same": "as", "ahead": None, "first": "d"}
        pairs = [[("cert", str(len(lines)))] + ([("rules", "2")] if self.is_so(0.02) else [])]
        for by, prefix, other in lines:
            further = [(more[by], self.string(self.written(other or ())))] if more[by] else []
            pairs.append([("by", self.string(by)), ("p", self.string(self.written(prefix)))] + further)
        return pairs

    def some_prefix(self, ids):
        return tuple((tx, self.one("ca")) for tx in self.random.sample(ids, min(len(ids), self.one([0, 1, 1, 2, 3]))))

    def written(self, prefix):
        return " ".join(f"{tx}{fate}" for tx, fate in prefix) or "none"

    def refute(self, history, prefix, where, known, lines):
        """Lines that refute the prefix and what it rests on."""
        if where in known and self.is_so(0.9):
            lines.append(("same", prefix, known[where]))
            return
        kids = list(history.kids(where))
        silent = [(decision, place) for decision, place in kids if history.table[decision[0]].silent() == decision[1]]
        if silent and self.is_so(0.6):
            decision, place = self.one(silent)
            self.refute(history, (*prefix, decision), place, known, lines)
            lines.append(("silent", prefix, (decision,)))
        else:
            for decision, place in kids:
                self.refute(history, (*prefix, decision), place, known, lines)
            lines.append(("kids", prefix, None))
        known[where] = prefix

    def text_to_verify(self):
        """The text of a run and a certificate."""
        lines, whole = self.text_of_run() if self.is_so(0.3) else self.text_as_made()
        pairs = self.certificate(whole)
        if len(pairs) < 200:
            lines += self.lines(pairs, self.changes() if self.is_so(0.6) else 0)
        if self.is_so(0.02) and lines:
            lines[-1] = self.padded(lines[-1], self.one([4096, 4097, 65535, 65536, 65537]))
        if self.is_so(0.02):
            text = "1c " * 10922 + self.one(["1c", "10c", "1", "100c"])
            lines.append(self.spelled([("by", '"kids"'), (self.one(["p", "p", "d", "as"]), f'"{text}"')]))
        return lines

    def text_as_made(self):
        head, facts = self.run()
        return self.lines(head, 0) + self.lines(facts, 0), (head, facts)

    def made(self, command):
        """The words of the command, and its input."""
        if command == "verify":
            return ["verify"], self.bytes(self.disturbed(self.text_to_verify()))
        lines, whole = self.text_of_run()
        if command == "decide":
            return ["decide", "--cert"] if self.is_so(0.3) else ["decide"], self.bytes(self.disturbed(lines))
        order = self.order(whole)
        while order.startswith("-") or "\x00" in order:
            order = order[1:]
        return ["check", "--order", order], self.bytes(self.disturbed(lines))


class Program:
    """The program under test: three files in memory are its input and its outputs, over and over."""

    def __init__(self, path):
        self.path = path
        self.files = [os.memfd_create(name) for name in ("input", "output", "error")]
        self.actions = [(os.POSIX_SPAWN_DUP2, file, at) for at, file in enumerate(self.files)]
        self.child = 0
        signal.signal(signal.SIGALRM, lambda *_: os.kill(self.child, signal.SIGKILL))

    def run(self, words, data):
        """What it prints and its status; it is ended after 30 seconds."""
        for file in self.files:
            os.lseek(file, 0, os.SEEK_SET)
            os.ftruncate(file, 0)
        os.write(self.files[0], data)
        os.lseek(self.files[0], 0, os.SEEK_SET)
        self.child = os.posix_spawn(self.path, [self.path, *words], {}, file_actions=self.actions)
        signal.setitimer(signal.ITIMER_REAL, 30)
        status = os.waitstatus_to_exitcode(os.waitpid(self.child, 0)[1])
        signal.setitimer(signal.ITIMER_REAL, 0)
        printed = [os.pread(file, os.fstat(file).st_size, 0) for file in self.files[1:]]
        return printed[0], printed[1], status
