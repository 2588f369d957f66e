"""Reading and writing opaq's texts of recorded runs (docs/FORMAT.md), for the scripts beside this one.

Nothing is checked here: what a text has to be is opaq's to say.
"""

import argparse
import json
import os
import subprocess
import sys

ENDS = {"commit": "committed", "abort": "aborted"}
EVENTS = ("inv", "ret", "tryc", "trya", "commit", "abort")
OPERATIONS = {
    "register": ("read", "write"), "counter": ("inc", "dec", "get", "plus"), "set": ("add", "remove", "contains"), "queue": ("enq", "deq"),
    "map": ("put", "look", "del"),
}
WITH_ARGUMENT = ("write", "plus", "add", "remove", "contains", "enq", "put", "look", "del")
REFUSED, FAILED, USAGE = 3, 4, 64


def line(**fields):
    """A line of a text, spelled as opaq spells it."""
    return json.dumps(fields, sort_keys=True, separators=(",", ":"))


class Transaction:
    """The records of one transaction, in the order of their stamps."""

    def __init__(self, number):
        self.number = number
        self.records = []

    @property
    def log(self):
        return self.records[0]["log"]

    @property
    def first(self):
        return self.records[0]["stamp"]

    @property
    def last(self):
        return self.records[-1]["stamp"]

    @property
    def end(self):
        """How it ended: 'committed', 'aborted', or else 'live'."""
        return ENDS.get(self.records[-1]["ev"], "live")

    def calls(self):
        """Its operations: pairs of an invocation and its answer, or None where there is none."""
        pending = None
        for record in self.records:
            if pending is not None:
                yield pending, record if record["ev"] == "ret" else None
                pending = None
            if record["ev"] == "inv":
                pending = record
        if pending is not None:
            yield pending, None


class Run:
    """A plan in its format, records in the order of their stamps, and the end marks: how many records each log has."""

    def __init__(self, logs, objects, records, ends, form=1):
        self.form = form
        self.logs = logs
        self.objects = objects
        self.records = sorted(records, key=lambda record: record["stamp"])
        self.ends = ends

    def transactions(self):
        """The transactions by number, in the order of their first stamps."""
        found = {}
        for record in self.records:
            found.setdefault(record["tx"], Transaction(record["tx"])).records.append(record)
        return found

    def beginning(self, count):
        """The run of the first so many records, by stamps, with end marks of its own."""
        kept = self.records[:count]
        ends = {log: sum(record["log"] == log for record in kept) for log in range(self.logs)}
        return Run(self.logs, self.objects, kept, ends, self.form)

    def text(self):
        """The run as opaq reads it."""
        header = line(format=self.form, logs=self.logs, objects=len(self.objects))
        marks = [line(end=count, log=log) for log, count in sorted(self.ends.items())]
        lines = [header, *(line(**it) for it in self.objects), *(line(**it) for it in self.records), *marks]
        return "\n".join(lines) + "\n"


def read(text):
    """The run of a text that opaq takes."""
    header, *rest = json.loads(f"[{','.join(it for it in text.split(chr(10)) if it)}]")
    objects, facts = rest[: header["objects"]], rest[header["objects"] :]
    records = {(it["log"], it["at"]): it for it in facts if "end" not in it}
    ends = {it["log"]: it["end"] for it in facts if "end" in it}
    return Run(header["logs"], objects, records.values(), ends, header["format"])


def is_sound(run):
    """Whether each record has what its event wants, so that it can be put into words."""
    kinds = {it["name"]: it["kind"] for it in run.objects}
    opens = all(whole(it["open"]) for it in run.objects if it["kind"] in ("register", "counter"))
    return opens and all(kind in OPERATIONS for kind in kinds.values()) and all(is_record(it, kinds) for it in run.records)


def is_record(it, kinds):
    if it["ev"] not in EVENTS or not all(whole(it[key]) for key in ("at", "log", "stamp", "tx")):
        return False
    if it["ev"] not in ("inv", "ret"):
        return True
    if it["op"] not in OPERATIONS[kinds[it["ob"]]]:
        return False
    if it["ev"] == "ret":
        return whole(it["ans"]) or isinstance(it["ans"], bool) or it["ans"] in ("done", "empty")
    return (it["op"] not in WITH_ARGUMENT or whole(it["arg"])) and (it["op"] != "put" or whole(it["val"]))


def whole(value):
    return type(value) is int


class Words(argparse.ArgumentParser):
    """The words of a script's command line. Help is the script's own text, on standard output, with status 0; what is not understood is told in
    one line, with status 64."""

    def __init__(self, name, text, usage):
        super().__init__(prog=name, add_help=False, allow_abbrev=False)
        self.text = text
        self.words = usage
        self.add_argument("-h", "--help", action="store_true")

    def error(self, message):
        self.fail(USAGE, f"{message}; the words are {self.words}")

    def fail(self, status, words):
        print(f"{self.prog}: {words}", file=sys.stderr)
        sys.exit(status)

    def taken(self, words):
        """The words, read."""
        if "--help" in words or "-h" in words:
            say(self.text.strip())
            sys.exit(0)
        return self.parse_args(words)

    def bytes_of(self, name):
        """What a file holds, or standard input where it is called -."""
        try:
            if name == "-":
                return sys.stdin.buffer.read()
            with open(name, "rb") as file:
                return file.read()
        except OSError as error:
            return self.fail(FAILED, f"{name}: {error.strerror}")

    def run_of(self, text):
        """The run of a text in bytes. One that is none is refused."""
        try:
            run = read(text.decode())
            if is_sound(run):
                return run
        except (ValueError, KeyError, TypeError, AttributeError, IndexError, RecursionError):
            pass
        return self.fail(REFUSED, "this is no run; `opaq decide` says what is wrong with it")


def number_of(word):
    """A number without a sign, for the words of a script."""
    if not (word.isascii() and word.isdigit()):
        raise argparse.ArgumentTypeError(f"'{word}' is no number")
    return int(word)


def said(record):
    """A record in words."""
    if record["ev"] == "inv":
        return f"transaction {record['tx']} invokes {called(record)}"
    if record["ev"] == "ret":
        return f"transaction {record['tx']} gets {spelled(record['ans'])} from {record['op']} of {record['ob']}"
    words = {"tryc": "asks to commit", "trya": "asks to abort", "commit": "commits", "abort": "aborts"}
    return f"transaction {record['tx']} {words[record['ev']]}"


def called(record):
    return " ".join([record["op"], *asked(record), "of", record["ob"]])


def asked(record):
    """The arguments of an operation, in words."""
    return [spelled(record[key]) for key in ("arg", "val") if key in record]


def spelled(value):
    return value if isinstance(value, str) else json.dumps(value)


def ask(program, words, text, seconds=None):
    """What opaq answers of a text in bytes: its exit status, and its line; or None where it takes longer than so many seconds."""
    try:
        answer = subprocess.run([program, *words], input=text, stdout=subprocess.PIPE, stderr=subprocess.PIPE, timeout=seconds)
    except subprocess.TimeoutExpired:
        return None
    return answer.returncode, (answer.stdout or answer.stderr).decode().rstrip("\n")


def say(text):
    """Prints a text. Who reads it may go before its end, as head does."""
    try:
        print(text, flush=True)
    except BrokenPipeError:
        os.dup2(os.open(os.devnull, os.O_WRONLY), sys.stdout.fileno())
