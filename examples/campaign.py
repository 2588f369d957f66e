#!/usr/bin/env python3
"""Runs a memory under test under many seeds, and has opaq judge each run as it comes: campaign.py [OPTIONS] OPAQ -- ./memory {seed} {threads}.

OPAQ is the built program. In the words of the memory {seed} and {threads} are filled in. The memory prints a run on standard output, or rounds, one
after the other, as `opaq_round` of opaq.h writes them: each round is a whole text, and begins at a line with the key `format`. A run is opaque only
where each of its rounds is. After the first round that is not opaque the memory is ended.

With campaign.py [OPTIONS] --from DIR OPAQ the files DIR/*.jsonl, and those in folders below, are judged: runs that other machines may have recorded.

With --keep DIR the first failing runs of each sort stay in DIR: the round, its core, the story and the picture, and a page of them all in
DIR/index.html. What an older campaign kept there goes. On a terminal standard error has a line of progress.

The last line says what was done. The exit status is 1 where a run is not opaque; else 4 where a memory or opaq failed; else 3 where opaq refused a
text; else 2 where a run is unfinished, or was cut since it was beyond the limits; else 130 where the campaign was interrupted; else 4 where nothing
was judged, as where no run has an attempt; else 0. It is 64 where these words are not understood.
"""

import argparse
import collections
import contextlib
import itertools
import json
import os
import pathlib
import re
import select
import shlex
import shutil
import signal
import subprocess
import sys
import tempfile
import threading
import time

import campaign_kept
import recorded

KEY = re.compile(rb'"format"\s*:')
TRANSACTION = re.compile(rb'"tx":\s*(\d+)')
COMMIT, STAMP = re.compile(rb'^.*"ev"\s*:\s*"commit".*$', re.M), re.compile(rb'"stamp":\s*(\d+)')
PLACEHOLDER, LINE_REFUSED = re.compile(r"(?<!\$)\{(\w+)\}"), re.compile(r"(?:plan|record) line (\d+) refused")
CUT = re.compile(rb'^\{"end":\d+,"end":', re.M)
END_MARKS, TEXT_MOST, CHUNK = 8192, 100_000_000, 1 << 18
VERDICTS = {0: ("opaque", "opaque "), 1: ("not opaque", "not opaque"), 2: ("unfinished", "unfinished"), 3: ("refused", "")}
STATUSES = {"not opaque": 1, "failed": 4, "refused": 3, "unfinished": 2, "cut": 2}  # the first that applies
NOTHING, USAGE, INTERRUPTED = 4, 64, 130
NAMES = ("seed", "threads")
SAID_MOST, SHOWN_MOST, ERRORS_MOST = 4000, 60, 1 << 20
CUT_SAID = "opaq.h: cut: "


class Campaign:
    """What was asked for, and what was found so far. All of it is changed under the lock alone."""

    def __init__(self, asked):
        self.asked = asked
        self.lock = threading.RLock()
        self.began = time.monotonic()
        self.wanted = wanted_of(asked)
        self.running, self.telling = set(), set()
        self.is_over = self.is_interrupted = False
        self.error = self.page_error = ""
        self.places = set()
        self.runs = self.rounds = self.attempts = 0
        self.sorts, self.kept_of, self.kept, self.silent = collections.Counter(), collections.Counter(), [], []

    def seconds(self):
        return time.monotonic() - self.began

    def start(self, words, **streams):
        """Starts a process in a group of its own; None where the campaign is over."""
        with self.lock:
            if self.is_over:
                return None
            process = subprocess.Popen(words, start_new_session=True, **streams)
            self.running.add(process)
            return process

    def end(self, process):
        """Ends a process, with what it started itself where it still ran, and answers its status."""
        with self.lock:
            self.running.discard(process)
            with contextlib.suppress(ProcessLookupError):  # it may end by itself just now
                if process.poll() is None:
                    os.killpg(process.pid, signal.SIGKILL)
        return process.wait()

    def tell(self, words, given):
        """Runs a script that tells of a failing run. Only a second interruption ends it."""
        pipes = {"stdin": subprocess.PIPE, "stdout": subprocess.PIPE, "stderr": subprocess.STDOUT}
        process = subprocess.Popen(words, start_new_session=True, **pipes)
        with self.lock:
            self.telling.add(process)
        said = process.communicate(given)[0]
        with self.lock:
            self.telling.discard(process)
        return said

    def stop(self):
        """No more runs are begun, and those that are under way end; the second time also what is told of them."""
        with self.lock:
            ended = self.telling if self.is_interrupted and self.is_over else ()
            self.is_over = True
            for process in [*self.running, *ended]:
                self.end(process)

    def counted(self, run, text):
        attempts = len(set(TRANSACTION.findall(text)))
        run.attempts, run.commits = run.attempts + attempts, run.commits + commits_of(text, attempts)
        with self.lock:
            self.rounds += 1
            self.attempts += attempts

    def note(self, run, sort, line, text=b""):
        """Notes that a run is of that sort, and keeps the first ones."""
        with self.lock:
            is_kept = sort not in run.sorts and self.kept_of[sort] < self.asked.most_kept
            run.sorts.add(sort)
            self.kept_of[sort] += is_kept
        if not is_kept:
            return
        found = {"verdict": sort, **run.names, "line": line.split("\n")[0]}
        if self.asked.keep:
            found |= campaign_kept.keep(self, run, sort, line, text)
        with self.lock:
            self.kept.append(found)
            if self.asked.keep:
                campaign_kept.write_page(self)

    def summary(self):
        rounds = "" if self.rounds == self.runs else f" in {many(self.rounds, 'round')}"
        more = "".join(f", {self.sorts[sort]:,} {sort}" for sort in ("refused", "failed") if self.sorts[sort])
        found = ", ".join(f"{self.sorts[sort]:,} {sort}" for sort in ("not opaque", "unfinished", "cut"))
        return f"{many(self.runs, 'run')}, {many(self.attempts, 'attempt')}{rounds}: {found}{more}"

    def status(self):
        found = [status for sort, status in STATUSES.items() if self.sorts[sort]]
        otherwise = INTERRUPTED if self.is_interrupted else 0 if self.attempts else NOTHING
        return found[0] if found else otherwise

    def hints(self):
        """What is wrong with all runs together."""
        if self.rounds and not self.attempts:
            yield "nothing was judged: no run has an attempt"
        if self.silent:
            runs = f"any of {many(self.runs, 'run')}" if len(self.silent) == self.runs != 1 else many(len(self.silent), "run")
            first = min((it.names for it in self.silent), key=lambda it: (it.get("seed", 0), it.get("file", "")))
            which = campaign_kept.described({key: value for key, value in first.items() if key != "round"})
            yield f"no attempt committed in {runs}, as of {which}: is opaq_end(1) missing?"


def many(count, word):
    return f"{count:,} {word}{'' if count == 1 else 's'}"


class Run:
    """One run of the memory, or one file: its names, the sorts of what was found, and how many attempts it had and how many of them committed."""

    def __init__(self, **names):
        self.names = names
        self.sorts = set()
        self.attempts = self.commits = self.cuts = 0


def commits_of(text, attempts):
    """How many attempts of a round committed. One closing transaction behind others that did not is none of them."""
    found = COMMIT.findall(text)
    own = STAMP.search(found[0]) if len(found) == 1 and attempts > 2 else None
    is_closing = own and own[1] == max(STAMP.findall(text), key=lambda it: (len(it), it))
    return 0 if is_closing else len(found)


def texts_of(chunks):
    """The rounds of a stream, each with whether another one follows."""
    held, looked, header = bytearray(), 0, None
    for chunk in chunks:
        held += chunk
        while found := KEY.search(held, looked):
            looked, start = found.end(), held.rfind(b"\n", 0, found.start()) + 1
            if header is not None and start > header:
                yield bytes(held[:start]), True
                del held[:start]
                looked, start = looked - start, 0
            header = start
        looked = max(looked, len(held) - len(b'"format"') * 2)
        if len(held) > TEXT_MOST:
            break
    if held:
        yield bytes(held), False


def chunks_of(campaign, process, faults):
    """What a memory prints, as it comes. Where it prints nothing for so long it is ended."""
    timeout = campaign.asked.timeout
    while select.select([process.stdout], [], [], timeout)[0]:
        chunk = os.read(process.stdout.fileno(), CHUNK)
        if not chunk:
            return
        yield chunk
    faults.append(f"the memory printed nothing for {timeout:g} s")
    campaign.end(process)


def judged(campaign, text):
    """What opaq says of a text: the verdict and the line. None where the campaign is over."""
    asked = campaign.asked
    budget = [] if asked.budget is None else ["--budget", str(asked.budget)]
    with tempfile.TemporaryFile() as file:
        file.write(text)
        file.seek(0)
        process = campaign.start([asked.opaq, "decide", *budget], stdin=file, stdout=subprocess.PIPE, stderr=subprocess.PIPE)
    if process is None:
        return None
    try:
        said = process.communicate(timeout=asked.timeout)
    except subprocess.TimeoutExpired:
        campaign.end(process)
        said = process.communicate()
        return "unfinished", f"opaq had no answer within {asked.timeout:g} s"
    with campaign.lock:
        campaign.running.discard(process)
        if campaign.is_over and process.returncode < 0:
            return None
    line, error = (it.decode(errors="replace").strip() for it in said)
    verdict, wanted = VERDICTS.get(process.returncode, ("failed", ""))
    if not line.startswith(wanted) or (wanted and not line):
        verdict = "failed"
    return verdict, line or error or f"opaq ended with status {process.returncode}, and said nothing"


def judge_rounds(campaign, run, chunks, has_failed, errors=list):
    """Judges the rounds of a run, up to the first one that is not opaque, and answers how many texts there were. The last text of a memory that
    died or was ended may be a part, which opaq refuses. `errors` are the lines of the memory's standard error so far."""
    number = 0
    for number, (text, has_more) in enumerate(texts_of(chunks), 1):
        if len(text) > TEXT_MOST:
            campaign.note(run, "failed", f"round {number} has more than {TEXT_MOST:,} bytes")
            break
        may_be_part = not has_more and (has_failed() or campaign.is_over)
        answer = judged(campaign, text)
        if answer is None or may_be_part and answer[0] == "refused":
            break
        campaign.counted(run, text)
        run.names["round"] = number
        if answer[0] != "opaque":
            campaign.note(run, answer[0], with_line(answer[1], text) if answer[0] == "refused" else answer[1], text)
        if CUT.search(text, max(0, len(text) - END_MARKS)):
            campaign.note(run, "cut", cut_line(run, errors()), text)
        if answer[0] == "not opaque":
            break
    return number


def with_line(answer, text):
    """Why opaq refused a text, with the line at fault, as where a message of the memory stands among the records."""
    found = LINE_REFUSED.match(answer)
    lines = text.split(b"\n")
    if not found or int(found[1]) > len(lines):
        return f"{answer} (examples/explain.py says what that means)"
    raw = lines[int(found[1]) - 1].decode(errors="replace")
    shown = json.dumps(raw if len(raw) <= SHOWN_MOST else f"{raw[:SHOWN_MOST]}..", ensure_ascii=False)
    return f"{answer} (line {found[1]} of the round is {shown}; examples/explain.py says what that means)"


def cut_line(run, lines):
    """That a round was cut, in the words of opaq.h where it said so: it says one line for each round that it cuts."""
    said = [line for line in lines if line.startswith(CUT_SAID)]
    why = said[run.cuts] if run.cuts < len(said) else "its end marks say how many records are not there"
    run.cuts += 1
    return f"the round was beyond the limits of a run: {why}. Let rounds be shorter"


def lines_of(file):
    """The lines of a file that another process may write to just now."""
    return os.pread(file.fileno(), ERRORS_MOST, 0).decode(errors="replace").splitlines()


def run_memory(campaign, seed, threads):
    """Runs the memory once, and judges what it prints."""
    timeout = campaign.asked.timeout
    words = [word.replace("{seed}", str(seed)).replace("{threads}", str(threads)) for word in campaign.asked.memory]
    named = {"threads": threads} if any("{threads}" in word for word in campaign.asked.memory) else {}
    run, faults, status = Run(seed=seed, **named, command=shlex.join(words)), [], 0
    with tempfile.TemporaryFile() as said:
        process = campaign.start(words, stdin=subprocess.DEVNULL, stdout=subprocess.PIPE, stderr=said)
        if process is None:
            return run
        try:
            chunks = chunks_of(campaign, process, faults)
            count = judge_rounds(campaign, run, chunks, lambda: process.wait(timeout) != 0, lambda: lines_of(said))
            status = 0 if run.sorts & {"not opaque", "failed"} or faults else process.wait(timeout)
            faults += [] if count or faults else ["the memory printed no run" + (f", and {ended_by(status)}" if status else "")]
        except subprocess.TimeoutExpired:
            faults.append("the memory closed its output and did not end")
        finally:
            campaign.end(process)
            process.stdout.close()
        lines = lines_of(said)
    fault = fault_of(run, faults, status, lines)
    if fault and not campaign.is_over:
        run.names.pop("round", None)
        campaign.note(run, "failed", "\n".join([fault, *lines])[:SAID_MOST])
    return run


def ended_by(status):
    """How the memory ended, where that was not as it should."""
    if status >= 0:
        return f"ended with status {status}"
    try:
        return f"was ended by signal {-status} ({signal.Signals(-status).name})"
    except ValueError:  # a signal that has no name
        return f"was ended by signal {-status}"


def fault_of(run, faults, status, lines):
    """Why a run of the memory failed, in one line, or nothing. One that only says by its status that it was cut did not fail."""
    more = [line for line in lines if line.startswith("opaq.h: ") and not line.startswith(CUT_SAID)]
    if not faults and status and not ("cut" in run.sorts and status == 1 and not more):
        faults = [f"the memory {ended_by(status)}"]
    return ": ".join([faults[0], *(more or lines)[-1:]]) if faults else ""


def run_file(campaign, path):
    """Judges the rounds of a file."""
    run = Run(file=str(path.relative_to(campaign.asked.files)))
    try:
        with open(path, "rb") as file:
            if not judge_rounds(campaign, run, iter(lambda: file.read(CHUNK), b""), lambda: False):
                campaign.note(run, "failed", "the file is empty")
    except IsADirectoryError as error:
        campaign.note(run, "failed", error.strerror)
    return run


def work(campaign):
    """Takes one run after the other, until there are no more."""
    try:
        while True:
            with campaign.lock:
                thing = None if campaign.is_over else next(campaign.wanted, None)
            if thing is None:
                return
            run = run_file(campaign, thing) if campaign.asked.files else run_memory(campaign, *thing)
            with campaign.lock:
                campaign.runs += bool(run.sorts) or not campaign.is_over  # one that was ended, with nothing found, was no run
                campaign.sorts.update(run.sorts)
                campaign.silent += [run] if run.attempts and not run.commits else []
    except Exception as error:  # a full disk, a program that cannot be started: the campaign ends, and must not seem to be green
        with campaign.lock:
            campaign.sorts["failed"] += not campaign.error
            is_known = isinstance(error, OSError) and error.strerror
            said = f"{error.filename or 'a file'}: {error.strerror}" if is_known else f"{type(error).__name__}: {error}"
            campaign.error = campaign.error or said
        campaign.stop()


def wanted_of(asked):
    """The runs to make: a file, or a seed and a number of threads."""
    if asked.files:
        yield from sorted(it for it in asked.files.rglob("*.jsonl") if not it.name.endswith(campaign_kept.CORE))
        return
    for count in range(asked.runs) if asked.runs else itertools.count():
        yield asked.seed + count, asked.threads[count % len(asked.threads)]


def progress(campaign):
    """The line of a terminal."""
    asked, past = campaign.asked, campaign.seconds()
    ends = [asked.seconds - past] if asked.seconds else []
    if asked.runs and not asked.files and campaign.runs:
        ends.append(past / campaign.runs * (asked.runs - campaign.runs))
    left = f", {max(0, round(min(ends)))} s left" if ends else ""
    return f"{campaign.summary()}, {campaign.attempts / max(past, 0.001):,.0f} attempts a second{left}"


def watch(campaign, workers):
    """Waits for the workers, and says how far they are where standard error is a terminal."""
    is_terminal, due = sys.stderr.isatty(), 0.0
    while any(worker.is_alive() for worker in workers):
        for worker in workers:
            worker.join(0.2 / len(workers))
        if campaign.asked.seconds and campaign.seconds() >= campaign.asked.seconds and not campaign.is_over:
            campaign.stop()
        if is_terminal and time.monotonic() >= due:
            print(f"\r\033[K{progress(campaign)}", end="", file=sys.stderr, flush=True)
            due = time.monotonic() + 0.5
    if is_terminal:
        print("\r\033[K", end="", file=sys.stderr, flush=True)


def watch_all(campaign, workers):
    """Waits for the workers; an interruption ends what is under way, a second one also what is told of failing runs."""
    while True:
        try:
            watch(campaign, workers)
            return
        except KeyboardInterrupt:
            campaign.stop()
            campaign.is_interrupted = True


def report(campaign):
    """What is printed at the end."""
    if campaign.asked.json:
        counts = {sort.replace(" ", "_"): campaign.sorts[sort] for sort in STATUSES}
        more = {"seconds": round(campaign.seconds(), 1), "interrupted": campaign.is_interrupted, "error": campaign.error}
        more |= {"hints": list(campaign.hints()), "kept": campaign.kept}
        return json.dumps({"runs": campaign.runs, "rounds": campaign.rounds, "attempts": campaign.attempts} | counts | more)
    lines = []
    for found in campaign_kept.sorted_kept(campaign.kept):
        lines.append(f"{found['verdict']}: {campaign_kept.described(found)}: {found.get('told', found['line'])}")
        lines += [f"    {line}" for line in found.get("story", [])]
    if campaign.page_error:
        lines.append(f"the page was not written: {campaign.page_error}")
    elif campaign.asked.keep:
        lines.append(f"the page: {campaign.asked.keep / campaign_kept.PAGE}")
    lines += [f"the campaign ended early: {campaign.error}"] if campaign.error else []
    lines += campaign.hints()
    return "\n".join([*lines, ("interrupted after " if campaign.is_interrupted else "") + campaign.summary()])


def processors():
    return len(os.sched_getaffinity(0)) if hasattr(os, "sched_getaffinity") else os.cpu_count() or 1


def positive(kind):
    """A reader of words that are numbers above 0, of that kind."""

    def read(word):
        with contextlib.suppress(ValueError):
            if 0 < kind(word) < 10**15:
                return kind(word)
        raise argparse.ArgumentTypeError(f"'{word}' is no number above 0")

    return read


def threads_of(word):
    """Numbers of threads with commas between."""
    try:
        return [positive(int)(it) for it in word.split(",")]
    except argparse.ArgumentTypeError:
        raise argparse.ArgumentTypeError(f"'{word}': it wants numbers above 0 with commas between, as 2,4,8") from None


def whole(word):
    """A number, which may be below 0."""
    with contextlib.suppress(ValueError):
        return int(word)
    raise argparse.ArgumentTypeError(f"'{word}' is no number")


def words_of(words):
    parser = argparse.ArgumentParser(prog="campaign.py", description=__doc__, formatter_class=argparse.RawDescriptionHelpFormatter)
    parser.error = lambda message: fail(USAGE, message)
    number, time_of = positive(int), positive(float)
    parser.add_argument("--runs", type=number, metavar="N", help="how many (100, without --seconds)")
    parser.add_argument("--seconds", type=time_of, metavar="S", help="for how long; what is under way then is ended")
    parser.add_argument("--seed", type=whole, default=1, help="the first seed (1)")
    parser.add_argument("--threads", type=threads_of, default=[4], metavar="T,..", help="in turn (4)")
    parser.add_argument("--jobs", type=number, default=processors(), metavar="J", help="runs at a time (as many as processors)")
    parser.add_argument("--budget", type=whole, metavar="B", help="hand --budget B to opaq; without it clauses are learnt, which decides more")
    parser.add_argument("--timeout", type=time_of, default=60, metavar="S", help="how long opaq may take, and a memory print nothing (60)")
    parser.add_argument("--keep", type=pathlib.Path, metavar="DIR", help="the folder for failing runs and the page")
    parser.add_argument("--most-kept", type=number, default=3, metavar="M", help="how many of each sort are kept (3)")
    parser.add_argument("--json", action="store_true", help="print one JSON object in place of the lines")
    parser.add_argument("--from", dest="files", type=pathlib.Path, metavar="DIR", help="judge the files of this folder")
    parser.add_argument("opaq", metavar="OPAQ")
    parser.add_argument("memory", metavar="MEMORY", nargs="*")
    asked = parser.parse_args(words)
    if bool(asked.memory) == bool(asked.files):
        parser.error("give either -- and the words of the memory, or --from DIR")
    for name in dict.fromkeys(name for word in asked.memory for name in PLACEHOLDER.findall(word)):
        if name not in NAMES:
            parser.error(f"{{{name}}} is no name that is filled in: write {{seed}} or {{threads}}")
    if asked.files and not asked.files.is_dir():
        parser.error(f"{asked.files} is no folder")
    if asked.files and asked.keep and asked.keep.resolve() == asked.files.resolve():
        parser.error("what is kept would be judged the next time: --keep and --from name one folder")
    asked.runs = asked.runs or (None if asked.seconds else 100)
    return asked


def fail(status, message):
    print(f"campaign.py: {message}", file=sys.stderr)
    sys.exit(status)


def main(words):
    asked = words_of(words)
    for program in [asked.opaq, *asked.memory[:1]]:
        if not shutil.which(program) and "{" not in program:
            fail(NOTHING, f"{program}: there is no such program")
    try:
        if asked.keep:
            asked.keep.mkdir(parents=True, exist_ok=True)
            campaign_kept.clear(asked.keep)
    except OSError as error:
        fail(NOTHING, f"{asked.keep}: {error.strerror}")
    for name in ("SIGINT", "SIGTERM"):
        signal.signal(getattr(signal, name), signal.default_int_handler)
    campaign = Campaign(asked)
    workers = [threading.Thread(target=work, args=(campaign,)) for _ in range(asked.jobs)]
    for worker in workers:
        worker.start()
    watch_all(campaign, workers)
    if asked.keep:
        campaign_kept.write_page(campaign)
    recorded.say(report(campaign))
    return campaign.status()


if __name__ == "__main__":
    try:
        sys.exit(main(sys.argv[1:]))
    except KeyboardInterrupt:  # once more, while the end is told
        os._exit(INTERRUPTED)
