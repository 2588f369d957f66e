#!/usr/bin/env python3
"""Times `examples/core.py` on inputs of full size with one answer spoiled: bench/cores.py PROGRAM [WORD], or on runs of many threads: bench/cores.py
PROGRAM wide [FIRST LAST]. PROGRAM is the built program, crates/opaq/out/opaq; with WORD only the inputs run whose names have it.

Runs in which each log has objects of its own, with the last answer of a `read`, `get`, `contains` or `deq` spoiled, one
after the other; and those of bench/search.py, in which 2 to 16 transactions at a time share all objects. Printed are the seconds, the first
line of what core.py prints, and the last line of the core's story, with the program to ask for a refutation.

With `wide` it is asked for cores of the spoiled runs of tests/wide.py, seeds FIRST to LAST (420 to 433), that `refute` refutes in 5 seconds of processor
time. The lines are rows of a table: the way, how many have a core, in what time half and all of them have, and how many have a story of at most 50
lines. The plain way is that of a program which never refutes: core.py halves the run again and again."""

import json
import os
import resource
import statistics
import subprocess
import sys
import tempfile
import time

import timing  # noqa: F401
import search
from harness import asked
from runs import of_own_objects

EXAMPLES = f"{search.TOP}/examples"


def spoiled(text, operation):
    """The run with the answer of the last such operation changed, and no order of lines that anybody has to know."""
    lines = text.splitlines()
    answers = [(json.loads(it)["stamp"], place) for place, it in enumerate(lines) if f'"op":"{operation}"' in it and '"ev":"ret"' in it]
    place = max(answers)[1]
    record = json.loads(lines[place])
    answer = record["ans"]
    record["ans"] = not answer if isinstance(answer, bool) else 7 if answer == "empty" else answer + 1
    lines[place] = search.line(**record)
    return "\n".join(lines) + "\n"


def inputs():
    for operation in ("read", "get", "contains", "deq"):
        yield f"objects of their own, a {operation} spoiled", lambda operation=operation: spoiled(of_own_objects(64, 262144)[0], operation)
    for effects in ("ends", "begins", "drawn"):
        for at_a_time in (2, 4, 8, 16):
            yield f"{at_a_time} at a time, by {effects}", lambda n=at_a_time, by=effects: search.full_size(n, by, True)[0]


def ran(words, **how):
    return subprocess.run([sys.executable, "-B", *words], stdout=subprocess.PIPE, stderr=subprocess.STDOUT, check=False, **how).stdout.decode()


def in_five_seconds():
    resource.setrlimit(resource.RLIMIT_CPU, (5, 6))


def wide_runs(program, first, last):
    """The runs of many threads that are refuted in time."""
    for threads in ("4", "8", "16", "32", "64"):
        for style in ("any", "end"):
            for seed in range(first, last + 1):
                run = subprocess.run([f"{search.TOP}/tests/wide.py", threads, style, str(seed), "spoiled"], capture_output=True, check=True).stdout
                said = subprocess.run([program, "refute"], input=run, capture_output=True, check=False, preexec_fn=in_five_seconds)
                if said.stdout.startswith(b"not opaque"):
                    yield run


def core_of(program, run, room):
    """The seconds that its core takes, and the lines of the core's story; or none, where it has no core in a minute."""
    for name, text in (("run", run), ("core", b"")):
        with open(f"{room}/{name}", "wb") as file:
            file.write(text)
    began = time.perf_counter()
    try:
        ran([f"{EXAMPLES}/core.py", program, f"{room}/run", f"{room}/core"], timeout=60)
    except subprocess.TimeoutExpired:
        return None
    took = time.perf_counter() - began
    with open(f"{room}/core", encoding="utf-8") as core:
        story = ran([f"{EXAMPLES}/story.py", "--opaq", program], stdin=core)
    return (took, len(story.splitlines()) if story.startswith("1.") else None) if os.path.getsize(f"{room}/core") else None


def row(name, program, runs, room):
    found = [it for it in (core_of(program, run, room) for run in runs) if it]
    times, stories = [took for took, _ in found], [lines for _, lines in found if lines]
    few = sum(lines <= 50 for lines in stories)
    middle, most = (f"{statistics.median(times):.1f} s", f"{max(times):.1f} s") if found else ("–", "–")
    print(f"| {name} | {len(found)} of {len(runs)} | {middle} | {most} | {few} |", flush=True)


def wide(program, first=420, last=433):
    runs = list(wide_runs(program, int(first), int(last)))
    with tempfile.TemporaryDirectory() as room:
        plain = f"{room}/plain"
        with open(plain, "w", encoding="utf-8") as file:
            file.write(f'#!/bin/sh\n[ "$1" = refute ] && echo unfinished && exit 2\nexec {program} "$@"\n')
        os.chmod(plain, 0o755)
        row("by the steps of the refutation", program, runs, room)
        row("plain", plain, runs, room)


def main():
    program, *words = asked(__doc__, 1, 4)
    program = os.path.abspath(program)
    if words[:1] == ["wide"]:
        wide(program, *words[1:])
        return
    word = [*words, ""][0]
    for name, text in inputs():
        if word not in name:
            continue
        with tempfile.TemporaryDirectory() as room:
            with open(f"{room}/run", "w", encoding="utf-8") as file:
                file.write(text())
            began = time.perf_counter()
            said = ran([f"{EXAMPLES}/core.py", program, f"{room}/run", f"{room}/core"])
            took = time.perf_counter() - began
            with open(f"{room}/core", encoding="utf-8") as core:
                story = ran([f"{EXAMPLES}/story.py", "--opaq", program], stdin=core)
        lines = said.splitlines()
        more = f"; {lines[-1]}" if lines[-1].startswith("perhaps") else ""
        print(f"{name}: {took:.0f} s, {lines[0]}{more}; {story.splitlines()[-1] if story.startswith('1.') else 'no circle'}", flush=True)


if __name__ == "__main__":
    main()
