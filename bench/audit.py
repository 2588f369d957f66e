#!/usr/bin/env python3
"""Times `opaq audit` beside `opaq decide`: bench/audit.py PROGRAM [WORD]. PROGRAM is the built program, crates/opaq/out/opaq; with
WORD only the inputs run whose names have it.

The full size is that of bench/search.py (64 logs, 1,024 transactions of 254 records, 256 objects), four transactions at a time, in
the order of their ends, as it is and with one read near the end spoiled; beside it the large input of bench/check.py, of 262,144
records. The hard refutations have all invocations before any other event, and no order shows them: an audit splits them into tasks,
and a worker remembers what it refuted below its earlier tasks. Each is run three times, and the least time by the clock, the least
processor time and the most memory are printed."""

import os
import subprocess
import sys
import tempfile
import time

from timing import BETWEEN
from harness import asked
from runs import at_once, declared, increments, of_own_objects, writers
from search import full_size

AUDITS = [(4, 1), (1, 4), (1, 1)]


def commands():
    """Names and words of the runs of an input."""
    yield "decide", ["decide"]
    for nodes, workers in AUDITS:
        yield f"audit, {nodes} nodes of {workers}", ["audit", "--nodes", str(nodes), "--workers", str(workers)]


def written(count):
    """So many writers of one register and a read of what nobody wrote."""
    return at_once([declared("register", "x")], [("x", "write", value, "done") for value in range(1, count + 1)] + [("x", "read", None, -1)])


def inputs():
    """Names, makers and answers of the inputs."""
    yield "large, 64 logs, 262,144 records", lambda: of_own_objects(64, 262144)[0], "opaque"
    yield "full size, 4 at a time, by ends", lambda: full_size(4, "ends", False)[0], "opaque"
    yield "full size, 4 at a time, by ends, one read spoiled", lambda: full_size(4, "ends", True)[0], "not opaque"
    for count in (12, 16, 20):
        yield f"{count} increments and a bad get", lambda count=count: increments(count), "not opaque"
    for count in (10, 14):
        yield f"{count} writers of one object and a bad read", lambda count=count: written(count), "not opaque"
    yield "14 writers of an object each and a bad read", lambda: writers(14), "not opaque"


def ran(words, file, wanted):
    """Clock and processor time of one run, in milliseconds, and its most memory, in megabytes: no less than 8."""
    readable, writable = os.pipe()
    with tempfile.TemporaryFile() as told:
        file.seek(0)
        began = time.perf_counter()
        between = [sys.executable, "-S", "-E", "-c", BETWEEN, str(writable), *words]
        subprocess.run(between, stdin=file, stdout=told, pass_fds=[writable], check=True)
        clock = 1000 * (time.perf_counter() - began)
        spent, used = (float(figure) for figure in os.read(readable, 100).split())
        os.close(readable)
        os.close(writable)
        told.seek(0)
        said = told.readline().decode()
    if not said.startswith(wanted):
        sys.exit(f"{words[1:]}: {said[:100]}, wanted {wanted}")
    return clock, spent, used


def main():
    program, word = [*asked(__doc__, 1, 2), ""][:2]
    program = os.path.abspath(program)
    for name, make, wanted in inputs():
        if word not in name:
            continue
        with tempfile.TemporaryFile() as file:
            file.write(make().encode())
            for run, words in commands():
                figures = [ran([program, *words], file, wanted) for _ in range(3)]
                clock, spent, used = min(it[0] for it in figures), min(it[1] for it in figures), max(it[2] for it in figures)
                print(f"{name}; {run}: {clock:.0f} ms by the clock, {spent:.0f} ms of processors, {used:.0f} MB", flush=True)


if __name__ == "__main__":
    main()
