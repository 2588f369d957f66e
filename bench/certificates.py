#!/usr/bin/env python3
"""Times `opaq decide`, `opaq decide --cert` and `opaq verify` of what that wrote: bench/certificates.py PROGRAM [WORD]. PROGRAM is the
built program, crates/opaq/out/opaq; with WORD only the inputs run whose names have it.

No order shows any of the inputs: the torn read of `examples`, small inputs that have all invocations before any other event, and one
of full size with a spoiled read, as `bench/search.py` makes it. Each call is run three times, and the least processor time and the most
memory are printed, with the lines and the bytes of the certificate. The same certificate comes with each run."""

import subprocess

from timing import timed
from harness import TOP, asked, read
from runs import at_once, declared
from search import full_size


def inputs():
    """Names and texts, each made when it is asked for."""
    x, c = declared("register", "x"), declared("counter", "c")
    written = [("x", "write", value, "done") for value in range(1, 15)]
    counted = [("c", "inc", None, "done")] * 16
    yield "the torn read", lambda: read(f"{TOP}/examples/torn_read.jsonl")
    yield "24 readers and a bad read", lambda: at_once([x], [("x", "read", None, 0)] * 24 + [("x", "read", None, 1)])
    yield "14 writers and a bad read", lambda: at_once([x], written + [("x", "read", None, -1)])
    yield "16 increments and a bad get", lambda: at_once([c], counted + [("c", "get", None, 17)])
    yield "full size, 4 at a time, by ends, one read spoiled", lambda: full_size(4, "ends", True)[0]


def certificate(program, text):
    """What is written after the line."""
    said = subprocess.run([program, "decide", "--cert"], input=text.encode(), stdout=subprocess.PIPE, check=False).stdout
    return said[said.index(b"\n") + 1 :].decode()


def shown(figures):
    return f"{figures[0]:.0f} ms, {figures[1]:.0f} MB"


def main():
    program, word = [*asked(__doc__, 1, 2), ""][:2]
    for name, made in inputs():
        if word not in name:
            continue
        text = made()
        found = certificate(program, text)
        decided = timed([program, "decide"], text, "not opaque\n")
        certified = timed([program, "decide", "--cert"], text, "not opaque\n")
        verified = timed([program, "verify"], text + found, "not opaque\n")
        size = f"{found.count(chr(10)):,} lines, {len(found):,} bytes"
        print(f"{name}: decide {shown(decided)}; --cert {shown(certified)}; verify {shown(verified)}; {size}", flush=True)


if __name__ == "__main__":
    main()
