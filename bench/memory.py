#!/usr/bin/env python3
"""The most memory that opaq takes for inputs of full size, in bytes for each byte of input: bench/memory.py PROGRAM.

The inputs are a run whose logs have objects of their own, the same with names of 32 letters, and that with each 64th line of 4,096 bytes. What an audit of four
nodes of a worker each takes differs from run to run: the most of three."""
import re
import subprocess
import tempfile

import timing  # noqa: F401
from harness import asked, most_memory
from runs import of_own_objects

CERTIFICATE = '{"cert":1}\n{"by":"kids","p":"none"}\n'
AUDIT = ["audit", "--nodes", "4", "--workers", "1"]


def peak(program, text, words):
    with tempfile.TemporaryFile() as file:
        file.write((text + CERTIFICATE * (words == ["verify"])).encode())
        file.seek(0)
        return most_memory([program, *words], stdin=file, stderr=subprocess.DEVNULL) / len(text)


def long_named(text):
    return re.sub(r'"(ob|name)":"(\w+)"', lambda it: f'"{it[1]}":"{it[2].rjust(32, "n")}"', text)


def long_lined(text):
    return "".join(line if place % 64 else line[:-1].ljust(4096) + "\n" for place, line in enumerate(text.splitlines(True)))


def main(program):
    text, order = of_own_objects(64, 262144)
    named = long_named(text)
    for name, text in [("objects of each log's own", text), ("names of 32 letters", named), ("and each 64th line long", long_lined(named))]:
        found = [peak(program, text, words) for words in (["check", "--order", order], ["decide"], ["verify"])]
        found.append(max(peak(program, text, AUDIT) for _ in range(3)))
        told = ", ".join(f"{word} {figure:.2f}" for word, figure in zip(("check", "decide", "verify", "audit"), found))
        print(f"{name}, {len(text) / 1e6:.1f} MB: {told}", flush=True)


if __name__ == "__main__":
    main(*asked(__doc__, 1, 1))
