#!/usr/bin/env python3
"""How much campaigns of the memories of examples/memories record and judge: bench/campaigns.py PROGRAM [SECONDS].

Each campaign lasts SECONDS (6): two jobs, 4 threads, rounds of 10, 40 or 200 blocks, 20 to a run. The lines are rows of a table: the memory, and for
each number of blocks the attempts a minute, in millions. The last row is that of `lock` by one job. Rounds that are cut, as of a great many attempts,
do not matter; what is not opaque ends the script with 1."""
import json
import os
import subprocess
import sys
import tempfile

import timing  # noqa: F401
from harness import TOP

MEMORIES = {"lock": ["cc", "-std=c11"], "tl2": ["cc", "-std=c11"], "itm": ["gcc", "-fgnu-tm"]}
BLOCKS = ("10", "40", "200")


def attempts(program, memory, blocks, jobs, seconds):
    """The attempts a minute of one campaign, in millions."""
    words = [f"{TOP}/examples/campaign.py", "--json", "--seconds", seconds, "--jobs", jobs]
    ran = subprocess.run([*words, program, "--", memory, "{seed}", "{threads}", "20", blocks], capture_output=True, check=False)
    if ran.stderr:
        sys.exit(f"{memory}: {ran.stderr.decode()}")
    told = json.loads(ran.stdout)
    if told["not_opaque"] or told["failed"] or told["refused"]:
        sys.exit(f"{memory}: {ran.stdout.decode()}")
    return told["attempts"] / float(seconds) * 60 / 1e6


def main(program, seconds="6"):
    with tempfile.TemporaryDirectory() as room:
        for name, compiler in MEMORIES.items():
            source = f"{TOP}/examples/memories/{name}.c"
            subprocess.run([*compiler, "-O2", "-pthread", f"-I{TOP}/examples", source, "-o", f"{room}/{name}"], check=True)
        for name, jobs in [*((name, "2") for name in MEMORIES), ("lock", "1")]:
            found = [f"{attempts(program, f'{room}/{name}', blocks, jobs, seconds):.1f}" for blocks in BLOCKS]
            told = f"`{name}`" if jobs == "2" else f"plain, of `{name}`"
            print(f"| {told} | {' | '.join(found)} |", flush=True)


if __name__ == "__main__":
    main(os.path.abspath(sys.argv[1]), *sys.argv[2:])
