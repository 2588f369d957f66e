"""What `edits` and `twins` share: which crates are meant, what the prover says of a copy's must-fail edits, and the record of when it was asked."""
import datetime
import os
import re
import subprocess
import sys

TOP = os.path.dirname(os.path.dirname(os.path.abspath(__file__)))
sys.path.insert(0, f"{TOP}/tests")
from harness import USAGE, read, write  # noqa: E402


def crates():
    """The names of the crates, in their order."""
    return re.findall(r"^(\w+)[^:\n#]*:", read(f"{TOP}/crates.txt"), re.M)


def chosen(script, about, words, has):
    """The crates that the words of a script name, or all that have something to try; and a status, where there is nothing to do but to end with it."""
    if words in (["--help"], ["-h"]):
        print(about.strip())
        return [], 0
    known = [crate for crate in crates() if has(crate)]
    wrong = [word for word in words if word not in known]
    if wrong:
        print(f"{script}: nothing to try in {', '.join(wrong)}; it tries {', '.join(known)}", file=sys.stderr)
        return [], USAGE
    return words or known, None


def must_fail(room, crate, shows=False):
    """What `rt must-fail` says of the crate in the copy, which is shown line by line if that is asked for, and whether all were refused."""
    said = []
    with subprocess.Popen(["rt", "must-fail", crate], cwd=room, stdout=subprocess.PIPE, text=True, errors="replace") as run:
        for line in run.stdout:
            said.append(line)
            if shows:
                print(line, end="", flush=True)
    return "".join(said), run.returncode == 0


def keep(path, crate, what):
    """Writes the line of the crate anew: what was tried, of which tree, and when."""
    tree = subprocess.run(["git", "-C", TOP, "rev-parse", "--short", "HEAD"], capture_output=True, text=True).stdout.strip()
    lines = [line for line in read(path).split("\n") if line and not line.startswith(f"{crate}: ")]
    lines.append(f"{crate}: {what} of tree {tree} and what was not committed, on {datetime.date.today()}")
    write(path, "\n".join(lines) + "\n")
