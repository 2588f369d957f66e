"""What the scripts of tests share: how they are called and count (`script`, `Harness`), rows that the program answers (`Rows`), lines as opaq spells
them (`compact`), the one copy of the repository (`repository`), and a crate of tests that is run there unproved (`ran`).

A script of tests is called `SCRIPT BINARY`, where BINARY is the built program, or `SCRIPT --help`. Its last line is 'N passed, M failed', and its
status 0 where none failed, 1 where one did, and 64 where the words are not understood. A script of rows is called `SCRIPT --text FILE` too: it then
adds to FILE the rows that the program of tests/data/rows.rt.txt can be given, written as tests/data/stored.txt is. `tests/quick` does that before any
proof, and with no audit. Rows that need an earlier answer are asked of the built program alone."""
import functools
import glob
import json
import os
import re
import shutil
import subprocess
import sys
import tempfile
import threading

TOP = os.path.dirname(os.path.dirname(os.path.abspath(__file__)))
USAGE = 64
# the program that answers rows before any proof, and what it stands on
ROWS, ROWS_NEED = "test_rows", "cli_lines cli_words aud_report"


def compact(**fields):
    """A line of JSON, spelled as opaq spells it."""
    return json.dumps(fields, sort_keys=True, separators=(",", ":"))


def read(path):
    with open(path, encoding="utf-8") as file:
        return file.read()


def write(path, text):
    """Writes the file, and makes the folders above it."""
    os.makedirs(os.path.dirname(path), exist_ok=True)
    with open(path, "w", encoding="utf-8") as file:
        file.write(text)


def repository(room, with_out=False):
    """Makes a copy of the repository's crates in the folder, a repository of its own; with what earlier checks left in out/, if that is said."""
    for part in ("crates.txt", "HANDLES"):
        shutil.copy(f"{TOP}/{part}", room)
    left = None if with_out else shutil.ignore_patterns("out")
    shutil.copytree(f"{TOP}/crates", f"{room}/crates", symlinks=True, ignore=left, dirs_exist_ok=True)
    subprocess.run(["git", "init", "-q", room], check=True)


def crate(room, name, below, files):
    """Puts a crate of these files, each a path and a text, into a copy of the repository. `below` are the crates that it stands on; the name may have
    more after it, as in crates.txt. Its folder is answered."""
    folder = f"{room}/crates/{name.split()[0]}"
    for path, text in files:
        write(f"{folder}/{path}", text)
    with open(f"{room}/crates.txt", "a", encoding="utf-8") as file:
        file.write(f"{name}: {below}\n")
    return folder


def rows_program(room):
    """Puts the program that answers rows into a copy of the repository, and answers its folder."""
    return crate(room, ROWS, ROWS_NEED, [("src/main.rt", read(f"{TOP}/tests/data/rows.rt.txt"))])


# A small process starts the program, since a process begins with the most memory of the one that began it.
PEAK = """import resource, subprocess, sys
subprocess.run(sys.argv[1:], stdout=subprocess.DEVNULL)
print(1024 * resource.getrusage(resource.RUSAGE_CHILDREN).ru_maxrss)"""


def most_memory(words, **more):
    """The most memory that the program of these words takes, in bytes."""
    took = subprocess.run([sys.executable, "-c", PEAK, *words], stdout=subprocess.PIPE, check=True, **more)
    return int(took.stdout)


def counted(said):
    """How many tests passed and failed, by what `rt try --test` said of them; one failed where it says nothing."""
    found = re.findall(r"^test result: .*?(\d+) passed; (\d+) failed", said, re.M)
    return tuple(map(int, found[-1])) if found else (0, 1)


def said_by_tests(folder, *words):
    """What the tests of the crate in that folder say, which is shown where they did not come to their end. Nothing is proved."""
    said = subprocess.run(["rt", "try", "--test", *words], cwd=folder, capture_output=True, text=True, timeout=1500)
    if not re.search("^test result: ", said.stdout, re.M):
        print(said.stdout[-2000:], said.stderr[-2000:])
    return said.stdout


def ran(folder):
    """Runs the tests of the crate in that folder, unproved: how many passed, and how many failed, which are named, or were not run."""
    said = said_by_tests(folder)
    for failed in re.findall(r"^test \S+ \.\.\. FAILED\n.*$", said, re.M):
        print(failed)
    passed, failed = counted(said)
    missing = sum(read(path).count("#[test]\n") for path in glob.glob(f"{folder}/src/*.rt")) - passed - failed
    if missing > 0:
        print(f"{missing} more tests did not run")
    return passed, failed + max(missing, 0)


class Harness:
    """The built program, and how many of its answers passed and failed. Threads may judge at once."""

    def __init__(self, program):
        self.program = os.path.abspath(program)
        self.passed = self.failed = 0
        self.lock = threading.Lock()

    def judge(self, name, is_right, what=""):
        """Counts one. What failed is named in a line, with what was there."""
        with self.lock:
            self.passed += bool(is_right)
            self.failed += not is_right
            if not is_right:
                print(f"{name}: {what}" if what else name, flush=True)
        return bool(is_right)

    def wants(self, name, found, wanted):
        return self.judge(name, found == wanted, f"{str(found)[:200]} and not {str(wanted)[:200]}")

    def answer(self, text, *words):
        """What the program prints of the text on standard output and on standard error, and its status."""
        given = text.encode() if isinstance(text, str) else text
        done = subprocess.run([self.program, *words], input=given, capture_output=True, timeout=100)
        return done.stdout.decode(), done.stderr.decode(), done.returncode

    def ask(self, text, *words):
        """What the program prints, and its status."""
        out, errors, status = self.answer(text, *words)
        return out + errors, status

    def first(self, text, *words):
        """The first line that the program prints, and its status."""
        said, status = self.ask(text, *words)
        return said.split("\n")[0], status

    def says(self, name, text, words, line, status=None):
        """The program prints the line, which may be several, and nothing else, with the status, or else that of its first word."""
        self.wants(name, self.answer(text, *words), (line + "\n", "", status_of(line) if status is None else status))

    def tells(self, name, text, words):
        """The program does nothing by the words: it prints no line, and tells the user why on standard error."""
        out, errors, status = self.answer(text, *words)
        self.wants(name, (out, errors != "", status), ("", True, USAGE))

    def end(self):
        """Prints the last line, and answers the status of the script."""
        print(f"{self.passed} passed, {self.failed} failed")
        return int(self.failed > 0)


class Roomed(Harness):
    """The same with a folder of its own, which is gone in the end."""

    def __init__(self, program):
        super().__init__(program)
        self.folder = tempfile.TemporaryDirectory(prefix="opaq-")
        self.room = self.folder.name

    def end(self):
        self.folder.cleanup()
        return super().end()


def status_of(line):
    """The status that belongs to the first line of an answer."""
    return {"opaque": 0, "not": 1, "unfinished": 2}.get(line.split()[0], 3)


def quoted(word):
    return f'"{word}"' if not word or " " in word else word


def is_storable(text):
    """Whether an input can be written so: it has whole lines, none of which begins as a line of another meaning."""
    if not isinstance(text, str) or not text.isascii() or "\r" in text:
        return False
    return (not text or text.endswith("\n")) and not re.search("^[#$>] ", text, re.M)


class Rows(Harness):
    """Rows that the built program answers, or that are written into a file."""

    def __init__(self, *words):
        super().__init__(words[-1])
        self.is_built = len(words) == 1

    def says(self, name, text, words, line, status=None):
        if self.is_built:
            super().says(name, text, words, line, status)
        elif words[0] != "audit" and is_storable(text):
            self.store(text, words, f"{status_of(line) if status is None else status} {line}")

    def tells(self, name, text, words):
        if self.is_built:
            super().tells(name, text, words)
        elif is_storable(text):
            self.store(text, words, str(USAGE))

    def store(self, text, words, wanted):
        """Adds a case to the file."""
        self.passed += 1
        asked = "".join(f" {quoted(word)}" for word in words)
        answer = "".join(f"> {line}\n" for line in wanted.split("\n"))
        with open(self.program, "a", encoding="utf-8") as file:
            file.write(f"# {self.passed}\n$ opaq{asked}\n{answer}{text}")


def texts_in(path):
    """The texts that a file of Rattle has as constants, by name."""
    return dict(re.findall(r'const (\w+): &str =\s*r#"(.*?)"#;', read(f"{TOP}/{path}"), re.S))


@functools.cache
def worked():
    """The texts of the worked histories, by name."""
    files = ("crates/test_worked/src/histories.rt", "crates/test_worked/src/inputs.rt", "tests/meeting/fixtures.rt.txt")
    return {name: text for file in files for name, text in texts_in(file).items()}


def asked(about, least, most, option=None):
    """The words that a script is called with, at least and at most so many, of which the first may be that option. By --help it prints what it does,
    and ends; so it does, with 64, by words that are not understood."""
    words = sys.argv[1:]
    if words in (["--help"], ["-h"]):
        print(about.strip())
        sys.exit(0)
    if not least <= len(words) <= most or words and words[0].startswith("-") and words[0] != option:
        print(f"{sys.argv[0]}: these words are not understood; --help says which are", file=sys.stderr)
        sys.exit(USAGE)
    return words


def script(run, about, makes=Harness, more=0):
    """Runs a script of tests by the words of its command line, and answers its status. `run` is given the harness and what words follow the program,
    of which there may be so many; `about` says what the script does."""
    option = "--text" if makes is Rows else None
    first = 2 if option and sys.argv[1:2] == [option] else 1
    words = asked(about, first, first + more, option)
    if first == 1 and not os.access(words[0], os.X_OK):
        print(f"{sys.argv[0]}: there is no program {words[0]}", file=sys.stderr)
        return USAGE
    tally = makes(*words[:first])
    run(tally, *words[first:])
    return tally.end()
