"""What the benchmarks of the program share: the processor time and the memory of its runs, and how they are printed."""
import os
import subprocess
import sys
import tempfile

# what scripts share stands with the tests
sys.path.insert(0, os.path.join(os.path.dirname(os.path.dirname(os.path.abspath(__file__))), "tests"))

# A process begins with the most memory of the one that began it, so a small one stands between.
BETWEEN = """
import os, sys
_, status, used = os.wait4(os.posix_spawn(sys.argv[2], sys.argv[2:], os.environ), 0)
os.write(int(sys.argv[1]), f"{1000 * (used.ru_utime + used.ru_stime)} {used.ru_maxrss / 1024}".encode())
"""


def timed(words, text, wanted, runs=3):
    """The least processor time of some runs, in milliseconds, and the most memory, in megabytes: no less than 8, which the process
    that begins the program takes."""
    figures = []
    with tempfile.TemporaryFile() as file, tempfile.TemporaryFile() as told:
        file.write(text.encode())
        for _ in range(runs):
            file.seek(0)
            told.seek(0)
            told.truncate()
            readable, writable = os.pipe()
            between = [sys.executable, "-S", "-E", "-c", BETWEEN, str(writable), *words]
            subprocess.run(between, stdin=file, stdout=told, pass_fds=[writable], check=True)
            figures.append([float(figure) for figure in os.read(readable, 100).split()])
            os.close(readable)
            os.close(writable)
            told.seek(0)
            line = told.readline().decode()
            if not line.startswith(wanted):
                sys.exit(f"{words[:2]}: {line[:100]}, wanted {wanted}")
    return min(spent for spent, _ in figures), max(used for _, used in figures)


def tell(name, figures, beside=""):
    print(f"{name}: {figures[0]:.0f} ms, {figures[1]:.0f} MB{beside}", flush=True)
