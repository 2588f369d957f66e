#!/usr/bin/env python3
"""Times `opaq check` on made inputs: bench/check.py PROGRAM [RUNS]. PROGRAM is the built program, crates/opaq/out/opaq.

Two inputs are made aside: one log with 4,096 records, and 64 logs with 262,144 records in a shuffled order of lines, 1,024
transactions and 256 objects. Each log has a register, a counter, a set and a queue of its own, so the order of the commits
shows the run, however the logs run through one another. Each is run so many times, three where nothing is said, and the least processor time
and the most memory are printed. The same numbers come with each run."""
from timing import tell, timed
from harness import asked
from runs import of_own_objects


def main():
    program, *more = asked(__doc__, 1, 2)
    runs = int(more[0]) if more else 3

    def checked(name, order, text, answer):
        tell(name, timed([program, "check", "--order", order], text, answer, runs))

    for name, logs, records in [("one log, 4,096 records", 1, 4096), ("64 logs, 262,144 records", 64, 262144)]:
        text, order = of_own_objects(logs, records)
        checked(f"{name}, {len(text) / 1e6:.1f} MB", order, text, f"opaque {order}")
    # without an end mark the run waits once all is read; the empty order is refused once the history is sealed
    open_text = "".join(it for it in text.splitlines(True) if not it.endswith('"log":0}\n') or '"end"' not in it)
    checked("read, and found to wait", order, open_text, "waiting for log 0")
    checked("read and sealed, no order", "none", text, "order refused 6")


if __name__ == "__main__":
    main()
