"""The crates of the tests in which growths of memory are refused, and of those over devices that fail. No gate proves them: their files are crates only in a copy of the repository.

`test_refusing` has the tests that hand in an allocator which refuses, or devices that fail; its files are all of this folder but refused.rt.txt, which is the source of
`tests/refused`: calls that take the global allocator. `refusals` finds the calls that may answer want of memory."""
import glob
import os

from harness import crate, read

HERE = os.path.dirname(os.path.abspath(__file__))
NAME = "test_refusing"
CALLS = "refused.rt.txt"
HANDLES = "tests_may=Threads+Wait"
NEEDS = "base_values node_pool aud_event aud_kinds aud_object aud_history aud_witness aud_lattice aud_facts aud_text test_worked aud_order aud_cover aud_know aud_split aud_report aud_cert test_devices cli_lines cli_audit"


def put(room):
    """Puts the crate of the tests that hand in an allocator into the copy, and answers its folder."""
    paths = [path for path in sorted(glob.glob(f"{HERE}/*.rt.txt")) if os.path.basename(path) != CALLS]
    files = [(f"src/{os.path.basename(path).removesuffix('.txt')}", read(path)) for path in paths]
    return crate(room, f"{NAME} {HANDLES}", NEEDS, files)
