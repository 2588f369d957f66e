"""The crate of the tests of what nodes know, of worlds of nodes, of running nodes, of pools, of audits and of beams. They are run and not proved: their
files are a crate, `test_top`, only in a copy of the repository. There `tests/nodes` runs them for the gate, `tests/load` beside other work, and
`mutants/planted` by wrong bodies."""
import glob
import os

from harness import crate, read

HERE = os.path.dirname(os.path.abspath(__file__))
NAME = "test_top"
HANDLES = "tests_may=Threads+Wait"
NEEDS = "base_values aud_event aud_history aud_witness aud_facts aud_text aud_order aud_cover aud_search aud_know aud_world aud_node search_counts node_pool aud_split aud_gossip crossbeam_channel test_worked aud_report cli_lines cli_audit aud_cli"


def put(room):
    """Puts the crate of these tests into the copy, and answers its folder."""
    files = [(f"src/{os.path.basename(path).removesuffix('.txt')}", read(path)) for path in sorted(glob.glob(f"{HERE}/*.rt.txt"))]
    return crate(room, f"{NAME} {HANDLES}", NEEDS, files)
