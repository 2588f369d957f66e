#!/usr/bin/env python3
"""Puts the steps of a refutation into words: opaq refute < RUN | steps.py [REFUTATION]. REFUTATION is a file, or - for standard input, as where it is
left out. Lines that are no step are left out.

A step says that one of some things holds in every order that shows the run, and why; docs/REFUTATIONS.md has the laws. The last one says that
nothing is left.

The exit status is 0, 3 where a line begins like a step and is none, 4 where the text cannot be read, and 64 where these words are not understood.
"""

import json
import sys

import recorded


def cell_text(cell):
    """A register by its name; an element or a key with its object."""
    return cell if isinstance(cell, str) else f"{cell[1]} of {cell[0]}"


def taken(take, name, number):
    return f"the item that {take} takes from {name} as its take {number}"


PLAIN = {
    "before": lambda first, second: f"{first} stands before {second}",
    "commits": lambda tx: f"{tx} commits",
    "aborts": lambda tx: f"{tx} aborts",
    "sees": lambda tx, cell, source: f"{tx} sees {cell_text(cell)} as " + ("it opened" if source is None else f"{source} left it"),
    "takes": lambda tx, name, number, adder, addition: f"{taken(tx, name, number)} is what {adder} added as its addition {addition}",
}
DENIED = {
    "sees": lambda tx, cell, source: f"{tx} does not see {cell_text(cell)} as " + ("it opened" if source is None else f"{source} left it"),
    "takes": lambda tx, name, number, adder, addition: f"{taken(tx, name, number)} is not what {adder} added as its addition {addition}",
}


def numbers(list_of):
    return ", ".join(str(it) for it in list_of)


REASONS = {
    "units": lambda *steps: f"steps {numbers(steps)} leave nothing else",
    "turn": lambda *circle: f"{numbers(circle)} cannot stand in a circle",
    "sources": lambda tx, cell: f"somebody left in {cell_text(cell)} what {tx} first finds there",
    "stands": lambda tx, cell, source: f"what {tx} sees in {cell_text(cell)} {source} left there before it",
    "between": lambda tx, cell, source, other: f"{other} would change {cell_text(cell)} before {tx} sees it",
    "clash": lambda tx, cell: f"what {tx} finds in {cell_text(cell)} contradicts what it did there before",
    "counter": lambda tx, name: f"what {tx} gets from {name} is out of reach of those that may stand before it",
    "remainder": lambda tx, name, modulus: f"what {tx} gets from {name} is no sum of those that may stand before it, whose open parts are multiples of {modulus}",
    "counts": lambda tx, name: f"two counts that {tx} gets from {name} contradict each other",
    "element": lambda tx, name, element: f"whether {tx} finds {element} in {name} is out of reach of those that may stand before it",
    "items": lambda tx, name, number: f"{taken(tx, name, number)} was added by somebody",
    "item": lambda tx, name, number, adder, addition: f"{taken(tx, name, number)} was added before it",
    "place": lambda tx, name, number, adder, addition: f"as many are taken from {name} before that item as were added before it",
    "empty": lambda tx, name, place: f"{tx} finds {name} empty, so all that was added before was taken",
    "gone": lambda tx, name, number, adder, addition, other, value: f"the {value} that {other} added to {name} before that item was taken before it",
    "left": lambda tx, name, place, other, value: f"{tx} finds {name} empty, so the {value} that {other} added before was taken",
}


def literal_text(literal):
    word, *fields = literal
    if word == "not":
        return DENIED[fields[0]](*fields[1:])
    return PLAIN[word](*fields)


def step_text(step):
    """What the step says, and why."""
    word, *fields = step["by"]
    says = ", or ".join(literal_text(it) for it in step["c"]) or "nothing is left"
    return f"{says}, since {REASONS[word](*fields)}"


def main(words):
    script = recorded.Words("steps.py", __doc__, "[REFUTATION]")
    script.add_argument("refutation", nargs="?", default="-")
    text = script.bytes_of(script.taken(words).refutation).decode(errors="replace")
    found = [(place, line) for place, line in enumerate(text.split("\n"), 1) if line.startswith('{"by":')]
    lines = []
    for number, (place, line) in enumerate(found):
        try:
            lines.append(f"{number}. {step_text(json.loads(line))}")
        except (ValueError, KeyError, TypeError, IndexError, AttributeError, RecursionError):
            script.fail(recorded.REFUSED, f"line {place} is no step")
    if lines:
        recorded.say("\n".join(lines))
    return 0


if __name__ == "__main__":
    sys.exit(main(sys.argv[1:]))
