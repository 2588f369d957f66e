"""The calls that may answer want of memory: the public functions of the crates, and those of the traits that they implement, but those that err by
another fault alone. Of each `mutants/planted` makes a body that always answers so."""
import collections
import glob
import os
import re

from harness import read

Call = collections.namedtuple("Call", "name path place body")
# faults of devices, of facts and of histories, none of which is want of memory
OTHERS = {"FactFault", "Rule", "SinkFault", "SourceFault"}
# the answer of each fault that is not a variant `OutOfMemory`
ANSWERS = {
    "OutOfMemory": "OutOfMemory",
    "Cause": "Cause::Memory",
    "PlanTextFault": "PlanTextFault { line: 1, fault: TextFault::OutOfMemory }",
    "CertTextFault": "CertTextFault { line: 1, fault: aud_text::TextFault::OutOfMemory }",
    "Stopped": "Stopped { packet: None, received: Received { taken: 0, foreign: 0 }, fault: OfferFault::OutOfMemory }",
    "usize": "0",
    "Running<J, S>": "self",
}
WHOLE = {
    "Ended": "Ended::Failed(Cause::Memory)",
    "(Vec<u8>, Ended)": "(Vec::new(alloc), Ended::Failed(Cause::Memory))",
}


def names():
    """The names of types and variants that the tables above have: those with a great letter first."""
    texts = [*OTHERS, *ANSWERS, *ANSWERS.values(), *WHOLE, *WHOLE.values()]
    found = {name for text in texts for name in re.findall(r"\b[A-Z]\w+", text)}
    return sorted(found - {"Err", "Ok", "None", "Some", "Vec"})


def unknown(crates):
    """The names of the tables that stand in none of the crates of these folders, as after a rename."""
    texts = [read(path) for folder in crates for path in glob.glob(f"{folder}/src/**/*.rt", recursive=True)]
    known = {name for text in texts for name in re.findall(r"\w+", text)}
    return [name for name in names() if name not in known]


def parts(text):
    """What commas part that stand in no brackets."""
    found, depth = [""], 0
    for mark in text:
        depth += (mark in "<([") - (mark in ">)]")
        if mark == "," and not depth:
            found.append("")
        else:
            found[-1] += mark
    return [part.strip() for part in found if part.strip()]


def without_brackets(text):
    """The text without what stands between angle brackets."""
    old = None
    while old != text:
        old, text = text, re.sub(r"<[^<>]*>", "", text.replace("->", "=>") if old is None else text)
    return text.replace("=>", "->")


def exported(folder):
    """The names that the crate gives out, each with its module, if it has one."""
    text = read(os.path.join(folder, "src", "lib.rt"))
    names = dict.fromkeys(re.findall(r"pub (?:trait|struct|enum|fn) (\w+)", text), "lib")
    for module, several, one in re.findall(r"pub use (\w+)[\w:]*::(?:\{([^}]*)\}|(\w+));", text):
        names.update(dict.fromkeys(re.findall(r"\w+", several or one), module))
    return names


def answered(inputs, owner, answer):
    """The expression of want of memory, of a call with these inputs and this answer; None where it has none."""
    if answer in WHOLE:
        return WHOLE[answer] if ("alloc", "Global") in inputs else None
    pair = re.fullmatch(r"Result<(.*)>", answer)
    if not pair or len(parts(pair[1])) != 2:
        return None
    fault = parts(pair[1])[1]
    if fault in OTHERS:
        return None
    words = []
    for part in parts(fault[1:-1]) if fault[0] == "(" else [fault]:
        given = [name for name, kind in inputs if kind == part or kind == "self" and part.startswith(owner or "?")]
        words.append(given[0] if given else ANSWERS.get(part, f"{part}::OutOfMemory"))
    return f"Err({words[0]})" if len(words) == 1 else f"Err(({', '.join(words)}))"


def body_of(lines, first):
    """The first line of the body of the function that begins there; None where it has none, or is one line."""
    indent = len(lines[first]) - len(lines[first].lstrip())
    for place in range(first, len(lines)):
        line = lines[place]
        if line == " " * indent + "{" or line.endswith(" {") and (place == first or line.startswith(" " * indent + ")")):
            return place + 1
        if line.endswith((";", "}")) and len(line) - len(line.lstrip()) == indent:
            return None
    return None


def inputs_of(head):
    """The names and the types of what a function is given."""
    depth, start = 0, head.index("(", len(re.match(r".*?fn \w+(<(?:[^<>]|<(?:[^<>]|<[^<>]*>)*>)*>)?", head.replace("->", "=>"))[0]))
    for place in range(start, len(head)):
        depth += (head[place] == "(") - (head[place] == ")")
        if not depth:
            break
    pairs = [part.removeprefix("mut ").partition(": ") for part in parts(head[start + 1 : place])]
    return [(name, kind or name) for name, _, kind in pairs]


def errs_by_another(lines, place):
    """Whether the comment above the function says that it errs by one fault alone: the contract refuses want of memory then."""
    first = place
    while first and lines[first - 1].lstrip().startswith(("///", "#[")):
        first -= 1
    return re.search(r"errs by `\w+` alone", re.sub(r"\s*\n\s*///\s*", " ", "\n".join(lines[first:place])))


def of_file(path, names):
    """The calls of the file that may answer want of memory, of those names that the crate gives out."""
    lines = read(path).split("\n")
    owner = trait = None
    for place, line in enumerate(lines):
        if re.match(r"(impl|pub trait|trait)\b", line):
            head = without_brackets(" ".join(lines[place : place + 12]))
            found = re.match(r"impl(?: (\w+) for)? &?(?:'\w+ )?(\w+)", re.sub(r" +", " ", head))
            trait, owner = (found[1], found[2]) if found else (None, "declared")
        elif line == "}":
            owner = trait = None
        found = re.match(r" *(pub )?fn (\w+)", line)
        body = body_of(lines, place) if found else None
        if body is None or owner == "declared" or not (found[1] or trait) or errs_by_another(lines, place):
            continue
        if not (owner in names or owner and owner.islower() or names.get(found[2]) == os.path.basename(path)[:-3]):
            continue
        head = re.split(r" requires | ensures | where | \{$", " ".join(it.strip() for it in lines[place:body]))[0]
        said = answered(inputs_of(head), owner, head.rpartition("->")[2].strip())
        if said:
            yield Call(f"{owner}::{found[2]}" if owner else found[2], path, body, said)


def calls(crates):
    """All of them, by crates of these folders, the lowest first. Two of one name have their files in theirs."""
    found = []
    for folder in crates:
        names = exported(folder)
        for file in sorted(os.listdir(os.path.join(folder, "src"))):
            path = os.path.join(folder, "src", file)
            found += [(os.path.basename(folder), file, call) for call in (of_file(path, names) if file.endswith(".rt") else [])]
    told = [call._replace(name=f"{crate}: {call.name} refuses memory") for crate, file, call in found]
    counts = collections.Counter(call.name for call in told)
    return [call if counts[call.name] == 1 else call._replace(name=f"{call.name} ({os.path.basename(call.path)})") for call in told]
