"""Changes to sources that outlive another layout. A patch says in which function (or constant) of which crate what stands there, and what shall stand
there instead; what stands there is looked for word by word and mark by mark, so blanks, line ends, comments and a comma before a closing bracket do
not matter. Where it is not there exactly once, the patch is refused by its name.

A file of patches has for each a line `= NAME`, a line `@ CRATE fn FUNCTION` or `@ CRATE const CONSTANT`, lines `- TEXT` that stand there, and lines
`+ TEXT`. Lines that begin with # are for readers."""
import collections
import glob
import re

Patch = collections.namedtuple("Patch", "name crate item old new")
TOKEN = re.compile(r"""//[^\n]*|b?"(?:[^"\\]|\\.)*"|'(?:[^'\\]|\\.)'|\w+|\S""", re.S)
CLOSING = (")", "]", "}", ">")


class Refused(SystemExit):
    """A patch that cannot be applied, and why: a script that does not catch it ends by it, with that line."""


def load(path):
    """The patches of a file, by name."""
    with open(path, encoding="utf-8") as file:
        text = re.sub(r"^#.*\n", "", file.read(), flags=re.M)
    found = {}
    for part in re.split(r"^= ", text, flags=re.M)[1:]:
        name, place, *lines = part.rstrip("\n").split("\n")
        crate, _, item = place.removeprefix("@ ").partition(" ")
        old, new = ("\n".join(line[2:] for line in lines if line.startswith(mark)) for mark in "-+")
        found[name] = Patch(name, crate, item, old, new)
    return found


def tokens(text):
    """The words and marks of the text with where each begins and ends, less comments and commas before closing brackets."""
    found = [it for it in TOKEN.finditer(text) if not it[0].startswith("//")]
    return [it for it, after in zip(found, [*found[1:], None]) if not (it[0] == "," and after and after[0] in CLOSING)]


def items(text, item):
    """Where the functions or constants of that name begin and end."""
    kind, name = item.split()
    before = r"^( *)(?:pub(?:\([^)]*\))? )?" + (r"(?:(?:const|unsafe) )*" if kind == "fn" else "")
    for found in re.finditer(rf"{before}{kind} {name}\b", text, re.M):
        end = re.compile(rf"^{found[1]}}}" if kind == "fn" else ";$", re.M).search(text, found.end())
        if end:
            yield found.start(), end.end()


def matches(text, patch):
    """Where in the text what the patch looks for begins and ends."""
    wanted = [it[0] for it in tokens(patch.old)]
    for start, end in items(text, patch.item):
        here = tokens(text[start:end])
        for at in range(len(here) - len(wanted) + 1):
            if [it[0] for it in here[at : at + len(wanted)]] == wanted:
                yield start + here[at].start(), start + here[at + len(wanted) - 1].end()


def place(crates, patch):
    """The file below the folder of crates, its text, and where in it the patch applies."""
    paths = sorted(glob.glob(f"{crates}/{patch.crate}/src/**/*.rt", recursive=True))
    if not paths:
        raise Refused(f"{patch.name}: there is no crate {patch.crate}")
    texts, has_item, found = {}, False, []
    for path in paths:
        with open(path, encoding="utf-8") as file:
            texts[path] = file.read()
        has_item = has_item or any(items(texts[path], patch.item))
        found += [(path, *at) for at in matches(texts[path], patch)]
    if not has_item:
        raise Refused(f"{patch.name}: {patch.crate} has no {patch.item}")
    if len(found) != 1:
        raise Refused(f"{patch.name}: it stands {len(found)} times in {patch.item} of {patch.crate}: {' '.join(patch.old.split())}")
    path, start, end = found[0]
    return path, texts[path], start, end


def apply(crates, patch):
    """Applies the patch to the crates below the folder."""
    path, text, start, end = place(crates, patch)
    with open(path, "w", encoding="utf-8") as file:
        file.write(text[:start] + patch.new.lstrip() + text[end:])


def refusals(crates, patches):
    """Why patches cannot be applied, one line each."""
    found = []
    for patch in patches:
        try:
            place(crates, patch)
        except Refused as refused:
            found.append(str(refused))
    return found
