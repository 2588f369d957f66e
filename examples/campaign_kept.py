"""What campaign.py keeps of failing runs: the round, its core, the story and the picture, and one page of them all, without scripts."""

import html
import os
import pathlib
import re
import shlex
import sys

PAGE, CORE = "index.html", ".core.jsonl"
ENDINGS = {"run": ".jsonl", "core": CORE, "told": ".txt", "picture": ".svg"}
LINKS = {"run": "the round", "core": "its core", "told": "what was said", "picture": "the picture"}
OPENS = "The round opens at what the closing transaction of the round before read."
BY_CHANCE, KEPT = "threads meet by chance, so it may take several tries", "; the round that is kept is the one that failed"
OWN = r"(not-opaque|failed|refused|unfinished|cut)-(seed|file)-.*\.(jsonl|txt|svg)$"
HERE = pathlib.Path(__file__).parent
NAMES = ("seed", "threads", "file", "round")
STYLE = """
body { font: 16px/1.5 system-ui, sans-serif; color: #1f2933; max-width: 72rem; margin: 0 auto; padding: 1rem; }
h2 { margin: 2.5rem 0 0.5rem; border-top: 1px solid #c9ced6; padding-top: 1rem; }
pre { white-space: pre-wrap; overflow-wrap: anywhere; background: #f4f5f7; padding: 0.75rem; }
table { border-collapse: collapse; } td { padding: 0.1rem 1.5rem 0.1rem 0; } td.number { text-align: right; }
.picture { overflow-x: auto; } p { overflow-wrap: anywhere; }
"""


def described(found):
    """The names of a run in words."""
    return ", ".join(f"{key} {found[key]}" for key in NAMES if key in found)


def sorted_kept(kept):
    return sorted(kept, key=lambda it: (it["verdict"] != "not opaque", it["verdict"], it.get("seed", 0), it.get("file", "")))


def keep(campaign, run, sort, line, text):
    """Writes a failing run to the folder, of one that is not opaque also core, story and picture, and says where they are. Where that fails, as on
    a full disk, the campaign goes on."""
    place = place_of(campaign, re.sub(r"[^\w.]+", "-", f"{sort} {described(run.names)}"))
    names = {key: f"{place}{ending}" for key, ending in ENDINGS.items()}
    again = again_of(campaign, run, names["run"] if text else None)
    told = [f"{sort}: {described(run.names)}", *(f"{key[0].lower()}{key[1:]}: {command}{more}" for key, command, more in again), line]
    told += [OPENS] if run.names.get("round", 1) > 1 and sort == "not opaque" else []
    try:
        for name in names.values():  # of an earlier campaign
            pathlib.Path(name).unlink(missing_ok=True)
        found = {"told": names["told"], "again": again}
        if text:
            pathlib.Path(names["run"]).write_bytes(text)
            found["run"] = names["run"]
        if sort == "not opaque":
            told.append(script(campaign, "core.py", campaign.asked.opaq, names["run"], names["core"]))
        if sort == "refused":
            told.append(script(campaign, "explain.py", "--opaq", campaign.asked.opaq, names["run"]))
        if os.path.exists(names["core"]):
            found |= {"core": names["core"], **pictured(campaign, run, names)}
            told += ["", *found["story"]]
        pathlib.Path(names["told"]).write_text("\n".join(told) + "\n", encoding="utf-8")
    except OSError as error:
        return {"line": f"{line.split(chr(10))[0]} (not kept: {error.filename or place}: {error.strerror})"}
    return found


def again_of(campaign, run, name):
    """The commands that try a failing run again, and judge its round: what each does, the command, and what is to be said of it."""
    found = []
    if "command" in run.names:
        found.append(("Run it again", run.names["command"], f" ({BY_CHANCE}{KEPT if name else ''})"))
    if name:
        found.append(("Judge this round again", f"{shlex.quote(campaign.asked.opaq)} decide < {shlex.quote(name)}", ""))
    return found


def clear(folder):
    """Removes from the folder what an older campaign kept there: files of the names that are given here, and of no others."""
    for path in folder.iterdir():
        if path.name in (PAGE, f"{pathlib.Path(PAGE).stem}.new") or re.match(OWN, path.name) and path.is_file():
            path.unlink()


def place_of(campaign, name):
    """A place in the folder that no other kept run has."""
    with campaign.lock:
        while name in campaign.places:
            name += "-again"
        campaign.places.add(name)
    return campaign.asked.keep / name


def pictured(campaign, run, names):
    """The story of a core, and where its picture is."""
    words = ["--opaq", campaign.asked.opaq, "--run", names["run"], names["core"]]
    found = {"story": script(campaign, "story.py", *words).split("\n")}
    picture = script(campaign, "draw.py", "--story", "--title", described(run.names), *words)
    if picture.startswith("<svg"):
        pathlib.Path(names["picture"]).write_text(picture + "\n", encoding="utf-8")
        found["picture"] = names["picture"]
    return found


def script(campaign, name, *words, given=b""):
    """What a script beside this one prints."""
    return campaign.tell([sys.executable, str(HERE / name), *words], given).decode(errors="replace").rstrip("\n")


def write_page(campaign):
    """Writes the page of all that was kept so far: a whole page takes the place of the one before."""
    place = campaign.asked.keep / PAGE
    try:
        beside = place.with_suffix(".new")
        beside.write_text(page(campaign), encoding="utf-8")
        beside.replace(place)
        campaign.page_error = ""
    except OSError as error:
        campaign.page_error = f"{place}: {error.strerror}"


def page(campaign):
    asked = campaign.asked
    what = f"the files of {asked.files}" if asked.files else " ".join(asked.memory)
    words = "Interrupted after " if campaign.is_interrupted else ""
    counts = {"runs": campaign.runs, "rounds": campaign.rounds, "attempts": campaign.attempts}
    counts |= {sort: campaign.sorts[sort] for sort in ("not opaque", "unfinished", "cut", "refused", "failed")}
    rows = "\n".join(f'<tr><td>{name}</td><td class="number">{count:,}</td></tr>' for name, count in counts.items())
    head = f'<meta charset="utf-8"/><meta name="viewport" content="width=device-width"/><title>opaq: {html.escape(what)}</title>'
    top = f"<h1>{html.escape(what)}</h1>\n<p>{words}{html.escape(campaign.summary())}, {campaign.seconds():,.1f} s</p>\n<table>\n{rows}\n</table>"
    said = [f"The campaign ended early: {campaign.error}"] if campaign.error else []
    error = "".join(f"<p>{html.escape(it)}</p>\n" for it in [*said, *campaign.hints()])
    shown = sorted_kept(campaign.kept)
    note = f"<p>{'Below are the first failing runs of each sort.' if shown else 'No run failed.'}</p>"
    body = "\n".join([top, error + note, *map(part, shown)])
    return f'<!DOCTYPE html>\n<html lang="en">\n<head>{head}<style>{STYLE}</style></head>\n<body>\n{body}\n</body>\n</html>\n'


def part(found):
    """A failing run in the page: what it is, how to run it again, the story and the picture, and where the files are."""
    story = found.get("story", [found["line"]])
    first, rest = (story[0], story[1:]) if not re.match(r"\d", story[0]) else ("", story)
    lines = [f"<h2>{html.escape(found['verdict'])}: {html.escape(described(found))}</h2>"]
    lines += [f"<p>{key}: <code>{html.escape(command)}</code>{html.escape(more)}</p>" for key, command, more in found.get("again", [])]
    if found.get("round", 1) > 1:
        lines.append(f"<p>{html.escape(OPENS)}</p>")
    lines += [f"<p><strong>{html.escape(first)}</strong></p>"] if first else []
    lines += [f"<pre>{html.escape(chr(10).join(rest))}</pre>"] if rest else []
    if "picture" in found:
        lines.append(f'<div class="picture">{pathlib.Path(found["picture"]).read_text(encoding="utf-8").strip()}</div>')
    links = [f'<a href="{html.escape(os.path.basename(found[key]))}">{words}</a>' for key, words in LINKS.items() if key in found]
    lines.append(f"<p>{', '.join(links)}</p>")
    return "\n".join(lines)
