#!/usr/bin/env python3
"""Draws a recorded run as an SVG picture: draw.py [OPTIONS] [RUN] > PICTURE. RUN is a file, or - for standard input, as where it is left out.

    --order TEXT     the serial order stands below, and each bar has its place in it
    --beginning N    the line after the first N records is drawn, as shortest.py finds it, and the transaction of the Nth record is framed
    --fault TX       this transaction is framed in red
    --around TX      draws of a large run the records from 20 stamps before the transaction to 20 after it
    --story          the sentences of story.py stand below, where it has a story; the transactions that it is about are framed in red, others white
    --opaq OPAQ      the built program, which story.py asks where it needs it
    --run RUN        the run that a core is of: each transaction has its fate, its thread and its stamps from there
    --step PIXELS    how wide a stamp is: from 1 to 84; from 26 on there are words
    --title TEXT     stands above

A row is a log, that is a thread, and time goes to the right by stamps. A bar is a transaction from its first record to its last: green where it
committed, orange where it aborted, grey where it is live, and open at its end then. The dark parts of a bar are its operations, from invocation to
answer, each with what it answered. Words for which there is no room are left out, and a pointer that rests on a bar shows them. A picture of
hundreds of transactions is wide, to scroll.

The exit status is 0 where something was drawn, 3 where the input is no run, 4 where something failed, and 64 where these words are not understood.
"""

import argparse
import bisect
import sys
import textwrap
from xml.sax.saxutils import escape

import fates
import recorded
import story

COLOURS = {"committed": "#8fce9b", "aborted": "#f4b27a", "live": "#c9ced6"}
INK, FAULT, PALE = "#1f2933", "#d1242f", "#ffffff"
LEFT, TOP, LANE, BAR = 82, 78, 78, 22
WORDS_FROM, LETTER, LABELS_EVERY = 26, 0.58, 1200
AROUND = 20
USED = "[--order TEXT] [--beginning N] [--fault TX] [--around TX] [--story] [--opaq OPAQ] [--run RUN] [--step PIXELS] [--title TEXT] [RUN]"
FATES = {"c": "committed", "a": "aborted"}


class Picture:
    """The scale of a picture, and what was drawn so far."""

    def __init__(self, run, step=None):
        self.first = run.records[0]["stamp"] if run.records else 0
        last = run.records[-1]["stamp"] if run.records else 0
        self.stamps = last - self.first + 1
        self.step = step or max(44.0 if self.stamps <= 40 else 6.0, min(84.0, 880 / self.stamps))
        self.has_words = self.step >= WORDS_FROM
        self.width = max(420, round(LEFT + self.stamps * self.step + 40))
        self.parts = []
        self.taken = {}

    def x(self, stamp):
        return LEFT + (stamp - self.first + 0.5) * self.step

    def text(self, x, y, words, size=12, anchor="middle", colour=INK, weight="normal"):
        """Writes words, where no others stand; whether there was room."""
        reach = len(words) * size * (LETTER if weight == "normal" else LETTER * 1.1)
        left = x - reach * {"start": 0.0, "middle": 0.5, "end": 1.0}[anchor]
        if not self.has_room(left, left + reach, y, size):
            return False
        self.width = max(self.width, round(left + reach) + 6)
        self.parts.append(
            f'<text x="{x:.1f}" y="{y:.1f}" font-size="{size}" text-anchor="{anchor}" fill="{colour}" font-weight="{weight}">{escape(words)}</text>'
        )
        return True

    def has_room(self, left, right, y, size):
        """Takes the place of words from left to right, where it is free, with those of the lines that it would touch."""
        for line in range(round(y) - size + 1, round(y) + size):
            row = self.taken.get(line, [])
            at = bisect.bisect(row, (left,))
            if at < len(row) and row[at][0] < right + 3 or at > 0 and row[at - 1][1] > left - 3:
                return False
        bisect.insort(self.taken.setdefault(round(y), []), (left, right))
        return True

    def box(self, x, y, width, height, colour, stroke="none", more=""):
        self.parts.append(f'<rect x="{x:.1f}" y="{y:.1f}" width="{width:.1f}" height="{height}" fill="{colour}" stroke="{stroke}" {more}/>')

    def line(self, x1, y1, x2, y2, colour=INK, more=""):
        self.parts.append(f'<line x1="{x1:.1f}" y1="{y1:.1f}" x2="{x2:.1f}" y2="{y2:.1f}" stroke="{colour}" {more}/>')

    def svg(self, height):
        area = f'width="{self.width}" height="{height}" viewBox="0 0 {self.width} {height}"'
        head = f'<svg xmlns="http://www.w3.org/2000/svg" {area} font-family="sans-serif">'
        return "\n".join([head, f'<rect width="{self.width}" height="{height}" fill="#ffffff"/>', *self.parts, "</svg>"]) + "\n"


def lanes_of(run):
    """The lane of each transaction: a log has as many as transactions of it overlap; and the first lane of each log."""
    free, lane_of = {}, {}
    for it in run.transactions().values():
        ends = free.setdefault(it.log, [])
        at = next((at for at, end in enumerate(ends) if end < it.first), len(ends))
        ends[at : at + 1] = [it.last]
        lane_of[it.number] = (it.log, at)
    first, count = {}, 0
    for log in sorted(free):
        first[log] = count
        count += len(free[log])
    return {tx: first[log] + at for tx, (log, at) in lane_of.items()}, first, count


def shown(call, answer):
    """An operation in few words: what was written, or what was answered."""
    ob, op = call["ob"], call["op"]
    if op == "write":
        words = f"write {ob} := {call['arg']}"
    else:
        words = " ".join([op, ob, *recorded.asked(call)])
    if answer is None:
        return words + " .."
    said = recorded.spelled(answer["ans"])
    return words if said == "done" else f"{words} = {said}"


def draw_calls(picture, it, y):
    for place, (call, answer) in enumerate(it.calls()):
        start = picture.x(call["stamp"])
        end = picture.x(answer["stamp"]) if answer else start + 4
        picture.box(start, y + 6, max(2.0, end - start), BAR - 12, INK, more='fill-opacity="0.55"')
        if picture.has_words:
            slots = (y - 6, y + BAR + 14) if place % 2 == 0 else (y + BAR + 14, y - 6)
            any(picture.text((start + end) / 2, slot, shown(call, answer), 11) for slot in slots)


def draw_end(picture, it, y):
    """The end of a bar: C, A, or an open end."""
    x = picture.x(it.last)
    if it.end == "live":
        picture.line(x + 5, y + BAR / 2, x + max(14, picture.step / 2), y + BAR / 2, more='stroke-dasharray="3 3"')
        return
    picture.line(x, y - 3, x, y + BAR + 3, more='stroke-width="3"')
    if picture.has_words:
        picture.text(x + 10, y + 15, "C" if it.end == "committed" else "A", 12, weight="bold")


def labels_of(picture, it, place, whole):
    """What may stand over a bar, the longest first."""
    tail = f", {place} in the order" if place else ""
    if whole:
        of = whole.transactions()[it.number]
        fate = f"transaction {it.number}, {fates.short_fate(whole, it.number)} in the run"
        return [f"{fate} (stamps {of.first} to {of.last}){tail}", f"{fate}{tail}", f"{it.number}{tail}", str(it.number)]
    return [f"transaction {it.number}, {it.end}{tail}", f"{it.number}{tail}", str(it.number)][0 if picture.step >= 44 else 1 :]


def fitting(labels, start, limit):
    """The labels that leave room for the one over the next bar of the row, so that none is without its number."""
    return [words for words in labels if start + len(words) * 12 * LETTER * 1.1 + 4 < limit]


def draw_label(picture, it, y, place, is_at_fault, whole, limit):
    """The words over a bar: as many as end before the next bar of the row begins, or the number alone."""
    colour = FAULT if is_at_fault else INK
    start, reach = picture.x(it.first), picture.x(it.last) - picture.x(it.first)
    if picture.has_words:
        *longer, number = labels_of(picture, it, place, whole)
        any(picture.text(start - 2, y - 22, words, 12, "start", colour, "bold") for words in (*fitting(longer, start, limit), number))
    elif is_at_fault:
        longer, number = [f"transaction {it.number}"], str(it.number)
        any(picture.text(start - 2, y - 18, words, 12, "start", colour, "bold") for words in (*fitting(longer, start, limit), number))
    elif reach >= 9 * len(str(it.number)):
        picture.text(start + reach / 2, y - 6, str(it.number), 11)


def draw_transaction(picture, it, y, is_at_fault, is_pale, whole):
    start, end = picture.x(it.first), picture.x(it.last)
    fate = whole.transactions()[it.number].end if whole else it.end
    words = "; ".join(recorded.said(record) for record in it.records)
    picture.parts.append(f"<g><title>{escape(words)}</title>")
    frame = 'rx="4" stroke-width="2.5"' if is_at_fault else 'rx="4" stroke-width="0.7"'
    picture.box(start - 4, y, max(3.0, end - start) + 8, BAR, PALE if is_pale else COLOURS[fate], FAULT if is_at_fault else INK, frame)
    draw_calls(picture, it, y)
    draw_end(picture, it, y)
    picture.parts.append("</g>")


def draw_legend(picture, y, has_faults, has_pale):
    """What colours and marks mean; the bottom of what was drawn."""
    x, items = LEFT - 60, [(COLOURS[fate], INK, fate) for fate in COLOURS] + [("ink", INK, "an operation, from call to answer")]
    items += [("end", INK, "C commits, A aborts, .. goes on")] + ([(PALE, FAULT, "named as at fault")] if has_faults else [])
    for fill, stroke, words in items + ([(PALE, INK, "others")] if has_pale else []):
        reach = 26 + len(words) * 11 * LETTER + 18
        if x > LEFT and x + reach > max(picture.width, 420):
            x, y = LEFT - 60, y + 20
        if fill == "ink":
            picture.box(x, y + 3, 18, 8, INK, more='fill-opacity="0.55"')
        elif fill == "end":
            picture.line(x + 9, y, x + 9, y + 14, more='stroke-width="3"')
        else:
            picture.box(x, y, 18, 14, fill, stroke, 'rx="3" stroke-width="2"' if stroke == FAULT else 'rx="3" stroke-width="0.7"')
        picture.text(x + 24, y + 11, words, 11, "start")
        x += reach
    return y + 26


def draw_stamps(picture, y):
    every = next(it for it in (1, 2, 5, 10, 20, 50, 100, 200, 500, 1000, 10**6) if it * picture.step >= 9 * len(str(picture.first + picture.stamps)))
    picture.line(LEFT, y, picture.x(picture.first + picture.stamps - 1) + 10, y)
    picture.text(LEFT - 8, y + 16, "stamp", 11, "end")
    for stamp in range(picture.first, picture.first + picture.stamps):
        if stamp % every == 0:
            picture.line(picture.x(stamp), y - 3, picture.x(stamp), y + 3)
            picture.text(picture.x(stamp), y + 16, str(stamp), 11)


def draw_order(picture, order, y):
    """The decisions of an order from left to right; the bottom of what was drawn."""
    picture.text(LEFT - 8, y + 15, "order", 11, "end")
    x = LEFT
    for word in order:
        width = 14 + 7 * len(word)
        if x + width > picture.width - 10:
            x, y = LEFT, y + 28
        picture.box(x, y, width, 20, COLOURS[FATES[word[-1]]], INK, 'rx="4" stroke-width="0.7"')
        picture.text(x + width / 2, y + 14, word, 12)
        x += width + 6
    return y + 28


def draw_story(picture, lines, y):
    """The sentences of a story, each in as many lines as it takes; the bottom of what was drawn."""
    for line in lines:
        for at, part in enumerate(textwrap.wrap(line, int((picture.width - 30) / (12 * LETTER)), subsequent_indent="    ")):
            picture.text(LEFT - 72 + (18 if at else 0), y + 15, part.strip(), 12, "start")
            y += 18
    return y + 14


def draw_logs(picture, first, names):
    """The rows' names at the left, and again and again where the picture is wide and there is room."""
    for log, lane in first.items():
        y = TOP + lane * LANE
        picture.text(LEFT - 8, y + 15, names[log], 12, "end")
        for x in range(LEFT + LABELS_EVERY, max(LEFT, picture.width - 200), LABELS_EVERY):
            picture.text(x, y - 38, names[log], 12, "start")


def drawn(run, order=(), beginning=None, faults=(), title=None, sentences=(), step=None, whole=None):
    """The picture of a run; with the run that it is a part of, what became of its transactions there."""
    picture = Picture(run, step)
    lanes, first, count = lanes_of(run)
    if title:
        picture.text(LEFT - 72, 20, title, 14, "start", weight="bold")
    threads = {it.log: whole.transactions()[tx].log for tx, it in run.transactions().items()} if whole else {}
    draw_logs(picture, first, {log: f"thread {threads[log]}" if whole else f"log {log}" for log in first})
    places = {int(word[:-1]): f"no. {place}" for place, word in enumerate(order, 1)}
    all_of = run.transactions()
    limits = limits_of(picture, all_of, lanes)
    for tx in sorted(all_of, key=lambda it: it not in faults):
        draw_label(picture, all_of[tx], TOP + lanes[tx] * LANE, places.get(tx), tx in faults, whole, limits[tx])
    for tx, it in all_of.items():
        draw_transaction(picture, it, TOP + lanes[tx] * LANE, tx in faults, bool(sentences) and tx not in faults, whole)
    bottom = TOP + count * LANE - 14
    draw_stamps(picture, bottom)
    if beginning:
        x = picture.x(run.records[beginning - 1]["stamp"]) + 0.3 * picture.step
        picture.line(x, 32, x, bottom, FAULT, 'stroke-width="1.5" stroke-dasharray="6 4"')
        picture.text(x - 4, 38, "up to here: not opaque", 11, "end", FAULT)
    bottom = draw_legend(picture, bottom + 30, bool(faults), bool(sentences) and set(all_of) - set(faults))
    if order:
        bottom = draw_order(picture, order, bottom)
    return picture.svg(draw_story(picture, sentences, bottom) if sentences else bottom)


def limits_of(picture, all_of, lanes):
    """Where the next bar of the same row begins."""
    found, latest = {}, {}
    for tx, it in all_of.items():
        if lanes[tx] in latest:
            found[latest[lanes[tx]]] = picture.x(it.first)
        latest[lanes[tx]], found[tx] = tx, float("inf")
    return found


def around(run, tx):
    """The records from some stamps before the transaction to some after it."""
    it = run.transactions()[tx]
    kept = [record for record in run.records if it.first - AROUND <= record["stamp"] <= it.last + AROUND]
    return recorded.Run(run.logs, run.objects, kept, {}, run.form)


def step_of(word):
    if not (word.isascii() and word.isdigit() and 1 <= int(word) <= 84):
        raise argparse.ArgumentTypeError("a step is from 1 to 84 pixels")
    return float(word)


def words_of(words):
    asked = recorded.Words("draw.py", __doc__, USED)
    for name in ("beginning", "fault", "around"):
        asked.add_argument(f"--{name}", type=recorded.number_of)
    asked.add_argument("--order")
    asked.add_argument("--opaq")
    asked.add_argument("--run", dest="whole")
    asked.add_argument("--story", action="store_true")
    asked.add_argument("--step", type=step_of)
    asked.add_argument("--title")
    asked.add_argument("run", nargs="?", default="-")
    return asked, asked.taken(words)


def order_of(script, text):
    """The decisions of an order text."""
    words = [] if text in (None, "none") else text.split()
    if not all(word[:-1].isdigit() and word[-1] in FATES for word in words):
        script.fail(recorded.USAGE, "an order is transactions with c or a behind each, as '1c 2a'")
    return words


def faults_of(run, asked):
    """The transactions that are framed: what was asked for, or the last one of the beginning."""
    named = {it for it in (asked.fault, asked.around) if it is not None}
    return named | ({run.records[asked.beginning - 1]["tx"]} if asked.beginning else set())


def wholes_of(script, asked, run):
    """What is drawn, and the run that it is a part of, if there is one."""
    whole = script.run_of(script.bytes_of(asked.whole)) if asked.whole else None
    for tx in (asked.fault, asked.around):
        if tx is not None and tx not in run.transactions():
            script.fail(recorded.USAGE, f"the run has no transaction {tx}")
    if whole and set(run.transactions()) - set(whole.transactions()):
        script.fail(recorded.REFUSED, f"{asked.whole} is another run: it has not all transactions of this one")
    return (run, whole) if asked.around is None else (around(run, asked.around), whole or run)


def main(words):
    script, asked = words_of(words)
    order = order_of(script, asked.order)
    run = script.run_of(script.bytes_of(asked.run))
    if asked.beginning is not None and (not 0 < asked.beginning <= len(run.records) or asked.around is not None):
        script.fail(recorded.USAGE, f"the run has {len(run.records)} records, and a beginning is of all of it")
    shown, whole = wholes_of(script, asked, run)
    try:
        tale = story.tale_of(run, asked.opaq, None, whole) if asked.story and (asked.opaq or len(run.transactions()) <= story.MOST) else None
    except OSError as error:
        script.fail(recorded.FAILED, f"{error.filename}: {error.strerror}")
    lines, faults = (story.page(tale.lines, False), tale.at_fault) if tale else ((), faults_of(run, asked))
    lines = [fates.class_of(tale.marks, whole), *lines] if tale and whole and fates.class_of(tale.marks, whole) else lines
    recorded.say(drawn(shown, order, asked.beginning, faults, asked.title, lines, asked.step, whole).rstrip("\n"))
    return 0


if __name__ == "__main__":
    sys.exit(main(sys.argv[1:]))
