#!/usr/bin/env python3
"""Holds pictures of runs to what the program prints for the same scripts. The folder named as argument has for each NAME a
NAME.script, the program's output NAME.out and the picture NAME.svg. Of each picture: it is XML with a title and a
description and nothing but plain elements; it has a row for each thread and a mark for each move made, in the mover's row
and cell, a ring exactly where it was a retry; the cells of a row cover its columns one after the other; the events are those of the output, and after each the
mover's cell has the colour that the legend gives to the node; the mutex is drawn where it is held; the flags of two examples
are where they are set; a refused line is marked with its number; nothing is outside the picture."""
import re
import sys
from pathlib import Path
from xml.etree import ElementTree

SVG = "{http://www.w3.org/2000/svg}"
PLAIN = {"svg", "title", "desc", "g", "rect", "circle", "path", "text"}
MOST_BYTES = 2_000_000
# The node after each event.
NODES = {
    "enter shared call": "ES",
    "enter shared return": "Shared",
    "leave shared call": "LS",
    "leave shared return": "Free",
    "enter exclusive call": "EE",
    "enter exclusive return": "Exclusive",
    "leave exclusive call": "LE",
    "leave exclusive return": "Free",
}


# By example and thread, the moves from and to which a flag is 1.
FLAGS = {
    "writer_held_up": {
        0: {"busy": [(2, 10)], "forbidden": [(7, 8), (13, 17)]},
        1: {"busy": [], "forbidden": [(15, 17)]},
    },
    "reader_turned_away": {
        0: {"busy": [(9, 10), (18, 20)], "forbidden": [(3, 13)]},
        1: {"busy": [], "forbidden": [(5, 14)]},
    },
}


# By example, the moves that are retries.
RETRIES = {"writer_held_up": [8], "reader_turned_away": [12], "two_writers": []}


class Bad(Exception):
    pass


def need(condition, words):
    if not condition:
        raise Bad(words)


def number(element, name):
    return int(element.get(name))


def by_id(root, name):
    found = [element for element in root.iter() if element.get("id") == name]
    need(len(found) == 1, f"{len(found)} elements of id {name}")
    return found[0]


def expected(script, out):
    """Threads, moves, events and the refusal that the picture must have."""
    lines = script.split(b"\n")
    last = out.strip().split("\n")[-1]
    refused = re.fullmatch(r"\(refused (\d+) (\d+)\)", last)
    stop = refused and (int(refused[1]), int(refused[2]))
    end = stop[1] - 1 if stop else len(lines) - 1
    moves = sum(not line.startswith(b"(note ") for line in lines[1:end])
    steps = re.fullmatch(r"\(steps (\d+)\)", last)
    need(stop or int(steps[1]) == moves, "the script has other moves than the output")
    threads = 0 if stop and stop[1] == 1 else int(re.fullmatch(rb"\(threads (\d+)\)", lines[0])[1])
    return threads, moves, re.findall(r"\(event (\d+) \(([a-z ]+)\)\)", out), stop


def check_form(root, size):
    need(size < MOST_BYTES, f"{size} bytes")
    need({element.tag for element in root.iter()} <= {SVG + name for name in PLAIN}, "an element that is not plain")
    need(root[0].tag == SVG + "title" and root[0].text, "no title")
    need(root[1].tag == SVG + "desc" and root[1].text, "no description")
    ids = [element.get("id") for element in root.iter() if element.get("id")]
    need(len(ids) == len(set(ids)), "an id twice")
    width, height = number(root, "width"), number(root, "height")
    need(root.get("viewBox") == f"0 0 {width} {height}", "the view box is not the picture")
    background = root[2]
    need((number(background, "width"), number(background, "height"), background.get("fill")) == (width, height, "#ffffff"), "no white background")
    for rect in root.iter(SVG + "rect"):
        x, y, w, h = (number(rect, name) for name in ("x", "y", "width", "height"))
        need(0 <= x and 0 <= y and w > 0 and h > 0 and x + w <= width and y + h <= height, f"outside the picture: {rect.attrib}")
    for text in root.iter(SVG + "text"):
        x, y = number(text, "x"), number(text, "y")
        size = int(text.get("font-size", root.get("font-size")))
        # Half of the size is less than an ordinary letter's width: a text that crosses the edge by this is cut off.
        long = len(text.text) * size // 2
        before = {None: 0, "middle": long // 2, "end": long}[text.get("text-anchor")]
        if text.get("transform"):  # written upwards
            need(0 <= y + before - long and y + before <= height and size <= x <= width, f"cut off: {text.text}")
        else:
            need(0 <= x - before and x - before + long <= width and size <= y <= height, f"cut off: {text.text}")


def colours(root):
    """The colour of each node, by the legend."""
    found, swatch = {}, None
    for element in by_id(root, "legend"):
        if element.tag == SVG + "rect":
            swatch = element.get("fill")
        elif element.tag == SVG + "text" and element.text in {*NODES.values(), "LOE", "SAF", "LOS", "OE"}:
            found[element.text] = swatch
    need(len(found) == 11 and len(set(found.values())) == 11, "the legend has not eleven nodes of eleven colours")
    return found


def cells(row, moves):
    """The cells of a row: left, right and colour, without a gap; and the width of a column."""
    rects = [rect for rect in row if rect.get("class") == "cell"]
    spans = [(number(rect, "x"), number(rect, "x") + number(rect, "width"), rect.get("fill")) for rect in rects]
    need(bool(spans) == (moves > 0), "cells without moves, or moves without cells")
    for before, after in zip(spans, spans[1:]):
        need(before[1] == after[0] and before[2] != after[2], "neighbouring cells with a gap, or not merged")
    whole = spans[-1][1] - spans[0][0] if spans else 0
    need(moves == 0 or (whole % moves == 0 and whole > 0), "cells that are not a whole number of columns")
    tops = {(number(rect, "y"), number(rect, "y") + number(rect, "height")) for rect in rects}
    need(len(tops) <= 1, "cells of one row at different heights")
    return spans, whole // moves if moves else 0, tops.pop() if tops else None


def held(steps):
    """Who holds the mutex after each move: a writer from its first go after the call to its first go after it left, a
    reader from hold to its next go."""
    holder, state, track = None, {}, []
    for thread, act, event in steps:
        if act == "go" and state.get(thread) == "takes":
            holder, state[thread] = thread, None
        elif act == "go" and state.get(thread) == "gives":
            holder, state[thread] = None, None
        elif act == "call exclusive":
            state[thread] = "takes"
        elif act == "hold":
            holder, state[thread] = thread, "gives"
        if event == "leave exclusive call":
            state[thread] = "gives"
        track.append(holder)
    return track


def check_mutex(lane, steps):
    drawn = [None] * len(steps)
    for rect in lane.iter(SVG + "rect"):
        thread, first, last = re.fullmatch(r"thread (\d+), moves (\d+) to (\d+)", rect[0].text).groups()
        for move in range(int(first), int(last) + 1):
            drawn[move - 1] = thread
    need(drawn == held(steps), "the mutex is not drawn where it is held")


def check_flags(name, rows, drawn):
    """The bars of the flags of two examples, worked out by hand."""
    for thread, flags in FLAGS.get(name, {}).items():
        spans, size, _ = drawn[thread]
        left = spans[0][0]
        for flag, moves in flags.items():
            bars = [rect for rect in rows[thread] if rect.get("class") == flag]
            shown = [((number(bar, "x") - left) // size + 1, (number(bar, "x") + number(bar, "width") - left) // size) for bar in bars]
            need(shown == moves, f"thread {thread}: {flag} in moves {shown}")


def check_retries(name, title, steps, retries):
    """The title counts them; relent and hold always are, a call never is; those of two examples were worked out by hand."""
    counted = re.search(r", (\d+) retr(?:y|ies)\b", title)
    need((int(counted[1]) if counted else 0) == len(retries), f"{len(retries)} retries, the title says {title}")
    always = [move + 1 for move, (_, act, _) in enumerate(steps) if act in ("relent", "hold")]
    need(set(always) <= set(retries), f"moves {always} are retries, {retries} are drawn")
    never = [move + 1 for move, (_, act, event) in enumerate(steps) if act.startswith("call") or event]
    need(not set(never) & set(retries), f"moves {never} are no retries, {retries} are drawn")
    need(name not in RETRIES or retries == RETRIES[name], f"retries in moves {retries}")


def middle(mark):
    if mark.tag == SVG + "circle":
        return number(mark, "cx"), number(mark, "cy")
    if mark.tag == SVG + "rect":
        return number(mark, "x") + number(mark, "width") // 2, number(mark, "y") + number(mark, "height") // 2
    x, y = re.match(r"M(\d+) (\d+)l6 -6", mark.get("d")).groups()
    return int(x) + 6, int(y)


def check(name, script, out, picture):
    root = ElementTree.fromstring(picture)
    check_form(root, len(picture))
    threads, moves, events, stop = expected(script, out)
    rows = list(by_id(root, "threads"))
    need([row.get("id") for row in rows] == [f"thread-{thread}" for thread in range(threads)], f"{len(rows)} rows for {threads} threads")
    marks = list(by_id(root, "moves"))
    need([mark.get("id") for mark in marks] == [f"move-{move + 1}" for move in range(moves)], f"{len(marks)} columns for {moves} moves")
    need(all(mark.get("class") == "move" for mark in marks), "a mark of another class")

    legend = colours(root)
    drawn = [cells(row, moves) for row in rows]
    need(len({(spans[0][0], spans[-1][1]) for spans, _, _ in drawn if spans}) <= 1, "rows of different lengths")
    check_flags(name, rows, drawn)
    steps, retries = [], []
    for column, mark in enumerate(marks):
        words = re.fullmatch(r"move (\d+), line (\d+): thread (\d+) (.*?)(?:, (a retry)|, ([a-z ]+))?", mark[0].text)
        move, line, thread, act, retry, event = words.groups()
        if mark.tag != SVG + "rect":
            need((mark.get("fill") == "none") == bool(retry), f"move {column + 1}: a ring without a retry, or a retry without a ring")
        if retry:
            retries.append(column + 1)
        text = script.split(b"\n")[int(line) - 1]
        need(int(move) == column + 1 and text == f"({thread} ({act}))".encode(), f"move {column + 1} is not of line {line}")
        spans, size, (top, bottom) = drawn[int(thread)]
        x, y = middle(mark)
        left = spans[0][0] + column * size
        need(left <= x < left + size and top <= y < bottom, f"move {column + 1} is not marked in its cell")
        steps.append((thread, act, event))
        if event:
            colour = next(colour for begin, end, colour in spans if begin <= x < end)
            need(colour == legend[NODES[event]], f"move {column + 1}: not the colour of {NODES[event]}")
    check_retries(name, root[0].text, steps, retries)
    shown = [(thread, event) for thread, _, event in steps if event]
    need(shown == events, "other events than the program's")
    if moves:
        check_mutex(by_id(root, "mutex"), steps)
        check_labels(by_id(root, "events"), events, moves)

    stops = [element for element in root.iter() if element.get("class") == "refused"]
    need(len(stops) == (stop is not None), f"{len(stops)} marks of a stop")
    if stop:
        texts = [element.text for element in stops[0] if element.tag == SVG + "text"]
        need(texts == [f"refused {stop[0]}", f"line {stop[1]}"], f"the stop says {texts}")
        sentence = f"Stopped at line {stop[1]}"
        need(any((element.text or "").startswith(sentence) for element in root.iter(SVG + "text")), "the stop is not said")
        need(f"refused {stop[0]}, " in root[1].text, "the description has no stop")


def check_labels(lane, events, moves):
    """Up to 77 moves have columns wide enough for names."""
    if moves <= 77:
        need([element.text for element in lane] == [f"{thread}: {event}" for thread, event in events], "other event names")
    else:
        need(len(lane) == len(events), f"{len(lane)} marks for {len(events)} events")


def main():
    passed = failed = 0
    for path in sorted(Path(sys.argv[1]).glob("*.svg")):
        try:
            check(path.stem, path.with_suffix(".script").read_bytes(), path.with_suffix(".out").read_text(), path.read_bytes())
            passed += 1
        except (Bad, ElementTree.ParseError) as bad:
            failed += 1
            print(f"commands: the picture of {path.stem}: {bad}")
    print(f"{passed} passed, {failed} failed")
    sys.exit(1 if failed else 0)


main()
