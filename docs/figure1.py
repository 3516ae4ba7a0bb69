#!/usr/bin/env python3
"""Draws Figure 1 with the phases inside the nodes.

  docs/figure1.py            writes docs/figure1.svg
  docs/figure1.py --check    exits 1 where docs/figure1.svg is not what would be written

Nodes, phases, arrows, events and guards are read from the definitions that the code is proved against (Codes, Phases and
Nodes in crates/definitions/specs); only the places on the page stand here.
"""
import re
import sys
from pathlib import Path

HERE = Path(__file__).resolve().parent
SPECS = HERE.parent / "crates" / "definitions" / "specs"
EVENTS = ["", "enter shared call", "enter shared return", "leave shared call", "leave shared return",
          "enter exclusive call", "enter exclusive return", "leave exclusive call", "leave exclusive return"]
PLACES = {"Free": (110, 330), "ES": (370, 80), "LOE": (680, 80), "Shared": (990, 80), "LS": (1300, 80),
          "EE": (370, 580), "SAF": (680, 580), "LOS": (990, 580), "Exclusive": (1300, 580), "LE": (1300, 330), "OE": (680, 330)}
# Where an arrow's label stands: from the arrow's middle, and which end of the text is there. The others stand above it.
LABELS = {("Free", "ES"): (-14, -14, "end"), ("Free", "EE"): (-14, 24, "end"), ("LS", "Free"): (-30, -30, "end"),
          ("Exclusive", "LE"): (-14, -4, "end")}
WIDTH, HEIGHT, W, H, LINE = 1400, 650, 150, 76, 18


def rows(phases):
    """The node of each phase, in order."""
    return re.findall(r"(?m)^    (?:∷ )?row (\w+) ", phases[phases.index("rows ="):])


def read():
    codes = {m[1]: int(m[2]) for m in re.finditer(r"(?m)^([A-Z]\w*) = (\d+)$", (SPECS / "Codes.antt").read_text())}
    phases = {}
    for phase, name in enumerate(rows((SPECS / "Phases.antt").read_text())):
        phases.setdefault(name, []).append(phase)
    text = (SPECS / "Nodes.antt").read_text()
    arrows = [(a, b, int(e or 0), re.findall(r"[A-Za-z]+", g)) for a, b, e, g in re.findall(
        r"arrow (\w+) (\w+) (?:\(shown (\d+)\)|quiet) (\[\]|\([^)]*\))", text[text.index("arrows ="):])]
    last = int(re.search(r"(?m)^last_phase = (\d+)$", (SPECS / "Bounds.antt").read_text())[1])
    if len(codes) != 11 or len(arrows) != 12 or sum(map(len, phases.values())) != last + 1:
        sys.exit("figure1: the tables of the definitions were not read whole")
    return codes, phases, arrows


def listed(numbers):
    """phase 5; phases 7, 8; phases 1 to 4; with a number apart, phases 1 to 4, 18."""
    runs = []
    for n in numbers:
        if runs and runs[-1][-1] == n - 1:
            runs[-1].append(n)
        else:
            runs.append([n])
    parts = [f"{r[0]} to {r[-1]}" if len(r) > 2 else ", ".join(map(str, r)) for r in runs]
    return ("phase " if len(numbers) == 1 else "phases ") + ", ".join(parts)


def edge(a, b):
    """Where the line from a's middle to b's middle leaves a's box."""
    (x, y), (u, v) = PLACES[a], PLACES[b]
    dx, dy = u - x, v - y
    k = min((W / 2) / abs(dx) if dx else 9e9, (H / 2) / abs(dy) if dy else 9e9)
    return x + dx * k, y + dy * k


def label(event, guard):
    name = EVENTS[event].split(" ", 1)
    wanted = [", ".join(guard[k:k + 2]) + ("," if guard[k + 2:] else "") for k in range(0, len(guard), 2)]
    return ([f"{event}: {name[0]}", name[1]] if event else []) + (["nobody in"] + wanted if guard else [])


def draw():
    codes, phases, arrows = read()
    out = [f'<svg xmlns="http://www.w3.org/2000/svg" viewBox="0 0 {WIDTH} {HEIGHT}" font-family="sans-serif" font-size="17">',
           "<title>Figure 1: the nodes with their phases, and the arrows with their events and guards</title>",
           '<defs><marker id="tip" markerWidth="11" markerHeight="11" refX="10" refY="5" orient="auto">'
           '<path d="M0,0 L10,5 L0,10 z"/></marker></defs>',
           f'<rect width="{WIDTH}" height="{HEIGHT}" fill="white"/>']
    for a, b, event, guard in arrows:
        (x, y), (u, v) = edge(a, b), edge(b, a)
        out.append(f'<line x1="{x:.0f}" y1="{y:.0f}" x2="{u:.0f}" y2="{v:.0f}" stroke="black" marker-end="url(#tip)"/>')
        lines = label(event, guard)
        dx, dy, anchor = LABELS.get((a, b), (0, -10 - LINE * (len(lines) - 1), "middle"))
        for k, line in enumerate(lines):
            out.append(f'<text x="{(x + u) / 2 + dx:.0f}" y="{(y + v) / 2 + dy + LINE * k:.0f}" '
                       f'text-anchor="{anchor}" font-size="15">{line}</text>')
    for name, (x, y) in PLACES.items():
        out.append(f'<rect x="{x - W / 2:.0f}" y="{y - H / 2:.0f}" width="{W}" height="{H}" rx="8" fill="#f4f4f4" stroke="black"/>')
        out.append(f'<text x="{x}" y="{y - 8}" text-anchor="middle" font-weight="bold">{name} ({codes[name]})</text>')
        out.append(f'<text x="{x}" y="{y + 18}" text-anchor="middle" font-size="15">{listed(phases[name])}</text>')
    out.append("</svg>")
    return "\n".join(out) + "\n"


if __name__ == "__main__":
    target = HERE / "figure1.svg"
    if "--check" in sys.argv[1:]:
        sys.exit(0 if target.exists() and target.read_text() == draw() else "figure1: docs/figure1.svg is not up to date")
    target.write_text(draw())
