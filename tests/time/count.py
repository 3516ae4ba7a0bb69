#!/usr/bin/env python3
"""Counts the instructions of each entry under callgrind and holds them to the formulas of docs/MANUAL.md.

  tests/time/count.py            the test: no count is above its formula, and no formula is far above the largest counts
  tests/time/count.py --table    the counts, the largest of each entry and size

A formula stands in the manual's table as code, `a + b*N`: N tasks, E events, M moves that are planned, written or read, B
bytes of the script.
What the host's memset and memcpy take is not counted.
"""
import re
import subprocess
import sys
import tempfile
from pathlib import Path

TOP = Path(__file__).resolve().parent.parent.parent
sys.path.insert(0, str(TOP / "tests" / "archive"))
import archive  # noqa: E402

NAMES = {"version": "", "fresh": "N", "move": "N", "dispatch": "N", "nodes": "N", "open_moves": "N", "check": "NE", "plan_length": "NE", "plan": "NEM",
         "run": "B", "write_script": "MB", "read_script": "BM", "watch_start": "N", "watch_event": "N", "watch_inside": "N"}
# A formula may be above the largest count by this share, or by this many instructions.
SHARE, LOOSE = 0.12, 40
# Those that are the same instructions for each task or event of the input that takes most, so that the formula is held to the
# largest input too.
EVEN = {"move", "dispatch", "nodes", "open_moves", "check", "plan_length"}


def own(text, names):
    """The instructions that a dump has for the functions of the archive by themselves."""
    known, here, total, skip = {}, None, 0, False
    for line in text.splitlines():
        m = re.match(r"c?fn=\((\d+)\)(?: (.*))?$", line)
        if m:
            if m[2]:
                known[m[1]] = m[2]
            if line.startswith("fn="):
                here = known[m[1]]
        elif line.startswith("calls="):
            skip = True
        elif re.match(r"[-+*\d]\S* \d+$", line):
            if not skip and re.sub(r"'\d+$", "", here or "") in names:
                total += int(line.split()[1])
            skip = False
    return total


def counts():
    """(entry, sizes, what the input is, instructions) of each call."""
    target = TOP / "target" / "tests"
    target.mkdir(parents=True, exist_ok=True)
    program = target / "count"
    subprocess.run(["cc", "-std=c99", "-O1", "-Wall", "-Wextra", "-Werror", f"-I{TOP / 'include'}", "-o", str(program),
                    str(TOP / "tests/time/count.c"), str(archive.ARCHIVE)], check=True)
    names = set(archive.functions())
    found = []
    with tempfile.TemporaryDirectory() as folder:
        subprocess.run(["valgrind", "-q", "--tool=callgrind", f"--callgrind-out-file={folder}/out", str(program)],
                       check=True, stderr=subprocess.DEVNULL)
        for path in Path(folder).iterdir():
            text = path.read_text()
            label = re.search(r"(?m)^desc: Trigger: Client Request: (.*)$", text)
            if label:
                words = label[1].split()
                sizes = dict(zip(NAMES[words[0]], map(int, words[1:])))
                found.append((words[0], sizes, " ".join(words[1 + len(sizes):]), own(text, names)))
    return found


def formulas():
    manual = (TOP / "docs" / "MANUAL.md").read_text()
    return {m[1]: m[2] for m in re.finditer(r"(?m)^\| `wospinzo_(\w+)` \| `([\d+*NEMB ]+)` \|", manual)}


def main():
    found = counts()
    largest = {}
    for entry, sizes, what, n in found:
        key = (entry, tuple(sizes.items()))
        largest[key] = max(largest.get(key, (0, "")), (n, what))
    if "--table" in sys.argv[1:]:
        for (entry, sizes), (n, what) in sorted(largest.items(), key=str):
            print(f"{entry:12} {dict(sizes)!s:40} {n:12,}  {what}")
        return 0
    stated = formulas()
    passed, failures = 0, []
    for entry in NAMES:
        if entry not in stated:
            failures.append(f"docs/MANUAL.md has no formula for wospinzo_{entry}")
    for (entry, sizes), (n, what) in sorted(largest.items(), key=str):
        if entry not in stated:
            continue
        bound = eval(stated[entry], {}, dict(sizes))
        if n > bound:
            failures.append(f"{entry} {dict(sizes)}: {n} instructions ({what}), the manual says {stated[entry]} = {bound}")
        else:
            passed += 1
    for entry in stated:
        near = {s: eval(stated[entry], {}, dict(s)) <= n * (1 + SHARE) + LOOSE for (e, s), (n, what) in largest.items() if e == entry}
        most = max((n, s) for (e, s), (n, what) in largest.items() if e == entry)[1]
        if not any(near.values()):
            failures.append(f"{entry}: {stated[entry]} is far above every count")
        elif entry in EVEN and not near[most]:
            failures.append(f"{entry}: {stated[entry]} is far above the count of {dict(most)}")
        else:
            passed += 1
    for failure in failures:
        print(f"time: {failure}")
    print(f"instructions of {len(found)} calls counted")
    print(f"{passed} passed, {len(failures)} failed")
    return 1 if failures else 0


if __name__ == "__main__":
    sys.exit(main())
