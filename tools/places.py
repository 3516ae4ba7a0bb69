#!/usr/bin/env python3
"""Counts, in the sources and proofs of a commit, the places that docs/DESIGN-PASS.md speaks of, point by point.

    tools/places.py COMMIT [--list]     --list names each place
"""
import re
import subprocess
import sys
from collections import Counter, defaultdict


def git(*words):
    return subprocess.run(("git",) + words, capture_output=True, text=True, check=True).stdout


def files(commit, pattern):
    """The files of a commit whose names match, with their texts."""
    for name in git("ls-tree", "-r", "--name-only", commit).splitlines():
        if re.fullmatch(pattern, name):
            yield name, git("show", f"{commit}:{name}")


def lines(sources, pattern):
    """The lines that match: file, number, text."""
    return [(name, at, line.strip()) for name, text in sources for at, line in enumerate(text.splitlines(), 1) if re.search(pattern, line)]


def functions(sources):
    """The functions with a body: file, number of the line, head, clauses, body."""
    for name, text in sources:
        for found in re.finditer(r"(?m)^( *)(?:pub )?(?:extern \"C\" )?fn (\w+)((?:.|\n)*?)\n\1\{\n((?:.|\n)*?)\n\1\}|^( *)(?:pub )?fn (\w+)([^\n]*) \{\n((?:.|\n)*?)\n\5\}", text):
            word, head, body = (found[2], found[3], found[4]) if found[2] else (found[6], found[7], found[8])
            yield name, text[:found.start()].count("\n") + 1, word, head, body


def shape(body):
    """A body without its names, numbers, texts and types."""
    body = re.sub(r"//[^\n]*", "", body)
    body = re.sub(r'b?"[^"]*"', "#", body)
    body = re.sub(r"\b(?!let\b|mut\b|if\b|else\b|match\b|return\b|while\b|for\b|loop\b|in\b|as\b)[A-Za-z_][\w:]*", "x", body)
    body = re.sub(r"\b[0-9][\w]*", "#", body)
    return re.sub(r"\s+", " ", body).strip()


def show(title, places):
    print(f"{title}: {len(places)}")
    if "--list" in sys.argv:
        for place in places:
            print("   ", *place)


def main():
    commit = sys.argv[1]
    sources = [(name, text) for name, text in files(commit, r"crates/[^/]+/src/.*\.rt")]
    written = [(name, text) for name, text in sources if not name.endswith("byte_rows/src/states.rt")]
    known = list(functions(written))
    print(f"functions with a body: {len(known)}")

    print("1. kinds, answers, numbers for kinds")
    show("  enums", lines(written, r"^\s*(pub )?enum "))
    show("  enums with a case that stands for none, or for a refusal or a failure beside a value",
         [(name, word) for name, text in written for word, cases in re.findall(r"(?m)^\s*(?:pub )?enum (\w+) \{\n((?:.|\n)*?)^\s*\}", text)
          if re.search(r"(?m)^ *(Refused\(|Bad\b|Unknown\b|Nobody\b|Failed\b|Stopped\(|Unended\b|Quiet\b)", cases) and word not in ("Refusal",)])
    show("  constants that number kinds", lines(written, r"^(pub )?const (GO|CALL_SHARED|CALL_EXCLUSIVE|SET|CLEAR|RELENT|HOLD|LAST_MOVE|FREE|ES|LOE|SHARED|LS|EE|SAF|LOS|EXCLUSIVE|LE|OE): u8"))
    show("  functions that match on numbers", sorted({(name, word) for name, at, word, head, body in known if re.search(r"(?m)^ *[0-9]+(\.\.=[0-9]+)?( \| [0-9]+(\.\.=[0-9]+)?)* => ", body)}))

    print("2. twins")
    groups = defaultdict(list)
    for name, at, word, head, body in known:
        if len(shape(body)) > 30:
            groups[shape(body)].append((name, word))
    twins = [group for group in groups.values() if len(group) > 1]
    show("  groups of functions whose bodies differ only in names, numbers, texts and types", [(" = ".join(f"{name.split('/')[1]}::{word}" for name, word in group),) for group in twins])

    print("3. loops")
    show("  while and loop", lines(written, r"^\s*(while|loop)\b"))
    over = r" in \(?[\w.]+\.\."
    show("  for over a range of numbers", [place for place in lines(written, r"^\s*for ") if re.search(over, place[2])])
    show("  other for", [place for place in lines(written, r"^\s*for ") if not re.search(over, place[2])])

    print("4. conversions, equality, copies and printing by hand")
    show("  functions that only turn a case into a number or a number into a case",
         sorted({(name, word) for name, at, word, head, body in known if re.fullmatch(r"match \w+ \{(\s*[\w:]+(\(\w+\))?( \| [\w:]+)* => [\w:]+(\([\w:]+\))?,)+\s*\}", body.strip())}))
    show("  fields copied one by one", lines(written, r"^\s*(phase|busy|forbidden|threads|mutex|target|shared|exclusive): \w+\.\1,$"))
    show("  conversions through a trait", lines(written, r"(u8|u16|u64|Refused)::from\(|try_from\(|\.into\(\)|map_err\(.*::from\)"))

    print("5. facts and parameters that travel together")
    facts = Counter()
    for name, at, word, head, body in known:
        for fact in {f"{it}" for it in re.findall(r"\b([A-Z]\w+) \w+\.(?:old|now)", head)}:
            facts[fact] += 1
    show("  facts in the contracts of three or more functions", [(fact, number) for fact, number in facts.most_common() if number > 2])
    pairs = Counter()
    for name, at, word, head, body in known:
        parameters = re.findall(r"(\w+): ", head.partition(")")[0])
        for pair in zip(parameters, parameters[1:]):
            pairs[pair] += 1
    show("  neighbouring parameters of five or more functions", [(*pair, number) for pair, number in pairs.most_common() if number > 4])

    print("6. buffers with a length or a position beside them")
    show("  functions that take an output and a position", [(name, word) for name, at, word, head, body in known if re.search(r"(out|history|moves): &mut \[u8\],\s+(at|start): usize", head)])
    show("  functions that take a table and its N", [(name, word) for name, at, word, head, body in known if re.search(r"table: &(mut )?\[u8\],\s+threads: usize", head)])

    print("7. steps chosen by a switch, tables of functions")
    show("  tables of functions, pointers to functions", lines(written, r"\[fn\(|: fn\(|&dyn |Box<dyn"))
    show("  closures", lines(written, r"\(\|[^|]*\||impl Fn|: Fn"))

    print("8. proofs")
    proofs = list(files(commit, r"crates/[^/]+/proofs/.*\.antt"))
    answers = lines([it for it in proofs if it[0].endswith("/Answers.antt")], r"^pub \S+ : goal\.")
    show("  functions with a folder of proofs", sorted({(name.rpartition("/")[0],) for name, text in proofs if re.search(r"/(Answers|Invariants|Proof)\.antt$", name)}))
    print(f"  answers: {len(answers)}")
    print(f"  lines of proofs: {sum(len(text.splitlines()) for name, text in proofs)}")


main()
