#!/usr/bin/env python3
"""Brings the repository's own definitions and lemmas to snake case, by the table beside this script: old, a tab, new.

usage: python3 tools/respell.py, once, at the top, after the kit's port.py has turned the files

In specs/ and proofs/ it turns whole words, and in comments those in backquotes. In a source it turns words of clauses and of
`ghost use` lines. In a page it turns words in backquotes. A row of a name that is in snake case already, as `count_fits`, is one that a
definition takes now: it turns in specs/ and proofs/ alone, and not behind a dot in the proof of a function, where the name is the source's.
"""

import os
import re
import sys

HERE = os.path.dirname(os.path.realpath(__file__))
WORD = r'[^\s(){}.;,@"«»\[\]`]+'
TOKEN = re.compile(WORD)
SPAN = re.compile(r"`[^`\n]+`")


def rows():
    with open(os.path.join(HERE, "respelled.tsv"), encoding="utf-8") as f:
        return dict(l.rstrip("\n").split("\t") for l in f)


def turned(text, table, behind_dot=None):
    """The text with each word of the table turned; behind_dot gives the word that stands for one right behind a dot."""

    def one(m):
        new = table.get(m[0])
        if new is None:
            return m[0]
        if behind_dot and m.start() and text[m.start() - 1] == ".":
            return behind_dot(m[0], new)
        return new

    return TOKEN.sub(one, text)


def antt(text, table, walk):
    """A file of specs/ or proofs/; walk says that it is the proof of a function."""

    def behind_dot(old, new):
        path_of_source = "-" not in old and old == old.lower()
        if path_of_source:
            return old if walk else new
        return new[: -len("_lem")] if walk and new.endswith("_lem") else new

    prose = {old: new for old, new in table.items() if "-" in old or old != old.lower()}
    out = []
    for line in text.split("\n"):
        code, mark, comment = line, "", ""
        m = re.search(r"(?:^|\s)--(?:\s|$)", line)
        if m:
            at = line.index("--", m.start())
            code, mark, comment = line[:at], "--", line[at + 2 :]
        if re.match(r"\s*(?:pub )?use Rattle\.", code):
            head, brace, items = code.partition(".{")
            code = head + brace + turned(items, table, behind_dot)
        else:
            code = turned(code, table, behind_dot)
        comment = SPAN.sub(lambda s: turned(s[0], prose), comment)
        comment = re.sub(r"(?<![`\w])[a-z]+(?:[A-Z]\w*)+", lambda s: prose.get(s[0], s[0]), comment)
        out.append(code + mark + comment)
    return "\n".join(out)


def source(text, table):
    table = {old: new for old, new in table.items() if old != old.lower() or "-" in old}
    out, inside = [], 0
    for line in text.split("\n"):
        at = line.find("//")
        code, comment = (line, "") if at < 0 else (line[:at], line[at:])
        ghost = re.match(r"\s*(?:pub )?ghost\b", code) or re.match(r"\s*(?:requires|ensures)\b", code) or inside
        if ghost:
            inside = max(0, inside + code.count("{") - code.count("}"))
            head, brace, items = code.partition(".{") if "ghost use" in code else ("", "", code)
            code = head + brace + turned(items, table)
        comment = SPAN.sub(lambda s: turned(s[0], table), comment)
        comment = re.sub(r"(?<![`\w])[a-z]+(?:[A-Z]\w*)+", lambda s: table.get(s[0], s[0]), comment)
        out.append(code + comment)
    return "\n".join(out)


def page(text, table):
    table = {old: new for old, new in table.items() if old != old.lower() or "-" in old}
    return SPAN.sub(lambda s: turned(s[0], table), text)


def main():
    table = rows()
    paths = []
    for folder, dirs, files in os.walk("crates"):
        dirs[:] = sorted(d for d in dirs if d != "out")
        paths += [os.path.join(folder, f) for f in sorted(files)]
    for folder, dirs, files in os.walk("docs"):
        paths += [os.path.join(folder, f) for f in sorted(files) if f.endswith(".md") and f != "PORT.md"]
    paths.append("README.md")
    changed = 0
    for path in paths:
        if path.endswith(".antt"):
            turn = lambda t: antt(t, table, path.endswith("/Proof.antt"))
        elif path.endswith(".rt"):
            turn = lambda t: source(t, table)
        elif path.endswith(".md"):
            turn = lambda t: page(t, table)
        else:
            continue
        with open(path, encoding="utf-8", newline="") as f:
            old = f.read()
        new = turn(old)
        if new != old:
            changed += 1
            with open(path, "w", encoding="utf-8", newline="") as f:
                f.write(new)
    print(f"respell: {changed} files changed")
    return 0


if __name__ == "__main__":
    sys.exit(main())
