#!/usr/bin/env python3
"""Brings this repository's own definitions and lemmas to the library's spelling: words in snake case, with a
dash only where a lemma joins the names of two functions. tools/respell.tsv has each old name with the new one.

usage: python3 tools/respell.py     at the top of the repository, once, behind the kit's port.py

It renames whole names in specs/, proofs/, the clauses of src/ and the must-fail edits; in comments and pages
it renames what stands between backticks. It says how many names it met.
"""

import os
import re
import sys

HERE = os.path.dirname(os.path.abspath(__file__))
NAME = re.compile(r"[^\W\d](?:[\w']|-(?=\w))*")
TICKED = re.compile(r"`[^`\n]*`")


def table():
    with open(os.path.join(HERE, "respell.tsv"), encoding="utf-8") as f:
        return dict(line.rstrip("\n").split("\t") for line in f if line.strip())


def renamed(text, names, met):
    def one(m):
        new = names.get(m[0])
        if new is None:
            return m[0]
        met.add(m[0])
        return new

    return NAME.sub(one, text)


def ticked(text, names, met):
    return TICKED.sub(lambda m: renamed(m[0], names, met), text)


def antt(line, names, met):
    code, mark, comment = line.partition("--") if line.lstrip().startswith("--") else re.match(r"(.*?)((?<=\s)--(?=\s)|$)(.*)", line, re.S).groups()
    return renamed(code, names, met) + mark + ticked(comment, names, met)


def source(line, names, met, clause):
    if line.lstrip().startswith("//"):
        return ticked(line, names, met)
    if clause:
        return renamed(line, names, met)
    return line


def clauses(lines):
    """For each line of a source file, whether it is part of a `ghost use` item, a clause or a ghost item."""
    deep = 0
    for line in lines:
        start = re.match(r"\s*(?:pub\s+)?(ghost|requires|ensures)\b", line)
        here = bool(start) or deep > 0
        if here:
            deep += line.count("{") - line.count("}")
        yield here


def edit(line, names, met, specs):
    if line.startswith("#"):
        return ticked(line, names, met)
    if specs or re.match(r"(?:old|new):\s*(?:ghost|requires|ensures)\b", line):
        return renamed(line, names, met)
    return line


def turned(path, text, names, met):
    lines = text.splitlines(keepends=True)
    if path.endswith(".antt"):
        return "".join(antt(it, names, met) for it in lines)
    if path.endswith(".rt"):
        return "".join(source(it, names, met, c) for it, c in zip(lines, clauses(lines)))
    if path.endswith(".edit"):
        specs, out = False, []
        for it in lines:
            if it.startswith("file:"):
                specs = it.rstrip().endswith(".antt")
            out.append(edit(it, names, met, specs))
        return "".join(out)
    return "".join(ticked(it, names, met) for it in lines)


def main():
    if not os.path.isdir("crates"):
        sys.exit("respell: run it at the top of the repository")
    names, met, count = table(), set(), 0
    for top in ("crates", "docs", "README.md"):
        walk = os.walk(top) if os.path.isdir(top) else [("", [], [top])]
        for folder, folders, files in walk:
            folders[:] = sorted(it for it in folders if it != "out")
            for it in sorted(files):
                path = os.path.join(folder, it)
                if not path.endswith((".antt", ".rt", ".edit", ".md")):
                    continue
                with open(path, encoding="utf-8") as f:
                    text = f.read()
                new = turned(path, text, names, met)
                if new != text:
                    count += 1
                    with open(path, "w", encoding="utf-8") as f:
                        f.write(new)
    left = sorted(set(names) - met)
    print(f"respell: {len(met)} of {len(names)} names in {count} files" + (f"; not met: {' '.join(left)}" if left else ""))


main()
