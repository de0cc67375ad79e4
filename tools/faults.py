#!/usr/bin/env python3
"""Makes docs/FAULTS.md of crates/updr_rows/data/faults.cases, whose cases the gate runs.

    tools/faults.py            writes docs/FAULTS.md
    tools/faults.py --check    ends with status 1 where docs/FAULTS.md isn't what it would write
"""

import re
import sys
import textwrap
from pathlib import Path

from case_files import read_cases

ROOT = Path(__file__).resolve().parent.parent
CASES = ROOT / "crates/updr_rows/data/faults.cases"
PAGE = ROOT / "docs/FAULTS.md"

HEAD = """# What `updr` refuses, and how to mend it

A refusal is one line on standard error, and nothing on standard output. `L:C` in a line is a place
in the model: the line and the column of a byte, both from 1. Where a model has several faults, the
first is told: those of tokens before those of the tree, and these before those of its meaning
(docs/LANGUAGE.md, Faults).

Each file below gives its line, and the gate tries it (`crates/updr_rows/data/faults.cases`, of
which `tools/faults.py` makes this page). Status 16, `updr: out of memory`, has no file: give the
program more memory, or a smaller `--weight`.

| Status | Line |
|---|---|
"""


def note_texts(lines):
    """The texts that the comments before a case begin with `says` and `repair`."""
    texts = {"says": "", "repair": ""}
    current = None
    for line in lines:
        text = line.lstrip("#").strip()
        word = text.split(" ", 1)[0]
        if line.startswith("# ") and word in texts:
            current, text = word, text[len(word) + 1:]
            texts[current] = text
        elif current:
            texts[current] += " " + text
    return texts


def shown(content):
    """A content as lines for a reader, with repetitions in words."""
    lines = []
    for line in content:
        repeated = re.match(r"times (\d+) (.)(.*)", line)
        if repeated:
            count, _, text = repeated.groups()
            lines.append(f"({int(count):,} times: {text})".replace("\\x20", "a space"))
        else:
            lines.append(line[1:])
    return lines


def block(content):
    return ["```", *shown(content), "```"]


def wrapped(text):
    return textwrap.wrap(text, 100, break_long_words=False, break_on_hyphens=False)


def line_of(case):
    """The line that the case wants on standard error."""
    return case.err[0][1:] if case.err else ""


def entry(case, mended):
    notes = note_texts(case.comments)
    lines = [f"## `{line_of(case)}`", "", *wrapped(f"Status {case.status}. {notes['says']}"), ""]
    if any(note.startswith(("room", "fail")) for note in case.notes):
        lines += ["(The case lets standard output take 4 bytes.)", ""]
    lines += [f"`updr {case.words}`" + (", where A is" if "A" in case.files else ""), ""]
    if "A" in case.files:
        lines += [*block(case.files["A"]), ""]
    if "R" in case.files:
        lines += ["and R is", "", *block(case.files["R"]), ""]
    lines += wrapped(f"**Mend it.** {notes['repair']}")
    if mended and mended.words == case.words:
        lines += ["", *block(mended.files["A"])]
    elif mended:
        lines += ["", f"`updr {mended.words}`"]
    return lines + [""]


def page():
    cases, _ = read_cases(CASES.read_text())
    mended = {c.name[8:]: c for c in cases if c.name.startswith("mended: ")}
    faults = [c for c in cases if c.name.startswith("fault: ")]
    text = HEAD + "".join(f"| {c.status} | `{line_of(c)}` |\n" for c in faults) + "\n"
    for case in faults:
        text += "\n".join(entry(case, mended.get(case.name[7:]))) + "\n"
    return text.rstrip("\n") + "\n"


def main():
    text = page()
    if sys.argv[1:] == ["--check"]:
        if not PAGE.exists() or PAGE.read_text() != text:
            sys.exit("docs/FAULTS.md isn't what tools/faults.py makes of faults.cases")
    else:
        PAGE.write_text(text)


main()
