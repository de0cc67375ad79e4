#!/usr/bin/env python3
"""Compares the commands and outputs that README, the tutorial and the man page show with the cases
of documents.cases, which the gate runs.

    tools/shown.py --check    prints each that no case has, and ends with status 1 where there is one

A command is `updr ..` with the names of files, in a line of text or by itself; a case has to have its
words. What is said to be printed right after it, in a text of one line, is the first line of the case's
output. An output in a block of its own is that of a case, or a part of what tools/report-text makes
of one.
"""

import re
import subprocess
import sys
import tempfile
from pathlib import Path

from case_files import DATA, read_cases, text_of

ROOT = Path(__file__).resolve().parent.parent
PAGES = ["README.md", "docs/TUTORIAL.md", "docs/updr.1"]
CODE = re.compile(r"`(updr [^`]+)`")
LINE = re.compile(r"^updr [^<>\n]+", re.M)
SAID = re.compile(r"`updr ([^`]+)`\s+prints\s+`([^`]+)`")
BLOCK = re.compile(r"^```\w*\n(.*?)^```", re.M | re.S)
# How the blocks begin that show an output, of the program or of report-text.
OUTPUTS = ("report 1", "not inductive", "verdict ", "  state ")
COMMANDS = ("updr", "verify", "bmc", "check", "demo")


def words_of(command):
    """The words of a command as a case has them, without the program's name: files are named
    without their folder, and what the shell does with the output isn't a word."""
    return [word.removeprefix("examples/") for word in command.split(" > ")[0].split()[1:]]


def commands_of(text):
    """The commands that the text shows with their files, each as words. What stands for a file of
    the reader's, as MODEL, makes none."""
    found = CODE.findall(BLOCK.sub("", text)) + LINE.findall(text)
    for words in map(words_of, found):
        if len(words) > 1 and words[0] in COMMANDS and words[1] != "MODEL":
            yield " ".join(words)


def read_aloud(model, report):
    """What report-text makes of a report."""
    with tempfile.TemporaryDirectory() as folder:
        files = [Path(folder) / "model", Path(folder) / "report"]
        files[0].write_text(model)
        files[1].write_text(report)
        made = subprocess.run([ROOT / "tools/report-text", *files], capture_output=True, text=True)
    return made.stdout


def outputs_of(cases, texts):
    """What the cases print, and what report-text makes of it where there are states."""
    for case in cases:
        printed = text_of(case.out or [], texts)
        yield printed
        if "\ncopy 0\n" in printed:
            yield read_aloud(text_of(next(iter(case.files.values())), texts), printed)


def faults(page, cases, texts, outputs):
    text = (ROOT / page).read_text()
    first_lines = {case.words: text_of(case.out or [], texts).split("\n")[0] for case in cases}
    for words in commands_of(text):
        if words not in first_lines:
            yield f"no case has the words {words}"
    for command, said in SAID.findall(text):
        words = " ".join(words_of("updr " + command))
        if first_lines.get(words, said) != said:
            yield f"updr {words} doesn't print {said}"
    for block in BLOCK.findall(text):
        if block.startswith(OUTPUTS) and not any(block in output for output in outputs):
            yield "no case prints\n" + block


def main():
    if sys.argv[1:] != ["--check"]:
        sys.exit(__doc__.strip())
    cases, texts = read_cases((DATA / "documents.cases").read_text())
    outputs = list(outputs_of(cases, texts))
    found = [f"{page}: {fault}" for page in PAGES for fault in faults(page, cases, texts, outputs)]
    print("\n".join(found), end="\n" if found else "")
    sys.exit(1 if found else 0)


main()
