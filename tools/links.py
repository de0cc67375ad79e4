#!/usr/bin/env python3
"""Looks whether what the documents point at is there: links, and names of files.

    tools/links.py --check    prints each name that nothing has, and ends with status 1 where there is one
"""

import re
import sys
from pathlib import Path

ROOT = Path(__file__).resolve().parent.parent
PAGES = [ROOT / "README.md", *sorted((ROOT / "docs").glob("*.md"))]
LINK = re.compile(r"\]\(([^)#]+)[^)]*\)")
# A path from the top of the repository, or the name of a page or an example.
PATH = re.compile(r"(?<![\w./-])((?:docs|crates|examples|bench|tools|\.ci)/[\w./*-]*[\w*])")
NAME = re.compile(r"(?<![\w./-])([\w-]+\.(?:md|pyv|report|cases|sh|py))(?![\w/])")
PLACES = ["", "docs", "examples", "crates/updr_rows/data", "bench", "tools"]
# Names that stand for something of the reader's own, or a file that is made.
OWN = {"lock.pyv", "m.pyv", "my.report", "lock-server-bare.pyv", "lock-server-one.pyv",
       "lock-server-four.pyv", "run.report"}


def exists(name, places):
    found = any(any((ROOT / place).glob(name)) for place in places if (ROOT / place).exists())
    return found or "/out" in name or "/CRATE" in name or "NAME" in name or "/F/" in name


def missing(page):
    for number, line in enumerate(page.read_text().splitlines(), 1):
        for link in LINK.findall(line):
            if not link.startswith("http") and not exists(link, [page.parent.relative_to(ROOT), ""]):
                yield number, link
        for path in PATH.findall(line):
            if not exists(path.rstrip("/"), [""]):
                yield number, path
        for name in NAME.findall(line):
            if name not in OWN and not exists(name, PLACES):
                yield number, name


def main():
    if sys.argv[1:] != ["--check"]:
        sys.exit(__doc__.strip())
    faults = [(page, *fault) for page in PAGES for fault in missing(page)]
    for page, number, name in faults:
        print(f"{page.relative_to(ROOT)}:{number}: {name} isn't there")
    sys.exit(1 if faults else 0)


main()
