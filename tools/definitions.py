#!/usr/bin/env python3
"""Makes docs/DEFINITIONS.md: each definition of crates/*/specs, its file, what its comment says
first, and the contracts of public calls that name it.

    tools/definitions.py            writes docs/DEFINITIONS.md
    tools/definitions.py --check    ends with status 1 where that page isn't what it would write
"""

import re
import sys
from collections import defaultdict
from pathlib import Path

ROOT = Path(__file__).resolve().parent.parent
PAGE = ROOT / "docs/DEFINITIONS.md"

HEAD = """# Definitions

Where each definition stands, what it says by the first sentence of its comment, and which contracts
of public calls name it. `tools/definitions.py` makes this page. Crates are in the order of the data,
as in `crates.txt`, and definitions in the order of their names; files are
`crates/CRATE/specs/FILE.antt`. A definition that no public contract names serves others, or the
contracts of private functions. To read them in order: truth, worlds and runs in `fo_core`; then what
each layer adds.
"""

DEFINITION = re.compile(r"\s*(?:abbrev pub|unfoldable pub|pub record|pub data) (\S+)")
IMPORT = re.compile(r"ghost use Rattle\.(\w+)\.specs\.(\w+)\.\{([^}]*)\}")
FUNCTION = re.compile(r"\s*(pub )?fn (\w+)")
CLAUSE = re.compile(r"\s*(ensures|requires)\b")
BLOCK = re.compile(r"(pub )?(impl|trait)\b(?:<[^{]*?>)? ?(.*?)\s*\{?$")


def crates():
    """The crates, in the order of the data."""
    lines = (ROOT / "crates.txt").read_text().splitlines()
    return [re.split(r"[ :]", line)[0] for line in lines if line and not line.startswith("#")]


def first_sentence(comments):
    text = " ".join(line.strip().removeprefix("--").strip() for line in comments)
    text = re.split(r"(?<=[^.])\.\s|:\s|;\s", text + " ", maxsplit=1)[0].strip().rstrip(".:;")
    return text.replace("|", "\\|")


def definitions_of(path):
    """The definitions of a file with the first sentence of the comment before each."""
    found, comments = [], []
    for line in path.read_text().splitlines():
        definition = DEFINITION.match(line)
        if line.strip().startswith("--"):
            comments.append(line)
        elif definition:
            found.append((definition.group(1), first_sentence(comments)))
            comments = []
        else:
            comments = []
    return found


def exported(crate):
    """The names that the crate's root hands on."""
    text = (ROOT / "crates" / crate / "src/lib.rt").read_text()
    names = set(re.findall(r"^pub (?:fn|struct|enum|trait) (\w+)", text, re.M))
    for use in re.findall(r"^pub use ([^;]+);", text, re.M):
        names |= set(re.findall(r"\w+", use))
    return names


def contract_from(lines, start):
    """The clauses of the function whose head begins at this line."""
    taken, inside = [], False
    for line in lines[start:]:
        if CLAUSE.match(line):
            inside = True
        if inside and (line.strip() in ("{", "{}", "}") or FUNCTION.match(line)):
            break
        if inside:
            taken.append(line)
        elif line.rstrip().endswith(("{", ";")) and line is not lines[start]:
            break
    return "\n".join(taken)


def contracts_of(path, names):
    """The public calls of a file, by the names that their contracts use."""
    lines = path.read_text().splitlines()
    block, kind = "", ""
    for number, line in enumerate(lines):
        head = BLOCK.match(line)
        if head and not line.startswith(" "):
            kind, block = head.group(2), head.group(3)
        elif line == "}":
            block, kind = "", ""
        function = FUNCTION.match(line)
        if not function:
            continue
        owner = re.sub(r".* for ", "", block).split(":")[0].split("<")[0].strip()
        public = function.group(1) or kind == "trait" or " for " in block
        if public and (owner or function.group(2)) in names:
            call = f"{owner}::{function.group(2)}" if owner else function.group(2)
            yield call, contract_from(lines, number)


def named_by():
    """For each definition, by crate, file and name, the calls whose contracts name it."""
    found = defaultdict(list)
    for crate in crates():
        root = ROOT / "crates" / crate / "src/lib.rt"
        if not root.exists():
            continue
        names = exported(crate)
        for path in sorted(root.parent.glob("*.rt")):
            imports = {}
            for owner, file, list_ in IMPORT.findall(path.read_text()):
                for item in list_.split(","):
                    name, _, other = item.strip().partition(" as ")
                    imports[other or name] = (owner, file, name)
            for call, contract in contracts_of(path, names):
                for word in set(re.findall(r"[^\s(){}\[\],.;]+", contract)):
                    if word in imports:
                        found[imports[word]].append(f"`{crate}::{call}`")
    return found


def page():
    calls = named_by()
    text = HEAD
    for crate in crates():
        rows = []
        for path in sorted((ROOT / "crates" / crate / "specs").glob("*.antt")):
            for name, says in definitions_of(path):
                by = ", ".join(sorted(set(calls[(crate, path.stem, name)])))
                rows.append((name.lower(), name, path.stem, says, by))
        if rows:
            text += f"\n## {crate}\n| Definition | File | Says | Named by |\n|---|---|---|---|\n"
        for _, name, file, says, by in sorted(rows):
            text += f"| `{name}` | {file} | {says} | {by} |\n"
    return text


def main():
    text = page()
    if sys.argv[1:] == ["--check"]:
        if not PAGE.exists() or PAGE.read_text() != text:
            sys.exit("docs/DEFINITIONS.md isn't what tools/definitions.py makes of crates/")
    else:
        PAGE.write_text(text)


main()
