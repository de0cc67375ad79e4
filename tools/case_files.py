"""Reading files of cases (docs/CASES.md), for tools that show or compare what cases hold."""

import re
from dataclasses import dataclass, field
from pathlib import Path

DATA = Path(__file__).resolve().parent.parent / "crates/updr_rows/data"
# What begins the lines of a content.
CONTENT = ("|", ":", "=", "<", "times ")


@dataclass
class Case:
    """A case. Contents are lists of their lines, as they are written; `out` and `err` are None where
    the case says nothing of them or asks for nothing."""

    name: str
    comments: list
    words: str = ""
    status: str = ""
    files: dict = field(default_factory=dict)
    out: list = None
    err: list = None
    notes: list = field(default_factory=list)


def read_cases(text):
    """The cases of a file in order, and its texts by name."""
    cases, texts, comments, into = [], {}, [], []
    for line in text.splitlines():
        word, _, rest = line.partition(" ")
        if line.startswith("#"):
            comments.append(line)
        elif line.startswith(CONTENT):
            into.append(line)
        elif word == "text":
            into, comments = texts.setdefault(rest, []), []
        elif word == "case":
            cases.append(Case(rest, comments))
            into, comments = [], []
        elif line:
            into = take(cases[-1], word, rest)
    return cases, texts


def take(case, word, rest):
    """Puts a line's meaning into the case, and gives the list for the content after it."""
    into = []
    if word == "file":
        case.files[rest] = into
    elif word == "out":
        case.out = into if not rest else None
    elif word == "err":
        case.err = into if not rest else None
    elif word in ("words", "status"):
        setattr(case, word, rest)
    else:
        case.notes.append(f"{word} {rest}".strip())
    return into


def text_of(content, texts):
    """What a content's lines say."""
    return "".join(text_of_line(line, texts) for line in content)


def text_of_line(line, texts):
    repeated = re.match(r"times (\d+) (.*)", line)
    if repeated:
        count, piece = repeated.groups()
        return text_of_line(piece, texts) * int(count)
    if line[0] == "=":
        return text_of(texts[line[1:]], texts)
    if line[0] == "<":
        return (DATA / line[1:]).read_text()
    text = re.sub(r"\\x([0-9A-Fa-f]{2})", lambda found: chr(int(found[1], 16)), line[1:])
    return text + ("\n" if line[0] == "|" else "")
