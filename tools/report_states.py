"""Reading the worlds of a report, for report-text and report-dot."""

from dataclasses import dataclass, field


@dataclass
class World:
    """A world: its sorts with their sizes, and tables by symbol, those of all copies apart."""

    title: str
    sorts: list = field(default_factory=list)
    fixed: dict = field(default_factory=dict)
    copies: list = field(default_factory=list)


def read_worlds(lines):
    """The worlds of a report, or of what `verify` prints, in order."""
    worlds, tables, title = [], None, ""
    for line in lines:
        words = line.split()
        if not words:
            continue
        if words[0] == "world":
            worlds.append(World(title))
        elif words[0] == "sort" and worlds:
            worlds[-1].sorts.append((words[1], int(words[2])))
        elif words[0] == "fixed":
            tables = worlds[-1].fixed
        elif words[0] == "copy":
            tables = {}
            worlds[-1].copies.append(tables)
        elif words[0] == "end":
            tables, title = None, ""
        elif tables is not None:
            tables[words[0]] = [int(word) for word in words[1:]]
        else:
            title = line.strip()
    return worlds


def declarations(model):
    """The argument sorts of each symbol of a model, and the sort of its values or None."""
    found = {}
    words = tokens(model)
    for at, word in enumerate(words):
        if word in ("relation", "constant", "function") and at and words[at - 1] in ("mutable", "immutable"):
            name, rest = words[at + 1], words[at + 2:]
            arguments = []
            if rest and rest[0] == "(":
                arguments = [w for w in rest[1:rest.index(")")] if w != ","]
                rest = rest[rest.index(")") + 1:]
            found[name] = (arguments, rest[1] if word != "relation" else None)
    return found


def tokens(model):
    """The words and signs of a model, without comments."""
    text = "\n".join(line.split("#")[0] for line in model.splitlines())
    for sign in "(),:":
        text = text.replace(sign, f" {sign} ")
    return text.split()


def tuples(sizes):
    """All tuples below these sizes, in lexicographic order."""
    found = [()]
    for size in sizes:
        found = [(*front, last) for front in found for last in range(size)]
    return found


def facts(world, symbols, tables):
    """The true facts of these tables, by names: `held(node1)`, `idn(node0) = id1`."""
    sizes = dict(world.sorts)
    found = []
    for name, values in tables.items():
        arguments, value_sort = symbols[name]
        for place, value in zip(tuples([sizes[sort] for sort in arguments]), values):
            elements = ", ".join(f"{sort}{number}" for sort, number in zip(arguments, place))
            fact = f"{name}({elements})" if arguments else name
            if value_sort:
                found.append(f"{fact} = {value_sort}{value}")
            elif value:
                found.append(fact)
    return found
