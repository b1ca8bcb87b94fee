#!/usr/bin/env python3
"""Writes docs/CONTRACTS.md: the named clauses of public calls, and the laws, crate by crate.

    python3 tools/dev/contracts.py

`tools/gate/quick.py` compares the page. Functions that a macro or a derived trait makes are not seen.
"""
import functools
import os
import sys

sys.path.insert(0, os.path.dirname(os.path.dirname(os.path.abspath(__file__))))
from dev import believe
from gate import exports
from program import repo

PAGE = "docs/CONTRACTS.md"
ONE, PREMISE = "one clause", "*a premise*"
HEADER = """# Contracts by name

For anyone who looks for the clause that says something: the public calls whose clauses have names,
and the laws of each crate, made by `python3 tools/dev/contracts.py`. A premise is what a caller has
to show. A law is a public function that does nothing: its clauses are what it says. Not listed are
calls with one clause without a name, and those with the clauses of their trait.

"""


def named(function):
    """The names of a function's clauses, in their order; what it requires is a premise."""
    return tuple(dict.fromkeys(PREMISE if kind == "requires" else name and f"`{name}`" or ONE for kind, name, _ in function.clauses))


def by_clauses(functions):
    """Functions by the names of their clauses, those with the same ones together."""
    found = {}
    for function in functions:
        found.setdefault(named(function), []).append(function)
    return found.items()


def crate_lines(crate):
    """The lines of a crate: its traits, its calls, and its laws."""
    calls = [entry for entry in exports.public(crate) if entry.clauses]
    for functions in (exports.traits(crate), calls):
        for names, those in by_clauses(functions):
            if ONE not in names:
                yield f"- {', '.join(believe.grouped(those))}: {', '.join(names)}."
    laws = [entry for entry in exports.exported(crate) if entry.is_law]
    if laws:
        yield f"- *Laws*: {', '.join(believe.grouped(laws))}."


@functools.cache
def crates():
    """The crates that have a section, each with its lines."""
    found = {library: [*map(believe.wrapped, crate_lines(library))] for library in believe.libraries()}
    return {name: lines for name, lines in found.items() if lines}


def written():
    """The text of the page."""
    contents = believe.wrapped(", ".join(f"[`{name}`](#{name})" for name in crates()))
    return HEADER + contents + "\n" + "".join("\n".join(["", f"## `{name}`", "", *lines, ""]) for name, lines in crates().items())


def faults():
    """What is amiss with the page."""
    if not os.path.exists(os.path.join(repo.TOP, PAGE)) or repo.read(PAGE) != written():
        yield f"{PAGE}: it isn't what the sources say: run python3 tools/dev/contracts.py"


if __name__ == "__main__":
    with open(os.path.join(repo.TOP, PAGE), "w", encoding="utf-8") as page:
        page.write(written())
