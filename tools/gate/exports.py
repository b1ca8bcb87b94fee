"""Which functions a crate exports: those that a path from its root reaches, and those of the types that it reaches."""
import functools
import os
import re

from gate import syntax

PUBLIC_USE = re.compile(r"(?m)^[ \t]*pub use ([^;]+);")
PUBLIC_MOD = re.compile(r"(?m)^pub mod (\w+)\s*;")
EXTERNAL = re.compile(r"\s*pub (?:unsafe )?extern\b")
# Traits whose functions say nothing of a value: its tag, its copy, what it is by default.
PLAIN_TRAITS = {"Tagged", "Copies", "Default", "AsRef", "Clone", "fmt::Debug"}


@functools.cache
def reached(crate):
    """The names that a crate's public `use` lines bring to its root, and the files of its public modules."""
    names, paths = set(), set()
    waiting = [syntax.module_file(crate, "crate")]
    while waiting:
        file = waiting.pop()
        if file.path in paths:
            continue
        paths.add(file.path)
        names |= {leaf[1] for text in PUBLIC_USE.findall(file.code) for leaf in syntax.use_leaves(text)}
        waiting += filter(None, (syntax.module_file(crate, f"{module(file)}::{name}") for name in PUBLIC_MOD.findall(file.code)))
    return names, paths


def module(source):
    """The path of a file's module, as `crate::a::b`."""
    inner = os.path.splitext(source.path.split("/src/")[1])[0]
    return "::".join(["crate", *(word for word in inner.split("/") if word not in ("lib", "main", "mod"))])


def trait_of(function):
    """The trait that an impl is of, without its parameters; empty if it is of none."""
    head = function.owner[2]
    for _ in range(3):
        head = re.sub(r"<[^<>]*>", "", head)
    found = re.match(r"impl\b\s*([\w:]+)\s+for\b", head)
    return found[1] if found else ""


def is_exported(function):
    """Whether a function is one that the crate's users call."""
    names, paths = reached(function.file.crate)
    if EXTERNAL.match(function.signature):
        return True
    owner = function.owner[2]
    if owner.startswith("impl"):
        is_reached = function.owner_type in names or function.file.path in paths
        return is_reached and (trait_of(function) not in PLAIN_TRAITS if trait_of(function) else function.is_public)
    return not owner and function.is_public and (function.name in names or function.file.path in paths)


@functools.cache
def public(crate):
    """The functions with a body that a crate exports, but for its laws, in the order of their files."""
    return [entry for entry in exported(crate) if not entry.is_law]


@functools.cache
def exported(crate):
    """The functions with a body that a crate exports."""
    return [function for source in syntax.files(crate) for function in source.functions if function.body and is_exported(function)]


@functools.cache
def traits(crate):
    """The functions with clauses of the traits that a crate exports, without a body too."""
    names, paths = reached(crate)
    return [function for source in syntax.files(crate) for function in source.functions
            if function.clauses and re.match(r"pub trait\b", function.owner[2]) and (function.owner_type in names or source.path in paths)]
