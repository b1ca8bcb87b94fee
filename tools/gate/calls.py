"""Which functions of the sources a function calls, as far as the names in its body and the `use` lines of its file say."""
import functools
import re

from gate import syntax
from program import repo

# Names in a body: of a method that is called, of a function after a path, of one that is called, of one that may be handed over.
METHOD = re.compile(r"\.\s*(\w+)(?:::<[^<>()]*>)?\(")
BEHIND = re.compile(r"\b((?:\w+(?:::<[^<>()]*>)?::)+)(\w+)\b")
PLAIN = re.compile(r"(?<![.:\w])(\w+)(?:::<[^<>()]*>)?\(")
HANDED = re.compile(r"[(,]\s*(\w+)\s*(?=[,)])")
TYPES = re.compile(r"::<[^<>()]*>")
# Types of std's prelude: no parameter has such a name.
OF_STD = {"Vec", "String", "Box", "Option", "Result"}


@functools.cache
def functions():
    """The functions that have a body."""
    return [function for crate in syntax.CRATES for file in syntax.files(crate) for function in file.functions if function.body]


@functools.cache
def of_types():
    """The functions of types and traits, by their names."""
    found = {}
    for function in functions():
        if function.owner_type:
            found.setdefault(function.name, []).append(function)
    return found


def owned(name):
    return of_types().get(name, ())


@functools.cache
def reach(crate):
    return {*repo.below([crate], syntax.CRATES)}


@functools.cache
def called(function):
    """The functions that a body names. Of a method whose type the file doesn't name, and of a type parameter's function, each that it may be."""
    source, body = function.file, function.body or ""
    found = {method for name in {*METHOD.findall(body)} for method in methods(source, name)}
    found |= {entry for path, name in {*BEHIND.findall(body)} for entry in behind(function, TYPES.sub("", path).strip(":").split("::"), name)}
    handed = {match for match in HANDED.findall(body) if not re.search(rf"\b(?:let (?:mut )?{match}\b|{match}:)", function.signature + body)}
    found |= {syntax.plain_function(source, match) for match in {*PLAIN.findall(body)} | handed}
    return found - {None, function}


@functools.cache
def methods(source, name):
    of = {entry for entry in owned(name) if "self" in entry.signature.partition("(")[2].partition(",")[0] and entry.file.crate in reach(source.crate)}
    return {entry for entry in of if is_named(source, entry)} or of


def is_named(source, function):
    """Whether a file names the type, or the trait, whose function it is."""
    named = syntax.named_type(source, function.owner_type)
    return bool(named) and named[0].crate == function.file.crate


def behind(function, path, name):
    """The functions that a name after a path may be."""
    source, last = function.file, path[-1]
    if last == "Self":
        return {entry for entry in owned(name) if entry.file.crate == source.crate and entry.owner_type == function.owner_type}
    whole = path[0] if path[0] in syntax.CRATES else source.crate
    named = syntax.named_type(source, last) if len(path) == 1 else syntax.type_file(whole, last)
    if named:
        return {entry for entry in owned(name) if entry.owner_type == named[1] and entry.file.crate == named[0].crate}
    if last in OF_STD:
        return set()
    if last[0].isupper():
        parameters = re.findall(r"(?:\bimpl|\bfn \w+|\btrait \w+)\s*<([^()]*)", f"{function.owner[2]}({function.signature}")
        is_one = any(re.search(rf"\b{last}\b", parameter) for parameter in parameters) or function.owner[2].startswith(("trait", "pub trait"))
        return {entry for entry in owned(name) if is_one and entry.file.crate in reach(source.crate)}
    at, there = source.imports.get(last, ("::".join(path[:-1]) or "crate", last))
    crate = source.crate if at.split("::")[0] == "crate" else at.split("::")[0]
    module = syntax.module_file(last, "crate") if last in syntax.CRATES else syntax.module_file(crate, f"{at}::{there}") if crate in syntax.CRATES else None
    return {syntax.plain_function(module, name)} if module else set()


def function(call):
    """The function that a call names, as `CRATE::function` or `CRATE::Type::function`."""
    crate, *owner, name = call.split("::")
    for source in syntax.files(crate) if crate in syntax.CRATES else ():
        for one_function in source.functions:
            if one_function.name == name and one_function.owner_type == "".join(owner) and one_function.body is not None:
                return one_function
    raise LookupError(f"there is no function {call}")


def come_to(first, leave=lambda caller, entry: False):
    """Each function that the first ones come to, they too; calls that `leave` names are not followed."""
    found, waiting = set(), [*first]
    while waiting:
        function = waiting.pop()
        if function not in found:
            found.add(function)
            waiting += (other for other in called(function) if not leave(function, other))
    return found


def name_of(function):
    """The name of a function, after that of its type."""
    return f"{function.owner_type}::{function.name}".removeprefix("::")
