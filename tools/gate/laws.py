"""Looks that no law is vacuous: each clause of a law that has premises has an example, which shows that values meet them.

A law is a public function with an empty body; its clauses are what it says. A premise is what comes before an arrow of a
clause. An example is a law that says something of values, or of all values, without a premise: the prover works it out. It
fits a clause if its parts, between `×`, are all premises of the clause with values in the place of the clause's variables
and of the law's arguments, each the same value everywhere. A name counts as what the file's `use` lines say that it is.

A clause that is the name of a definition says what the definition does; of a record each field is a part. What is denied
(`.. → ⊥`) is one part. A premise that an example meets in the words of another definition isn't seen.

LEFT is how many clauses may have no example: none. `python3 tools/gate/quick.py laws` prints them.
"""
import functools
import os
import re

from dev import believe
from gate import calls, syntax
from program import repo

LEFT = 0
OPEN, CLOSE = "({⟦", ")}⟧"
ARROW, TIMES, COLON, FALSE = "→", "×", ":", "⊥"
TOKEN = re.compile(r"""[(){}⟦⟧]|[^\s(){}⟦⟧;,"]+|[;,]""")
# What a definition of a page begins with, before what it says.
COMMENT = re.compile(r"(?m)(?:^|\s)--.*")


def laws():
    """The public functions that do nothing."""
    return [function for function in calls.functions() if function.is_law]


# ---- texts as trees: a list of words and of lists, one for each pair of brackets

def tree(text, name_of):
    """The tree of a text, whose words are named as the text's file names them. Brackets around one word are away."""
    stack = [[]]
    for word in TOKEN.findall(text):
        if word in OPEN:
            stack.append([word])
        elif word in CLOSE and len(stack) > 1:
            inner = without_lets(stack.pop())
            alone = inner[0] == "(" and len(inner) == 2
            stack[-1].append(inner[1] if alone else tuple(inner))
        else:
            stack[-1].append(name_of(word))
    return tuple(without_lets(stack[0]))


def without_lets(words_of_group):
    """The words with what a `let` names in the place of each name; a `let` reaches to the end of its brackets."""
    found = [*words_of_group]
    while "let" in found:
        at = len(found) - 1 - found[::-1].index("let")
        equals, ends = (found.index(sign, at) for sign in ("=", "in"))
        value = found[equals + 1:ends]
        found[at:] = put(found[ends + 1:], found[at + 1], value[0] if len(value) == 1 else ("(", *value))
    return found


def put(part, name, value):
    """The words of a part with a value in the place of a name."""
    found = []
    for word in part:
        if isinstance(word, tuple):
            found.append(tuple(put(word, name, value)))
        elif word == name:
            found.append(value)
        elif word.startswith(f"{name}."):
            field = word[len(name):]
            found += [value + field] if isinstance(value, str) else [value, field]
        else:
            found.append(word)
    return found


def inside(part):
    """What is in a pair of round brackets that is alone; else the part itself."""
    while len(part) == 1 and isinstance(part[0], tuple) and part[0][0] == "(":
        part = part[0][1:]
    return part


def split(part, sign):
    """The pieces of a part between a sign that is in no brackets."""
    found = [[]]
    for word in part:
        if word == sign:
            found.append([])
        else:
            found[-1].append(word)
    return [tuple(entry) for entry in found]


def binders(part):
    """The names that a part binds, as `(x y : T) {z : U}` does; none if it binds nothing."""
    names = []
    for group in part:
        if not isinstance(group, tuple) or COLON not in group:
            return None
        names += group[1:group.index(COLON)]
    return names or None


# ---- what names stand for

def module_of(path):
    """The module of a page or of a source, as `use` names it."""
    crate, part, *inner = re.sub(r"\.\w+$", "", path).split("/")[1:]
    return ".".join(["Rattle", crate, part, *inner])


@functools.cache
def origin(module, name):
    """The module and the name of a definition that a page hands on by a `use` line; else these."""
    path = f"crates/{'/'.join(module.split('.')[1:])}.antt"
    if not os.path.exists(os.path.join(repo.TOP, path)):
        return module, name
    page = believe.page(path)
    return origin(*page.names[name]) if name in page.names and name not in page.definitions else (module, name)


def named(names, modules, module, own):
    """A function that gives the whole name of a word: of a repository's definition with its module."""
    def name_of(word):
        head, dot, rest = word.partition(".")
        if head in modules and rest:
            return f"{modules[head]}.{rest}"
        where, there = origin(*names.get(head, (module, head) if head in own else ("", head)))
        return f"{where}.{there}{dot}{rest}" if where.split(".")[1:2] and where.split(".")[1] in syntax.CRATES else word
    return name_of


@functools.cache
def page_names(path):
    page = believe.page(path)
    return named(page.names, page.modules, module_of(path), page.definitions)


class Said:
    """What a clause says: variables, premises, and parts of what follows."""

    def __init__(self, variables, text_tree):
        self.variables, self.premises = {*variables}, []
        *before, last = split(inside(text_tree), ARROW)
        for part in before:
            bound = binders(part)
            if bound is None:
                self.premises += split(inside(part), TIMES) if ARROW not in inside(part) else [part]
            else:
                self.variables |= {*bound}
        self.parts = [inside(part) for part in split(inside(last), TIMES)]
        if last == (FALSE,) and self.premises:
            # (the last premise is denied: that is what follows from the others)
            self.premises.pop()
            self.parts = [inside(text_tree)]
        self.premises = [inside(part) for part in self.premises]
        for part in self.premises:
            self.variables |= bound_in(part)


def bound_in(part):
    """The names that a premise binds, as one that speaks of all values does."""
    found = {*(binders(part[:1]) or ())} if len(part) > 1 and part[1] == ARROW else set()
    return found.union(*(bound_in(entry) for entry in part if isinstance(entry, tuple)))


def of_definition(definition):
    """What a definition says, with the names that it binds as variables; each field of a record is a part."""
    lines = COMMENT.sub("", "\n".join(definition.lines))
    name_of = page_names(definition.page.path)
    if definition.kind == "record":
        fields = re.split(r"(?m)^\s+pub [^\s:]+ :", lines.partition("where")[2])[1:]
        found = Said((), ())
        found.parts = [inside(tree(field, name_of)) for field in fields]
        return found
    said = re.search(rf"(?ms)^{re.escape(definition.name)}\b([^=]*?)=(.*?)(?=^\S|\Z)", lines)
    return Said(re.findall(r"[^\s{}]+", said[1]), tree(said[2], name_of)) if said else Said((), ())


def said(function, text):
    """What a clause says: if it begins with the name of a definition, what that says, with its own words as a part."""
    names, modules = function.file.ghosts(function.at)
    whole = tree(text, named(names, modules, "", ()))
    parameters = re.findall(r"(?:^|[<,])\s*(?:const )?(\w+)\s*(?=[:,>])", function.signature.partition("(")[0].partition("<")[2])
    # (what a law is called with may be any value, too)
    arguments = re.findall(r"(\w+)\s*:", function.signature.partition("(")[2])
    name = re.match(r"\s*(\S*)", text)[1]
    is_named = all(isinstance(word, str) and word.partition(".")[0] in parameters for word in whole[1:])
    for entry in believe.words_of(function.file, name, function.at) if is_named else ():
        if isinstance(entry, believe.Definition) and entry.name == name and entry.kind != "data":
            inner = of_definition(entry)
            inner.parts += [whole]
            inner.variables |= {*parameters, *arguments}
            return inner
    return Said([*parameters, *arguments], whole)


# ---- fitting

def bind(variable, value, bound):
    """The bindings with one more, or none if the variable has another value."""
    if variable in bound:
        return bound if bound[variable] == value else None
    return {**bound, variable: value}


def fits(pattern, value, variables, bound):
    """Each way in which a value is a pattern with values in the place of its variables."""
    if not pattern:
        if not value:
            yield bound
        return
    first, *rest = pattern
    if isinstance(first, tuple):
        if value and isinstance(value[0], tuple):
            for found in fits(first, value[0], variables, bound):
                yield from fits(rest, value[1:], variables, found)
        elif value and len(inside((first,))) == 1:
            yield from fits((*inside((first,)), *rest), value, variables, bound)
        return
    # (a variable may have the name of something that the file uses)
    head, dot, field = (first, "", "") if first in variables else first.partition(".")
    if head not in variables:
        if value and value[0] == first:
            yield from fits(rest, value[1:], variables, bound)
        return
    if dot:
        # (a field of a value in brackets is the word after them)
        if len(value) > 1 and isinstance(value[0], tuple) and value[1] == dot + field:
            found = bind(head, inside(tuple(value[:1])), bound)
            if found is not None:
                yield from fits(rest, value[2:], variables, found)
        elif value and isinstance(value[0], str) and value[0].endswith(dot + field):
            found = bind(head, (value[0][:-len(dot + field)],), bound)
            if found is not None:
                yield from fits(rest, value[1:], variables, found)
        return
    # (the last variable of a row takes all that is left, as `ds` of `d ∷ ds`)
    for count in (1,) if rest else {1, len(value)}:
        if len(value) >= count:
            taken = inside(tuple(value[:count])) if count > 1 or isinstance(value[0], tuple) else tuple(value[:count])
            found = bind(first, taken, bound)
            if found is not None:
                yield from fits(rest, value[count:], variables, found)


def met(premises, parts, variables, bound):
    """Whether parts meet all premises, with one value for each variable."""
    if not premises:
        return True
    return any(met(premises[1:], parts, variables, found)
               for part in parts for found in fits(premises[0], part, variables, bound))


@functools.cache
def clauses():
    """Each clause of a law, with what it says."""
    return [(law, name, said(law, text)) for law in laws() for _, name, text in law.clauses]


@functools.cache
def examples():
    """The parts of each law that has no premise."""
    found = {}
    for law, _, clause in clauses():
        if not clause.premises:
            found.setdefault(law, []).extend(clause.parts)
    return [*found.values()]


def words(part):
    """The words of a tree."""
    return {word for entry in part for word in (words(entry) if isinstance(entry, tuple) else (entry,))}


def has_example(clause):
    """Whether an example meets all premises of a clause."""
    wanted = {word for part in clause.premises for word in words(part) if word.startswith("Rattle.") and word not in clause.variables}
    return any(wanted <= {word for part in parts for word in words(part)} and met(clause.premises, parts, clause.variables, {})
               for parts in examples())


@functools.cache
def lacking():
    """The clauses with premises that no example meets, and how many have premises."""
    conditional = [(law, name, clause) for law, name, clause in clauses() if clause.premises]
    without = [(law, name) for law, name, clause in conditional if not has_example(clause)]
    return sorted(without, key=lambda entry: (entry[0].file.path, entry[0].at, entry[1])), len(conditional)


def lines():
    """A line for each clause with premises and no example, and one with their numbers."""
    without, count = lacking()
    for law, name in without:
        yield f"{law.file.path}:{law.line}: {law.name}{f', {name}' if name else ''}: no example meets its premises"
    yield f"of {count} clauses of laws with premises {count - len(without)} have an example"


def faults():
    """More clauses without an example than LEFT."""
    without, _ = lacking()
    if len(without) > LEFT:
        yield (f"tools/gate/laws.py: {len(without)} clauses of laws have premises that no example meets, and at most {LEFT} are kept: "
               "python3 tools/gate/quick.py laws prints them")
