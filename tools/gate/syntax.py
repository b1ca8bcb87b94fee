"""Reads sources: the functions of an .rt file with their clauses, its types, and what its names stand for."""
import functools
import os
import re

from program import repo

# Comments, texts and characters of Rattle; a lifetime has no quote at its end.
OPAQUE = re.compile(r"""//[^\n]*|/\*.*?\*/|"(?:[^"\\]|\\.)*"|(?<![\w'])b?'(?:\\[^']+|[^'\\\n])'""", re.DOTALL)
# (the name of an ABI, as in `extern "C"`, is blanked)
FUNCTION = re.compile(r"(?m)^[ \t]*(?:pub(?:\([\w ]+\))? )?(?:const |unsafe |extern +)*fn (\w+)")
BLOCK = re.compile(r"(?m)^[ \t]*(?:pub(?:\([\w ]+\))? )?(?:impl\b|trait\b|mod\b)[^{};]*\{")
TYPE = re.compile(r"(?m)^(?:pub(?:\([\w ]+\))? )?(struct|enum|trait|type|const) (\w+)")
GHOST_USE = re.compile(r"ghost use ([\w.]+)(?:\.\{([^}]*)\}| as (\w+))?;")
# The crates in a path of `use` that hand a crate on, by `pub use Rattle.low as low` in their specs/Lib.antt.
HANDING_ON = re.compile(r"^Rattle\.(?:\w+\.specs\.)+(?=\w+\.(?:specs|proofs)\b)")
RUST_USE = re.compile(r"(?m)^[ \t]*(?:pub(?:\([\w ]+\))? )?use ([^;]+);")
BRACKETS = {"(": re.compile(r"[()]"), "{": re.compile(r"[{}]"), "[": re.compile(r"[\[\]]")}
NOTHING = re.compile(r"\{\s*\}")
CLAUSE = re.compile(r"\b(requires|ensures)\s+(\w*)\s*(?=\{)|[{;\[]")


def blanked(text):
    """The text with blanks in the place of comments, quoted texts and characters; each line keeps its length."""
    return OPAQUE.sub(lambda character: re.sub(r"[^\n]", " ", character[0]), text)


def closing(code, at):
    """Where the bracket that opens at a place is closed."""
    opening, depth = code[at], 0
    for match in BRACKETS[opening].finditer(code, at):
        depth += 1 if match[0] == opening else -1
        if not depth:
            return match.start()
    raise ValueError(f"a bracket is not closed: {code[at:at + 60]}")


def line_of(text, at):
    """The number of the line of a place, counted from 1."""
    return text.count("\n", 0, at) + 1


class Function:
    """A function: its name, the header of the impl or trait that it is in, its signature, clauses and body."""

    def __init__(self, file, name, at, owner, signature, clauses, body, body_at):
        self.file, self.name, self.at, self.owner = file, name, at, owner
        # Each clause is `requires` or `ensures`, its name (empty if it has none) and its text; what a trait leaves open has no body.
        self.signature, self.clauses, self.body, self.body_at = signature, clauses, body, body_at

    @property
    def line(self):
        return line_of(self.file.text, self.at)

    @property
    def is_public(self):
        return bool(re.match(r"\s*pub (?:const |unsafe |extern +)*fn\b", self.signature))

    @functools.cached_property
    def is_law(self):
        """Whether it does nothing: what it says are its clauses."""
        return bool(self.is_public and self.clauses and NOTHING.fullmatch(self.body or ""))

    @functools.cached_property
    def owner_type(self):
        """The type whose function it is, or the trait; empty if it is of neither."""
        head = re.sub(r"<[^<>]*>", "", re.sub(r"<[^<>]*>", "", re.sub(r"<[^<>]*>", "", self.owner[2])))
        found = re.match(r"(?:pub(?:\([\w ]+\))? )?(?:impl\b.*?\bfor|impl|trait)\b\s*(\w+)", head)
        return found[1] if found else ""


class File:
    """An .rt file."""

    def __init__(self, path):
        self.path, self.crate = path, path.split("/")[1]
        self.text = repo.read(path)
        self.code = blanked(self.text)
        self.blocks = [(match.start(), closing(self.code, match.end() - 1), match[0].strip(" \n\t{")) for match in BLOCK.finditer(self.code)]

    def owner_at(self, at):
        """The span and the header of the innermost impl, trait or module around a place."""
        around = [block for block in self.blocks if block[0] < at < block[1]]
        return max(around) if around else (0, len(self.code), "")

    @functools.cached_property
    def functions(self):
        return [self.function(match) for match in FUNCTION.finditer(self.code)]

    @functools.cached_property
    def plain(self):
        """The functions outside all types, by their names."""
        return {function.name: function for function in self.functions if not function.owner_type}

    def function(self, found):
        """The function whose head was found: its clauses are between its parameters and its body."""
        at = closing(self.code, self.code.index("(", self.generics_end(found.end())))
        clauses, end, signature = [], at + 1, None
        while True:
            clause = CLAUSE.search(self.code, end)
            # (an array type has a semicolon)
            while clause[0] == "[":
                clause = CLAUSE.search(self.code, closing(self.code, clause.start()) + 1)
            signature = signature or self.code[found.start():clause.start()]
            if not clause[1]:
                break
            end = closing(self.code, clause.end()) + 1
            clauses.append((clause[1], clause[2], self.code[clause.end() + 1:end - 1]))
        body = self.code[clause.start():closing(self.code, clause.start()) + 1] if clause[0] == "{" else None
        return Function(self, found[1], found.start(), self.owner_at(found.start() + len(found[0])), signature, clauses, body, clause.start())

    def generics_end(self, at):
        """After the type parameters that begin at a place, or the place itself."""
        if self.code[at] != "<":
            return at
        depth = 0
        for place in range(at, len(self.code)):
            depth += (self.code[place] == "<") - (self.code[place] == ">" and self.code[place - 1] not in "-=")
            if not depth:
                return place + 1
        raise ValueError(f"{self.path}: type parameters are not closed")

    @functools.cached_property
    def types(self):
        """Each struct, enum, trait, type and constant by its name, with where it begins and ends."""
        found = {}
        for match in TYPE.finditer(self.code):
            end = re.compile(r"[{;]").search(self.code, match.end())
            found.setdefault(match[2], (match.start(), closing(self.code, end.start()) if end[0] == "{" else end.start()))
        return found

    @functools.cached_property
    def imports(self):
        """Of each name of Rust that `use` brings in: the path that it comes from, and its name there."""
        found = {}
        for match in RUST_USE.finditer(self.code):
            if not match[0].lstrip().startswith("ghost"):
                found |= {local: (path, name) for path, name, local in use_leaves(match[1])}
        return found

    def ghosts(self, at):
        """The names that `ghost use` brings in at a place: of the file, and of the blocks around the place."""
        names, modules = {}, {}
        for match in GHOST_USE.finditer(self.code):
            start, end, _ = self.owner_at(match.start())
            if start <= at <= end:
                add_use(names, modules, match[1], match[2], match[3])
        return names, modules


def use_leaves(text):
    """Each name of a tree of `use`: the path before it, the name there, and the name here."""
    text = re.sub(r"\s+", " ", text.strip())
    head, brace, rest = text.partition("{")
    if brace:
        inner, depth, part, parts = rest[:rest.rindex("}")], 0, "", []
        for sign in inner + ",":
            depth += (sign == "{") - (sign == "}")
            if sign == "," and not depth:
                parts, part = [*parts, part.strip()], ""
            else:
                part += sign
        return [leaf for part in parts if part for leaf in use_leaves(head.strip() + part)]
    path, _, last = text.rpartition("::")
    name, _, local = last.partition(" as ")
    return [(path, name, local or name)]


def add_use(names, modules, path, listed, alias):
    """Puts the names of a line `use PATH.{..}` of specs among the names, or the alias of `use PATH as ..` among the modules."""
    path = HANDING_ON.sub("Rattle.", path)
    if listed is None:
        if alias:
            modules[alias] = path
        return
    for word in re.split(r"[,\s]\s*(?=\S)", re.sub(r"\s+as\s+", "=", listed.strip())):
        if word.strip(", "):
            name, _, local = word.strip(", ").partition("=")
            names[local or name] = (path, name)


@functools.cache
def file(path):
    return File(path)


@functools.cache
def files(crate):
    """The .rt files of a crate, tests left out."""
    found = []
    for at, _, names in sorted(os.walk(os.path.join(repo.TOP, "crates", crate, "src"))):
        paths = [os.path.relpath(os.path.join(at, name), repo.TOP) for name in sorted(names) if name.endswith(".rt")]
        found += [file(path) for path in paths if not re.search(r"/tests?\b", path)]
    return found


@functools.cache
def module_file(crate, path):
    """The file of a module that a path of a crate names, as `crate::a::b`, or none."""
    inner = "/".join(path.split("::")[1:])
    for end in (f"{inner}.rt", f"{inner}/mod.rt") if inner else ("lib.rt", "main.rt"):
        if os.path.exists(os.path.join(repo.TOP, "crates", crate, "src", end)):
            return file(f"crates/{crate}/src/{end}")
    return None


@functools.cache
def plain_function(source, name):
    """The function outside all types that a plain name of a file stands for: the file's own, or the one that `use` brings in; or none."""
    if name in source.plain:
        return source.plain[name]
    path, there = source.imports.get(name, ("", ""))
    head = path.split("::")[0]
    module = module_file(source.crate, path) if head == "crate" else module_file(head, f"crate{path[len(head):]}") if head in CRATES else None
    return plain_function(module, there) if module and module is not source else None


@functools.cache
def type_file(crate, name):
    """The file of a crate that defines a type, or that of the crate from which it is handed on; none if it is not of the repository."""
    if crate not in CRATES:
        return None
    for one_file in files(crate):
        if name in one_file.types:
            return one_file, name
    for entry in files(crate):
        path, other = entry.imports.get(name, ("", ""))
        if path and path.split("::")[0] in CRATES:
            return type_file(path.split("::")[0], other)
    return None


@functools.cache
def named_type(source, name):
    """The file and the name of a type that a file's sources name, or none."""
    if name in source.types:
        return source, name
    path, there = source.imports.get(name, ("", name))
    head = path.split("::")[0]
    if head in ("crate", "super", "self"):
        return type_file(source.crate, there)
    return type_file(head, there) if head in CRATES else None


CRATES = repo.crates()
