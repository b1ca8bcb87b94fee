#!/usr/bin/env python3
"""Lists what one has to read to know what the contract of a public call means.

  believe.py CRATE::CALL     prints each page of definitions that the call's clauses depend on,
                             and the types that they speak of
  believe.py CRATE           prints the pages of each public call of a crate
  believe.py --write         writes docs/TRUST.md: how much that is

CALL is a function, `Type::function`, or a function of include/certpath.h, as certpath_c::certpath_find. From the words of
the clauses it goes on to the words of each definition, and only of those definitions that are reached. It stops at the
standard library and at the crates of the kit. It reads Rattle by regular expressions: functions that a macro or a derived
trait makes are not seen, nor what a name of a type parameter's trait gives.
"""
import functools
import os
import re
import sys
import textwrap

sys.path.insert(0, os.path.dirname(os.path.dirname(os.path.abspath(__file__))))
from gate import calls, exports, syntax
from program import repo

PAGE, WIDTH = "docs/TRUST.md", 100
# The calls of the table at the head of docs/TRUST.md: what is judged, and the readers.
JUDGED = ["certcheck::check", "certcheck::check_all", "certpath_find::find", "certpath_find::find_all", "certpath_run::run", "certpath_run::PathReport::report",
          "certpath_run::WhyReport::report", "certpath_run::PathsReport::report", "certpath_run::EvidenceReport::report", "certpath_recheck::run_recheck",
          "certpath_run::run_questions", "cert_questions::questions", "certpath_why::push_why",
          *(f"cert_reasons::{it}" for it in ("why_unusable", "why_no_issuer", "why_unlinked", "why_unlinked_to_anchor", "why_list_unused"))]
HEADS = ["certpath_engine::read_words", "certpath_run::frame", "certpath_run::frame_why", "certpath_bundle::bundle", "cert_framing::Bundle::feed",
         "cert_framing::Bundle::finish", "certcheck::read_tree", "certpath_typed::read_typed", *JUDGED, "cert_vouchers::read_vouchers",
         "certpath_evidence::read_evidence", "x509_certs::X509Certificate::from_der",
         "x509_lists::CertificateRevocationList::from_der", "x509_requests::X509CertificationRequest::from_der",
         "x509_names::X509Name::from_der", "x509_time::ASN1Time::from_der"]
C_CRATE = "certpath_c"
# Crates that run code, and hand nothing to others.
NO_LIBRARY = re.compile(r"^(?:rows|tests|bench|example|laws)_")
# A page follows the code if the comment at its head says so, or its name does; and the pages of which that is known.
FOLLOWS = re.compile(r"retrace|step by step|as the code|from where it lies in the octets")
FOLLOWS_BY_NAME = re.compile(r"(?:Reading|Readers)\.antt$")
FOLLOWING = {f"crates/{entry}.antt" for entry in (
    "asn1_any/specs/Reading", "asn1_core/specs/Reading", "asn1_oid/specs/Reading", "cert_judge/specs/Limits",
    "cert_judge/specs/Named", "x509_core/specs/Reading", "x509_names/specs/Reading",
    # The first fault of an item that is other, which `why` prints, is that of a walk over its parts, and what a part may be the reads say.
    "cert_model/specs/Assembly", "cert_model/specs/Reads", "cert_model/specs/Times", "der_tree/specs/TimeReading")}
HEAD = re.compile(r"^(?:(?:pattern|unfoldable|abbrev|axiom|pub) )*(record|data)? ?(?:pub )?([^\s:(){}]+)(?= )")
OPENING = re.compile(r"^(?:abbrev|unfoldable|record|data|pub (?:record|data|abbrev|unfoldable)|pattern|axiom)\b|^(?:pub )?\S+(?: \{[^}]*\})? :(?= )")
OTHER = re.compile(r"(?:pub )?(?:use|mod|infix\w*) ")
# A name, with what is taken of it by dots.
CHAIN = re.compile(r"""[^\s(){}.;,@"«»]+(?:\.[^\s(){}.;,@"«»]+)*""")
# A case of a `data`.
CASE = re.compile(r"\s+(?:pub )?([^\s:(){}]+) :")
USE = re.compile(r"(?m)^(pub )?use ([\w.]+)(?:\.\{([^}]*)\}| as (\w+))?$")


class Definition:
    """A definition of a page: its lines, with the comment above them, and the words that it uses."""

    def __init__(self, page, name, kind, first, lines):
        self.page, self.name, self.kind, self.first, self.lines = page, name, kind, first, lines

    @property
    def where(self):
        return self.page.path

    @property
    def count(self):
        return len(self.lines)

    @functools.cached_property
    def needs(self):
        """What is reached at once. A name that the definition binds counts as the definition of that name, if there is one."""
        text = re.sub(r"(?m)^unfolding .*|(?:^|\s)--.*", "", "\n".join(self.lines))
        return reached(text, self.page.target, [*self.page.names, *self.page.definitions]) - {self}


class Page:
    """A file of definitions."""

    def __init__(self, path):
        self.path = path
        self.text = repo.read(path)
        self.names, self.modules = {}, {}
        for match in USE.finditer(self.text):
            syntax.add_use(self.names, self.modules, match[2], match[3], match[4])
        self.definitions, self.cases = {}, {}
        self.cut()

    def cut(self):
        """Finds the definitions: each begins at a line that opens one, or at the comment right above it."""
        above, now = [], None
        for number, line in enumerate(self.text.split("\n"), 1):
            if line.startswith("--"):
                above.append(line)
                continue
            if OPENING.match(line):
                kind, name = HEAD.match(line).groups()
                now = self.definitions.setdefault(name, Definition(self, name, kind, number - len(above), [*above, line]))
            elif now and line.strip() and not OTHER.match(line):
                now.lines += [*above, line]
            above = []
        for definition in self.definitions.values():
            if definition.kind == "data":
                self.cases |= {case[1]: definition for case in map(CASE.match, definition.lines) if case}

    def target(self, name):
        """What a word of this page stands for: a definition, a type, a name of the kit, or none."""
        head, _, rest = name.partition(".")
        if head in self.modules and rest:
            return lookup(self.modules[head], rest.split(".")[0])
        return self.definitions.get(head) or self.cases.get(head) or (lookup(*self.names[head]) if head in self.names else None)


def reached(text, target, known):
    """What the words of a text stand for; operators are known by their parts."""
    words = {*CHAIN.findall(re.sub(r'"(?:[^"\\]|\\.)*"', '""', text))}
    operators = {entry for entry in known if "◌" in entry and all(part in words for part in entry.split("◌") if part)}
    return {target(word) for word in words | operators} - {None}


class SourceType:
    """A type of the sources, a trait with what its functions promise, or a constant."""

    def __init__(self, file, name):
        self.file, self.name = file, name
        self.spans = [file.types[name]]
        for first, last, head in file.blocks:
            if re.match(rf"impl\b.*\bModel for {re.escape(name)}\b", head):
                self.spans.append((first, last))
        self.count = sum(file.code.count("\n", *span) + 1 for span in self.spans)

    @property
    def where(self):
        return self.file.path

    @property
    def first(self):
        return self.spans[0][0]

    @functools.cached_property
    def needs(self):
        found = set()
        for start, end in self.spans:
            text = syntax.GHOST_USE.sub("", self.file.code[start:end + 1])
            found |= words_of(self.file, text, start + 1)
        return found - {self}


def words_of(source, text, at):
    """What the words of a clause, or of a type of the sources, stand for at a place of a file."""
    names, modules = source.ghosts(at)

    def target(word):
        head, _, rest = word.partition(".")
        if head in modules and rest:
            return lookup(modules[head], rest.split(".")[0])
        if head in names:
            return lookup(*names[head])
        return None

    found = reached(text, target, names)
    for word in {*re.findall(r"\b[A-Z]\w*", text)}:
        named = syntax.named_type(source, word)
        if named:
            found.add(source_type(*named))
    return found


@functools.cache
def source_type(source, name):
    return SourceType(source, name)


@functools.cache
def page(path):
    return Page(path)


@functools.cache
def kit(module):
    return Kit(module)


class Kit:
    """A module of the kit, at which the way ends."""
    needs = frozenset()

    def __init__(self, module):
        self.module = module


@functools.cache
def lookup(module, name):
    """What a name of a module stands for; none if the module is of the standard library."""
    _, crate, part, *inner = module.split(".")
    if crate == "std":
        return None
    if crate not in syntax.CRATES:
        return kit(f"{crate} {'.'.join(entry for entry in inner if entry != 'declared')}")
    if inner[:1] == ["declared"]:
        inner = [entry for entry in inner[1:] if entry not in ("TheVariants", "TheConstants")]
        kind = name if module.endswith("TheConstants") or name == inner[-1] else inner[-1]
        found = syntax.type_file(crate, kind)
        return source_type(*found) if found else None
    path = f"crates/{crate}/{part}/{'/'.join(inner)}.antt"
    if not os.path.exists(os.path.join(repo.TOP, path)):
        return None
    return page(path).target(name)


# What an impl gives for a trait's words.
GIVEN = re.compile(r"\bghost \w+ = \{.*?\};", re.DOTALL)


class Trust:
    """What the contract of a function depends on, each with the clauses that lead to it."""

    def __init__(self, call, called):
        self.call, self.found = call, {}
        self.clauses = [name or "its one clause" for _, name, _ in called.clauses]
        for (_, _, text), name in zip(called.clauses, self.clauses):
            self.close(words_of(called.file, text, called.at), name)
        # (what `self`, the arguments and the result are is no clause's own)
        first, last, head = called.owner
        words = [head.split(" for ")[-1] if called.owner_type else "", called.signature]
        if " for " in head and not called.clauses:
            # (the contract is the trait's, in words that the impl gives)
            words += [head, *GIVEN.findall(called.file.code[first:last])]
        self.close(words_of(called.file, " ".join(words), called.at), "")

    def close(self, first, clause):
        """Puts a clause beside all that is reached from the first things."""
        waiting = [*first]
        while waiting:
            definition = waiting.pop()
            if clause not in self.found.setdefault(definition, set()):
                self.found[definition].add(clause)
                waiting += definition.needs

    @functools.cached_property
    def pages(self):
        """The definitions and types that are reached, by their files."""
        found = {}
        for element in sorted((entry for entry in self.found if not isinstance(entry, Kit)), key=lambda entry: (entry.where, entry.first)):
            found.setdefault(element.where, []).append(element)
        return found

    @functools.cached_property
    def kit(self):
        return sorted({entry.module for entry in self.found if isinstance(entry, Kit)})

    def lines(self, path):
        """How many lines are reached of a file."""
        return sum(entry.count for entry in self.pages.get(path, ()))

    def exact(self, path):
        """How many of them the clause `exact` of a reader alone reaches."""
        return sum(entry.count for entry in self.pages.get(path, ()) if self.call.endswith("::from_der") and self.found[entry] == {"exact"})


def is_page(path):
    return path.endswith(".antt")


def short(path):
    """A file's name without what all have."""
    return path.removeprefix("crates/").removesuffix(".antt")


def trust_of(call):
    """What the contract of the function that a call names depends on."""
    return Trust(call, calls.function(call))


def printed(call):
    """The lines that are printed of a call."""
    trust = trust_of(call)
    pages = [page for page in trust.pages if is_page(page)]
    for path, of in trust.pages.items():
        yield f"{path}: {trust.lines(path)} of {length(path)} lines: {', '.join(entry.name for entry in of)}"
    yield f"of the kit: {', '.join(trust.kit) or 'the standard library alone'}"
    yield f"{call}: {len(pages)} pages, {sum(map(trust.lines, pages))} lines; types of {len(trust.pages) - len(pages)} sources"


HEADER = """# What a promise rests on: the pages to believe

For anyone who reviews a contract: how much has to be read to believe it. A contract is proved, so
its code and proofs needn't be read; its clauses have to be, and the definitions in `specs/` that
their words name, on to the standard library and the crates of the kit. Which these are:

    $ python3 tools/dev/believe.py certcheck::check | tail -n 1
    {LAST_LINE}

That prints each page of one call or law, with the definitions on it; `CRATE::Type::function` names
a function of a type. With the name of a crate it prints the pages of each public call. Types of the
sources count beside them: their fields, their `Model`, and of a trait what its functions promise.

"""


def summary(trusts):
    """A row for each call, below the titles of the columns."""
    rows = [("call", "pages", "lines")]
    for trust in trusts:
        pages = [page for page in trust.pages if is_page(page)]
        lines, exact = (sum(map(entry, pages)) for entry in (trust.lines, trust.exact))
        rows.append((trust.call, str(len(pages)), f"{lines}{f', {exact} by exact alone' if exact else ''}"))
    widths = [max(map(len, column)) for column in zip(*rows)]
    yield from ("    " + "  ".join(cell.ljust(width) for cell, width in zip(row, widths)).rstrip() for row in rows)


@functools.cache
def trust_in(function):
    """What the contract of a function of the sources depends on."""
    return Trust(f"{function.file.crate}::{calls.name_of(function)}", function)


def own_pages(crate):
    """The pages of a crate's specs/ that its public calls and laws depend on, but for those that follow the code."""
    found = {path for entry in exports.exported(crate) for path in trust_in(entry).pages if is_page(path) and path.startswith(f"crates/{crate}/")}
    return sorted(page_name(entry) for entry in found if not follows(entry))


def page_name(path):
    """The name of a page within its crate."""
    return path.partition("/specs/")[2].removesuffix(".antt")


def of_others(crate):
    """The pages of other crates, crate by crate."""
    found = {}
    for element in exports.public(crate):
        for path in filter(is_page, trust_in(element).pages):
            found.setdefault(path.split("/")[1], set()).add(page_name(path))
    found.pop(crate, None)
    return "; ".join(f"`{entry}`: {named(sorted(found[entry]))}" for entry in found)


def named(pages):
    return ", ".join(f"`{page}`" for page in pages)


def grouped(functions):
    """Functions as they are named together: those of one type after its name, each name once."""
    found = {}
    for function in functions:
        found.setdefault(function.owner_type, {})[function.name] = True
    for owner, names in found.items():
        if owner and len(names) > 1:
            yield f"`{owner}::{{{', '.join(names)}}}`"
        elif owner:
            yield f"`{owner}::{next(iter(names))}`"
        else:
            yield from (f"`{name}`" for name in names)


def number(count, what):
    return f"{count} {what}" if count == 1 else f"{count} {what}s"


@functools.cache
def has_pages(crate):
    """Whether a public call of a crate depends on a page."""
    return not NO_LIBRARY.search(crate) and any(is_page(path) for entry in exports.public(crate) for path in trust_in(entry).pages)


def crate_lines(crate):
    """The lines of a crate: the pages of other crates that its calls depend on, then its calls by the pages of its own, with the
    most pages and lines that one call of the line depends on."""
    by_pages = {}
    for entry in exports.public(crate):
        pages = [*filter(is_page, trust_in(entry).pages)]
        if pages:
            own = tuple(sorted(page_name(path) for path in pages if path.startswith(f"crates/{crate}/")))
            by_pages.setdefault(own, []).append(entry)
    if by_pages:
        yield f"{crate}:"
    if of_others(crate):
        yield f"- *Of others*: {of_others(crate)}."
    for own, those in sorted(by_pages.items(), key=lambda page: (len(page[0]), page[0])):
        trusts = [trust_in(one) for one in those]
        pages = max(sum(map(is_page, trust.pages)) for trust in trusts)
        lines = max(sum(trust.lines(path) for path in trust.pages if is_page(path)) for trust in trusts)
        yield f"- {', '.join(grouped(those))}: {named(own) or 'none of its own'} ({number(pages, 'page')}, {number(lines, 'line')})."


def length(path):
    return repo.read(path).count("\n")


def follows(path):
    return bool(FOLLOWS_BY_NAME.search(path) or FOLLOWS.search(repo.read(path).split("\nuse ")[0]))


def following(trusts):
    """The pages that follow the code among those of calls."""
    return sorted({path for trust in trusts for path in trust.pages if is_page(path) and follows(path)})


def printed_of_crate(crate):
    """The lines that are printed of a crate; a page shows them indented."""
    return [line for one_line in crate_lines(crate) for line in wrapped(one_line, WIDTH - 4).splitlines()]


def wrapped(line, width=WIDTH):
    """A line of a page, cut before a column; what is below an item of a list is indented."""
    indent = "  " if line.startswith("- ") else ""
    return textwrap.fill(line, width, subsequent_indent=indent, break_long_words=False, break_on_hyphens=False)


def libraries():
    return [crate for crate in syntax.CRATES if not NO_LIBRARY.search(crate)]


def judged():
    """The calls that judge, and all of the C library."""
    return [*map(trust_of, JUDGED), *map(trust_in, exports.public(C_CRATE))]


def written():
    """The text of docs/TRUST.md."""
    every = [trust_in(entry) for crate in libraries() for entry in exports.public(crate)]
    listed = [entry for entry in every if any(map(is_page, entry.pages))]
    kit = sorted({module.split()[0] for entry in every for module in entry.kit})
    heads = [*map(trust_of, HEADS), *map(trust_in, exports.public(C_CRATE))]
    head = HEADER.replace("{LAST_LINE}", [*printed("certcheck::check")][-1])
    lines = [head + "## How much", "", *summary(heads), "",
             wrapped(f"Of {len(every)} public calls {len(listed)} depend on a page. Of the crates of the kit definitions of these are reached: {', '.join(f'`{entry}`' for entry in kit)}."), "",
             "A reader's clause `exact` says which error is returned, in definitions that follow its steps. To",
             "know what a reader accepts, and as which value, these needn't be read.", "",
             wrapped("Of the pages of the calls that judge, and of C's, these follow the code step by step: " + (", ".join(f"`{short(entry)}`" for entry in following(judged())) or "none") + "."), "",
             "The byte places of `cert_judge/specs/Limits` needn't be believed. By the laws of",
             "`laws_judge::path_lengths` each fit issuer has one path length constraint by the grammar, or none",
             "(`HasPathLen` of `cert_judge/specs/Judging`; RFC 5280, 4.2.1.9), and its limit is what that lets",
             "through. Whichever limits are so at fit issuers, the graph with them has the same paths, answers",
             "and inventories. So `laws_judge/specs/PathLengths` can be read in place of `Limits`."]
    return "\n".join(lines) + "\n"


def faults():
    """What is amiss with docs/TRUST.md, and with what it counts."""
    if not os.path.exists(os.path.join(repo.TOP, PAGE)) or repo.read(PAGE) != written():
        yield f"{PAGE}: it isn't what tools/dev/believe.py writes: run python3 tools/dev/believe.py --write"
    for path in {*following(judged())} - FOLLOWING:
        yield f"{path}: it follows the code, and the contract of a call that judges depends on it"


def main(words):
    if words == ["--write"]:
        with open(os.path.join(repo.TOP, PAGE), "w", encoding="utf-8") as file:
            file.write(written())
        return 0
    if not words or any(word.startswith("-") for word in words):
        print(__doc__.strip(), file=sys.stderr)
        return 2
    for call in words:
        try:
            print(*(printed_of_crate(call) if call in syntax.CRATES else printed(call)), sep="\n")
        except LookupError as error:
            print(f"believe: {error.args[0]}", file=sys.stderr)
            return 1
    return 0


if __name__ == "__main__":
    sys.exit(main(sys.argv[1:]))
