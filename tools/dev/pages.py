#!/usr/bin/env python3
"""Makes of the sources the lists of docs/CRATES.md that say what a crate is and where an extension is, docs/INDEX.md, which leads
from the sections of standards to definitions, the lists of scripts in tools/README.md, and of each crate's README.md the lines
that say where its contracts are and what runs it.

    python3 tools/dev/pages.py               writes them into the pages; makes a README.md if a crate has none
    python3 tools/dev/pages.py index CRATE   prints the pages of definitions of a crate, with what each defines
    python3 tools/dev/pages.py above NAME..  prints the crates that depend on the named ones, which a change of these proves again

`tools/gate/quick.py` asks `written` whether they are as the sources say.
"""
import ast
import functools
import glob
import os
import re
import sys

sys.path.insert(0, os.path.dirname(os.path.dirname(os.path.abspath(__file__))))
from dev import believe, contracts
from program import repo

PAGE, INDEX, TOOLS = "docs/CRATES.md", "docs/INDEX.md", "tools/README.md"
# How many files a line names.
MOST_NAMED = 2
# Pages of definitions that have no rule: what values of types stand for, and examples.
NO_RULE = re.compile(r"(?:View|Views|Values|Examples|Told|Held)$")
SECTION = re.compile(r"(RFC \d+), ((?:appendix )?[A-Z]?[\d.]*\d)|(X\.\d+), (\d[\d.]*\d|\d+)")
# What runs code or holds worked values, and none that others build on.
TOPS = ("rows_", "tests_", "bench_", "laws_")
EXAMPLES = "example_"
# The crates that hand on others by name.
PORTS = ("asn1_rs", "der_parser", "x509_parser")
# What tries the crates that no rows and tests depend on.
HOSTS = "tools/trials/hosts.py"
TRIALS = {"certpath_c": "tools/trials/embedding.py", "certpath_cli": "tools/trials/commands.py",
          "host_names": HOSTS, "cert_purpose": HOSTS, "cert_serving": HOSTS}


@functools.cache
def text(path):
    return repo.read(path)


@functools.cache
def sources(crate, part):
    """The files of a crate's src/, specs/ or proofs/, by their paths from the top."""
    inside = os.path.join(repo.TOP, "crates", crate, part)
    found = glob.glob(os.path.join(inside, "**", "*"), recursive=True)
    return sorted(os.path.relpath(entry, repo.TOP) for entry in found if entry.endswith((".rt", ".antt")))


def code(name):
    return f"`{name}`"


def sections(octets):
    """The sections of standards that a text cites, each once, in the order in which they are there."""
    found = [f"{match[1] or match[3]}, {match[2] or match[4]}" for match in SECTION.finditer(octets)]
    return [*dict.fromkeys(found)]


# ---- extensions

def dotted(octets):
    """An object identifier with its points (X.690, 8.19)."""
    numbers, number = [], 0
    for octet in octets:
        number = number << 7 | octet & 0x7F
        if octet < 0x80:
            numbers.append(number)
            number = 0
    first = min(numbers[0] // 40, 2)
    return ".".join(map(str, [first, numbers[0] - 40 * first, *numbers[1:]]))


def reader_of(kind):
    """The call that reads the value of a kind: its name, and the file that defines it."""
    group, small = re.search(rf"Kind::{kind} => (\w+)::(\w+)\(", text("crates/x509_ext_parse/src/parse.rt")).groups()
    helper = f"crates/x509_ext_parse/src/{group}.rt"
    body = re.search(rf"pub\(crate\) fn {small}<.*?\n}}\n", text(helper), re.S)[0]
    call = re.search(r"([A-Z]\w+)::from_der\(|(?<![\w.])(?!settled|refused)([a-z]\w+)\((?:alloc, )?value\)", body)
    name = call[1] or call[2]
    name = (re.search(rf"(\w+) as {name}\b", text(helper)) or [None, name])[1]
    pattern = rf"(?m)^impl<.*> FromDer<.*> for {name}\b|^impl .*FromDer<.*> for {name}\b" if call[1] else rf"(?m)^pub fn {name}\b"
    for crate in repo.crates():
        for path in sources(crate, "src"):
            if crate.startswith("x509_") and crate != "x509_ext_parse" and re.search(pattern, text(path)):
                return f"{name}::from_der" if call[1] else name, path
    raise LookupError(f"{kind}: nothing reads it")


def extensions():
    kinds = text("crates/x509_ext_parse/src/kind.rt")
    parsed = text("crates/x509_ext_parse/specs/Parsed.antt")
    homes = {name.strip(): f"{crate}/specs/{page}" for crate, page, names in re.findall(r"use Rattle\.(?:\w+\.specs\.)*(\w+)\.specs\.(\w+)\.\{([^}]*)\}", parsed)
             for name in names.split(",")}
    rows = []
    for kind, octets in re.findall(r'Kind::(\w+) => b"((?:\\x[0-9a-f]{2})+)"', kinds):
        section = re.search(rf"/// (.*)\.\n    {kind},", kinds)[1]
        reader, path = reader_of(kind)
        relation = re.search(rf"IsOf kinds\.{kind} = Begins (\w+)", parsed)[1]
        identifier = dotted(bytes.fromhex(octets.replace("\\x", "")))
        read_in, defined_in = code(path.removeprefix("crates/")), code(f"{homes[relation]}.antt")
        rows.append(f"- {kind}, {identifier} ({section}): {code(reader)}, in {read_in}; {defined_in}")
    return "".join(f"{believe.wrapped(row)}\n" for row in sorted(rows, key=str.lower))


# ---- crates

def described(crate):
    """What a crate is, by the first paragraph of its page, on one line."""
    page = repo.read(note(crate)) if os.path.exists(os.path.join(repo.TOP, note(crate))) else ""
    _, first, *_ = [*page.partition(NOTE_BEGIN)[0].split("\n\n"), ""]
    return " ".join(first.split()).replace("](../../docs/", "](")


# The layers from the bottom up, each with its crates: a crate depends on crates of its own layer or of those below.
LAYERS = (
    ("Headers, devices", "asn1_core asn1_device"),
    ("Elements, identifiers", "asn1_any asn1_oid asn1_unsigned"),
    ("Values", "asn1_traits asn1_values asn1_strings asn1_times asn1_lists asn1_tagged asn1_rs"),
    ("Trees", "der_tree ber_tree der_parser"),
    ("Certificates: parts", "x509_core x509_objects x509_names x509_time x509_items"),
    ("Certificates: extension values", "x509_ext_flags x509_ext_policies x509_ext_names x509_ext_points x509_ext_basic x509_ext_sct x509_ext_parse"),
    ("Certificates: whole", "x509_ext x509_certs x509_lists x509_requests x509_algorithms x509_validate x509_parser"),
    ("Items, classes, names of hosts and purposes", "cert_framing cert_model cert_faults host_names purpose_names"),
    ("Graphs and judging", "cert_graph cert_judge cert_purpose cert_vouchers fault_texts"),
    ("The check", "certcheck cert_questions cert_serving cert_reasons"),
    ("The search", "x509_links certpath_rebuild certpath_typed cert_search certpath_find"),
    ("The program", "certpath_pem certpath_files certpath_bundle certpath_why certpath_inputs certpath_evidence "
                    "certpath_recheck certpath_run certpath_engine certpath_cli"),
    ("For other languages", "certpath_c"),
    ("Rows, tests, benches, examples, worked laws", "rows_hex rows_asn1 rows_cert rows_x509 rows_check rows_reasons rows_faults tests_asn1 tests_der tests_graph "
                                       "tests_run bench_graph bench_item bench_workload example_certificate example_own_type example_path "
                                       "laws_asn1 laws_der laws_graph laws_items laws_judge laws_paths laws_x509"),
)


def layer_of():
    """The layer of each crate, by its number; each crate has one, and depends on none of a layer above."""
    found = {crate: number for number, (_, names) in enumerate(LAYERS) for crate in names.split()}
    listed = repo.crates()
    for crate in listed:
        if crate not in found:
            raise LookupError(f"LAYERS in tools/dev/pages.py has no crate {crate}")
        for below in listed[crate]:
            if below in listed and found[below] > found[crate]:
                raise LookupError(f"LAYERS in tools/dev/pages.py has {crate} below {below}, on which it depends")
    return found


def crates():
    """A line for each crate, by layers, in each in the order of crates.txt; of the crates that others aren't built on the names."""
    layers = layer_of()
    parts = []
    for number, (title, _) in enumerate(LAYERS):
        names = [crate for crate in repo.crates() if layers[crate] == number]
        lines = [believe.wrapped(f"- [`{crate}`](../{note(crate)}): {described(crate)}") for crate in names]
        if all(crate.startswith((*TOPS, EXAMPLES)) for crate in names):
            lines = [wrapped(", ".join(f"[`{crate}`](../{note(crate)})" for crate in sorted(names)), indent="").rstrip("\n")]
        parts.append(f"### {title}\n\n" + "".join(f"{line}\n" for line in lines))
    return "\n".join(parts)


# ---- rules

def believed():
    """Each crate with the pages of its specs/ that its contracts depend on."""
    for crate in repo.crates():
        pages = [] if crate.startswith(TOPS) or crate.startswith(EXAMPLES) else believe.own_pages(crate)
        if pages:
            yield crate, pages


def what_of(page):
    """The first sentence of a definition page, without the sections that it ends with."""
    comment = re.match(r"(?:--[^\n]*\n)+", text(page))
    words = " ".join(line.strip("- ") for line in comment[0].splitlines()) if comment else ""
    words = re.split(r"(?<=[^.\d])\. |: ", words)[0].strip(" .")
    words = re.sub(r" \((?:RFC|X\.)[^()]*\)$", "", words)
    return words.replace("|", "\\|")


def runs(crate):
    """The crates of rows and tests that name a crate, or a port that hands it on; if there are none, those that depend on it and on least."""
    listed = repo.crates()
    users = [name for name in listed if name.startswith(("rows_", "tests_")) and name != "rows_hex" and crate in repo.below([name], listed)]
    handed = {crate} | {port for port in PORTS if crate in listed[port]}
    direct = [user for user in users if handed & {*listed[user]}]
    return direct or sorted(users, key=lambda user: len(repo.below([user], listed)))[:2]


INDEX_HEAD = """# From a section of a standard to its definitions

For anyone who looks for a rule: each section that definitions of public contracts cite, with these
pages of `specs/`. `python3 tools/dev/pages.py index CRATE` prints what each page of a crate
defines, and sources whose contracts name it.

"""
# The standards that have a section of their own; all others come last.
STANDARDS, OTHERS = ("X.690", "RFC 5280"), "Other standards"


def users_of(crate, page):
    """The sources of a crate whose contracts name one of its pages, by their places in src/."""
    module = rf"Rattle\.{crate}\.specs\.{page}\b"
    return [source.removeprefix(f"crates/{crate}/src/") for source in sources(crate, "src") if re.search(module, text(source))]


def cited_by(crate, page):
    """The sections that a page of definitions cites."""
    return sections(re.sub(r"\s*\n--\s*", " ", text(f"crates/{crate}/specs/{page}.antt")))


def rule_line(crate, page):
    cited = f" ({'; '.join(cited_by(crate, page)[:1])})".replace(" ()", "")
    used = f" {', '.join(map(code, users_of(crate, page)[:MOST_NAMED]))}.".replace(" .", "")
    return f"- `{page}`: {what_of(f'crates/{crate}/specs/{page}.antt')}{cited}.{used}"


def rule_lines(crate):
    """The lines of a crate's pages of definitions, with what each defines."""
    return [believe.wrapped(rule_line(crate, page)) for page in dict(believed()).get(crate, []) if not NO_RULE.search(page)]


def by_section():
    """Each standard with its sections, and with each of these the pages that cite it."""
    found = {standard: {} for standard in (*STANDARDS, OTHERS)}
    for crate, page in ((crate, page) for crate, pages in believed() for page in pages if not NO_RULE.search(page)):
        for section in cited_by(crate, page):
            standard, _, number = section.partition(", ")
            place = (standard, number) if standard in STANDARDS else (OTHERS, section)
            found[place[0]].setdefault(place[1], []).append(code(f"{crate}/specs/{page}"))
    return found


def order_of(section):
    """By which sections are ordered: numbers by their value, appendices last."""
    return [(not part.isdigit(), int(part) if part.isdigit() else 0, part) for part in re.split(r"[ ,.]+", section)]


def index():
    """The text of docs/INDEX.md."""
    standards = by_section()
    found = [INDEX_HEAD, *(f"- [{standard}](#{standard.lower().replace('.', '').replace(' ', '-')})\n" for standard in standards)]
    for standard, cited in standards.items():
        found.append(f"\n## {standard}\n\n")
        found += [believe.wrapped(f"- {section}: {', '.join(cited[section])}") + "\n" for section in sorted(cited, key=order_of)]
    return "".join(found)


# ---- the page of a crate

# What is below the first mark is made. Of a page of an older form, what is below the second one is written by hand.
NOTE_BEGIN, NOTE_END = "<!-- pages.py -->\n", "<!-- end of lines -->\n"
FORMER_BEGIN = "<!-- lines: made by tools/dev/pages.py -->\n"


def note(crate):
    """The path of a crate's own page."""
    return f"crates/{crate}/README.md"


def linked(names):
    return ", ".join(f"[`{name}`](../{name}/README.md)" for name in names)


def wrapped(line, indent="  "):
    """A line of a list, cut before column 100 at commas."""
    found = [""]
    for word in re.split(r"(?<=,) ", line):
        joined = f"{found[-1]} {word}".strip() if found[-1] else word
        if found[-1] and len(joined) + (0 if len(found) == 1 else len(indent)) > 98:
            found.append(word)
        else:
            found[-1] = joined
    return f"\n{indent}".join(found) + "\n"


def note_lines(crate):
    """Where a crate's contracts are, and what runs it. What it depends on crates.txt says."""
    lines = []
    said = [f"[Contracts](../../docs/CONTRACTS.md#{crate})"] if crate in contracts.crates() else []
    if believe.has_pages(crate):
        said.append(f"[{'w' if said else 'W'}hat to believe](../../docs/TRUST.md)")
    if said:
        lines.append(f"- {', '.join(said)}.")
    if not crate.startswith(TOPS) and not crate.startswith(EXAMPLES):
        rows = runs(crate)
        tried = f"- Rows and tests: {linked(rows)}." if rows else "- No crate of rows or tests depends on it."
        if not rows and crate in TRIALS:
            tried += f" Tried by `{TRIALS[crate]}`."
        lines.append(wrapped(tried).rstrip("\n"))
    return "\n".join(lines) + "\n"


def written_note(crate, page):
    """A crate's page with its lines as crates.txt says."""
    if page is None:
        page = f"# `{crate}`\n\n{NOTE_BEGIN}"
    before, _, after = page.replace(FORMER_BEGIN, NOTE_BEGIN).partition(NOTE_BEGIN)
    by_hand = "\n\n".join(filter(None, (before.strip("\n"), after.partition(NOTE_END)[2].strip("\n"))))
    lines = note_lines(crate).strip("\n")
    return f"{by_hand}\n\n{NOTE_BEGIN}{lines}\n" if lines else f"{by_hand}\n"


def notes():
    """Each crate's page as it is, none if there is none, and as it is made."""
    for crate in repo.crates():
        path = note(crate)
        page = repo.read(path) if os.path.exists(os.path.join(repo.TOP, path)) else None
        yield path, page, written_note(crate, page)


# ---- scripts

def said_of(path):
    """What a script does, by the first sentence of the text at its head."""
    head = ast.get_docstring(ast.parse(text(path))) or ""
    return re.split(r"(?<=[^.\d])[.:](?:\s|$)", " ".join(head.split("\n\n")[0].split()))[0]


def scripts(folder):
    """A line for each script of a folder of tools/."""
    found = sorted(glob.glob(os.path.join(repo.TOP, "tools", folder, "*.py")))
    paths = (os.path.relpath(path, repo.TOP) for path in found if not path.endswith("__init__.py"))
    return "".join(believe.wrapped(f"- `{os.path.basename(path)}`: {said_of(path)}.") + "\n" for path in paths)


# The pages with lists between marks, and what makes each list.
TABLES = {PAGE: {"extensions": extensions, "crates": crates},
          TOOLS: {folder: functools.partial(scripts, folder) for folder in ("program", "pki", "verify", "install", "gate", "trials", "dev")}}


def written(path):
    """A page with its lists as the sources say."""
    page = repo.read(path)
    for name, make in TABLES[path].items():
        begin, end = f"<!-- table {name}: made by tools/dev/pages.py -->\n", f"<!-- end of table {name} -->"
        before, _, after = page.partition(begin)
        page = before + begin + make() + end + after.partition(end)[2]
    return page


def above(names):
    """The named crates and all that depend on one of them, lowest first."""
    listed = repo.crates()
    unknown = [name for name in names if name not in listed]
    if unknown:
        sys.exit(f"pages: crates.txt names no crate {unknown[0]}")
    return [crate for crate in repo.below(listed, listed) if {*names} & {*repo.below([crate], listed)}]


def put(path, text):
    with open(os.path.join(repo.TOP, path), "w", encoding="utf-8") as file:
        file.write(text)


def main(words):
    if words[:1] == ["above"] and words[1:]:
        print(*above(words[1:]), sep="\n")
    elif words[:1] == ["index"] and len(words) == 2:
        print(*rule_lines(words[1]), sep="\n")
    elif words:
        sys.exit("usage: tools/dev/pages.py [above NAME.. | index CRATE]")
    else:
        for path in TABLES:
            put(path, written(path))
        put(INDEX, index())
        for path, page, made in notes():
            if page != made:
                put(path, made)


if __name__ == "__main__":
    main(sys.argv[1:])
