"""Checks of `quick.py` that follow the names in sources and in definitions, and of what scripts call."""
import os
import re

from dev import believe
from gate import calls, counting, syntax
from program import repo


# The runs of `certpath_run`, and by which call each finds and by which it checks.
ASKED = [("PathReport", "find_judged", "check"), ("WhyReport", "find_judged", "check_read"), ("PathsReport", "find_all_judged", "check_all"), ("EvidenceReport", "find_all_judged", "check_all")]
# What is made of what a check said: lines of a report.
TOLD = r"\b(?:report_of|report_of_all|push_check)\(([^;]*)\)\?;"


def check_asked():
    """Each report of `certpath_run` comes to one call of the check in `certcheck`, of what it found, and what that says is what the report is made with."""
    for report, finds, checks in ASKED:
        check = calls.function(f"certcheck::{checks}")
        reached = [entry for entry in calls.come_to([calls.function(f"certpath_run::{report}::report")]) if entry.file.crate == "certpath_run"]
        callers = [entry for entry in reached if check in calls.called(entry)]
        if [len(re.findall(rf"\b{checks}\(", caller.body)) for caller in callers] != [1]:
            yield f"crates/certpath_run: one function, which {report} comes to, calls certcheck::{checks} once, and no other does"
            continue
        yield from (f"{callers[0].file.path}: {entry}" for entry in said_of_found(callers[0].body, finds, checks))
        told = [entry for entry in reached for text in re.findall(TOLD, entry.body) if re.search(r"\bsaid\b", text)]
        if not told:
            yield f"crates/certpath_run: what certcheck::{checks} said is in no text of {report}"


def said_of_found(body, finds, checks):
    """What is amiss in a function that finds and checks: it checks what it found, and hands on both."""
    found = re.search(rf"let (\w+) = {finds}\(", body)
    said = re.search(rf"let (\w+) = {checks}\(([^;]*)\)\?;", body)
    after = set(re.findall(r"\w+", body[said.end():])) if said else set()
    if not (found and said) or f"&{found[1]}" not in said[2] or not {found[1], said[1]} <= after:
        yield f"what {finds} gives is what {checks} is asked of, and what both gave is handed on"
    elif any(len(re.findall(rf"\b{entry}\s*=(?!=)", body)) > 1 for entry in (found[1], said[1])):
        yield f"what {finds} gave or {checks} said is put in place anew"


def key_ids_read_apart():
    """`certpath_find` reads key identifiers by the readers of elements, and comes to nothing of `cert_model::parts`, by which the check reads them."""
    source = syntax.file("crates/certpath_find/src/key_ids.rt")
    reached = {f"{entry.file.path} {calls.name_of(entry)}" for entry in calls.come_to(source.functions)}
    for one in ("crates/asn1_any/src/any.rt Any::from_der", "crates/x509_ext_flags/src/identifier.rt KeyIdentifier::from_der"):
        if one not in reached:
            yield f"{source.path}: nothing comes to {one.split()[1]}"
    for element in sorted(entry for entry in reached if entry.startswith("crates/cert_model/src/parts.rt ")):
        yield f"{source.path}: it comes to {element.split()[1]} of cert_model::parts"
    # (certpath_c is above both roads)
    crates = (crate for crate in syntax.CRATES if crate.startswith("certpath_") and crate != "certpath_c")
    for current in (file for crate in crates for file in syntax.files(crate)):
        if re.search(r"\bcert_model::parts\b", current.code):
            yield f"{current.path}: it names cert_model::parts"


def headers_counted():
    """No counted call comes to a reader that keeps no count of its headers, and such readers are in places that are known."""
    yield from counting.faults()


def pages_counted():
    """docs/TRUST.md counts the pages that promises rest on, and no page that follows the code is new among those of the judging."""
    yield from believe.faults()


# What reaches past the commands of the toolchain: how a line of a script looks that does, and what it does.
BEHIND = (
    (r"""toolchain/bin|rlibs|logic_built|["']bin["'], *["']rattle["']|/bin/rattle\b""", "calls or names what lies in the toolchain's folder"),
    (r"""realpath\(.*\brt\b|["']rt["'], *["']doc["']|\brt doc\b""", "looks for the toolchain's folder"),
    (r"""out/(?:incremental|rlib)|["']out["'], *["'](?:incremental|rlib)["']""", "names work that the toolchain kept"),
    (r"rattle-logic|rt-edit-|rt-run-", "names temporary files of the toolchain"),
    (r"/cmdline|/environ(?:[^A-Za-z]|$)|/proc/(?!self/)[^ ]*/(?:cwd|exe|fd|fdinfo|maps|mem|smaps|stack|syscall|wchan)\b", "looks into a process"),
    (r"RT_JOBS", "names a variable that no page of the toolchain names"),
    (r"systemctl|systemd-run", "calls a service manager"),
    (r"""\b(?:strace|ltrace|ptrace|gdb|bpftrace)\b""", "traces a process"),
)
# Lines that do, by which the look itself is tried, and lines that don't.
PLANTED = ('run(f"{kit}/toolchain/bin/ld.lld")', 'os.path.join(kit, "bin", "rattle")', 'os.path.realpath(shutil.which("rt"))',
           'subprocess.run(["rt", "doc"])', 'os.rename("out/incremental", seed)', 'os.path.join(folder, "out", "rlib")',
           'glob.glob("rattle-logic-built-*")', 'open(f"/proc/{pid}/cmdline")', 'open(f"/proc/{pid}/environ")',
           'os.readlink(f"/proc/{pid}/cwd")', 'os.listdir(f"/proc/{pid}/fd")', '{**os.environ, "RT_JOBS": "1"}',
           'systemd-run --scope rt ci', "systemctl start x", "gdb -p 1")
HARMLESS = ('subprocess.run(["rt", "ci"])', "os.environ", 'open("/proc/self/maps")', 'open("/proc/meminfo")', 'os.path.join("out", "programs")')
THIS = "tools/gate/source_checks.py"


def behind_the_kit(text):
    """The lines of a text that reach past the commands of the toolchain: number and what is amiss."""
    for number, line in enumerate(text.splitlines(), 1):
        yield from ((number, why) for pattern, why in BEHIND if re.search(pattern, line))


def scripts(top=repo.TOP):
    """The scripts of the repository, by their paths: those that are named so, and those that begin as one."""
    for at, folders, names in os.walk(top):
        folders[:] = sorted(folder for folder in folders if folder not in (".git", "out", "__pycache__"))
        for path in (os.path.join(at, name) for name in sorted(names)):
            if path.endswith((".py", ".sh")) or os.access(path, os.X_OK) and is_script(path):
                yield os.path.relpath(path, top)


def is_script(path):
    with open(path, "rb") as file:
        return file.read(2) == b"#!"


def toolchain_by_commands(top=repo.TOP):
    """Scripts use the toolchain by its commands alone: none calls what lies beneath them, or looks into what they start."""
    yield from (f"{THIS}: a script with the line {entry} isn't refused" for entry in PLANTED if not [*behind_the_kit(entry)])
    yield from (f"{THIS}: a script with the line {entry} is refused" for entry in HARMLESS if [*behind_the_kit(entry)])
    for path in scripts(top):
        if path != THIS:
            yield from (f"{path}:{number}: it {why}" for number, why in behind_the_kit(repo.read(path, top)))


CHECKS = (check_asked, key_ids_read_apart, pages_counted, toolchain_by_commands)
