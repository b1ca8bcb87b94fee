"""dist/libcertpath.so and dist/libcertpath.a: the calls of include/certpath.h, made from the crate
certpath_c and compared with it.

`rt lib` proves the crate and leaves crates/certpath_c/out/libcertpath_c.a. The C compiler and the
binutils of the machine make both libraries of it and of tools/gate/allocator.c. Beside them stands
a record, as beside dist/certpath, which names these tools too: the same toolchain and the same
tools give the same octets. Of both libraries nothing is seen but the calls of the header. The
shared one has a SONAME with the version of these calls; ./install names the file so.
"""
import os
import shutil
import subprocess
import sys
import tempfile
from concurrent.futures import FIRST_COMPLETED, ThreadPoolExecutor, wait

from gate import lanes
from install import contents
from program import programs, repo, sources

CRATE = programs.LIBRARY
SHARED, STATIC = os.path.join("dist", "libcertpath.so"), os.path.join("dist", "libcertpath.a")
# The Python package has a copy of its own, since it is installed without dist/.
PACKAGED = os.path.join("python", "certpath", "libcertpath.so")
RECORD = programs.LIBRARY_RECORD
WORDS = ("kit", "sources", "allocator", "compiler", "binutils", "shared", "static", "needs")
# What the octets depend on beside the sources.
TOOLS = ("kit", "compiler", "binutils")
BUILT = os.path.join("crates", CRATE, "out", f"lib{CRATE}.a")
ALLOCATOR = os.path.join("tools", "gate", "allocator.c")
ANSWERS = os.path.join("tools", "gate", "answers.py")
PUBLIC, NEEDED = "certpath_*", ("cc", "ld", "objcopy", "ar")
COMPILED = ("-std=c11", "-Wall", "-Wextra", "-Werror", "-O2", "-fPIC")
LINKED = ("-shared", "-nostdlib", "-Wl,--build-id=none", "-Wl,--gc-sections", "-Wl,-z,relro",
          "-Wl,-z,now", "-Wl,-z,noexecstack", "-Wl,-z,defs")
MAKE = "run python3 tools/gate/dist.py make library"


def is_there():
    """Whether the repository has the crate that the libraries are made from."""
    return CRATE in repo.crates()


def read_record():
    """The words of the record, none if there is none."""
    said = programs.read_record(RECORD)
    return said if sorted(said) == sorted(WORDS) else None


def faults():
    """What is wrong with the libraries by the sources, a line each. Nothing is run."""
    record = read_record()
    if record is None:
        yield f"{RECORD} is missing, or is no record: {MAKE}"
        return
    if record["sources"] != sources.digest(CRATE):
        yield f"sources have changed since {SHARED} was built: {MAKE}"
    for path, word in ((SHARED, "shared"), (PACKAGED, "shared"), (STATIC, "static"),
                       (ALLOCATOR, "allocator")):
        if programs.sum_of(path) != record[word]:
            yield f"{path} isn't that of {RECORD}: {MAKE}"


def proved():
    """Whether `rt` proves the crate in this checkout, over what it kept, and compiles it."""
    if not os.path.isfile(os.path.join(repo.TOP, BUILT)) and not are_built_below():
        return False
    return rt_lib(CRATE)


def rt_lib(crate, *words):
    """Whether `rt` proves a crate and builds its library; what it prints is shown where not."""
    ran = subprocess.run(["rt", "lib", *words], cwd=os.path.join(repo.TOP, "crates", crate),
                         stdin=subprocess.DEVNULL, stdout=subprocess.PIPE,
                         stderr=subprocess.STDOUT, text=True, errors="replace")
    if ran.returncode:
        print(ran.stdout, f"dist: rt doesn't prove {crate}", sep="", flush=True)
    return ran.returncode == 0


def chains(crates, listed):
    """What the proof of each of the crates weighs, lowest first, with the heaviest chain of those
    above it."""
    weights, found = lanes.weights(repo.TOP, crates), {}
    for name in reversed(crates):
        above = (found[other] for other in crates if name in listed[other])
        found[name] = weights[name] + max(above, default=0)
    return found


def are_built_below():
    """Has `rt` prove the crates below, lowest first and several at a time, since by itself it goes
    from one to the next; gives whether all are proved."""
    listed = repo.crates()
    crates, done, running = repo.below(listed[CRATE], listed), set(), {}
    chain = chains(crates, listed)
    left, count = sorted(crates, key=lambda name: -chain[name]), len(crates)
    side_by_side = lanes.lanes(lanes.FROM_NOTHING)
    print(f"dist: rt proves {count} crates below {CRATE}, {side_by_side} at a time", flush=True)
    with ThreadPoolExecutor(side_by_side) as pool:
        while left or running:
            ready = [one for one in left if done.issuperset(listed[one])]
            for entry in ready[:side_by_side - len(running)]:
                left.remove(entry)
                running[pool.submit(rt_lib, entry, "--jobs", "1")] = entry
            for entry in wait(running, return_when=FIRST_COMPLETED).done:
                crate = running.pop(entry)
                if not entry.result():
                    return False
                done.add(crate)
                print(f"dist: {crate}: {len(done)} of {count} proved", flush=True)
    return True


def run(room, *words):
    subprocess.run(words, cwd=room, check=True, stdin=subprocess.DEVNULL)


def first_line(*words):
    """The first line that a command prints: its name and version."""
    return subprocess.run(words, stdin=subprocess.DEVNULL, capture_output=True, text=True,
                          check=True).stdout.splitlines()[0]


def tools():
    """What the libraries are made by on this machine."""
    from program import building
    return {"kit": building.kit(), "compiler": first_line("cc", "--version"),
            "binutils": first_line("ld", "--version")}


def linked(archive, room):
    """Makes both libraries of an archive that `rt` left; gives their octets."""
    shutil.copy(os.path.join(repo.TOP, ALLOCATOR), room)
    shutil.copy(archive, os.path.join(room, "proved.a"))
    for name, text in (("seen", f"{{ global: {PUBLIC}; local: *; }};\n"), ("public", f"{PUBLIC}\n")):
        with open(os.path.join(room, name), "w", encoding="ascii") as file:
            file.write(text)
    run(room, "cc", *COMPILED, "-c", os.path.basename(ALLOCATOR), "-o", "allocator.o")
    run(room, "ld", "-r", "-o", "certpath.o", "--whole-archive", "proved.a", "allocator.o")
    run(room, "objcopy", "--wildcard", "--keep-global-symbols=public", "certpath.o")
    run(room, "ar", "rcsD", "static", "certpath.o")
    run(room, "cc", *LINKED, f"-Wl,-soname,{contents.soname()}", "-Wl,--version-script=seen",
        "-o", "shared", "certpath.o", "-lc")
    return [sources.octets_of(os.path.join(room, entry)) for entry in ("shared", "static")]


def made():
    """The octets of both libraries, and their record; none where the crate can't be proved."""
    from program import building
    digest = sources.digest(CRATE)
    if not proved():
        return None
    with tempfile.TemporaryDirectory(prefix="library-") as room:
        shared, static = linked(os.path.join(repo.TOP, BUILT), room)
    record = {**tools(), "sources": digest, "allocator": programs.sum_of(ALLOCATOR),
              "shared": sources.sum_of_octets(shared), "static": sources.sum_of_octets(static),
              "needs": building.needs_of(shared)}
    return shared, static, record


def make():
    """Puts the libraries and their record into dist/; gives the status."""
    found = made()
    if found:
        put(*found)
    return 0 if found else 1


def put(shared, static, record):
    """Writes the libraries and their record."""
    text = "".join(f"{word} {record[word]}\n" for word in WORDS)
    for path, octets in ((SHARED, shared), (PACKAGED, shared), (STATIC, static),
                         (RECORD, text.encode())):
        sources.put(os.path.join(repo.TOP, path), octets)
        print(f"dist: {path} has {len(octets)} octets")


def answers(shared):
    """What a shared library answers on the worked cases."""
    with tempfile.TemporaryDirectory(prefix="library-") as room:
        with open(os.path.join(room, os.path.basename(SHARED)), "wb") as file:
            file.write(shared)
        ran = subprocess.run([sys.executable, os.path.join(repo.TOP, ANSWERS), room],
                             stdin=subprocess.DEVNULL, capture_output=True)
    return ran.returncode, ran.stdout, ran.stderr[-1000:]


def shared_of(static):
    """A shared library that has all of a static one."""
    with tempfile.TemporaryDirectory(prefix="library-") as room:
        with open(os.path.join(room, "static.a"), "wb") as file:
            file.write(static)
        run(room, "cc", "-shared", "-nostdlib", "-o", "shared", "-Wl,--whole-archive", "static.a",
            "-Wl,--no-whole-archive", "-lc")
        return sources.octets_of(os.path.join(room, "shared"))


def check():
    """What differs from what these sources give, a line each."""
    amiss = [*faults()]
    yield from amiss
    if amiss:
        return
    lacks = [entry for entry in NEEDED if not shutil.which(entry)]
    if not os.path.isfile(os.path.join(repo.TOP, BUILT)):
        lacks = [f"{BUILT}, which `rt lib` makes in the crate's folder"]
    if lacks:
        print(f"dist: {SHARED} and {STATIC} are those of {RECORD}; they weren't made again, since "
              f"there is no {', '.join(lacks)}")
        return
    found = made()
    if found is None:
        yield f"rt doesn't prove {CRATE}"
        return
    yield from compared(read_record(), *found)


def compared(record, shared, static, made_now):
    """Where the libraries of dist/ differ from those that were just made."""
    others = [f"{record[tool]}, and this is {made_now[tool]}" for tool in TOOLS if record[tool] != made_now[tool]]
    if others:
        print(f"dist: {SHARED} was made by {'; '.join(others)}: what the libraries answer is "
              "compared, and not their octets")
        yield from unlike(shared, static)
        return
    for path, word in ((SHARED, "shared"), (STATIC, "static")):
        if record[word] != made_now[word]:
            yield f"{path} isn't what these sources give: {MAKE}"
        else:
            print(f"dist: {path} is what was made anew, octet for octet")


def unlike(shared, static):
    """Where the libraries of dist/ answer otherwise than those that were just made."""
    wanted = answers(shared)
    if wanted[0] or not wanted[1]:
        yield f"the library that was just made gives no answers: {wanted[2].decode(errors='replace')}"
        return
    in_dist = [sources.octets_of(os.path.join(repo.TOP, value)) for value in (SHARED, STATIC)]
    for what, octets in ((SHARED, in_dist[0]), (STATIC, shared_of(in_dist[1])),
                         ("the static library that was just made", shared_of(static))):
        if answers(octets)[:2] != wanted[:2]:
            yield f"{what} answers otherwise than the shared library that was just made: {MAKE}"
    print(f"dist: both libraries were asked, {wanted[1].count(bytes([10]))} lines of answers each")
