#!/usr/bin/env python3
"""Times `check` of an answer on items: a path of ten and "none", at 10,000, 20,000 and 40,000 items of as many different names, and of
one name, if key identifiers tell the path; and "none" at 100,000 equal self-issued certificates, and at as many lists of one issuer.

Every key vouches for everything, at no cost: `Vouchers` would hash the key and the item at each call (SHA-256), which is reported apart
by leaving it out. Prints medians of five: milliseconds of the check and of `parse_der` over the same items, and peak resident memory of
the whole process beside the octets. To reach: at most 2.4 times the time at each doubling (5.76 times from the first to the last) and 12
times the octets; of the 100,000 equal ones at most 20 times the time of `parse_der`. Exit status 1 if that is missed.
`items.py small ROOM` writes the small files that the gate's run of `bench_item` reads.
"""
import os
import re
import statistics
import subprocess
import sys
import tempfile
import time

sys.path.insert(0, os.path.join(os.path.dirname(os.path.abspath(__file__)), os.pardir))
import timing

MOST_GROWTH, MOST_MEMORY, MOST_OF_PARSE = 5.76, 12, 20
ALGORITHM = bytes.fromhex("300406022a03")
KEY = bytes.fromhex("3009300406022a03030100")
SIGNED = ALGORITHM + bytes.fromhex("030100")
FIRST, LAST = bytes.fromhex("170d3235303130313030303030305a"), bytes.fromhex("170d3236303130313030303030305a")
AUTHORITY = bytes.fromhex("300f0603551d130101ff040530030101ff")


def element(tag, *parts):
    """An element of a tag, in its strict form."""
    content = b"".join(parts)
    size = len(content)
    if size < 0x80:
        return bytes([tag, size]) + content
    octets = size.to_bytes((size.bit_length() + 7) // 8, "big")
    return bytes([tag, 0x80 | len(octets)]) + octets + content


def name(text):
    """A name of one common name."""
    return element(0x30, element(0x31, element(0x30, bytes.fromhex("0603550403"), element(0x0C, text.encode()))))


def extension(last, *value):
    """An extension under id-ce that isn't critical."""
    return element(0x30, element(0x06, bytes([0x55, 0x1D, last])), element(0x04, *value))


def certificate(subject, issuer, own=None, named=None):
    """An authority, with the key identifiers that it has for itself and for its issuer, if any."""
    extensions = [AUTHORITY]
    if own:
        extensions.append(extension(14, element(0x04, own)))
    if named:
        extensions.append(extension(35, element(0x30, element(0x80, named))))
    tbs = element(
        0x30, bytes.fromhex("a003020102020101"), ALGORITHM, name(issuer), element(0x30, FIRST, LAST), name(subject), KEY,
        element(0xA3, element(0x30, *extensions)))
    return element(0x30, tbs, SIGNED)


def revocation_list(issuer):
    entries = element(0x30, element(0x30, bytes.fromhex("020102"), FIRST))
    return element(0x30, element(0x30, ALGORITHM, name(issuer), FIRST, LAST, entries), SIGNED)


def items(kind, count):
    """The items of a kind: the first ten lead to the root, if there is a path."""
    for place in range(count):
        issuer = "root" if place == 9 else None
        if kind == "different":
            yield certificate(f"n{place:06}", issuer or (f"n{place + 1:06}" if place < 9 else f"m{place:06}"))
        elif kind == "equal":
            own, named = (place, place + 1) if place < 10 else (100, 100)
            yield certificate("n", issuer or "n", own.to_bytes(2, "big"), named.to_bytes(2, "big"))
        elif kind == "self":
            yield certificate("n", "n")
        else:
            yield certificate("n", "n") if place == 0 else revocation_list("n")


def write(room, stem, octets):
    path = os.path.join(room, stem)
    with open(path, "wb") as out:
        out.write(octets)
    return path


def resident(process):
    """The peak resident octets of a process so far, 0 once it has ended. (What a parent learns of a child counts the parent's own memory too, until the child becomes the program.)"""
    try:
        with open(f"/proc/{process}/status", encoding="ascii") as file:
            peak = re.search(r"VmHWM:\s+(\d+)", file.read())
    except OSError:
        return 0
    return 1024 * int(peak[1]) if peak else 0


def measured(program, words):
    """Runs a check; gives milliseconds of the check and of the trees, and peak resident octets."""
    memory = 0
    with tempfile.TemporaryFile("w+") as out, tempfile.TemporaryFile("w+") as err:
        child = subprocess.Popen([program, *words], stdin=subprocess.DEVNULL, stdout=out, stderr=err)
        while child.poll() is None:
            memory = max(memory, resident(child.pid))
            time.sleep(0.001)
        out.seek(0)
        err.seek(0)
        said, times = out.read().strip(), err.read().strip()
    if child.returncode:
        sys.exit(f"{program} failed, with status {child.returncode}: {times}")
    if not said.endswith("check true"):
        sys.exit(f"the check says no: {said}")
    parse, answer, check = (int(match) / 1000 for match in re.findall(r"(\d+) us", times))
    return check, parse, memory, answer


def line(program, room, kind, count, answer):
    """Prints one row; gives its milliseconds of the check and the trees, and peak octets for each octet of the items."""
    octets = b"".join(items(kind, count))
    bundle = write(room, "items.der", octets)
    root = write(room, "root.der", certificate("root" if answer == "path" else "another", "root"))
    runs = [measured(program, ["anchors", root, answer, bundle]) for _ in range(timing.RUNS)]
    check, parse, memory = (statistics.median(run[i] for run in runs) for i in range(3))
    times = memory / len(octets)
    print(f"{kind} {count} {answer}: check {check:.1f} ms, parse_der {parse:.1f} ms, peak {memory / 1e6:.0f} MB, {times:.1f} times {len(octets) / 1e6:.1f} MB", flush=True)
    return check, parse, times


def main():
    if sys.argv[1:2] == ["small"]:
        write(sys.argv[2], "items.der", b"".join(items("different", 12)))
        write(sys.argv[2], "root.der", certificate("root", "root"))
        return
    program = timing.built("bench_item")
    missed = False
    with tempfile.TemporaryDirectory() as room:
        for kind in ("different", "equal"):
            for answer in ("path", "none"):
                rows = [line(program, room, kind, count, answer) for count in (10_000, 20_000, 40_000)]
                growth = rows[-1][0] / max(rows[0][0], 1)
                print(f"{kind} {answer}, 4n to n: {growth:.2f}", flush=True)
                missed = missed or growth > MOST_GROWTH or max(row[2] for row in rows) > MOST_MEMORY
        for kind in ("self", "lists"):
            check, parse, _ = line(program, room, kind, 100_000, "none")
            print(f"{kind}: {check / parse:.1f} times parse_der", flush=True)
            missed = missed or check > MOST_OF_PARSE * parse
    sys.exit(1 if missed else 0)


if __name__ == "__main__":
    main()
