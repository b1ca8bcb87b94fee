#!/usr/bin/env python3
"""Times `CertificateRevocationList::from_der` over lists of 1,000, 10,000 and 100,000 entries.

Prints medians of five, of whole processes that read the file: seconds, entries a second, and peak resident memory as a
multiple of the file. To reach: at most 12 times the time at each tenfold, and 12 times the file in memory at 100,000 (of
less, most is the process itself and this script's). Exit status 1 if it is missed.
"""
import os
import statistics
import subprocess
import sys
import tempfile

sys.path.insert(0, os.path.join(os.path.dirname(os.path.abspath(__file__)), os.pardir))
import timing

ENTRIES = (1_000, 10_000, 100_000)
MOST_GROWTH, MOST_MEMORY = 12, 12
ALGORITHM = bytes.fromhex("300406022a03")
DATE = bytes.fromhex("170d3235303130313030303030305a")


def header(tag, size):
    """The strict header of so many content octets."""
    if size < 0x80:
        return bytes([tag, size])
    octets = size.to_bytes((size.bit_length() + 7) // 8, "big")
    return bytes([tag, 0x80 | len(octets)]) + octets


def entry(number):
    """An entry of a serial number of 8 octets."""
    serial = (0x40 << 56 | number).to_bytes(8, "big")
    return header(0x30, 10 + len(DATE)) + header(0x02, 8) + serial + DATE


def write_list(path, count):
    """Writes a list of so many entries, one by one: this process stays small, as what a child is said to have taken counts its parent's too."""
    front, behind = ALGORITHM + header(0x30, 0) + DATE, ALGORITHM + bytes.fromhex("030100")
    entries = header(0x30, count * len(entry(0)))
    size = len(front) + len(entries) + count * len(entry(0))
    signed = header(0x30, size)
    with open(path, "wb") as file:
        file.write(header(0x30, len(signed) + size + len(behind)) + signed + front + entries)
        for number in range(count):
            file.write(entry(number))
        file.write(behind)


def main():
    program, seconds, is_reached = timing.built("bench_item"), [], True
    with tempfile.TemporaryDirectory() as room:
        for count in ENTRIES:
            path = os.path.join(room, f"{count}.der")
            write_list(path, count)
            size = os.path.getsize(path)
            said = subprocess.run([program, "list", path], check=True, capture_output=True, text=True).stdout
            if not said.endswith(f": 1 list in {size} octets\n"):
                sys.exit(f"something else was printed: {said[-200:]}")
            runs = [timing.timed([program, "list", path]) for _ in range(timing.RUNS)]
            took, memory = (statistics.median(pair) for pair in zip(*runs))
            growth = f", {took / seconds[-1]:.1f} times the last" if seconds else ""
            print(f"{count} entries: {took:.4f} s, {count / took:.0f} entries/s{growth}, peak {memory / size:.1f} times the file", flush=True)
            is_reached &= not seconds or took <= MOST_GROWTH * seconds[-1]
            is_reached &= count < ENTRIES[-1] or memory <= MOST_MEMORY * size
            seconds.append(took)
    sys.exit(0 if is_reached else 1)


if __name__ == "__main__":
    main()
