"""Puts 2,000 seeded mutants of the items of crates/rows_cert/stdin through both readers of items, and reports each that they class otherwise.

`rows_cert` reads each row by trees and by types, and prints `two classes` where they differ. An octet is changed, taken out or put in, or
octets are repeated; one in four mutants has another such change.
"""
import random
import re
import subprocess

from program import repo
from trials.count import Trial

MUTANTS, SECONDS = 2_000, 600
ITEM = re.compile(r"(?m)^[0-9a-f]{40,4000}$")


def changed(numbers, octets):
    """The octets with one change."""
    at = numbers.randrange(len(octets))
    kind = numbers.randrange(5)
    if kind == 0:
        return octets[:at] + bytes([numbers.randrange(256)]) + octets[at + 1:]
    if kind == 1:
        return octets[:at] + bytes([octets[at] ^ 1 << numbers.randrange(8)]) + octets[at + 1:]
    if kind == 2:
        return octets[:at] + octets[at + 1:]
    if kind == 3:
        return octets[:at] + bytes([numbers.randrange(256)]) + octets[at:]
    return octets[:at] + octets[at:at + 4] + octets[at:]


def mutants():
    """The mutants of the items, each a row."""
    numbers = random.Random(1)
    items = [bytes.fromhex(match) for match in ITEM.findall(repo.read("crates/rows_cert/stdin"))]
    for number in range(MUTANTS):
        octets = changed(numbers, items[number % len(items)])
        yield (changed(numbers, octets) if numbers.randrange(4) == 0 else octets).hex()


class Mutants(Trial):
    def test_classes(self):
        program = self.program("rows_cert")
        rows = "".join(f"{mutant}\n" for mutant in mutants())
        ran = subprocess.run([program], input=rows, stdout=subprocess.PIPE, text=True, timeout=SECONDS)
        found = re.findall(r"(?m)^([0-9a-f]+) = (.+)$", ran.stdout)
        self.same("the status and the number of rows", (ran.returncode, len(found)), (0, MUTANTS))
        for row, said in found:
            self.row(said != "two classes", f"{row}: {said}")
