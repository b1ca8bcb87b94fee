#!/usr/bin/env python3
"""Writes the items of crates/rows_cert/stdin anew, each by the comment above it.

A comment `# TITLE: KIND PART=TEXT ..` spells the item below it. KIND is `certificate` or `list`, of which only the parts that are named differ from the plain one;
or `octets TEXT`. A digit, `keys` or a word with commas before KIND is before the item too, with a colon. A text is octets in hex; `TAG(TEXT)` is an element, its length counted; `"LETTERS"` their octets; `TEXT*N` what is before it N times over; `-` nothing.
"""
import os
import re
import sys

sys.path.insert(0, os.path.dirname(os.path.dirname(os.path.abspath(__file__))))
from program import repo

STDIN = "crates/rows_cert/stdin"
ALGORITHM = "30(06(2a03))"
DATES = '17("250101000000Z")', '17("260101000000Z")'
# The parts of a plain item, in the order in which they are written: those of the first part, then those after it.
PLAIN = {
    "certificate": (
        {"version": "-", "serial": "02(01)", "signature": ALGORITHM, "issuer": "30()", "validity": f"30({DATES[0]}{DATES[1]})", "subject": "30()",
         "key": f"30({ALGORITHM}03(00))", "issuer_id": "-", "subject_id": "-", "extensions": "-", "further": "-"},
        {"algorithm": ALGORITHM, "value": "03(00)", "behind": "-"}),
    "list": (
        {"version": "-", "signature": ALGORITHM, "issuer": "30()", "this_update": DATES[0], "next_update": DATES[1], "entries": f"30(30(02(01){DATES[0]}))",
         "extensions": "-", "further": "-"},
        {"algorithm": ALGORITHM, "value": "03(00)", "behind": "-"}),
}
TOKEN = re.compile(r'(?P<tag>[0-9a-f]{2,8})\(|(?P<close>\))|(?P<octets>(?:[0-9a-f]{2}(?![0-9a-f]*\())+)|"(?P<letters>[^"]*)"|\*(?P<times>\d+)|(?P<none>-)')


def element(tag, content):
    """An element: its tag's octets, the shortest spelling of its length, its content."""
    length = len(content)
    if length < 128:
        return tag + bytes([length]) + content
    digits = length.to_bytes((length.bit_length() + 7) // 8, "big")
    return tag + bytes([0x80 | len(digits)]) + digits + content


def octets(text):
    """The octets that a text spells."""
    open_ones, at = [(b"", [])], 0
    while at < len(text):
        token = TOKEN.match(text, at)
        if not token:
            raise ValueError(f"no octets: {text[at:]}")
        at = token.end()
        here = open_ones[-1][1]
        if token["tag"]:
            open_ones.append((bytes.fromhex(token["tag"]), []))
        elif token["close"]:
            tag, parts = open_ones.pop()
            open_ones[-1][1].append(element(tag, b"".join(parts)))
        elif token["octets"]:
            here.append(bytes.fromhex(token["octets"]))
        elif token["letters"] is not None:
            here.append(token["letters"].encode())
        elif token["times"]:
            here.append(here.pop() * int(token["times"]))
    if len(open_ones) != 1:
        raise ValueError(f"an element that doesn't end: {text}")
    return b"".join(open_ones[0][1])


def item(spelling):
    """The octets of the item that a comment spells."""
    kind, *words = spelling.split(" ")
    if kind == "octets":
        return octets("".join(words))
    first, behind = ({**entry} for entry in PLAIN[kind])
    for word in words:
        name, _, text = word.partition("=")
        parts = first if name in first else behind
        if name not in parts:
            raise ValueError(f"a {kind} has no part {name}")
        parts[name] = text
    outer = {**behind}
    end = octets(outer.pop("behind"))
    return element(b"\x30", element(b"\x30", b"".join(octets(entry) for entry in first.values())) + b"".join(octets(entry) for entry in outer.values())) + end


def row(spelling):
    """The row that a comment spells."""
    question, _, rest = spelling.partition(" ")
    return f"{question}:{item(rest).hex()}" if question.isdigit() or question == "keys" or "," in question else item(spelling).hex() or " "


def written(text):
    """The rows with each item as the comment above it spells it."""
    lines, spelling = [], None
    for line in text.splitlines():
        if line.startswith("# "):
            spelling = line.partition(": ")[2]
        elif line and spelling:
            line, spelling = row(spelling), None
        lines.append(line)
    return "\n".join(lines) + "\n"


def main():
    text = repo.read(STDIN)
    with open(os.path.join(repo.TOP, STDIN), "w", encoding="utf-8") as file:
        file.write(written(text))


if __name__ == "__main__":
    sys.exit(main())
