"""What callers hand in: it is taken if it is what a call needs, and refused with a remedy else.

ctypes cuts numbers to the width of the C type, and `bytes(3)` are three zeros. So nothing reaches
the library that hasn't passed one of these functions.
"""
import io
import operator
import os
from typing import Any, Optional, Type

# The greatest numbers of the C types uint32_t and size_t (and uint64_t).
MOST_32, MOST_64 = (1 << 32) - 1, (1 << 64) - 1
# Numbers of more bits than these are shown by how many they have.
MOST_SHOWN_BITS = 128
# What octets are given as, and what is done with a text in their place.
NEEDED = "octets are needed (bytes, bytearray or memoryview)"
OF_FILE = "a file is opened with mode 'rb'"


def type_name(value: Any) -> str:
    """The name of a value's type, for a message."""
    return type(value).__name__


def remedy_for_octets(value: Any, of_text: str) -> str:
    """What to do with a value that is no octets, to have some."""
    if isinstance(value, str):
        return of_text
    if isinstance(value, os.PathLike):
        return "Path.read_bytes() reads a file"
    if isinstance(value, io.TextIOBase):
        return OF_FILE
    if hasattr(value, "left") and hasattr(value, "items"):
        return "its `items` are such"
    if hasattr(value, "public_bytes"):
        return "its public_bytes() gives them"
    if isinstance(value, (list, tuple)):
        return "b''.join() makes one of several"
    return "its read() gives them" if hasattr(value, "read") else ""


def octets(value: Any, what: str, needed: str = NEEDED, of_text: str = OF_FILE) -> bytes:
    """The octets of a `bytes`, or of another object whose buffer has elements of one octet.

    TypeError of anything else, though `bytes()` may take it: numbers, paths, lists. It says what is
    `needed`, and what to do with a text.
    """
    if type(value) is bytes:
        return value
    try:
        view = memoryview(value)
    except TypeError:
        remedy = remedy_for_octets(value, of_text)
        raise TypeError(f"{what}: {needed}, not {type_name(value)}"
                        f"{'; ' if remedy else ''}{remedy}") from None
    if view.itemsize != 1:
        raise TypeError(f"{what}: octets are needed, not elements of {view.itemsize} octets; "
                        "tobytes() gives them")
    return view.tobytes()


def shown(number: int) -> str:
    """A number for a message, which may be of any size."""
    bits = number.bit_length()
    return str(number) if bits <= MOST_SHOWN_BITS else f"a number of {bits} bits"


def number(value: Any, what: str, most: Optional[int],
           error: Type[Exception] = ValueError) -> int:
    """An int from 0 to `most`, or from 0 on if that is None; TypeError of what is no int,
    `error` of one out of that range."""
    if isinstance(value, bool):
        raise TypeError(f"{what}: an int is needed, not bool")
    try:
        found = operator.index(value)
    except TypeError:
        raise TypeError(f"{what}: an int is needed, not {type_name(value)}") from None
    if found < 0 or most is not None and found > most:
        raise error(f"{what}: {shown(found)} isn't from 0 " + ("on" if most is None else f"to {most}"))
    return found


def flag(value: Any, what: str) -> bool:
    """True or False; TypeError of anything else, as of the text "no"."""
    if not isinstance(value, bool):
        raise TypeError(f"{what}: True or False is needed, not {type_name(value)}")
    return value
