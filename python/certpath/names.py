"""Names, and their text."""
import re
from typing import List, Set, Tuple, Type

from . import arguments, library
from .fixed import Fixed, kept

# How many octets of a name's text are asked for at first.
ROOM = 512
# What the library gives in the place of a text if a value can't be shown.
NO_TEXT = "<X509Error: Invalid X.509 name>"
# The type of an attribute in the library's text.
TYPE = r"(?:OID\([0-9a-f. ]*\)|[A-Za-z][A-Za-z0-9-]*)="
# Where a further attribute may begin in that text, of a further set or of a set that has begun; or
# else a value has just these characters.
FURTHER = re.compile(rf"(?:, | \+ )(?=({TYPE}))")
# How text may lie in a name's octets: as UTF-8, or as a BMPString (X.690, 8.23.9).
ENCODINGS = ("utf-8", "utf-16-be")
# In how many octets at most it is looked for what stands around such a place, of all places together.
MOST_SEARCHED = 1 << 26
# What is escaped wherever it stands (RFC 4514, 2.4).
SPECIAL = re.compile(r'["+,;<>\\]')
# Text of which nothing is escaped, if its commas are between attributes and all is printable.
PLAIN_VALUE = r'[^"+,;<>\\# ](?:[^"+,;<>\\]*[^"+,;<>\\ ])?'
PLAIN = re.compile(rf"{TYPE}{PLAIN_VALUE}(?:, {TYPE}{PLAIN_VALUE})*")
# What is between attributes, as a value would have it.
COMMAS = tuple(", ".encode(encoding) for encoding in ENCODINGS)


def hex_pairs(text: str) -> str:
    """The octets of a text in UTF-8, each as a backslash and two hex digits."""
    return "".join(f"\\{entry:02X}" for entry in text.encode())


def escaped(value: str) -> str:
    """A value by the escapes of RFC 4514, 2.4. Characters that aren't printable are written as
    octets: control characters, line ends, marks that turn the direction of writing."""
    value = SPECIAL.sub(r"\\\g<0>", value)
    if value[:1] in (" ", "#"):
        value = "\\" + value
    if value.endswith(" ") and value != "\\ ":
        value = value[:-1] + "\\ "
    if value.isprintable():
        return value
    return "".join(entry if entry.isprintable() else hex_pairs(entry) for entry in value)


def separators_in(octets: bytes) -> Set[str]:
    """What octets hold, as UTF-8 or as a BMPString, that looks like the begin of a further attribute;
    perhaps more."""
    # (every second octet of a BMPString is that of an ASCII character)
    return {match[0] + match[1] for part in (octets, octets[::2], octets[1::2])
            for match in FURTHER.finditer(part.decode("latin-1"))}


def is_in(octets: bytes, text: str) -> bool:
    """Whether octets hold a text, as UTF-8 or as a BMPString."""
    return any(text.encode(encoding) in octets for encoding in ENCODINGS)


def attributes_of(text: str, octets: bytes) -> List[str]:
    """The attributes of the library's text of a name, each after what separates it from the last.

    The library separates attributes by ", " and " + ", and leaves values as they are. So a value
    may hold what looks like a further attribute. Then the name's octets hold one after another what
    is before and after that place, as they never do of two attributes: there is a header
    between them, which has no text.
    """
    places, held = [*FURTHER.finditer(text)], separators_in(octets)
    values = [text.find("=") + 1, *(place.end(1) for place in places)]
    ends = [*(place.start() for place in places[1:]), len(text)]
    are_many = len(places) * len(octets) > MOST_SEARCHED
    found, begin = [], 0
    for entry, value, end in zip(places, values, ends):
        if entry[0] + entry[1] in held and (are_many or is_in(octets, text[value:end])):
            # (a value has it)
            continue
        found.append(text[begin:entry.start()])
        begin = entry.start()
    return [*found, text[begin:]]


def is_plain(text: str, octets: bytes) -> bool:
    """Whether nothing of the library's text of a name is to be escaped, as of most names."""
    return (text.isprintable() and PLAIN.fullmatch(text) is not None
            and not any(comma in octets for comma in COMMAS))


def escaped_attribute(attribute: str) -> str:
    kind, equals, value = attribute.partition("=")
    return kind + equals + escaped(value)


class Name(Fixed):
    """A name (RFC 5280, 4.1.2.4). Names are equal if their octets are.

    >>> import certpath
    >>> leaf, issuer = certpath.load("samples/fullchain.pem").items
    >>> leaf.issuer == issuer.subject, leaf.issuer.text
    (True, 'C=CZ, O=Example, CN=Example Intermediate')
    >>> certpath.Name(leaf.issuer.public_bytes()), str(certpath.Name(b"text"))
    (<Name(C=CZ, O=Example, CN=Example Intermediate)>, '#74657874')
    """
    _octets: bytes

    def __init__(self, octets: bytes) -> None:
        self._set(_octets=arguments.octets(octets, "a name"))

    def public_bytes(self) -> bytes:
        """The name's DER."""
        return self._octets

    @kept
    def raw_text(self) -> str:
        """The name as `certpath_name` gives it, whose values are as they are in the certificate.

        They may hold line ends and other control characters, so don't print it: `text` is made for
        that. BadName if the octets are no name.
        """
        octets, length = library.octets_of(self._octets)
        call = library.loaded().certpath_name
        return library.sized(lambda *room: call(octets, length, *room), ROOM).decode()

    @kept
    def text(self) -> str:
        """The name as text, as `C=DE, O=Example, CN=www.example.test`, fit for a line of a terminal.

        Attributes are in their order in the name. Values have the escapes of RFC 4514, 2.4: a
        comma of a value is `\\,`. What isn't printable is written as octets, as `\\0A`. A value never
        passes for several attributes. In a name that repeats within a value what two attributes
        are, these two may be shown as one value: compare names, not texts.

        BadName if the octets are no name, or have a value that can't be shown, as a
        TeletexString in Latin-1.
        """
        if self.raw_text == NO_TEXT:
            raise library.BadName("the name has a value that can't be shown as text")
        if is_plain(self.raw_text, self._octets):
            return self.raw_text
        return "".join(map(escaped_attribute, attributes_of(self.raw_text, self._octets)))

    def __str__(self) -> str:
        """The name as text, or `#` and its DER in hex if it has none."""
        try:
            return self.text
        except library.BadName:
            return f"#{self._octets.hex().upper()}"

    def __repr__(self) -> str:
        return f"<Name({self})>"

    def __eq__(self, other: object) -> bool:
        return isinstance(other, Name) and self._octets == other._octets

    def __hash__(self) -> int:
        return hash(self._octets)

    def __reduce__(self) -> Tuple[Type["Name"], Tuple[bytes]]:
        return Name, (self._octets,)
