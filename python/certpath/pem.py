"""PEM blocks, written. They are read by `load`, in the library."""
import base64

# How many characters a line of a block has (RFC 7468, 2).
LINE = 64


def block_of(label: str, octets: bytes) -> str:
    """A PEM block with a label, ended by a line end (RFC 7468, 3)."""
    text = base64.b64encode(octets).decode()
    lines = [text[it:it + LINE] for it in range(0, len(text), LINE)]
    return "\n".join([f"-----BEGIN {label}-----", *lines, f"-----END {label}-----", ""])
