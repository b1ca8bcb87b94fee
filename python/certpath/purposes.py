"""Purposes of certificates (RFC 5280, 4.2.1.12), by name or by number."""
from typing import Union

from . import arguments
from .identifiers import octets_of

# Under id-kp, 1.3.6.1.5.5.7.3 (RFC 5280, 4.2.1.12), by the names that it has there.
NAMES = {"serverAuth": "1.3.6.1.5.5.7.3.1", "clientAuth": "1.3.6.1.5.5.7.3.2",
         "codeSigning": "1.3.6.1.5.5.7.3.3", "emailProtection": "1.3.6.1.5.5.7.3.4",
         "timeStamping": "1.3.6.1.5.5.7.3.8", "OCSPSigning": "1.3.6.1.5.5.7.3.9"}
# Shorter names, and those of `openssl verify -purpose`.
OTHERS = {"server": "serverAuth", "client": "clientAuth", "sslserver": "serverAuth",
          "sslclient": "clientAuth", "codesign": "codeSigning", "smimesign": "emailProtection",
          "smimeencrypt": "emailProtection", "timestampsign": "timeStamping"}
BY_LETTERS = {it.lower(): it for it in NAMES} | OTHERS


def name_of(purpose: str) -> str:
    """A purpose as it is shown: its name in RFC 5280, or the number itself."""
    known = BY_LETTERS.get(purpose.lower())
    if known is not None:
        return known
    return next((name for name, number in NAMES.items() if number == purpose), purpose)


def identifier_of(purpose: Union[str, bytes]) -> bytes:
    """The content octets of a purpose's OBJECT IDENTIFIER: of a name as `serverAuth` or
    `sslserver`, a number as `1.3.6.1.5.5.7.3.1`, or those octets themselves.

    ValueError of a text that is neither a known name nor such a number.
    """
    if not isinstance(purpose, str):
        return arguments.octets(purpose, "the purpose", "a name as 'serverAuth' is needed, numbers "
                                "as '1.3.6.1.5.5.7.3.1', or content octets")
    known = BY_LETTERS.get(purpose.lower())
    return octets_of(NAMES[known] if known is not None else purpose, "the purpose",
                     f"neither a number nor one of {', '.join([*NAMES, *OTHERS])}")
