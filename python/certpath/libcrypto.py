"""OpenSSL's own verifying of certificates and revocation lists, called in its library, and what it
reads of their algorithms."""
import ctypes
import re
import ssl
from collections import OrderedDict
from contextlib import contextmanager
from ctypes import POINTER, c_char_p, c_int, c_long, c_size_t, c_ulong, c_void_p
from typing import Any, Dict, Iterator, List, NamedTuple, Optional, Sequence, Tuple

from .algorithms import DIGESTS, LARGE, MOST_DSA, PSS, PSS_DIGESTS, why_refused
from .library import OutOfMemory

CERTIFICATE, LIST = "certificate", "list"
POINTED = POINTER(c_void_p)
# Each function that is called: what it answers, and what it takes.
FUNCTIONS: Dict[str, Tuple[Any, List[Any]]] = {
    "d2i_X509": (c_void_p, [c_void_p, POINTED, c_long]),
    "d2i_X509_CRL": (c_void_p, [c_void_p, POINTED, c_long]),
    "d2i_PUBKEY": (c_void_p, [c_void_p, POINTED, c_long]),
    "X509_free": (None, [c_void_p]),
    "X509_CRL_free": (None, [c_void_p]),
    "EVP_PKEY_free": (None, [c_void_p]),
    "X509_get0_signature": (None, [c_void_p, POINTED, c_void_p]),
    "X509_CRL_get0_signature": (None, [c_void_p, c_void_p, POINTED]),
    "X509_get0_tbs_sigalg": (c_void_p, [c_void_p]),
    "X509_ALGOR_cmp": (c_int, [c_void_p, c_void_p]),
    "d2i_ASN1_SEQUENCE_ANY": (c_void_p, [c_void_p, POINTED, c_long]),
    "OPENSSL_sk_num": (c_int, [c_void_p]),
    "OPENSSL_sk_value": (c_void_p, [c_void_p, c_int]),
    "OPENSSL_sk_pop_free": (None, [c_void_p, c_void_p]),
    "ASN1_TYPE_free": (None, [c_void_p]),
    "X509_get_ext_d2i": (c_void_p, [c_void_p, c_int, c_void_p, c_void_p]),
    "X509_CRL_get_ext_d2i": (c_void_p, [c_void_p, c_int, c_void_p, c_void_p]),
    "ASN1_OCTET_STRING_free": (None, [c_void_p]),
    "AUTHORITY_KEYID_free": (None, [c_void_p]),
    "X509_ALGOR_get0": (None, [POINTED, POINTER(c_int), POINTED, c_void_p]),
    "OBJ_obj2txt": (c_int, [c_char_p, c_int, c_void_p, c_int]),
    "OBJ_length": (c_size_t, [c_void_p]),
    "OBJ_get0_data": (c_void_p, [c_void_p]),
    "ASN1_STRING_get0_data": (c_void_p, [c_void_p]),
    "ASN1_STRING_length": (c_int, [c_void_p]),
    "d2i_RSA_PSS_PARAMS": (POINTED, [c_void_p, POINTED, c_long]),
    "RSA_PSS_PARAMS_free": (None, [POINTED]),
    "X509_verify": (c_int, [c_void_p, c_void_p]),
    "X509_CRL_verify": (c_int, [c_void_p, c_void_p]),
    "EVP_PKEY_get_bits": (c_int, [c_void_p]),
    "EVP_PKEY_get_security_bits": (c_int, [c_void_p]),
    "EVP_PKEY_get0_type_name": (c_char_p, [c_void_p]),
    "EVP_PKEY_get_bn_param": (c_int, [c_void_p, c_char_p, POINTED]),
    "BN_num_bits": (c_int, [c_void_p]),
    "BN_free": (None, [c_void_p]),
    "ERR_clear_error": (None, []),
    "ERR_get_error": (c_ulong, []),
    "ERR_reason_error_string": (c_char_p, [c_ulong]),
}
# The type of what is a SEQUENCE (V_ASN1_SEQUENCE), and room for an identifier's text.
SEQUENCE, TEXT_ROOM = 16, 256
# Of a longer identifier its first octets alone are shown: OpenSSL takes long for its text.
MOST_SHOWN = 32
# What a kind of item goes by in the names of functions.
NAMES = {CERTIFICATE: "X509", LIST: "X509_CRL"}
# The numbers of the extensions that have key identifiers (NID_subject_key_identifier, NID_authority_key_identifier).
SUBJECT_KEY_ID, AUTHORITY_KEY_ID = 82, 90
# A key that is worth fewer bits of security is weak: RSA and DSA below 2048 bits, elliptic curves below 224.
FEWEST_BITS = 112
# OpenSSL verifies by longer exponents too if the modulus has at most 3,072 bits; that takes it up to 10 ms.
MOST_EXPONENT_BITS = 64
DSA = "DSA"
# OpenSSL holds some 3 KB for each key.
MOST_KEYS = 1024
UNREAD, LONG_EXPONENT = "openssl cannot read its key", f"its key has an exponent of more than {MOST_EXPONENT_BITS} bits"
# What OpenSSL notes if it has nothing to say but that a signature is wrong.
WRONG, NO_REASONS = "wrong signature", ("EVP lib",)
# What it notes if it gets no memory (ERR_R_MALLOC_FAILURE).
NO_MEMORY = "malloc failure"


class AnyType(ctypes.Structure):
    """ASN1_TYPE: of a SEQUENCE the value is an ASN1_STRING with all of its octets."""
    _fields_ = [("type", c_int), ("value", c_void_p)]


class Missing(ImportError):
    """There is no libcrypto of OpenSSL 3."""


def candidates() -> List[str]:
    """The library that Python itself uses, whatever its name, then the one of OpenSSL 3."""
    try:
        with open("/proc/self/maps", encoding="utf-8", errors="surrogateescape") as maps:
            found = re.findall(r"(?m)(/\S*/libcrypto\.so\S*)$", maps.read())
    except OSError:
        found = []
    return [*found[:1], "libcrypto.so.3"]


def loaded() -> Any:
    """The library with all functions typed, so that no pointer is cut to an int."""
    refused: Optional[Exception] = None
    for name in candidates():
        try:
            library = ctypes.CDLL(name)
            for function, (answer, takes) in FUNCTIONS.items():
                called = getattr(library, function)
                called.restype, called.argtypes = answer, takes
            return library
        except (OSError, AttributeError) as error:
            refused = error
    raise Missing("no libcrypto of OpenSSL 3 is there, and Python has "
                  f"{ssl.OPENSSL_VERSION}") from refused


class Key(NamedTuple):
    """A key: its element's octets, the pointer to what OpenSSL made of them, none if it isn't used, in which words it is weak, none
    if it isn't, and why it isn't used, none if it is."""
    octets: bytes
    handle: Optional[int]
    weak: Optional[str]
    why: Optional[str] = None


class Verifier:
    """Asks OpenSSL. The keys that were asked for last are kept, at most so many, until `close` or
    the end of the `with` block frees them."""

    def __init__(self, most: int = MOST_KEYS) -> None:
        self.keys: "OrderedDict[bytes, Key]" = OrderedDict()
        self.most = most
        self.library = loaded()

    def __enter__(self) -> "Verifier":
        return self

    def __exit__(self, *_: object) -> None:
        self.close()

    def __del__(self) -> None:
        self.close()

    def close(self) -> None:
        """Frees all keys that are kept. Whoever asks for a key again has it read anew."""
        while self.keys:
            self.drop_oldest()

    def read(self, function: str, octets: bytes) -> Tuple[Any, bool]:
        """What a d2i function makes of the octets, if it takes all of them; OutOfMemory if that is why
        it makes nothing, so that nothing is taken for unreadable that could be read."""
        held = ctypes.create_string_buffer(octets, len(octets))
        at = c_void_p(ctypes.addressof(held))
        made = getattr(self.library, function)(None, ctypes.byref(at), len(octets))
        if made is None:
            self.reason()
        return made, made is not None and at.value == ctypes.addressof(held) + len(octets)

    def key(self, octets: bytes) -> Key:
        """The key of an element's octets, whose handle is there until further keys are asked for."""
        if octets not in self.keys:
            self.make_room()
            self.keys[octets] = self.read_key(octets)
            self.library.ERR_clear_error()
        self.keys.move_to_end(octets)
        return self.keys[octets]

    def make_room(self) -> None:
        """Frees the key that was asked for the longest time ago, if there is no room for another."""
        if len(self.keys) >= self.most:
            self.drop_oldest()

    def drop_oldest(self) -> None:
        """Frees the key that was asked for the longest time ago."""
        _, oldest = self.keys.popitem(last=False)
        if oldest.handle is not None:
            self.library.EVP_PKEY_free(oldest.handle)

    def read_key(self, octets: bytes) -> Key:
        """What OpenSSL makes of a key element, if it is shown that."""
        why = why_refused(octets)
        if why:
            return Key(octets, None, None, why)
        handle, is_whole = self.read("d2i_PUBKEY", octets)
        if handle is None:
            return Key(octets, None, None, UNREAD)
        why = self.why_unused(handle) if is_whole else UNREAD
        if why is None:
            return Key(octets, handle, self.weakness(handle))
        self.library.EVP_PKEY_free(handle)
        return Key(octets, None, None, why)

    def why_unused(self, handle: int) -> Optional[str]:
        """Why a key isn't used that OpenSSL would take long to verify by; none if it is."""
        if self.exponent_bits(handle) > MOST_EXPONENT_BITS:
            return LONG_EXPONENT
        is_large = self.type_name(handle) == DSA and self.library.EVP_PKEY_get_bits(handle) > MOST_DSA
        return LARGE.format(MOST_DSA) if is_large else None

    def type_name(self, handle: int) -> str:
        return bytes(self.library.EVP_PKEY_get0_type_name(handle) or b"unnamed").decode()

    def exponent_bits(self, handle: int) -> int:
        """How many bits the public exponent of an RSA key has; 0 of another key."""
        number = c_void_p()
        if self.library.EVP_PKEY_get_bn_param(handle, b"e", ctypes.byref(number)) != 1:
            return 0
        bits = int(self.library.BN_num_bits(number))
        self.library.BN_free(number)
        return bits

    def weakness(self, handle: int) -> Optional[str]:
        """In which words a key is weak, none if it isn't."""
        if self.library.EVP_PKEY_get_security_bits(handle) >= FEWEST_BITS:
            return None
        return f"{self.library.EVP_PKEY_get_bits(handle)}-bit {self.type_name(handle)} key"

    def reason(self) -> str:
        """The first reason that OpenSSL has noted, and forgets then; OutOfMemory if it got no memory."""
        noted = self.library.ERR_reason_error_string(self.library.ERR_get_error())
        self.library.ERR_clear_error()
        text = bytes(noted).decode(errors="replace") if noted else WRONG
        if text == NO_MEMORY:
            raise OutOfMemory("out of memory: OpenSSL got none")
        return WRONG if text in NO_REASONS else text

    @contextmanager
    def reading(self, kind: str, octets: bytes) -> Iterator[Optional["Read"]]:
        """An item as OpenSSL reads it, as long as the context lasts; none if OpenSSL cannot read it."""
        handle, is_whole = self.read(f"d2i_{NAMES[kind]}", octets)
        self.library.ERR_clear_error()
        try:
            yield Read(self, kind, octets, handle) if is_whole else None
        finally:
            if handle is not None:
                getattr(self.library, f"{NAMES[kind]}_free")(handle)

    def subject_key_id(self, octets: bytes) -> Optional[bytes]:
        """The identifier that a certificate gives its key, none if it has none that can be read."""
        with self.reading(CERTIFICATE, octets) as read:
            return read.subject_key_id() if read else None

    def parts_of(self, algorithm: Any) -> Tuple[str, Optional[c_void_p]]:
        """An algorithm's identifier as text, and its parameters if they are a SEQUENCE."""
        identifier, kind, parameters = c_void_p(), c_int(), c_void_p()
        self.library.X509_ALGOR_get0(ctypes.byref(identifier), ctypes.byref(kind), ctypes.byref(parameters), algorithm)
        return self.identifier_of(identifier), parameters if kind.value == SEQUENCE else None

    def identifier_of(self, identifier: c_void_p) -> str:
        """An object identifier as text (X.690, 8.19), by its octets if it is long."""
        length = self.library.OBJ_length(identifier)
        if length > MOST_SHOWN:
            return f"of {length} octets that begin with {ctypes.string_at(self.library.OBJ_get0_data(identifier), MOST_SHOWN).hex()}"
        text = ctypes.create_string_buffer(TEXT_ROOM)
        self.library.OBJ_obj2txt(text, TEXT_ROOM, identifier, 1)
        return text.value.decode()

    def algorithm_of(self, algorithm: Any) -> Tuple[str, Optional[str]]:
        """An algorithm's identifier as text, and the digest that it takes: none of one that isn't known."""
        identifier, parameters = self.parts_of(algorithm)
        return identifier, self.pss_digest(parameters) if identifier == PSS else DIGESTS.get(identifier)

    def pss_digest(self, parameters: Optional[c_void_p]) -> Optional[str]:
        """The digest that parameters of RSA-PSS name (RFC 4055, 3.1), none if it isn't known."""
        if parameters is None:
            return None
        at = c_void_p(self.library.ASN1_STRING_get0_data(parameters))
        read = self.library.d2i_RSA_PSS_PARAMS(None, ctypes.byref(at), self.library.ASN1_STRING_length(parameters))
        self.library.ERR_clear_error()
        if not read:
            return None
        try:
            # (its first field is the digest's algorithm, null if that is SHA-1)
            digest = read[0]
            return PSS_DIGESTS.get(self.parts_of(digest)[0]) if digest else "sha1"
        finally:
            self.library.RSA_PSS_PARAMS_free(read)

    def sequences_in(self, octets: bytes) -> List[bytes]:
        """The parts of a SEQUENCE that are SEQUENCEs, each with all of its octets."""
        parts, _ = self.read("d2i_ASN1_SEQUENCE_ANY", octets)
        try:
            found = [AnyType.from_address(self.library.OPENSSL_sk_value(parts, number)) for number in range(self.library.OPENSSL_sk_num(parts))]
            strings = (self.string_of(it.value) for it in found if it.type == SEQUENCE)
            return [it for it in strings if it is not None]
        finally:
            self.library.OPENSSL_sk_pop_free(parts, ctypes.cast(self.library.ASN1_TYPE_free, c_void_p))

    def string_of(self, pointer: Optional[int]) -> Optional[bytes]:
        """The octets of an ASN1_STRING, none if there is none."""
        if not pointer:
            return None
        return ctypes.string_at(self.library.ASN1_STRING_get0_data(pointer), self.library.ASN1_STRING_length(pointer))


class Read:
    """An item that OpenSSL has read."""

    def __init__(self, verifier: Verifier, kind: str, octets: bytes, handle: int) -> None:
        self.verifier, self.library = verifier, verifier.library
        self.kind, self.octets, self.handle = kind, octets, handle

    def call(self, name: str, *further: Any) -> Any:
        """Calls a function that there is for both kinds of items."""
        return getattr(self.library, f"{NAMES[self.kind]}_{name}")(self.handle, *further)

    def signed_by(self) -> c_void_p:
        """The X509_ALGOR beside the signature."""
        found = c_void_p()
        if self.kind == CERTIFICATE:
            self.library.X509_get0_signature(None, ctypes.byref(found), self.handle)
        else:
            self.library.X509_CRL_get0_signature(self.handle, None, ctypes.byref(found))
        return found

    def has_one_algorithm(self) -> bool:
        """Whether the algorithm within what is signed is the one beside the signature (RFC 5280, 4.1.1.2 and 5.1.1.2)."""
        if self.kind == CERTIFICATE:
            within = self.library.X509_get0_tbs_sigalg(self.handle)
            return bool(self.library.X509_ALGOR_cmp(self.signed_by(), within) == 0)
        # (of a list OpenSSL 3.0 shows the one beside the signature alone)
        signed, beside = self.verifier.sequences_in(self.octets)
        return self.verifier.sequences_in(signed)[0] == beside

    def algorithm(self) -> Tuple[str, Optional[str]]:
        """The identifier of the signature's algorithm as text, and the digest that it takes: none of one that isn't known."""
        return self.verifier.algorithm_of(self.signed_by())

    def refusals(self, keys: Sequence[bytes]) -> List[Optional[str]]:
        """Why each key, by its element's octets, doesn't verify the signature; none if it does."""
        return [self.refusal(self.verifier.key(one_key)) for one_key in keys]

    def refusal(self, key: Key) -> Optional[str]:
        if key.why:
            return key.why.replace("its key", "the key")
        # 1 alone is yes: 0 is a wrong signature, -1 a key of another type, unused bits, or a signature in another spelling
        is_verified = self.call("verify", key.handle) == 1
        reason = self.verifier.reason()
        return None if is_verified else reason

    def extension(self, number: int) -> Any:
        """The value of an extension that is there once, as OpenSSL reads it; none if there is none."""
        found = self.call("get_ext_d2i", number, None, None)
        self.library.ERR_clear_error()
        return found

    def subject_key_id(self) -> Optional[bytes]:
        """The identifier of a certificate's own key (RFC 5280, 4.2.1.2), none if it has none."""
        found = self.extension(SUBJECT_KEY_ID)
        try:
            return self.verifier.string_of(found)
        finally:
            self.library.ASN1_OCTET_STRING_free(found)

    def authority_key_id(self) -> Optional[bytes]:
        """The identifier of the key that signed the item (RFC 5280, 4.2.1.1 and 5.2.1), none if it has none."""
        found = self.extension(AUTHORITY_KEY_ID)
        try:
            # (the first field of an AUTHORITY_KEYID is the key identifier)
            return self.verifier.string_of(ctypes.cast(found, POINTED)[0]) if found else None
        finally:
            self.library.AUTHORITY_KEYID_free(found)
