"""What the families that cost more have more of: a name for each kind, under which docs/COST.md has
its bound, and what the families of the kind keep to."""
from family import Known


def square(name, times=300):
    """A kind that takes four times the time, or the memory, or both, at a doubling."""
    return Known(name, 5.5, times, 10.0)


# Reaches that change from row to row, and what is kept to look up paths by them; how many members
# of a group a look-up goes over; positions of paths; lines of `questions`; rows that `recheck`
# reads; entries that are looked up for many keys.
ROWS = square("rows")
LOOKED_UP = Known("rows", growth=8, times=600)
STAIRS = Known("stairs", growth=4, times=400, seconds=5.0)
PATHS = square("paths")
QUESTIONS = square("questions", 5_000)
EVIDENCE = square("evidence")
LISTS = Known("lists", growth=3.4)
# Of `why`: a certificate and a key of its issuer's name that uses a list of its own, which are
# printed, and a certificate with a row of lists of its own and one that signed it; and the lines of
# many issuers. Runs of ./verify that ask it until their seconds are over.
OF_LINKS = square("links")
OF_ISSUERS = Known("why", times=21)
WHY_OF_VERIFY = Known("why", growth=5.5, times=30, seconds=12.0, least=320_000_000)
# Items of two octets, small certificates, and elements of two octets within an item.
ITEMS = Known("items", times=280)
ITEMS_OF_WHY = ITEMS._replace(times=500)
CERTIFICATES_OF_WHY = ITEMS._replace(times=21)
ELEMENTS = Known("elements", times=93)
# What ./bundle says of each item that it leaves out.
LEFT_OUT = Known("left out", times=110)
# How often OpenSSL is asked to verify a signature.
VERIFICATIONS = Known("verifications", growth=2.8, times=30, seconds=20.0)
# Keys of RSA with 16,384 bits, of which 16 have to be read at each size.
LARGE_KEYS = Known("verifications", growth=12, times=30, seconds=100.0)
# Keys on the curve that takes longest, with one verification an item.
BINARY_CURVES = Known("verifications", growth=2.8, times=30, seconds=60.0)
# What Python keeps of each item, and of each answer until it is printed.
OBJECTS = Known("objects", times=130, least=120_000_000)
