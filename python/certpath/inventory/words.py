"""The words of the command line. Nothing here needs Dask."""
import argparse
import os
import sys
from datetime import datetime

from ..items import LIMIT
from ..openssl import MOST_TRIES
from .blocks import BLOCKSIZE
from .tables import CSV, WRITERS

LARGEST = 4294967295
MODULE = "python3 -m certpath.inventory"


def number(text: str) -> int:
    """A number as `certpath` takes it."""
    if not text.isascii() or not text.isdigit() or int(text) > LARGEST:
        raise argparse.ArgumentTypeError(f"bad number: {text}")
    return int(text)


def at_least_one(text: str) -> int:
    if number(text) == 0:
        raise argparse.ArgumentTypeError(f"bad number: {text}")
    return number(text)


def moment(text: str) -> datetime:
    try:
        return datetime.strptime(text, "%Y-%m-%dT%H:%M:%S")
    except ValueError:
        raise argparse.ArgumentTypeError(f"bad moment: {text}") from None


def add_judging(made: argparse.ArgumentParser):
    """Words on what is asked of the items."""
    made.add_argument("--anchors", required=True, metavar="FILE",
                      help="trust anchors, a file of PEM, DER or PKCS #7")
    made.add_argument("--at", type=moment, metavar="YYYY-MM-DDTHH:MM:SS", help="in UTC; now")
    made.add_argument("--vouchers", metavar="FILE", help="is believed; else OpenSSL verifies")
    made.add_argument("--weak", action="store_true", help="accept MD5, SHA-1 and short keys")
    made.add_argument("--tries", type=at_least_one, default=MOST_TRIES, metavar="N",
                      help="keys that are tried for an item, at most")
    made.add_argument("--demand-lists", action="store_true",
                      help="each certificate needs a revocation list that is used")
    made.add_argument("--limit", type=number, default=LIMIT, metavar="N",
                      help="the most content octets of an item")
    made.add_argument("--names", action="store_true",
                      help="say which hosts each certificate names, by a run of certpath for each")
    made.add_argument("--no-why", dest="why", action="store_false",
                      help="don't say what stands in the way of a path")


def add_running(made: argparse.ArgumentParser):
    """Words on where the work is done."""
    where = made.add_mutually_exclusive_group()
    where.add_argument("--workers", type=at_least_one, default=0, metavar="N",
                       help="processes on this machine; one for each core")
    where.add_argument("--scheduler", metavar="ADDRESS", help="of Dask, as tls://10.0.0.1:8786")
    made.add_argument("--tls-ca-file", metavar="FILE", help="who signed its certificate")
    made.add_argument("--tls-cert", metavar="FILE", help="the certificate that is shown to it")
    made.add_argument("--tls-key", metavar="FILE", help="its key")
    made.add_argument("--insecure", action="store_true",
                      help="take one without TLS: whoever reaches it runs code on its workers")
    made.add_argument("--blocksize", type=at_least_one, default=BLOCKSIZE, metavar="N",
                      help="octets of a block, about")
    made.add_argument("--program", default="", metavar="FILE",
                      help="certpath, where it isn't found")


def parser() -> argparse.ArgumentParser:
    # (an installation has a command for it)
    name = os.path.basename(sys.argv[0])
    made = argparse.ArgumentParser(prog=name if name.startswith("certpath") else MODULE,
                                   allow_abbrev=False, description="Makes a table of certificates "
                                   "and of entries of transparency logs, on many processes "
                                   "(docs/SCALE.md).")
    made.add_argument("files", nargs="*", metavar="FILE",
                      help="items in DER, an answer of a log to get-entries, either of them "
                      "compressed by gzip, or a folder of such files")
    made.add_argument("--files-from", dest="lists", action="append", default=[], metavar="FILE",
                      help="further files, a name a line; - for standard input")
    made.add_argument("--ranges", action="store_true",
                      help="names of answers end with the log's numbers of their entries, as 0-999")
    made.add_argument("--tree-head", default="", metavar="FILE",
                      help="compare all entries with a log's answer to get-sth; its signature isn't "
                      "looked at")
    made.add_argument("--out", required=True, metavar="FOLDER",
                      help="a new or empty folder, or that of the run to --resume")
    made.add_argument("--resume", action="store_true",
                      help="go on with a run that has ended early, asked for by equal words")
    made.add_argument("--sqlite", default="", metavar="FILE",
                      help="write the table as a database of SQLite, too: a new file")
    made.add_argument("--parquet", default="", metavar="FILE",
                      help="write the entries as one file of Parquet, too: a new file")
    made.add_argument("--format", dest="form", choices=[*WRITERS], default=CSV,
                      help="of the parts of the table; Parquet needs pyarrow")
    add_judging(made)
    add_running(made)
    return made
