"""The table as a database of SQLite, made of the parts of a finished one."""
import os
import sqlite3
from contextlib import closing
from typing import Iterator, List

from . import tables
from .jobs import RECORD
from .work import ENTRIES, ISSUERS
from .writing import CannotWrite, whole

# The columns of two entries that have to be equal where a certificate was issued for a
# precertificate (RFC 6962, 3.1 and 3.2): both are of one issuer and serial number, or have one
# TBSCertificate.
EQUAL = ("subject", "key_sha256", "algorithm", "not_before", "not_after", "tbs_sha256")
DIFFERING = " || ".join(f"CASE WHEN pre.{it} IS final.{it} THEN '' ELSE '{it} ' END" for it in EQUAL)
ISSUED = f"""CREATE VIEW issued AS SELECT DISTINCT
pre.sha256 AS precertificate, final.sha256 AS certificate, trim({DIFFERING}) AS differing
FROM entries AS pre JOIN entries AS final ON final.serial = pre.serial
AND (final.issuer = pre.issuer OR final.tbs_sha256 = pre.tbs_sha256)
WHERE pre.source = 'precert_entry' AND final.source <> 'precert_entry' AND final.class = 'cert'"""
INDEXED = ("sha256", "subject", "issuer", "serial", "key_sha256", "not_after", "outcome",
           "log_index")


def rows(folder: str) -> Iterator[List]:
    for path, form in tables.parts(folder):
        for row in tables.read(path, form):
            yield [*map(tables.value, tables.HEADINGS, row)]


def fill(opened: sqlite3.Connection, out: str):
    """Writes both tables, their indexes, and the record of the run."""
    kinds = ((it, "INTEGER" if it in tables.NUMBERS else "TEXT") for it in tables.HEADINGS)
    columns = ", ".join(f'"{heading}" {kind}' for heading, kind in kinds)
    places = ", ".join("?" * len(tables.HEADINGS))
    for name in (ENTRIES, ISSUERS):
        opened.execute(f"CREATE TABLE {name} ({columns})")
        opened.executemany(f"INSERT INTO {name} VALUES ({places})", rows(os.path.join(out, name)))
        for it in INDEXED:
            opened.execute(f"CREATE INDEX {name}_{it} ON {name} ({it})")
    opened.execute(ISSUED)
    opened.execute("CREATE TABLE run (record TEXT)")
    with open(os.path.join(out, RECORD), encoding="utf-8") as file:
        opened.execute("INSERT INTO run VALUES (?)", (file.read(),))


def write(out: str, path: str):
    """Writes the table in the folder `out`, which is finished, as a database: a new file, or in the
    place of one that is there. CannotWrite where it can't be written."""
    path = os.path.abspath(path)
    with whole(path, os.path.dirname(path)) as begun:
        try:
            with closing(sqlite3.connect(begun, isolation_level=None)) as opened:
                # (the file is thrown away where anything fails, so nothing is written twice)
                opened.execute("PRAGMA journal_mode = OFF")
                opened.execute("PRAGMA synchronous = OFF")
                opened.execute("BEGIN")
                fill(opened, out)
                opened.execute("COMMIT")
        except sqlite3.Error as error:
            raise CannotWrite(f"cannot write {path}: {error}") from error
