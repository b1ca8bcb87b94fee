"""The table of entries as one file of Parquet, made of the parts of a finished one."""
import os

from . import tables
from .jobs import RECORD
from .work import ENTRIES
from .writing import whole

# The key under which a file of Parquet has the record of the run.
RUN = "run"


def write(out: str, path: str):
    """Writes the entries of the table in the folder `out`, which is finished, as one file of
    Parquet: a new one, or in the place of one that is there. The record of the run is in its
    metadata. NoParquet where pyarrow isn't there, CannotWrite where the file can't be written."""
    writer = tables.parquet_module().ParquetWriter
    path = os.path.abspath(path)
    with open(os.path.join(out, RECORD), encoding="utf-8") as file:
        schema = tables.arrow_table([]).schema.with_metadata({RUN: file.read()})
    with whole(path, os.path.dirname(path)) as begun, writer(begun, schema) as opened:
        for part, form in tables.parts(os.path.join(out, ENTRIES)):
            opened.write_table(tables.arrow_table([*tables.read(part, form)]))
