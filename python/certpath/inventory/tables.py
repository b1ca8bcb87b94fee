"""Tables: files of rows, as CSV or as Parquet."""
import csv
import os
from typing import Iterable, Iterator, List, Sequence, Tuple, Union

from .rows import Row
from .writing import whole

CSV, PARQUET = "csv", "parquet"
# The name of a column that is no word of Python.
HEADINGS = ["class" if it == "kind" else it for it in Row._fields]
# Columns that are numbers, but for CSV; all others are text.
NUMBERS = ("offset", "log_index", "length")


class NoParquet(ImportError):
    """Parquet is asked for, and pyarrow isn't there."""


def parquet_module():
    """The module that writes Parquet; NoParquet."""
    try:
        import pyarrow.parquet  # type: ignore[import]
    except ImportError as error:
        raise NoParquet(f"no Parquet: {error}; `pip install pyarrow`") from error
    return pyarrow.parquet


def value(heading: str, held: Union[str, int, None]) -> Union[str, int, None]:
    """What is in a column of a database or of Parquet; None where the row doesn't have it."""
    if held is None or held == "":
        return None
    if heading in NUMBERS or isinstance(held, int):
        return int(held)
    return held.encode(errors="surrogateescape").decode(errors="backslashreplace")


def write_csv(path: str, rows: Iterable[Row]):
    with open(path, "w", encoding="utf-8", errors="surrogateescape", newline="") as file:
        writer = csv.writer(file, lineterminator="\n")
        writer.writerow(HEADINGS)
        writer.writerows(rows)


def arrow_table(rows: Sequence[Sequence]):
    """Rows as a table of pyarrow."""
    import pyarrow  # type: ignore[import]
    fields = [(it, pyarrow.int64() if it in NUMBERS else pyarrow.string()) for it in HEADINGS]
    columns = [[value(it, row[at]) for row in rows] for at, it in enumerate(HEADINGS)]
    arrays = [pyarrow.array(column, kind) for column, (_, kind) in zip(columns, fields)]
    return pyarrow.Table.from_arrays(arrays, schema=pyarrow.schema(fields))


def write_parquet(path: str, rows: List[Row]):
    parquet_module().write_table(arrow_table(rows), path)


def read_csv(path: str) -> Iterator[Tuple[str, ...]]:
    with open(path, encoding="utf-8", errors="surrogateescape", newline="") as file:
        rows = csv.reader(file)
        next(rows)
        yield from (tuple(it) for it in rows)


def read_parquet(path: str) -> Iterator[Tuple[Union[str, int, None], ...]]:
    for batch in parquet_module().ParquetFile(path).iter_batches():
        yield from zip(*(it.to_pylist() for it in batch.columns))


WRITERS = {CSV: write_csv, PARQUET: write_parquet}
READERS = {CSV: read_csv, PARQUET: read_parquet}


def part(folder: str, number: int, form: str) -> str:
    """The name of a part of a table."""
    return os.path.join(folder, f"part-{number:06}.{form}")


def parts(folder: str) -> Iterator[Tuple[str, str]]:
    """The parts of a table in their order, each with its format."""
    for name in sorted(os.listdir(folder)):
        yield os.path.join(folder, name), name.rpartition(".")[2]


def read(path: str, form: str) -> Iterator[tuple]:
    """The rows of a part, without the headings."""
    return READERS[form](path)


def write(path: str, rows: List[Row], form: str, work: str) -> int:
    """Writes a part of a table, begun in the folder `work`, and counts the rows that are there."""
    with whole(path, work) as begun:
        WRITERS[form](begun, rows)
    return sum(1 for _ in read(path, form))
