"""Takes the place of `pyarrow` in tests on machines without it: the calls that certpath.inventory
makes, with the types that pyarrow demands. A file is JSON. Of pyarrow itself this shows nothing.
"""
import json
import sys

# Rows of a batch: few, so that a part has several.
BATCH = 2
# The types, and which class of Python each takes.
INT64, STRING = "int64", "string"
CLASSES = {INT64: int, STRING: str}
# As `import pyarrow.parquet` finds it.
parquet = sys.modules[__name__]


def tried():
    """By a name the modules that tests are run with: this one, and pyarrow's own if it is there."""
    found = {"in its place": {"pyarrow": parquet, "pyarrow.parquet": parquet}}
    try:
        import pyarrow.parquet  # noqa: F401
        found["itself"] = {}
    except ImportError:
        pass
    return found.items()


def int64():
    return INT64


def string():
    return STRING


class Schema:
    """Names and types of columns, and metadata, which is octets."""

    def __init__(self, fields, metadata=None):
        self.fields, self.metadata = [tuple(it) for it in fields], metadata

    def with_metadata(self, metadata):
        return Schema(self.fields, {it.encode(): text.encode() for it, text in metadata.items()})


def schema(fields):
    return Schema(fields)


class Array:
    """A column. TypeError of a value of another type; UnicodeEncodeError of half a character."""

    def __init__(self, values, kind):
        self.values, self.kind = [*values], kind
        for it in self.values:
            if it is not None and type(it) is not CLASSES[kind]:
                raise TypeError(f"{it!r} is no {kind}")
            if kind == STRING and it is not None:
                it.encode()

    def to_pylist(self):
        return [*self.values]


def array(values, kind):
    return Array(values, kind)


class Table:
    """Columns of one length, each of the type of its field."""

    def __init__(self, columns, of):
        self.columns, self.schema = columns, of
        if [it.kind for it in columns] != [kind for _, kind in of.fields]:
            raise ValueError("types of columns and fields differ")
        if len({len(it.values) for it in columns}) > 1:
            raise ValueError("columns of several lengths")

    @staticmethod
    def from_arrays(arrays, schema):
        return Table(arrays, schema)

    def column(self, name):
        return self.columns[[it for it, _ in self.schema.fields].index(name)]

    def to_pylist(self):
        names = [it for it, _ in self.schema.fields]
        return [dict(zip(names, row)) for row in zip(*(it.values for it in self.columns))]

    def batches(self):
        """Its rows, some at a time."""
        rows = len(self.columns[0].values)
        return [Table([Array(it.values[at:at + BATCH], it.kind) for it in self.columns], self.schema)
                for at in range(0, rows, BATCH)]


class ParquetWriter:
    """Writes tables of one schema into a file, which is there once the context ends."""

    def __init__(self, where, schema):
        self.where, self.schema, self.rows = where, schema, [[] for _ in schema.fields]

    def __enter__(self):
        return self

    def write_table(self, table):
        if table.schema.fields != self.schema.fields:
            raise ValueError("another schema")
        for row, column in zip(self.rows, table.columns):
            row += column.values

    def __exit__(self, *_):
        given = self.schema.metadata
        metadata = given and {it.decode(): text.decode() for it, text in given.items()}
        with open(self.where, "w", encoding="ascii") as file:
            json.dump([self.schema.fields, metadata, self.rows], file)


def write_table(table, where):
    with ParquetWriter(where, table.schema) as writer:
        writer.write_table(table)


def read_table(where):
    with open(where, encoding="ascii") as file:
        fields, metadata, rows = json.load(file)
    of = Schema(fields) if metadata is None else Schema(fields).with_metadata(metadata)
    return Table([Array(values, kind) for values, (_, kind) in zip(rows, fields)], of)


class ParquetFile:
    """A file that is there."""

    def __init__(self, where):
        self.table = read_table(where)

    def iter_batches(self):
        return iter(self.table.batches())
