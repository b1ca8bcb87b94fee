"""A table of a whole log or of a large inventory, made block by block on many processes by Dask.

    from dask.distributed import Client
    from certpath import inventory

    with Client() as client:
        done = inventory.run(["log.json"], "table", inventory.Settings(anchors="roots.der"), client)

    inventory.write_sqlite("table", "table.sqlite")

Or `python3 -m certpath.inventory FILE.. --anchors FILE --out FOLDER`. docs/SCALE.md describes the
table. What is said of items is said by the proved library and program; all else only carries.
Needs Dask (`dask` and `distributed`), and pyarrow for a table in Parquet.
"""
from .databases import write as write_sqlite
from .parquet import write as write_parquet
from .running import Done, run
from .work import Settings
from .writing import CannotWrite

__all__ = ["CannotWrite", "Done", "Settings", "run", "write_parquet", "write_sqlite"]
