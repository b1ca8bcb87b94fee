"""Tries what an installation is made of: the wheel, ./install and the Debian package. Each is made
offline, without `rt`, used outside the checkout as README.md shows, and taken away again.

The trials are in `installing_prefix.py` and `installing_wheel.py`; by this name both are run.
"""
from trials import installing_prefix, installing_wheel


def load_tests(loader, tests, pattern):
    """The trials of both files, if this file is named: where all are run, each file brings its own."""
    if pattern is None:
        tests.addTests(map(loader.loadTestsFromModule, (installing_prefix, installing_wheel)))
    return tests
