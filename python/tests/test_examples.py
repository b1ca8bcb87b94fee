"""Runs the examples in the docstrings of the package, by doctest."""
import contextlib
import doctest
import importlib
import io
import os
import pkgutil
import re
import unittest

import certpath
from tests.common import TOP

try:
    from certpath import libcrypto
    libcrypto.loaded()
    HAS_OPENSSL = True
except ImportError:
    HAS_OPENSSL = False

# The modules that a script imports, but for those of packages that may be missing.
APART = ("certpath.libcertpath", ".libcrypto") + (() if HAS_OPENSSL else (".openssl", ".verifying"))
MODULES = [it.name for it in pkgutil.iter_modules(certpath.__path__, "certpath.")
           if not it.ispkg and not it.name.endswith(APART)]
# What no example brings about.
WITHOUT = {"LibraryMissing", "OutOfMemory"}
README = os.path.join(TOP, "python", "README.md")
PROGRAM = re.compile(r"(?ms)^```python\n(.*?)^```$")


class Examples(unittest.TestCase):
    def setUp(self):
        self.addCleanup(os.chdir, os.getcwd())
        os.chdir(TOP)

    def test_docstrings(self):
        """Each example has all that it needs, and prints what is below it."""
        for name in ("certpath", *MODULES):
            with self.subTest(name=name):
                ran = doctest.testmod(importlib.import_module(name), globs={})
                self.assertEqual(ran.failed, 0)

    def test_each_has_one(self):
        """Each class and each function that the package hands on, and some of their methods."""
        parser = doctest.DocTestParser()
        names = {it for it in certpath.__all__ if callable(getattr(certpath, it))} - WITHOUT
        self.assertGreater(len(names), 40)
        methods = certpath.Item.pem, certpath.Item.fingerprint, certpath.Certificate.extension
        for call in (*(getattr(certpath, it) for it in sorted(names)), *methods):
            with self.subTest(call=call.__qualname__):
                self.assertTrue(parser.get_examples(call.__doc__))

    @unittest.skipUnless(HAS_OPENSSL, "there is no libcrypto of OpenSSL 3")
    @unittest.skipUnless(os.path.exists(README), "README.md of the package isn't beside the tests")
    def test_programs(self):
        """The programs of README.md of the package run."""
        with open(README, encoding="utf-8") as file:
            programs = PROGRAM.findall(file.read())
        self.assertEqual(len(programs), 1)
        printed = io.StringIO()
        with contextlib.redirect_stdout(printed):
            exec(programs[0], {})
        self.assertRegex(printed.getvalue(), r"\AC=CZ, O=Example, CN=www\.example\.test 2031-\S+\n")
        self.assertTrue(printed.getvalue().endswith("\nvalid\n"))


if __name__ == "__main__":
    unittest.main()
