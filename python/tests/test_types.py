"""Tries the type hints of the package: each public call has them, and a checker finds wrong callers.

    cd python && python3 -m unittest
"""
import ast
import os
import re
import shutil
import subprocess
import tempfile
import unittest

import certpath

FOLDER = os.path.dirname(certpath.__file__)
# The modules that callers use, by the names that `certpath` and `certpath.openssl` hand on.
MODULES = ("cutting", "extensions", "forms", "identifiers", "items", "loading", "moments", "names",
           "openssl", "paths", "pem", "purposes", "questions", "reports", "serving", "stores",
           "verifying", "vouchers")
CALLER = """\
from datetime import datetime, timezone
import certpath
import certpath.openssl

bundle = certpath.frame(b"")
first: certpath.Item = bundle[0]
several: list[certpath.Item] = bundle[0:2]
vouchers = certpath.openssl.vouch(bundle, b"").vouchers
now = datetime.now(timezone.utc)
answer = certpath.find(bundle, bytearray(), vouchers, target=0, at=now)
print(certpath.check(answer), answer.positions, first.kind, several)
print(certpath.why(bundle, b"", vouchers, 0, now, host="a.test", purpose="serverAuth"))
certpath.frame("")  # wrong
certpath.find(bundle, b"", vouchers, target="0", at=now)  # wrong
certpath.find(bundle, b"", vouchers, target=0, at=None)  # wrong
certpath.find(bundle, "", vouchers, target=0, at=now)  # wrong
certpath.find(bundle, b"", [b""], target=0, at=now)  # wrong
certpath.Vouchers([("a", "b")])  # wrong
certpath.Certificate("leaf.der")  # wrong
pairs: list[tuple[bytes, bytes]] = [*vouchers]
certpath.check(7)  # wrong
certpath.path(bundle, b"", vouchers, 0, now, host=7)  # wrong
certpath.paths(bundle, b"", vouchers, now, host="a.test")  # wrong
certpath.openssl.vouch(bundle, b"", weak="no")  # wrong
text: str = bundle[0]  # wrong
"""


def functions(tree):
    """The public functions and methods of a module, but for the one that overloads describe."""
    for at in (tree, *(it for it in tree.body if isinstance(it, ast.ClassDef))):
        overloaded = {it.name for it in at.body if is_overload(it)}
        for it in at.body:
            is_hidden = it.name.startswith("_") and it.name not in ("__init__", "__getitem__") \
                if isinstance(it, ast.FunctionDef) else True
            if not is_hidden and (is_overload(it) or it.name not in overloaded):
                yield it


def is_overload(statement):
    decorators = getattr(statement, "decorator_list", ())
    return any(isinstance(it, ast.Name) and it.id == "overload" for it in decorators)


def unnamed(function):
    """The arguments without a type; `return` where the result has none."""
    takes = function.args
    found = [it.arg for it in (*takes.posonlyargs, *takes.args, *takes.kwonlyargs)
             if it.annotation is None and it.arg not in ("self", "cls")]
    return found + (["return"] if function.returns is None and function.name != "__init__" else [])


class Hints(unittest.TestCase):
    def test_each_public_call_has_them(self):
        count = 0
        for module in MODULES:
            with open(os.path.join(FOLDER, f"{module}.py"), encoding="utf-8") as file:
                tree = ast.parse(file.read())
            for function in functions(tree):
                count += 1
                with self.subTest(module=module, function=function.name):
                    self.assertEqual(unnamed(function), [])
        self.assertGreater(count, 50)

    def test_the_package_says_that_it_has_them(self):
        self.assertTrue(os.path.exists(os.path.join(FOLDER, "py.typed")))

    @unittest.skipUnless(shutil.which("mypy"), "mypy isn't installed")
    def test_a_checker_goes_by_them(self):
        wrong = [number for number, line in enumerate(CALLER.splitlines(), 1) if "# wrong" in line]
        self.assertEqual(self.checked(CALLER), wrong)

    @unittest.skipUnless(shutil.which("mypy"), "mypy isn't installed")
    def test_a_checker_finds_nothing_in_the_package(self):
        """Its sources, that of the inventory too, whether or not Dask is installed."""
        with tempfile.TemporaryDirectory() as room:
            ran = subprocess.run(["mypy", "--cache-dir", room, "--ignore-missing-imports", FOLDER],
                                 cwd=room, stdin=subprocess.DEVNULL, stdout=subprocess.PIPE, text=True)
        self.assertEqual((ran.returncode, ran.stdout.count("\n")), (0, 1), ran.stdout)

    def checked(self, text):
        """The lines of a caller that mypy finds wrong."""
        with tempfile.TemporaryDirectory() as room:
            path = os.path.join(room, "caller.py")
            with open(path, "w", encoding="utf-8") as file:
                file.write(text)
            ran = subprocess.run(["mypy", "--cache-dir", room, path], cwd=room,
                                 env={**os.environ, "MYPYPATH": os.path.dirname(FOLDER)},
                                 stdin=subprocess.DEVNULL, stdout=subprocess.PIPE, text=True)
        return [*map(int, re.findall(r"(?m)^caller\.py:(\d+): error: ", ran.stdout))]


if __name__ == "__main__":
    unittest.main()
