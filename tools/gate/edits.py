"""The edits of crates/NAME/must-fail/ and crates/NAME/wrong/: their names, and why one can't be applied."""
import os
import re

from program import repo

FOLDERS = ("must-fail", "wrong")


def names(crate, folder):
    """The names of a crate's edits in must-fail/ or in wrong/."""
    at = os.path.join(repo.TOP, "crates", crate, folder)
    return sorted(name for name in os.listdir(at) if name.endswith(".edit")) if os.path.isdir(at) else []


def amiss(crate, edit):
    """Why an edit can't be applied to the crate, or none. Each `old:` text occurs once in what the pairs before it left."""
    texts, path, old, pairs = {}, None, None, 0
    for line in repo.read(f"crates/{crate}/{edit}").split("\n"):
        if line.startswith("file: "):
            path = line[len("file: "):].strip()
            if not re.match(r"(src|specs|proofs)/", path) or os.path.normpath(path) != path:
                return f"{path} is no file below src/, specs/ or proofs/"
        elif line.startswith("old: "):
            old = line[len("old: "):]
        elif line.startswith("new:"):
            if not path or not old:
                return "a `new:` comes before any `file:` or `old:`"
            if path not in texts:
                if not os.path.isfile(os.path.join(repo.TOP, "crates", crate, path)):
                    return f"there is no file {path}"
                texts[path] = repo.read(f"crates/{crate}/{path}")
            count = texts[path].count(old)
            if count != 1:
                return f"its `old:` text occurs {count} times in {path}: {old.strip()}"
            texts[path] = texts[path].replace(old, re.sub(r"\A ", "", line[len("new:"):]))
            old, pairs = None, pairs + 1
    return None if pairs else "it has no pair of `old:` and `new:`"
