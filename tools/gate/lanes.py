"""How proofs of many crates are spread: how many go side by side on this machine, one a processor
and fewer if memory is short, and which crates come first."""
import os
import re

from program import sources

# The most memory that a check is likely to take: from nothing, and over what an earlier one kept.
FROM_NOTHING, OVER_KEPT = 5 << 30, 3 << 30


def lanes(a_check):
    with open("/proc/meminfo", encoding="ascii") as file:
        free = 1024 * int(re.search(r"MemAvailable:\s+(\d+)", file.read())[1])
    return max(1, min(len(os.sched_getaffinity(0)), free // a_check))


def weights(top, crates):
    """What each crate's proof weighs beside the others': its lines of code, contracts and proofs."""
    def lines_of(crate):
        folders = (os.path.join(top, "crates", crate, part) for part in sources.PARTS)
        return sum(sources.octets_of(path).count(b"\n") for folder in folders for path, _ in sources.scanned(folder))
    return {name: lines_of(name) for name in crates}
