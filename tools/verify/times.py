"""The moment of the question, as a person writes it and as `certpath` takes it."""
import re
from datetime import datetime, timezone

from pki import reading
from verify.faults import WORDS, Fault

FORM = re.compile(r"(\d{4}-\d\d-\d\d)(?:[T ](\d\d:\d\d(?::\d\d)?))?(Z|[+-]\d\d:\d\d)?", re.ASCII)
EXAMPLES = "now, 2026-06-01, 2026-06-01T12:00:00, 2026-06-01T12:00:00Z or 2026-06-01T12:00:00+02:00"


def moment_of(word):
    """The moment that a word says, in UTC and in whole seconds; a time without Z or offset is UTC."""
    if word == "now":
        return datetime.now(timezone.utc).replace(microsecond=0)
    parts = FORM.fullmatch(word)
    try:
        if parts is None:
            raise ValueError(word)
        offset = "+00:00" if parts[3] in (None, "Z") else parts[3]
        return datetime.fromisoformat(f"{parts[1]}T{parts[2] or '00:00'}{offset}").astimezone(timezone.utc)
    except (ValueError, OverflowError) as error:
        raise Fault(WORDS, f"--at {reading.shortened(word)}: no moment; write {EXAMPLES}") from error


def as_asked(moment):
    """The moment as `certpath --at` takes it."""
    return moment.replace(tzinfo=None).isoformat(timespec="seconds")


def as_shown(moment):
    """The moment with its zone, which is UTC."""
    return f"{as_asked(moment)}Z"
