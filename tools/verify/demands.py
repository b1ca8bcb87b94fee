"""A purpose and a host that are asked for, and which targets serve the host."""
from pki import reading
from verify.core import certpath
from verify.faults import NO_PROGRAM, WORDS, Fault

# What is said not to be judged if neither is asked for.
HOSTS, PURPOSES = "host names", "extended key usage"


def need(host, purpose):
    """Ends the run if a host or a purpose is none, or the library can't be asked."""
    try:
        if purpose is not None:
            certpath.serving.refuse_purpose(purpose)
        if host is not None:
            certpath.serving.refuse_host(host)
    except certpath.BadHost as error:
        raise Fault(WORDS, f"--host {reading.shortened(host)}: {error.reason}") from error
    except ValueError as error:
        why = str(error).partition(": ")[2]
        raise Fault(WORDS, f"--purpose {reading.shortened(purpose)}: {why}") from error
    except certpath.LibraryMissing as error:
        raise Fault(NO_PROGRAM, f"hosts and purposes can't be asked for: {error}") from error


class Demands:
    """What is asked for."""

    def __init__(self, host, purpose):
        self.host, self.purpose = host, purpose
        self.shown = None if purpose is None else certpath.purposes.name_of(purpose)

    def is_served(self, item):
        """Whether a certificate serves the host; each does if none is asked for."""
        return self.host is None or certpath.serves(item, self.host)

    def asked(self):
        """What is asked for, as the first line has it; nothing if nothing is."""
        parts = [] if self.host is None else [f"host {self.host}"]
        return " and ".join(parts if self.shown is None else [*parts, f"purpose {self.shown}"])

    def not_judged(self, words):
        """What isn't judged, of such words, without what is asked for."""
        judged = {HOSTS: self.host, PURPOSES: self.purpose}
        return tuple(word for word in words if judged.get(word) is None)
