"""Whether memory is short: a limit from outside, and errors that come of it."""
import errno
import resource
from typing import Optional

# What is said if there is no memory for a library, a thread, or what OpenSSL holds.
NO_ROOM = "failed to map segment", "can't start new thread", "malloc failure", "annot allocate"


def is_limited() -> bool:
    """Whether the memory of this process is limited from outside."""
    return resource.getrlimit(resource.RLIMIT_AS)[0] != resource.RLIM_INFINITY


def is_lacking(error: Optional[BaseException]) -> bool:
    """Whether an error comes of a lack of memory, which Dask and OpenSSL say in words of their own."""
    while error is not None:
        if isinstance(error, MemoryError) or getattr(error, "errno", None) == errno.ENOMEM:
            return True
        # (others have the caller's words)
        is_of_system = isinstance(error, (ImportError, RuntimeError, OSError))
        if is_of_system and not getattr(error, "filename", None) and any(
                it in str(error) for it in NO_ROOM):
            return True
        error = error.__cause__ or error.__context__
    return False
