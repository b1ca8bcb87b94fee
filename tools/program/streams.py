"""What the scripts write: words on standard error, octets on standard output."""
import errno
import os
import sys

# What the loader of libraries says if it gets no memory for one, and if one isn't there.
NO_ROOM = ("failed to map segment", "cannot map zero-fill", "annot allocate")
NO_FILE = "No such file"
# The instructions by which Python loads a module.
IMPORTS = ("IMPORT_NAME", "IMPORT_FROM")

if sys.stderr is None:
    # it is closed; `print` would write its lines to standard output
    sys.stderr = open(os.devnull, "w", encoding="utf-8")


def shown(text):
    """A text for a terminal: what isn't printable, such as control characters, is escaped."""
    return text if text.isprintable() else "".join(
        letter if letter.isprintable() else letter.encode("unicode_escape").decode() for letter in text)


def report(text):
    """Writes a line on standard error. An error there is ignored, since the exit status holds the result."""
    write_lines([shown(str(text))])


def write_lines(lines):
    """Writes lines that are fit to be shown on standard error."""
    try:
        sys.stderr.write("".join(f"{line}\n" for line in lines))
        sys.stderr.flush()
    except OSError:
        pass


def within_memory(name, status, call, beside=None):
    """What a call gives. If there is no memory for it, one line says so, `beside` is called if it
    is given, and the status is this one."""
    sys.unraisablehook = unraised
    try:
        return call()
    except Exception as error:
        if not lacks_memory(error):
            raise
    # (what the call held is free here)
    report(f"{name}: out of memory")
    if beside:
        beside()
    return status


def unraised(what):
    """Says of an error that no call gets, as one of a `__del__`, what Python says, unless it comes
    of a lack of memory, which is said by itself."""
    if not lacks_memory(what.exc_value):
        sys.__unraisablehook__(what)


def lacks_memory(error):
    """Whether an error comes of a lack of memory. Python's compiler says otherwise at times: where
    memory is limited that is each error of a module that is there and is being loaded."""
    number = getattr(error, "errno", None)
    # (errors of the loader have no number, and those of files may have the caller's words)
    is_of_loader = isinstance(error, (ImportError, OSError)) and number is None
    return (isinstance(error, MemoryError) or number == errno.ENOMEM
            or is_of_loader and any(entry in str(error) for entry in NO_ROOM)
            or isinstance(error, Exception) and is_limited() and is_of_loading(error)
            or error is not None and lacks_memory(error.__cause__))


def is_of_loading(error):
    """Whether an error is of a module that is there and was being loaded: an import is what a frame
    of its traceback does."""
    if isinstance(error, ModuleNotFoundError) or NO_FILE in str(error):
        return False
    try:
        from opcode import opname
    except (ImportError, MemoryError):
        # (there is no memory for the module)
        return True
    at = error.__traceback__
    while at and opname[at.tb_frame.f_code.co_code[at.tb_lasti]] not in IMPORTS:
        at = at.tb_next
    return bool(at) or isinstance(error, (SyntaxError, SystemError))


def is_limited():
    """Whether the memory of this process is limited from outside."""
    try:
        import resource
        limits = (resource.RLIMIT_AS, resource.RLIMIT_DATA)
        return any(resource.getrlimit(limit)[0] != resource.RLIM_INFINITY for limit in limits)
    except (ImportError, MemoryError):
        # (there is no memory for the module)
        return True


def wrote(octets):
    """Writes the octets on standard output, and returns whether all of them went there."""
    try:
        if sys.stdout:
            sys.stdout.buffer.write(octets)
            sys.stdout.flush()
            return True
    except OSError:
        # what is left in the buffer would be tried again, and reported, when Python ends
        os.dup2(os.open(os.devnull, os.O_WRONLY), sys.stdout.fileno())
    report("cannot write")
    return False
