"""How ./verify ends without an answer, and the statuses."""

PATH, NONE, WORDS, NO_TARGET, UNREAD, MEMORY, UNWRITTEN = 0, 1, 2, 3, 4, 6, 7
OUT_OF_TIME, OUTDATED, NO_PROGRAM = 9, 69, 70


class Fault(Exception):
    """Why the run ends, in one line, with its status."""

    def __init__(self, status, text):
        super().__init__(text)
        self.status = status
