"""What ./vouch reports of items: a line for each reason, or for each item."""
from program import streams

# So many positions are in a line, and so many reasons get a line of their own.
MOST_POSITIONS, MOST_REASONS = 5, 100
OTHERS = "further reasons (--verbose shows them)"
# Lines for standard error are written together, up to so many characters at once.
MOST_HELD = 65_536


def counted(number, word):
    """So many of what a word names."""
    return f"{number} {word}" if number == 1 else f"{number} {word}s"


class Lines:
    """Lines for standard error that are held and written many at a time."""

    def __init__(self):
        self.held, self.size = [], 0

    def add(self, text):
        """Adds a line."""
        line = streams.shown(text)
        self.held.append(line)
        self.size += len(line)
        if self.size > MOST_HELD:
            self.flush()

    def flush(self):
        """Writes the lines that are held."""
        streams.write_lines(self.held)
        self.held, self.size = [], 0


class Group:
    """The items of one reason: how many they are, and the positions of the first ones."""

    def __init__(self):
        self.count, self.first = 0, []

    def add(self, position):
        self.count += 1
        if len(self.first) < MOST_POSITIONS:
            self.first.append(str(position))

    def line(self, file, why):
        if self.count == 1:
            return f"{file} {self.first[0]}: {why}"
        further = ", .." if self.count > len(self.first) else ""
        return f"{file} {', '.join(self.first)}{further} ({self.count} items): {why}"


class Report:
    """Reports why items have no line, or not all lines: at once and each if it is verbose, else by reason and at the end."""

    def __init__(self, is_verbose):
        self.is_verbose, self.count, self.groups, self.lines = is_verbose, 0, {}, Lines()

    def add(self, file, position, why):
        """Reports an item, by the name of its file and its position there."""
        self.count += 1
        if self.is_verbose:
            self.lines.add(f"{file} {position}: {why}")
            return
        group = self.groups.get((file, why))
        if group is None:
            why = OTHERS if len(self.groups) >= MOST_REASONS else why
            group = self.groups.setdefault((file, why), Group())
        group.add(position)

    def add_line(self, text):
        """Reports what isn't of an item, after the reasons."""
        self.count += 1
        self.flush()
        self.lines.add(text)

    def flush(self):
        """Writes all that is held."""
        for (file, why), group in self.groups.items():
            self.lines.add(group.line(file, why))
        self.groups = {}
        self.lines.flush()
