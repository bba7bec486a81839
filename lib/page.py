"""A page on which the bytes of frames are played, as on a terminal."""
import re
import unicodedata

# The signs that a renderer writes. docs/FORMATS.md says what each does.
SIGN = re.compile(
    r"(?P<feed>\n)|(?P<return>\r)|\x1b\[(?:(?P<up>[1-9]\d*)A|(?P<line>2K)|(?P<below>J)"
    r"|(?P<move>[1-9]\d*;[1-9]\d*)H|(?P<clear>2J)|\?1049(?P<alternate>[hl])"
    r"|\?(?:25|2026)[hl]|\?7(?P<wrap>[hl])|(?P<codes>\d+(?:;\d+)*)m)"
    r"|(?P<char>[^\x00-\x1f\x7f-\x9f])"
)


class Page:
    """All rows that a terminal of a size has shown. The last of them are in its window.

    A row is a list of cells: a character, and the codes of its style. A wide character has a cell
    with an empty text behind it.
    """

    def __init__(self, columns, rows):
        self.columns, self.height, self.rows = columns, rows, [[]]
        self.row, self.column, self.style, self.wraps = 0, 0, (), True

    def play(self, text):
        """Plays signs. Raises `ValueError` at what is none."""
        at = 0
        while at < len(text):
            sign = SIGN.match(text, at)
            if not sign:
                raise ValueError(f"no sign at character {at}")
            at = sign.end()
            self.step(sign)

    def step(self, sign):
        if sign["feed"]:
            self.feed()
        elif sign["return"]:
            self.column = 0
        elif sign["up"]:
            self.row = max(self.row - int(sign["up"]), self.top())
        elif sign["line"]:
            self.rows[self.row] = []
        elif sign["below"]:
            del self.rows[self.row][self.column :]
            self.rows[self.row + 1 :] = [[] for _ in self.rows[self.row + 1 :]]
        elif sign["wrap"]:
            self.wraps = sign["wrap"] == "h"
        elif sign["codes"]:
            self.style = tuple(int(it) for it in sign["codes"].split(";") if it != "0")
        elif sign["char"]:
            self.put(sign["char"])

    def top(self):
        """Returns the number of the first row in the window."""
        return max(len(self.rows) - self.height, 0)

    def window(self):
        return self.rows[self.top() :]

    def resize(self, columns, rows):
        self.columns, self.height = columns, rows
        self.row = max(self.row, self.top())

    def feed(self):
        self.row, self.column = self.row + 1, 0
        if self.row == len(self.rows):
            self.rows.append([])

    def put(self, char):
        width = width_of(char)
        if self.column + width > self.columns:
            if self.wraps:
                self.feed()
            else:
                # In the last cell, which a wide character without room blanks.
                char, width, self.column = char if width == 1 else " ", 1, self.columns - 1
        row = self.rows[self.row]
        if not width:
            if self.column:
                text, style = row[self.column - 1]
                row[self.column - 1] = (text + char, style)
            return
        row += [(" ", ())] * (self.column - len(row))
        # halves of characters that are torn are blank
        if row[self.column : self.column + 1] and not row[self.column][0]:
            row[self.column - 1] = (" ", ())
        end = self.column + width
        if row[end : end + 1] and not row[end][0]:
            row[end] = (" ", ())
        row[self.column : end] = [(char, self.style), ("", self.style)][:width]
        self.column = end


class Display(Page):
    """The rows of a terminal of a size, on which a dashboard is drawn."""

    def __init__(self, columns, rows):
        super().__init__(columns, rows)
        self.blank()

    def blank(self):
        self.rows = [[] for _ in range(self.height)]

    def step(self, sign):
        if sign["move"]:
            self.row, self.column = (int(it) - 1 for it in sign["move"].split(";"))
        elif sign["clear"] or sign["alternate"]:
            self.blank()
        else:
            super().step(sign)

    def resize(self, columns, rows):
        super().resize(columns, rows)
        self.blank()


def width_of(char):
    """Returns the columns of a character."""
    if unicodedata.category(char) in ("Mn", "Me", "Cf"):
        return 0
    return 2 if unicodedata.east_asian_width(char) in "WF" else 1


def runs(row):
    """Yields the runs of one style in a row: their first column, their cells and their style."""
    begin = 0
    for end in range(1, len(row) + 1):
        if end == len(row) or row[end][1] != row[begin][1]:
            yield begin, [it for it, _ in row[begin:end]], row[begin][1]
            begin = end
