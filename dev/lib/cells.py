"""Rows of cells, what drawing on them leaves, and how they differ from what a terminal shows.

A cell is a character, those of no column that joined it, and a style; or None, the second half of
the character before it. A style says whether it is bold, and has the codes of two colours for ink,
or 0.
"""
import collections
import itertools
import re
from dataclasses import dataclass

from page import width_of as columns_of

Cell = collections.namedtuple("Cell", "char joined style")
Style = collections.namedtuple("Style", "bold ink paper", defaults=(False, 0, 0))
PLAIN, BOLD = Style(), Style(bold=True)
BLANK = Cell(" ", "", PLAIN)
# Characters that are drawn as U+FFFD.
UNSAFE = "[\0-\x1f\x7f-\x9f\u061c\u200e\u200f\u2028-\u202e\u2066-\u2069\ufeff]"


def cells_of(text, style=PLAIN):
    """Returns the cells of a text as it is drawn."""
    cells, last = [], None
    for char in re.sub(UNSAFE, "\ufffd", text):
        columns = columns_of(char)
        if columns:
            last = len(cells)
            cells += [Cell(char, "", style), None][:columns]
        elif last is not None and len(cells[last].joined) < 4:
            cells[last] = cells[last]._replace(joined=cells[last].joined + char)
    return cells


def width_of(text):
    """Returns how many columns a text has."""
    return len(cells_of(text))


def cut(n, cells):
    """Returns the first n cells, without the first half of a character that doesn't fit."""
    n = max(n, 0)
    return cells[: n - 1] if n < len(cells) and cells[n] is None else cells[:n]


def splice(row, x, new):
    """Writes cells into a row. Halves of characters that were torn are blank then."""
    end = x + len(new)
    if 0 < x < len(row) and row[x] is None:
        row[x - 1] = BLANK
        row[x] = BLANK if not new else row[x]
    if end < len(row) and row[end] is None:
        row[end] = BLANK
    row[x:end] = new


@dataclass
class Rect:
    """A rectangle, which has no columns or rows rather than less than none."""

    x: int
    y: int
    width: int
    height: int

    def __post_init__(self):
        self.width, self.height = max(self.width, 0), max(self.height, 0)

    def rows(self, y, height=1):
        """Returns as many rows, from row y of it on, also if they are below it."""
        return Rect(self.x, self.y + y, self.width, height)

    def first(self, columns):
        return Rect(self.x, self.y, min(columns, self.width), self.height)

    def behind(self, columns):
        """Returns it without its first columns."""
        return Rect(self.x + columns, self.y, self.width - columns, self.height)

    def last(self, columns):
        return self.behind(max(self.width - columns, 0))


class Grid:
    """Rows of cells, on which texts, lines and colours are drawn inside rectangles."""

    def __init__(self, width, height):
        self.width, self.rows = width, [[BLANK] * width for _ in range(height)]

    def room(self, area):
        """Returns how many columns of a rectangle are on the grid."""
        return min(area.width, max(self.width - area.x, 0))

    def put(self, area, cells):
        """Writes cells into the first row of a rectangle."""
        for row in self.rows[area.y : area.y + min(area.height, 1)]:
            splice(row, min(area.x, self.width), cells)

    def text(self, area, text, style=PLAIN):
        """Draws a text, cut at the right edge."""
        self.put(area, cut(self.room(area), cells_of(text, style)))

    def short(self, area, text, style=PLAIN):
        """Draws a text, with an ellipsis if it is cut."""
        room, cells = self.room(area), cells_of(text, style)
        if len(cells) > room:
            cells = (cut(room - 1, cells) + [Cell("…", "", style)])[:room]
        self.put(area, cells)

    def fill(self, area, char, style=PLAIN):
        """Draws a character in the whole first row."""
        self.text(area, char * self.room(area), style)

    def paint(self, area, paper):
        """Changes the background of what is in a rectangle."""
        for row in self.rows[area.y : area.y + area.height]:
            for x in range(area.x, area.x + self.room(area)):
                row[x] = row[x] and row[x]._replace(style=row[x].style._replace(paper=paper))

    def border(self, area):
        """Draws a border around blanks."""
        for y in range(min(area.height, len(self.rows))):
            left, line, right = "┌─┐" if y == 0 else "└─┘" if y == area.height - 1 else "│ │"
            self.text(area.rows(y), left + line * min(area.width - 2, self.width) + right)

    def shown(self):
        """Returns the rows as a terminal has them: texts with the codes of their styles."""
        return [[(it.char + it.joined, codes_of(*it.style)) for it in row if it] for row in self.rows]


def codes_of(bold, ink, paper):
    return {int(bold), ink, paper and paper + 10} - {0}


def characters(row):
    """Returns the characters of texts with codes, each with these, without blanks at the end."""
    found = [(char, frozenset(codes)) for text, codes in row for char in text]
    while found and found[-1] == (" ", frozenset()):
        found.pop()
    return found


def faults(found, wanted):
    """Yields how rows differ from those that are wanted: texts with the codes of their styles."""
    for y, (row, other) in enumerate(zip(map(characters, found), map(characters, wanted))):
        for x, (it, that) in enumerate(itertools.zip_longest(row, other)):
            if it != that:
                yield f"row {y}, character {x}: {it} and not {that}"
