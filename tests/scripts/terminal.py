"""A terminal as far as the tests need it: what its window shows after the bytes written to it."""
import codecs
import os
import re
import sys

sys.path.insert(0, f"{os.path.dirname(os.path.realpath(__file__))}/../../lib")
from page import width_of

# A sequence, or the beginning of one, and a character.
SEQUENCE = re.compile(r"\x1b\[([0-9;?]*)([@-~])|\x1b\](?:[^\x07\x1b]*)\x07|\x1b([78DM=>c])")
BEGUN = re.compile(r"\x1b(?:\[[0-9;?]*|\][^\x07\x1b]*)?$")
FULL = "?1049"


class Terminal:
    """A window of rows, each a list of characters with styles, and a cursor that may wait to wrap.

    Rows that leave the window at its top are kept in `above`.
    """

    def __init__(self, columns, rows):
        self.columns, self.height = columns, rows
        self.rows, self.above, self.other = [[] for _ in range(rows)], [], None
        self.row = self.column = 0
        self.kept, self.rest, self.style = (0, 0, ""), "", ""
        self.wraps = self.has_cursor = True
        self.decoder = codecs.getincrementaldecoder("utf-8")("replace")
        # whether a synchronized update goes on, and whether wrapping was off outside of one
        self.is_updating, self.flickers = False, False

    def play(self, written):
        """Plays bytes. A sequence that isn't whole waits for its rest."""
        text, at = self.rest + self.decoder.decode(written), 0
        begun = BEGUN.search(text)
        text, self.rest = (text[: begun.start()], begun[0]) if begun else (text, "")
        while at < len(text):
            found = SEQUENCE.match(text, at)
            if found:
                self.obey(found)
            else:
                self.put(text[at])
            at = found.end() if found else at + 1

    def obey(self, found):
        """Does what a sequence says."""
        words, name, short = found.groups()
        number = int(words.split(";")[0] or 1) if words and words[0] != "?" else 1
        if short == "7":
            self.kept = (self.row, self.column, self.style)
        elif short == "8":
            self.row, self.column, self.style = self.kept
        elif name == "m":
            first, _, others = words.partition(";")
            self.style = others if first in ("", "0") else f"{self.style};{words}".lstrip(";")
        elif short == "D":
            self.feed()
        elif name == "A":
            self.row = max(self.row - number, 0)
        elif name == "B":
            self.row = min(self.row + number, self.height - 1)
        elif name == "G":
            self.column = min(number, self.columns) - 1
        elif name == "H":
            row, _, column = words.partition(";")
            self.row, self.column = int(row or 1) - 1, int(column or 1) - 1
        elif name in ("J", "K"):
            self.erase(name, words)
        elif words == "?7":
            self.wraps = name == "h"
            self.flickers = self.flickers or not (self.wraps or self.is_updating)
        elif words == "?25":
            self.has_cursor = name == "h"
        elif words == "?2026":
            self.is_updating = name == "h"
        elif words == FULL:
            self.change_page(name == "h")

    def erase(self, name, words):
        """Erases from the cursor, the whole row or the whole window."""
        column = min(self.column, self.columns - 1)
        if words == "2" and name == "J":
            self.rows = [[] for _ in self.rows]
            return
        if name == "J" and (self.row, self.column) == (0, 0):
            # tmux keeps what is erased then
            self.above += self.rows[: len(self.lines())]
            self.rows = [[] for _ in self.rows]
            return
        del self.rows[self.row][0 if words == "2" else column :]
        if name == "J":
            for it in self.rows[self.row + 1 :]:
                it.clear()

    def change_page(self, is_full):
        """Goes to the page of full screens, or back."""
        if is_full and not self.other:
            self.other = (self.rows, self.row, self.column)
            self.rows, self.row, self.column = [[] for _ in self.rows], 0, 0
        elif self.other and not is_full:
            (self.rows, self.row, self.column), self.other = self.other, None
            self.fit()

    def feed(self):
        """Goes down a row, and scrolls at the last."""
        if self.row + 1 < self.height:
            self.row += 1
        else:
            self.above.append(self.rows.pop(0))
            self.rows.append([])

    def put(self, char):
        """Writes a character, or does what it says."""
        if char == "\r":
            self.column = 0
        elif char == "\n":
            self.feed()
        elif char == "\b":
            self.column = max(min(self.column, self.columns - 1) - 1, 0)
        elif char == "\t":
            self.column = min(self.column // 8 * 8 + 8, self.columns - 1)
        elif char >= " ":
            width = width_of(char)
            if self.column + width > self.columns:
                if self.wraps:
                    self.column = 0
                    self.feed()
                else:
                    self.column = self.columns - width
            row = self.rows[self.row]
            row += [(" ", "")] * (self.column + width - len(row))
            row[self.column : self.column + width] = [(char, self.style), ("", "")][:width]
            self.column += width

    def resize(self, columns, rows):
        """Changes the size. Rows are cut or blank ones added at the end, as far as that goes."""
        self.columns, self.height = columns, rows
        self.fit()

    def fit(self):
        """Has as many rows as the window."""
        while len(self.rows) > self.height:
            if self.row < self.height:
                self.rows.pop()
            else:
                self.above.append(self.rows.pop(0))
                self.row -= 1
        self.rows += [[] for _ in range(self.height - len(self.rows))]

    def state(self):
        """Returns which page is shown, and what isn't as at first."""
        parts = ["full page" if self.other else "main page"]
        parts += ["no cursor"] * (not self.has_cursor) + ["no wrap"] * (not self.wraps)
        parts += [f"style {self.style}"] * (bool(self.style) and not self.other)
        return ", ".join(parts)

    def lines(self):
        """Returns the rows of the window without trailing blanks."""
        shown = [text_of(it) for it in self.rows]
        while shown and not shown[-1]:
            shown.pop()
        return shown

    def all_lines(self):
        """Returns also the rows that have left the window."""
        return [text_of(it) for it in self.above] + self.lines()

    def style_of(self, text):
        """Returns the style of a text that the window shows."""
        row = next(it for it in self.rows if text in text_of(it))
        return row[text_of(row).index(text)][1] or "plain"


def text_of(row):
    """Returns the text of a row, without trailing blanks."""
    return "".join(it for it, _ in row).rstrip()
