"""What the one writer of a terminal writes: a job's output as it is, and rows below it.

Rows are those of a frame of prodash-live, which erases what it is drawn on. They stand below the
line that the cursor is in, and the cursor stays where the job's output ends. So that line belongs
to the job and to what is typed.
"""
# What a terminal does: erases below the cursor, or behind it in its row; keeps and restores the
# cursor's place and its style; makes room below, which scrolls at the last row.
ERASE_BELOW, ERASE_BEHIND, KEEP, RESTORE, ROOM = b"\x1b[J", b"\x1b[K", b"\x1b7", b"\x1b8", b"\x1bD"
ERASE_LINE, PLAIN, NO_WRAP = b"\x1b[2K", b"\x1b[m", b"\x1b[?7l"
# A synchronized update, whose output terminals that know it show at once. Others ignore it.
BEGIN_UPDATE, END_UPDATE = b"\x1b[?2026h", b"\x1b[?2026l"
# A full screen is drawn on a page of its own.
FULL, NOT_FULL = b"\x1b[?1049h", b"\x1b[?1049l"
# How much of a line is kept, more than a terminal has columns.
LONG = 4096
# What a sequence has before the character that says what it does.
PARAMETERS = b"[0123456789;:?<=> "
# The last characters of sequences that leave the cursor where it is, and in its line.
STYLES, IN_LINE = b"mKhl]=>()", b"CDGPX@`a"


def parts(frame):
    """Returns the messages of a frame, a frame of its rows alone, and their number.

    A carriage return is added to each line feed, for a job that has the terminal add none.
    """
    told, _, drawn = frame.replace(b"\n", b"\r\n").partition(NO_WRAP)
    begin, _, end = drawn.rpartition(ERASE_BELOW)
    rows = begin.split(b"\r\n")[:-1]
    while rows and rows[-1] == ERASE_LINE:
        # left over from the frame before
        rows.pop()
    count = len(rows)
    lines = b"".join(it + b"\r\n" for it in rows)
    back = b"\x1b[%dA" % count if count else b""
    modes = end.rpartition(b"A")[2]
    # without messages it has a carriage return alone
    messages = told if len(told) > 1 else b""
    return messages, b"\r" + NO_WRAP + lines + ERASE_BELOW + back + modes, count


def is_half(line):
    """Returns whether a line ends within a character or a sequence."""
    for back in range(1, min(len(line), 3) + 1):
        byte = line[-back]
        if byte >= 0xC0:
            if back < 2 + (byte >= 0xE0) + (byte >= 0xF0):
                return True
        if not 0x80 <= byte < 0xC0:
            break
    _, escape, last = line.rpartition(b"\x1b")
    if last.startswith(b"]"):
        return b"\x07" not in last
    return bool(escape) and not last.lstrip(PARAMETERS)


def reach(line):
    """Returns how far a line moves the cursor: 0 not at all, 1 within the line, 2 beyond it."""
    found = int(b"\r" in line or b"\b" in line)
    for it in line.split(b"\x1b")[1:]:
        end = it.lstrip(PARAMETERS)[:1]
        if end not in STYLES:
            found = max(found, 1 if end in IN_LINE else 2)
    return found


def at_once(written):
    """Returns output that the terminal shows at once."""
    return BEGIN_UPDATE + written + END_UPDATE


class Messages:
    """Frames with messages alone, or for what is no terminal, and a job's output as it is."""

    is_shown = True

    def __init__(self, columns, rows):
        self.columns, self.height = columns, rows

    def put(self, output):
        return output

    def take(self, frame):
        return at_once(frame) if NO_WRAP in frame else frame

    def nothing(self, *_):
        return b""

    erase = draw = clear = nothing


class Screen:
    """The rows on a terminal of a size, and the job's line above them."""

    def __init__(self, columns, rows, has_gap):
        self.columns, self.height = columns, rows
        # Whether an empty row is left to what is typed, where the cursor is.
        self.has_gap = has_gap
        # The job's output since its last line feed, and how far that moves the cursor.
        self.line, self.moves = b"", 0
        # Whether a full screen is shown, and the job's output before it.
        self.is_full, self.under = False, b""
        # A frame of the rows alone, their number, and messages that wait for the end of a line.
        self.frame, self.count, self.held = b"", 0, b""
        # Whether rows may stand on the terminal, and do.
        self.is_shown, self.is_drawn = True, False

    def can_draw(self):
        """Returns whether rows can stand below the job's line, or messages above it."""
        return not self.is_full and self.moves < 2 and not is_half(self.line)

    def fits(self):
        """Returns whether the job's line surely ends before the last column."""
        parts = self.line.split(b"\r")
        return all(len(it) + 7 * it.count(b"\t") < self.columns for it in parts)

    def back(self):
        """Returns what moves the cursor back to the rows from behind what was typed, as ^C."""
        return b"" if self.line or self.has_gap else b"\r"

    def begin(self):
        """Returns what erases a row that the cursor stands in, before what erases those below."""
        # the line may have text behind the cursor
        return self.back() + (b"" if self.moves else ERASE_BEHIND)

    def erase(self):
        """Returns what erases the rows, if they stand."""
        if not self.is_drawn:
            return b""
        self.is_drawn = False
        # some terminals keep what is erased from the window's first cell on
        return self.begin() + KEEP + b"\r\n" + ERASE_BELOW + RESTORE

    def draw(self):
        """Returns what draws the rows anew."""
        return self.update(self.rows())

    def rows(self):
        """Returns what draws the rows, on those that stand."""
        gap = bool(self.line or self.has_gap)
        room = self.count + gap
        can_draw = self.is_shown and self.can_draw() and self.fits() and room < self.height
        if not can_draw or not self.count:
            return self.erase()
        self.is_drawn = True
        begin = self.begin()
        up = b"\x1b[%dA" % room
        return begin + ROOM * room + up + KEEP + PLAIN + b"\r\n" * gap + self.frame + RESTORE

    def update(self, written):
        """Returns output that is shown at once, if rows stand behind it."""
        return at_once(written) if self.is_drawn and written else written

    def tell(self):
        """Returns what prints the messages that wait above the job's line."""
        if not self.held:
            return b""
        if self.line and self.has_gap and not self.moves:
            # maybe a prompt that was answered: the cursor is below it then, and was kept behind it
            begin, self.line = RESTORE * self.is_drawn + b"\r\n" + ERASE_BELOW, b""
            self.is_drawn = False
        else:
            # the line moves down, or what is left of a long one goes on below
            begin = b"\r" + ERASE_LINE if self.fits() else b"\r\n"
            begin = self.erase() + begin * bool(self.line)
        told, self.held = begin + PLAIN + self.held + self.line, b""
        return told

    def take(self, frame):
        """Returns what a new frame writes."""
        messages, self.frame, self.count = parts(frame)
        self.held += messages
        return self.update((self.tell() if self.can_draw() else b"") + self.rows())

    def without_full(self, seen):
        """Returns output without what is on the page of full screens.

        Behind that the cursor is where it was. Nothing is left out as long as that page is shown.
        """
        while True:
            before, sign, after = seen.partition(NOT_FULL if self.is_full else FULL)
            if not sign:
                return seen
            self.is_full = not self.is_full
            if self.is_full:
                self.under, seen = before, after
            else:
                seen = self.under + after

    def put(self, output):
        """Returns what writes output of the job, between whole sequences also the rows."""
        is_whole, written = not is_half(self.line), self.erase() + output
        line = self.without_full(self.line + output).rpartition(b"\n")[2]
        if not self.is_full:
            self.moves = reach(line)
        if len(line) > LONG:
            # from a carriage return on, if there is one
            line = line[max(line.find(b"\r", -LONG), len(line) - LONG) :]
        self.line = line
        drawn = (self.tell() if self.can_draw() else b"") + self.rows()
        # an update can't begin within a sequence
        return self.update(written + drawn) if is_whole else written + self.update(drawn)

    def clear(self):
        """Returns what erases the rows for good and prints all messages."""
        self.frame, self.count = b"", 0
        return self.tell() + self.erase()
