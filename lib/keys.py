"""The keys of the user's terminal, on their way to that of the job or, by name, to a display."""
import _signal as signals
import os
import re
import termios
import time

# What is done with keys as they come in, and in lines. A terminal that passes them on does neither.
AS_THEY_COME = termios.IGNBRK | termios.PARMRK | termios.ISTRIP
AS_THEY_COME |= termios.INLCR | termios.IGNCR | termios.ICRNL
IN_LINES = termios.ICANON | termios.ECHO | termios.ECHONL | termios.IEXTEN
# How many keys are read at a time.
READ = 4096


class Keys:
    """Passes keys of a stream's terminal on, while it holds them."""

    # What is done with keys in addition while they are held.
    added = 0

    def __init__(self, stream, to, signs):
        # whether Ctrl-C and the like are passed on, or are signals of the user's terminal
        self.stream, self.to, self.signs = stream, to, signs
        self.left, self.before = b"", None

    def is_held(self):
        return self.before is not None

    def hold(self):
        """Has the terminal pass on all keys, unless this is not in the foreground."""
        try:
            before = termios.tcgetattr(self.stream)
            modes = [*before[:6], list(before[6])]
            modes[0] &= ~(AS_THEY_COME | (termios.IXON | termios.BRKINT) * self.signs)
            modes[3] = modes[3] & ~(IN_LINES | termios.ISIG * self.signs) | self.added
            modes[6][termios.VMIN], modes[6][termios.VTIME] = 1, 0
            termios.tcsetattr(self.stream, termios.TCSADRAIN, modes)
            self.before = before
        except termios.error:
            pass

    def give_back(self):
        """Gives the terminal the modes that it had."""
        if self.is_held():
            try:
                termios.tcsetattr(self.stream, termios.TCSADRAIN, self.before)
            except termios.error:
                pass
        self.before = None

    def read(self):
        """Reads the keys that are there. A terminal that is gone has none."""
        try:
            self.left = os.read(self.stream, READ)
        except OSError:
            self.left = b""
        if not self.left:
            self.give_back()

    def write(self):
        """Passes on as many keys as the job's terminal takes."""
        try:
            self.left = self.left[os.write(self.to, self.left) :]
        except BlockingIOError:
            pass
        except OSError:
            self.left = b""


# What keys other than characters send: of an old mouse, of the console of Linux, sequences with
# parameters, of one character, a text up to its end as in the answer of a terminal, and a character
# that was typed with Alt.
OTHERS = re.compile(
    rb"\x1b+(?:\[M[^\x1b]{3}|\[\[.|\[[0-?]*[ -/]*[@-Z\\-~]|O[0-9;]*[@-~]|N."
    rb"|[PX\]^_][^\x07\x1b]*(?:\x07|\x1b\\)"
    rb"|[\x00-\x1a\x1c-MQ-WYZ\\`-\xc1\xf5-\xff]"
    rb"|[\xc2-\xdf].|[\xe0-\xef]..|[\xf0-\xf4]...)",
    re.DOTALL,
)
# The first byte of a character of UTF-8, and how many follow.
LEADS = ((0xC2, 0xE0, 1), (0xE0, 0xF0, 2), (0xF0, 0xF5, 3))
ESCAPE, OTHER = b"\x1b", "other"


def name_of(char):
    """Returns the name of the key of a character."""
    if char in "\t\r\x7f" or "\x80" <= char < "\xa0" or char == "\ufffd":
        return OTHER
    return char if char >= " " else f"ctrl-{chr(ord(char) + 0x40).lower()}"


def first_key(left, is_late):
    """Returns the name of the first key of these bytes and how many it has, or None and 0.

    Without the latter, more bytes of it may come. If it is late no more do.
    """
    if left[:1] == ESCAPE:
        if found := OTHERS.match(left):
            return OTHER, found.end()
        if not is_late:
            return None, 0
        return ("esc" if left.strip(ESCAPE) == b"" else OTHER), len(left)
    size = 1 + sum(n for low, high, n in LEADS if low <= left[0] < high)
    if len(left) < size and not is_late:
        return None, 0
    return name_of(left[:size].decode(errors="replace")[:1]), size


class Keyboard(Keys):
    """The keys of a stream's terminal by name, while it holds them.

    They are those of a dashboard: one character, `ctrl-` and a character, `esc`, or `other`. No
    byte of the sequence of another key counts as a key of its own.
    """

    # A key that is a signal takes no output and no other key along.
    added = termios.NOFLSH
    # How many seconds later the rest of a key comes at most.
    LATE = 0.1

    def __init__(self, stream):
        """Takes the keys of the controlling terminal alone: other keys are for others."""
        try:
            os.tcgetpgrp(stream)
            flags = os.O_RDONLY | os.O_NOCTTY | os.O_NONBLOCK
            super().__init__(os.open(os.ttyname(stream), flags), None, False)
        except OSError:
            super().__init__(None, None, False)
        self.until = 0

    def hold(self):
        """Has the terminal pass on all keys, if it is there and this is in the foreground."""
        if self.stream is not None:
            # a read in the background fails, and stops nothing
            signals.pthread_sigmask(signals.SIG_BLOCK, (signals.SIGTTIN,))
            super().hold()

    def give_back(self):
        """Gives the terminal the modes that it had, also from the background."""
        before = signals.pthread_sigmask(signals.SIG_BLOCK, (signals.SIGTTOU,))
        super().give_back()
        signals.pthread_sigmask(signals.SIG_SETMASK, before)
        # the rest of a key doesn't come any more
        self.left = b""

    def start_output(self):
        """Has the terminal take output again that was stopped by Ctrl-S."""
        try:
            modes = termios.tcgetattr(self.stream)
            flowing = [modes[0] & ~termios.IXON, *modes[1:]]
            for it in (flowing, modes):
                termios.tcsetattr(self.stream, termios.TCSANOW, it)
        except (termios.error, TypeError):
            # there is none
            pass

    def read(self):
        """Reads the keys that are there. A terminal that is gone has none."""
        before, self.until = self.left, time.monotonic() + self.LATE
        super().read()
        if self.is_held():
            self.left = before + self.left

    def came(self):
        """Yields the names of the keys that have come whole."""
        while self.left:
            name, size = first_key(self.left, time.monotonic() >= self.until)
            if not size:
                return
            self.left = self.left[size:]
            yield name
