"""prodash-live --dashboard on a terminal: a dashboard on the alternate screen, and keys for it.

While the dashboard is shown, the terminal passes on each key at once and shows none. The keys that
are signals stay so, whatever the display does; q and Esc send SIGINT to the group, as Ctrl-C does.
Whatever ends the dashboard or this process, but for SIGKILL, the terminal is given back by one
call, `leave`.
"""
import _signal as signals
import os
import re
import time

import relay
from display import LINE_OF_RELAY, Display
from keys import Keyboard
from live import Live
from relay import READ, SHORT
from screen import NO_WRAP, PLAIN, at_once

# What a display sends before its first frame and behind its last one, and in a whole frame.
OPEN, CLOSE, WHOLE = b"\x1b[?1049h", b"\x1b[?1049l", b"\x1b[2J"
HIDE_CURSOR, SHOW_CURSOR, WRAP = b"\x1b[?25l", b"\x1b[?25h", b"\x1b[?7h"
ENTER = OPEN + HIDE_CURSOR + NO_WRAP
# some terminals that have grown show rows of the alternate screen below the main one
LEAVE = PLAIN + WHOLE + CLOSE + WRAP + SHOW_CURSOR
# A style, whose colours have codes behind that of bold characters.
STYLE = re.compile(rb"\x1b\[0(;1)?[0-9;]*m")
# The keys that are a wish to interrupt, but for the signal itself, and the one that redraws.
INTERRUPTS, REDRAW = ("q", "esc", "ctrl-c"), "ctrl-l"


class Board:
    """The frames of a dashboard on the alternate screen, and then messages on the main one."""

    def __init__(self, columns, rows, is_colored):
        self.columns, self.height, self.is_colored = columns, rows, is_colored
        # whether the alternate screen may be shown, and is
        self.is_shown, self.is_drawn = True, False
        # whether the display has begun its dashboard and not ended it, and whether the terminal
        # shows the frame before, which the next one may say no more than the difference to
        self.is_open, self.is_known = False, False

    def wants_keys(self):
        """Returns whether keys are those of the dashboard."""
        return self.is_open and self.is_shown

    def forget(self):
        """Takes the terminal to show anything. Nothing is drawn until a frame is whole."""
        self.is_known = False

    def take(self, frame):
        """Returns what a new frame writes."""
        _, begins, drawn = frame.rpartition(ENTER)
        if begins:
            self.is_open = True
        if CLOSE in drawn:
            return self.clear()
        if not self.is_open:
            return frame
        self.is_known = self.is_shown and (self.is_known or WHOLE in drawn)
        if not self.is_known:
            return b""
        if not self.is_colored:
            drawn = STYLE.sub(b"\x1b[0\\1m", drawn)
        begin = b"" if self.is_drawn else ENTER
        self.is_drawn = True
        return at_once(begin + drawn)

    def draw(self):
        """Returns nothing: the display draws anew."""
        return b""

    def erase(self):
        """Returns what shows the main screen again."""
        left = LEAVE if self.is_drawn else b""
        self.is_drawn = self.is_known = False
        return left

    def clear(self):
        """Returns what shows the main screen again, for good."""
        self.is_open = False
        return self.erase()


class Dashboard(Live):
    """The lines of standard input, their display, and the keys for it."""

    # the columns and the rows that were said, which are drawn on if the terminal has as many
    said = (None, None)

    def __init__(self, *words):
        super().__init__(*words)
        self.keys = Keyboard(self.terminal.stream)

    def reads(self):
        return [*super().reads(), self.keys.stream if self.keys.is_held() else None]

    def times(self):
        times = super().times()
        if self.keys.left:
            # the rest of a key may come
            times.append(self.keys.until - time.monotonic())
        return times

    def handle(self, numbers):
        """Has signals wake this process, also where it goes on after a stop that it wasn't told."""
        super().handle([*numbers, signals.SIGCONT])

    def hold_keys(self):
        """Has the keys if they are those of the dashboard, and gives them back otherwise."""
        wants = isinstance(self.screen, Board) and self.screen.wants_keys()
        if wants and not self.keys.is_held():
            self.keys.hold()
        elif not wants:
            self.keys.give_back()

    def look(self):
        """Has the keys and a whole frame as soon as the dashboard may be shown again."""
        was_shown = self.screen.is_shown
        super().look()
        self.hold_keys()
        if self.screen.is_shown and not was_shown:
            self.redraw()

    def redraw(self):
        """Asks for a whole frame."""
        if isinstance(self.screen, Board) and self.screen.is_open:
            self.screen.forget()
            size = size_to_fill(self.said, (self.screen.columns, self.screen.height))
            self.display.tell(LINE_OF_RELAY + b"size %d %d\n" % size)

    def resize(self):
        """Asks for a whole frame of a new size."""
        size = self.terminal.size()
        if size and size != (self.screen.columns, self.screen.height):
            self.screen.columns, self.screen.height = size
            self.redraw()

    def take(self, frames):
        """Draws frames, for which the keys are had before the first and given back at the last."""
        for it in frames:
            written = self.screen.take(it)
            self.hold_keys()
            self.paint(written)

    def pass_lines(self, ready):
        """Passes on keys, lines and frames."""
        if self.keys.is_held():
            if self.keys.stream in ready:
                self.keys.read()
            for it in self.keys.came():
                self.press(it)
        super().pass_lines(ready)

    def press(self, name):
        """Passes on a key. One that interrupts is for the script as well."""
        if name == REDRAW:
            self.redraw()
        else:
            self.pass_key(name)
        if name in INTERRUPTS:
            os.killpg(0, signals.SIGINT)

    def pass_key(self, name):
        """Tells the display a key, unless too much waits for it already."""
        if len(self.display.lines) < READ:
            self.display.tell(LINE_OF_RELAY + b"key %s\n" % name.encode())

    def hear(self, numbers):
        """Handles signals."""
        if signals.SIGINT in numbers:
            self.pass_key("ctrl-c")
        if signals.SIGCONT in numbers:
            # others may have had the terminal
            self.keys.give_back()
            self.hold_keys()
            self.redraw()
        super().hear(numbers)

    def suspend(self):
        """Stops this process, and leaves the terminal as it was."""
        self.release()
        super().suspend()

    def fail(self, reason):
        """Goes on without a display, once."""
        try:
            super().fail(reason)
        finally:
            self.keys.give_back()

    def read_frames(self):
        """Draws the frames that are there, or leaves the dashboard of a display that has ended."""
        super().read_frames()
        self.hold_keys()

    def watch(self):
        """Gives the display up if it has taken nothing for too long."""
        super().watch()
        self.hold_keys()

    def release(self):
        """Gives the keys back, and writes what is left, also to a terminal that was stopped."""
        self.keys.give_back()
        if self.terminal.left:
            self.keys.start_output()
            self.terminal.finish(SHORT)

    def leave(self):
        """Gives the terminal back as it was."""
        self.paint(self.screen.erase())
        self.release()


def is_colored(words):
    """Returns whether a terminal has colours by these options and the environment."""
    read = os.environ.get
    if "--no-color" in words or read("NO_COLOR"):
        return False
    forced = read("CLICOLOR_FORCE", "") not in ("", "0")
    forced |= read("FORCE_COLOR", "") not in ("", "0", "false")
    return forced or read("CLICOLOR") != "0"


def numbers_of(texts):
    """Returns the number from 1 to 65535 that each text is, or None."""
    numbers = [int(it) if it.isascii() and it.isdecimal() else 0 for it in texts]
    return [it if 0 < it < 65536 else None for it in numbers]


def size_to_fill(said, size):
    """Returns the columns and the rows of a dashboard: the terminal's, unless fewer are said."""
    return tuple(min(wanted or most, most) for wanted, most in zip(said, size))


def begin(program, words, terminal):
    """Starts the display. Returns the relay to it."""
    size = terminal.size() or (80, 24)
    said = numbers_of(relay.said_sizes(words))
    options = [f"{name}={n}" for (name, _), n in zip(relay.SIZES, size_to_fill(said, size))]
    display = Display(program, ["--marks", *words, *options, "--terminal", "always"])
    found = Dashboard(terminal, display, Board(*size, is_colored(words)), False)
    found.said, found.screen.is_shown = said, found.may_draw()
    return found
