"""prodash-live behind the relay: the lines come on standard input.

A signal ends no display that has drawn before its rows are erased:

- SIGINT and SIGQUIT are left to the script that writes the lines. If standard input is a terminal,
  they end the input.
- SIGTERM and SIGHUP end the input, after the lines that are there already. A line that isn't whole
  is left out. A second one ends the display at once.
- SIGTSTP stops this process without rows, which come back when it goes on.

If the display or its output fails, the rest of the lines is read and left out, so that the script
goes on. If the window is closed, SIGHUP ends no input.
"""
import _signal as signals
import os

import job
import relay
from display import MARK, READ
from relay import STUCK, Relay, Terminal
from screen import Messages, Screen

# Signals that the terminal sends to the script as well, and those that end the input.
KEYS, ENDS = (signals.SIGINT, signals.SIGQUIT), (signals.SIGTERM, signals.SIGHUP)
# The option of a dashboard, and what is said if the lines would be typed below it.
DASHBOARD = "--dashboard"
TYPED = """\
error: '--dashboard' takes the keys of the terminal, so no lines can be typed: pipe them in, as in
  script | prodash-live --dashboard"""
# How prodash-live ends at a faulty line, with --strict before the end of the input.
FAULTY = 2


class Marked(Messages):
    """Frames with their marks, for a program that passes them on."""

    def take(self, frame):
        return frame + MARK


class Bytes(Messages):
    """Frames of a dashboard as they are, for what is no terminal."""

    def take(self, frame):
        return frame


class Live(Relay):
    """The lines of standard input, and their display."""

    def __init__(self, *words):
        super().__init__(*words)
        # whether a signal has ended the input, and why it can't be read, if it can't
        self.events, self.is_ended, self.reason = 0, False, ""

    def read_events(self):
        """Passes on the lines that have come."""
        try:
            super().read_events()
        except OSError as error:
            self.events, self.reason = None, why_unread(error)

    def hear(self, numbers):
        """Handles signals."""
        if signals.SIGWINCH in numbers:
            self.resize()
        if signals.SIGTSTP in numbers:
            self.stop()
        for it in numbers:
            if it in KEYS:
                self.go_below()
            if it in ENDS and not self.is_hung_up(it) or it in KEYS and os.isatty(0):
                self.end_input()

    def go_below(self):
        """Goes below the ^C that the terminal has shown."""
        if isinstance(self.screen, Screen):
            self.paint(self.screen.put(b"\r\n"))

    def is_hung_up(self, number):
        """Returns whether a signal says that the window was closed: who writes may not care."""
        return number == signals.SIGHUP and self.terminal.is_gone()

    def end_input(self):
        """Takes the lines that are there already, and no more. The second time nothing is."""
        if self.is_ended:
            self.is_hurried = True
        elif self.events is not None and relay.has_input(self.events):
            self.read_events()
        self.display.drop_rest()
        self.events, self.is_ended = None, True

    def leave(self):
        """Gives the terminal back, if it was taken whole."""

    def is_over(self):
        """Returns whether all lines are read, or no more are to be."""
        return self.events is None or self.is_faulty()

    def is_faulty(self):
        """Returns whether the display has ended at a faulty line."""
        status = self.display.status
        return status is not None and os.WIFEXITED(status) and os.WEXITSTATUS(status) == FAULTY

    def status(self):
        """Says what has failed, and returns the status."""
        display, status = self.display, self.display.status
        for reason in (self.reason, self.terminal.reason, display.said):
            if reason:
                relay.say(2, reason)
        if display.reason and not self.is_hurried:
            relay.say(2, f"prodash live: {display.reason}")
        if status is None:
            return 1
        if os.WIFSIGNALED(status):
            return 128 + os.WTERMSIG(status)
        return os.WEXITSTATUS(status) or int(bool(self.reason or self.terminal.reason))


def stream_of(words):
    """Returns the stream that is drawn on."""
    return 1 if "--stdout" in words else 2


def closed_input():
    """Returns why standard input can't be read, if it is closed."""
    try:
        os.fstat(0)
        return ""
    except OSError as error:
        return why_unread(error)


def why_unread(error):
    return f"cannot read standard input: {relay.text_of(error)}"


def begin(program, words):
    """Starts the display."""
    stream = stream_of(words)
    terminal, draws = Terminal(stream), relay.draws_on(stream, words)
    if draws and terminal.is_terminal and DASHBOARD in words:
        # no other display needs it
        import dashboard

        return dashboard.begin(program, words, terminal)
    columns, rows = terminal.size() or (80, 24)
    if draws and terminal.is_terminal:
        screen = Screen(columns, rows, True)
    elif DASHBOARD in words and "--marks" not in words:
        screen = Bytes(columns, rows)
    else:
        screen = (Marked if "--marks" in words else Messages)(columns, rows)
    return relay.begin(Live, program, words, terminal, screen, draws)


def read_on():
    """Reads standard input to its end, so that who writes there goes on. Keys are left."""
    for it in job.handled():
        # what the terminal sends is for who writes there
        signals.signal(it, signals.SIG_IGN if it in KEYS else signals.SIG_DFL)
    signals.pthread_sigmask(signals.SIG_UNBLOCK, job.PASSED)
    try:
        while not os.isatty(0) and os.read(0, READ):
            pass
    except OSError:
        pass


def follow(live, frames):
    """Passes lines and frames on to their end, and returns the status."""
    handled = [it for it in (*KEYS, *ENDS, signals.SIGTSTP) if it in job.handled()]
    live.handle([*handled, signals.SIGWINCH])
    if isinstance(live.screen, Marked):
        live.paint(MARK)
    try:
        live.take(frames)
        signals.pthread_sigmask(signals.SIG_UNBLOCK, job.PASSED)
        live.go_on()
        live.finish()
    finally:
        live.leave()
    return live.status()


def is_typed(words):
    """Returns whether the lines of a dashboard would be typed on the terminal."""
    return DASHBOARD in words and os.isatty(0) and relay.draws_on(stream_of(words), words)


def try_to_run(program, words):
    """Runs the program. Returns the status, and whether no line is to be read any more."""
    if is_typed(words):
        relay.say(2, TYPED)
        return FAULTY, True
    reason = closed_input()
    job.open_streams()
    try:
        live = begin(program, words)
        frames = live.display.awaits(STUCK)
        if frames is None:
            status = relay.tell(live.display)
            return status, status == 0
        if reason:
            live.reason, live.events = reason, None
        return follow(live, frames), True
    except Exception as error:
        relay.say(2, f"prodash live: {getattr(error, 'strerror', None) or error}")
        return 1, False


def run(program, words):
    """Runs the program at this path with these words, and returns the status."""
    signals.pthread_sigmask(signals.SIG_BLOCK, job.PASSED)
    status, is_read = try_to_run(program, words)
    if not is_read:
        read_on()
    # what comes now is too late to change the status
    signals.pthread_sigmask(signals.SIG_BLOCK, job.PASSED)
    return status
