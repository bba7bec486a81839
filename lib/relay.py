"""Lines on their way to a display, and its frames on their way to a terminal.

This process is the only writer of the terminal: prodash-live draws on a pipe. Whatever becomes of
the display or of the terminal, lines are read on, so that who writes them goes on.
"""
import _signal as signals
import os
import select
import stat
import termios
import time

from display import READ, Display
from screen import Messages

# How many seconds: until the display has begun or ended, or is given up if it takes nothing;
# for what is written before a stop; between two looks at whether this is in the foreground.
STUCK, SHORT, LOOK = 2, 0.05, 0.2
# The options that say the size of the terminal, and the variables.
SIZES = (("--columns", "COLUMNS"), ("--rows", "LINES"))


class Terminal:
    """The terminal, or what is in its place, as what only this process writes."""

    def __init__(self, stream):
        # why nothing can be written there, if it can't
        self.stream, self.left, self.reason = stream, b"", ""
        self.is_terminal = os.isatty(stream)
        try:
            # opened anew, since the job and the shell have the stream's flags too
            flags = os.O_WRONLY | os.O_NOCTTY | os.O_NONBLOCK
            self.fd, self.most = os.open(os.ttyname(stream), flags), READ
        except OSError:
            is_file = stat.S_ISREG(os.fstat(stream).st_mode)
            self.fd, self.most = stream, READ if is_file else select.PIPE_BUF

    def write(self, output):
        """Takes output, and writes what there is room for, if that doesn't block."""
        if not self.reason:
            self.left += output
            if self.most == READ:
                self.flush()

    def flush(self):
        """Writes what there is room for."""
        try:
            self.left = self.left[os.write(self.fd, self.left[: self.most]) :]
        except BlockingIOError:
            pass
        except OSError as error:
            name = "output" if self.stream == 1 else "error"
            self.give_up(f"cannot write to standard {name}: {text_of(error)}")

    def give_up(self, reason):
        """Leaves out whatever would be written."""
        self.left, self.reason = b"", reason

    def finish(self, seconds):
        """Writes what is left, as long as there is room within some seconds."""
        poll = select.poll()
        poll.register(self.fd, select.POLLOUT)
        while self.left and poll.poll(seconds * 1000):
            self.flush()

    def size(self):
        """Returns the columns and the rows, or None if they aren't known."""
        try:
            size = os.get_terminal_size(self.stream)
        except OSError:
            return None
        return (size.columns, size.lines) if size.columns and size.lines else None

    def is_foreground(self):
        """Returns whether rows may be drawn: not behind a job of the shell."""
        try:
            return os.tcgetpgrp(self.stream) == os.getpgrp()
        except OSError:
            return True

    def is_taken(self):
        """Returns whether a program has the keys one by one, as one with a full screen."""
        try:
            return not termios.tcgetattr(self.stream)[3] & termios.ICANON
        except termios.error:
            return False

    def is_gone(self):
        """Returns whether the window was closed."""
        return self.is_terminal and not os.isatty(self.stream)


class Relay:
    """A display, what has its lines, and the terminal for its frames."""

    def __init__(self, terminal, display, screen, follows_size):
        self.terminal, self.display, self.screen = terminal, display, screen
        self.follows_size = follows_size
        # what has the lines; None once nobody writes there
        self.events = None
        self.woken, self.wakes = os.pipe()
        for it in (self.woken, self.wakes):
            os.set_blocking(it, False)
        # whether nothing is awaited any more
        self.is_hurried = False
        # how long this or the terminal was stopped, which counts nowhere
        self.stopped = 0
        # when the display has taken lines, and whether it has to end
        self.taken, self.is_ending = time.monotonic(), False

    def handle(self, numbers):
        """Has signals wake this process."""
        for it in numbers:
            signals.signal(it, lambda *_: None)
        signals.set_wakeup_fd(self.wakes, warn_on_full_buffer=False)

    def paint(self, written):
        self.terminal.write(written)

    def clock(self):
        """Returns the moment on a clock that stands still while this or the terminal is stopped."""
        return time.monotonic() - self.stopped

    def may_draw(self):
        """Returns whether the terminal is for rows now."""
        return self.terminal.is_foreground()

    def look(self):
        """Notes whether rows may be drawn now, and draws them if they may again."""
        is_shown, was_shown = self.may_draw(), self.screen.is_shown
        self.screen.is_shown = is_shown
        if is_shown and not was_shown:
            self.paint(self.screen.draw())

    def read_events(self):
        """Passes on lines to the display. Returns how many bytes they have, 0 at their end."""
        lines = os.read(self.events, READ)
        self.display.send(lines)
        if not lines:
            self.events = None
        return len(lines)

    def read_frames(self):
        """Draws the frames that are there, or erases the rows of a display that has ended."""
        self.take(self.display.read())
        if not self.display.is_alive():
            self.paint(self.screen.clear())

    def take(self, frames):
        """Draws frames."""
        for it in frames:
            self.paint(self.screen.take(it))

    def write_lines(self):
        self.display.write()
        self.taken = self.clock()

    def reads(self):
        """Returns the descriptors to read of, and None for each that isn't there."""
        display = self.display
        frames = display.frames if display.is_alive() and not self.terminal.left else None
        return [frames, self.events if len(display.lines) < READ else None]

    def writes(self):
        """Returns the descriptors to write to, and None for each that isn't there."""
        terminal = self.terminal.fd if self.terminal.left else None
        return [terminal, self.display.to if self.display.lines else None]

    def wait(self):
        """Waits until something can be done, and returns the descriptors with which it can."""
        wanted = {self.woken: select.POLLIN}
        for found, event in ((self.reads(), select.POLLIN), (self.writes(), select.POLLOUT)):
            for it in found:
                if it is not None:
                    wanted[it] = wanted.get(it, 0) | event
        poll = select.poll()
        for it, event in wanted.items():
            poll.register(it, event)
        times, begun = self.times(), time.monotonic()
        ready = dict(poll.poll(max(min(times) + 0.001, 0) * 1000 if times else None))
        if self.terminal.left:
            self.stopped += time.monotonic() - begun
        if not (self.display.lines or self.is_ending):
            # the display had nothing to take
            self.taken = self.clock()
        return ready

    def times(self):
        """Returns after how many seconds each thing has to be done that nothing else tells."""
        times = [] if self.screen.is_shown else [LOOK]
        if not self.terminal.left and (self.display.lines or self.is_ending):
            times.append(self.taken + STUCK - self.clock())
        return times

    def step(self):
        """Does what can be done."""
        ready = self.wait()
        self.hear_all(ready)
        self.look()
        self.flush(ready)
        self.pass_lines(ready)

    def hear_all(self, ready):
        """Handles the signals that have come."""
        if self.woken in ready:
            self.hear(self.came())

    def came(self):
        """Returns the numbers of the signals that have come."""
        try:
            return os.read(self.woken, READ)
        except BlockingIOError:
            return b""

    def flush(self, ready):
        """Writes what is left of frames, if there is room."""
        if self.terminal.left and self.terminal.fd in ready:
            self.terminal.flush()

    def pass_lines(self, ready):
        """Passes on lines and frames."""
        if self.display.to in ready:
            self.write_lines()
        if self.events in ready:
            self.read_events()
        if self.display.is_alive():
            if self.display.frames in ready:
                self.read_frames()
            elif self.display.lines:
                self.watch()

    def watch(self):
        """Gives the display up if it has taken nothing for too long."""
        if self.display.is_alive() and self.clock() > self.taken + STUCK:
            self.display.give_up("the display was stuck", signals.SIGKILL)
            self.paint(self.screen.clear())

    def hear(self, numbers):
        """Handles signals."""

    def stop(self):
        """Stops without rows, and goes on with them."""
        self.paint(self.screen.erase())
        self.terminal.finish(SHORT)
        before, begun = signals.signal(signals.SIGTSTP, signals.SIG_DFL), time.monotonic()
        # another Ctrl-Z that came meanwhile is the same stop
        came = self.came().replace(bytes([signals.SIGTSTP]), b"")
        self.suspend()
        signals.signal(signals.SIGTSTP, before)
        self.stopped += time.monotonic() - begun
        self.screen.is_shown = False
        self.resize()
        self.look()
        self.hear(came)

    def suspend(self):
        """Stops this process. The others of the group were sent the signal as well."""
        os.kill(os.getpid(), signals.SIGTSTP)

    def resize(self):
        """Tells the screen and the display a new size, and returns it, or None."""
        size = self.terminal.size()
        if size is None or size == (self.screen.columns, self.screen.height):
            return None
        self.screen.columns, self.screen.height = size
        if self.follows_size:
            self.display.resize(*size_to_draw_on(*size))
        self.paint(self.screen.draw())
        return size

    def go_on(self):
        """Does what can be done until it is over."""
        while not self.is_over():
            self.step_or_fail()

    def step_or_fail(self):
        """Takes a step. If it raises, whatever it is, the display is given up, and no more."""
        try:
            self.step()
        except Exception as error:
            # the lines and the job's output are passed on
            self.fail(f"{type(error).__name__}: {error}")

    def fail(self, reason):
        """Goes on without a display, once."""
        if isinstance(self.screen, Messages):
            raise
        erased, self.screen = self.screen.erase(), Messages(self.screen.columns, self.screen.height)
        self.paint(erased)
        if self.display.is_alive():
            self.display.give_up(reason, signals.SIGKILL)

    def finish(self):
        """Ends the display, and leaves nothing of it on the terminal."""
        self.finish_display()
        self.paint(self.screen.clear())
        while self.terminal.left and not self.is_hurried:
            self.step()

    def finish_display(self):
        """Reads the last frames of the display, unless it is stuck."""
        self.is_ending, self.taken = True, self.clock()
        self.display.finish()
        while self.display.is_alive() and not self.is_hurried:
            if not self.display.lines:
                self.display.close()
            self.step_or_fail()
            self.watch()
        if self.display.is_alive():
            self.display.give_up("the display was not awaited", signals.SIGKILL)


def has_input(fd):
    """Returns whether there is anything to read, or the end."""
    return bool(select.select([fd], [], [], 0)[0])


def text_of(error):
    """Returns what an error of the system says, as prodash-live says it."""
    return f"{error.strerror} (os error {error.errno})"


def say(stream, text):
    """Writes a line to a stream, and returns whether that could be written."""
    try:
        # the name of a file needn't be UTF-8
        os.write(stream, f"{text}\n".encode(errors="surrogateescape"))
        return True
    except OSError:
        # as where the terminal is gone
        return False


def tell(display):
    """Writes what a display has said that has ended with a status, and returns that.

    It is the help, or what is wrong with the options.
    """
    status = os.WEXITSTATUS(display.status)
    return status if say(2 if status else 1, display.said) else 1


def value_of(options, name):
    """Returns the last value of an option, or None."""
    value = None
    for at, it in enumerate(options):
        if it.startswith(f"{name}="):
            value = it[len(name) + 1 :]
        elif it == name:
            value = "".join(options[at + 1 : at + 2])
    return value


def draws_on(stream, options):
    """Returns whether there are rows on a stream."""
    when = value_of(options, "--terminal")
    is_dumb = os.environ.get("TERM", "") in ("", "dumb")
    return when == "always" or when != "never" and os.isatty(stream) and not is_dumb


def size_to_draw_on(columns, rows):
    """Returns the size of what prodash-live draws on, without rows for two lines of others."""
    return columns, max(rows - 2, 1)


def said_sizes(options):
    """Returns the columns and the rows that options or the environment say, or empty texts."""
    return [value_of(options, name) or os.environ.get(other, "") for name, other in SIZES]


def size_options(options, size):
    """Returns the options of a size, and whether the terminal's is followed: if none was said.

    Rows that wouldn't fit are none, so no more are drawn than there are, whatever was said.
    """
    said = said_sizes(options)
    if size is None:
        return [], False
    columns, rows = size_to_draw_on(*size)
    found = [] if said[0] else [f"--columns={columns}"]
    if not said[1] or said[1].isdecimal() and int(said[1]) > rows:
        found.append(f"--rows={rows}")
    return found, not any(said)


def begin(make, program, options, terminal, screen, draws):
    """Starts the display, with rows or without. Returns the relay to it."""
    sizes, follows_size = size_options(options, terminal.size() if draws else None)
    words = ["--marks", *options, *sizes, "--terminal", "always" if draws else "never"]
    return make(terminal, Display(program, words), screen, follows_size)
