"""prodash replay FILE: plays a recording on the terminal, with the times between its frames.

If a frame is late, its messages are drawn with the next one, whose rows take the place of its rows.
A signal ends or stops it between two frames, once its rows are erased. The clock stands still while
it is stopped or in the background.
"""
import _signal as signals
import os
import re
import select
import time

import job
import relay
from recording import MOST, Failed, Faulty, Recording, count_of_messages

HELP = """\
Plays a recording on the terminal, with the times between its frames

Usage: prodash replay FILE [--speed N] [--no-color]
       prodash replay FILE --last [--no-color]

The recording is a file of prodash run --record FILE, or of prodash live --record FILE.

Options:
      --speed <N>   how many times as fast, as 2 or 0.5; 1 by default
      --last        writes what the run has left at once: its messages, and its last rows
      --no-color    without colours
  -h, --help        print help
"""
USAGE = "Usage: prodash replay FILE [--speed N | --last] [--no-color]"
# The signals that end it, if they aren't ignored from the start.
ENDS = (signals.SIGINT, signals.SIGQUIT, signals.SIGTERM, signals.SIGHUP)
# What erases the rows of a frame.
ERASE = b"\r\x1b[J"


class Misused(Exception):
    """What is wrong with the words."""


class Ended(Exception):
    """The signal that ends it."""


class Player:
    """The frames of a recording on their way to a terminal."""

    def __init__(self, recording, program, terminal, options):
        self.recording, self.program, self.options = recording, program, options
        self.terminal, self.size = terminal, None
        # the frames, and those of rows among them, each with the messages before it
        self.frames, self.drawn = None, iter(())
        # the rows of the latest frame, and whether they stand on the terminal
        self.rows, self.is_drawn = b"", False
        # when it has begun, later by how long it has stood still since
        self.begun = 0
        self.woken, wakes = os.pipe()
        os.set_blocking(wakes, False)
        signals.set_wakeup_fd(wakes, warn_on_full_buffer=False)
        for it in (*ENDS, signals.SIGTSTP):
            if it in job.handled():
                signals.signal(it, lambda *_: None)

    def wait(self, seconds, fd=None, event=0):
        """Waits until something can be done with a descriptor, and does what signals ask for."""
        poll = select.poll()
        poll.register(self.woken, select.POLLIN)
        if fd is not None:
            poll.register(fd, event)
        ready = dict(poll.poll(None if seconds is None else seconds * 1000))
        for it in os.read(self.woken, relay.READ) if self.woken in ready else b"":
            if it == signals.SIGTSTP:
                self.stop()
            elif it in ENDS:
                raise Ended(it)

    def stop(self):
        """Stops without rows. They come back as it goes on."""
        begun = time.monotonic()
        self.erase()
        before = signals.signal(signals.SIGTSTP, signals.SIG_DFL)
        os.kill(os.getpid(), signals.SIGTSTP)
        signals.signal(signals.SIGTSTP, before)
        self.begun += time.monotonic() - begun

    def erase(self):
        """Erases the rows, unless the terminal takes nothing."""
        if self.is_drawn:
            self.terminal.write(ERASE)
            self.terminal.finish(relay.SHORT)
        self.is_drawn = False

    def write(self, output):
        """Writes frames."""
        self.is_drawn = True
        self.terminal.write(output)
        while self.terminal.left:
            self.wait(None, self.terminal.fd, select.POLLOUT)
            self.terminal.flush()
        if self.terminal.reason:
            raise Failed(self.terminal.reason)

    def wait_until(self, seconds):
        """Waits until so many seconds after the beginning."""
        left = self.begun + seconds - time.monotonic()
        while True:
            self.wait(max(left, 0))
            self.wait_for_foreground()
            left = self.begun + seconds - time.monotonic()
            if left <= 0:
                return

    def wait_for_foreground(self):
        """Stands still in the background. Draws the rows again that were erased."""
        while not self.terminal.is_foreground():
            begun, now = self.begun, time.monotonic()
            self.wait(relay.LOOK)
            self.begun = begun + time.monotonic() - now
        if not self.is_drawn:
            self.write(self.rows)

    def begin(self, at):
        """Begins with the frame of this number, for the size that the terminal has."""
        if self.frames:
            self.frames.close()
        self.frames = self.recording.frames(self.program, self.size, self.options)
        # all of them are there once there is one
        self.wait(None, self.frames.output, select.POLLIN)
        self.drawn = with_messages(self.frames)
        for _ in range(at):
            next(self.drawn, None)

    def follow_size(self, at):
        """Begins anew, with the frame of this number, if the terminal has another size."""
        size = relay.size_to_draw_on(*(self.terminal.size() or (80, 24)))
        if size != self.size:
            self.size = size
            self.begin(at)

    def play(self, speed):
        """Draws each frame at its time, or so many times as soon."""
        times = [it / speed for it in self.recording.times]
        self.follow_size(0)
        self.begun, late = time.monotonic(), b""
        for at, moment in enumerate(times):
            self.wait_until(moment)
            self.follow_size(at)
            messages, self.rows = next(self.drawn, (b"", self.rows))
            late += messages
            if at + 1 == len(times) or time.monotonic() < self.begun + times[at + 1]:
                self.write(late + self.rows)
                late = b""


def with_messages(frames):
    """Yields each frame of rows, behind the frames of messages that came before it."""
    messages = b""
    for it in frames:
        if count_of_messages(it):
            messages += it
        else:
            yield messages, it
            messages = b""


def play(recording, program, speed, options):
    """Plays a recording, and returns the exit status."""
    if not relay.draws_on(1, []):
        why = "standard output is no terminal that shows frames"
        raise Faulty(f"{why}; prodash replay FILE --last writes what is left at the end")
    player = Player(recording, program, relay.Terminal(1), options)
    try:
        player.play(speed)
    except Ended as ended:
        player.erase()
        job.end_as(ended.args[0])
    if not recording.is_whole:
        player.erase()
    return 0


def size_to_write_on():
    """Returns the size of the terminal, with the columns that the environment says."""
    columns, rows = relay.Terminal(1).size() or (80, 24)
    said = os.environ.get("COLUMNS", "")
    if re.fullmatch("[0-9]{1,5}", said) and 0 < int(said) <= MOST:
        columns = int(said)
    return relay.size_to_draw_on(columns, rows)


def write_last(recording, program, options):
    """Writes what a run has left, and returns the exit status."""
    # who reads may have had enough
    signals.signal(signals.SIGPIPE, signals.SIG_DFL)
    size = size_to_write_on()
    lines = [*recording.said(program, size[1], options), *recording.left(program, size, options)]
    output = b"".join(it + b"\n" for it in lines)
    try:
        while output:
            output = output[os.write(1, output) :]
    except OSError as error:
        raise Failed(f"cannot write to standard output: {relay.text_of(error)}") from None
    return 0


def read(words):
    """Returns the file, the speed, or None if it isn't played, and whether there are colours."""
    path, speed, is_last, is_colored = None, None, False, not os.environ.get("NO_COLOR")
    words = list(words)
    while words:
        word, equals, value = words.pop(0).partition("=")
        if word == "--speed":
            if not equals and words:
                value = words.pop(0)
            speed = speed_of(value)
        elif word == "--last" and not equals:
            is_last = True
        elif word == "--no-color" and not equals:
            is_colored = False
        elif word.startswith("-") or path is not None:
            raise Misused(f"unexpected {word}{equals}{value}")
        else:
            path = f"{word}{equals}{value}"
    if path is None:
        raise Misused("no FILE")
    if is_last and speed is not None:
        raise Misused("--last has no --speed, since it plays nothing")
    return path, None if is_last else speed or 1.0, is_colored


def speed_of(value):
    """Returns the number that a word is."""
    try:
        speed = float(value)
    except ValueError:
        speed = 0
    if not 0.001 <= speed <= 1000:
        raise Misused(f"--speed takes a number from 0.001 to 1000, not {value!r}")
    return speed


def run(find, words):
    """Plays a recording, or writes what it has left, and returns the exit status."""
    path, speed, is_colored = read(words)
    recording = Recording(path)
    program = find("prodash-replay")
    if program is None:
        return 1
    try:
        if speed is None:
            options = ["--colored"] if is_colored and os.isatty(1) else []
            status = write_last(recording, program, options)
        else:
            status = play(recording, program, speed, ["--colored"] if is_colored else [])
    except Failed as failed:
        raise recording.why_faulty(program, failed) from None
    if not recording.is_whole:
        relay.say(2, f"prodash replay: {path} was cut off: its run has no end")
    return status


def main(find, words):
    """Plays the recording of these words. `find` returns the path of a program, or None."""
    # until there are rows
    job.end_at_interrupt()
    try:
        return run(find, words)
    except Misused as wrong:
        relay.say(2, f"prodash replay: {wrong}\n\n{USAGE}")
    except Faulty as wrong:
        relay.say(2, f"prodash replay: {wrong}")
    except Failed as failed:
        relay.say(2, f"prodash replay: {failed}")
        return 1
    return 2
