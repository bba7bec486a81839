"""prodash run: a job with rows below its output, which any of its processes may add.

The job writes to a terminal or a pipe of which this process reads. Whatever becomes of the display,
the job's output is passed on, its lines are read, and it ends as without it.
"""
import _signal as signals
import errno
import os
import select
import stat
import termios
import time

import job
import relay
from keys import Keys
from relay import LOOK, READ, SHORT, STUCK, Relay, Terminal
from screen import Messages, Screen

HELP = """\
Runs a command with rows below its output, which any of its processes may add

Usage: prodash run [OPTIONS] [--] COMMAND [WORD ..]
       prodash run COMMAND [WORD ..]

The command has PRODASH_FD in its environment: a descriptor that reads event lines, as
  echo "add @a 0 compress" >&$PRODASH_FD

Options:
      --pty      the command has a whole terminal of its own, also for keys
      --no-pty   the output of the command is a pipe, not a terminal
  -h, --help     print help
  and those of prodash-live but --dashboard: prodash live --help. Off a terminal
  --plain=30 and --summary are the default
"""
# How many seconds: until a signal was for this process alone; without anything of a job that has
# ended, until what others still write is left.
ALONE, QUIET = 0.05, 0.2
# The options of prodash-live that take a value, which may be the next word.
VALUED = "--columns --rows --bar-columns --fps --delay --terminal --record --plain".split()
# After how many seconds plain lines say what has changed, on no terminal.
PLAIN = 30
# What is said if a dashboard is asked for.
NO_DASHBOARD = """\
error: '--dashboard' is an option of prodash live alone: what a job writes stands above its rows,
and a dashboard fills the terminal"""
# The status of a display that found a task unfinished.
UNFINISHED = 3
# What the job's output is: a terminal, that of a session of its own, or a pipe.
TERMINAL, SESSION, PIPE = KINDS = ("", "--pty", "--no-pty")


class Rest:
    """What was read of a descriptor since the job has ended."""

    def __init__(self):
        self.heard = self.size = self.until = 0

    def end(self, now):
        """Notes that the job has ended."""
        self.heard, self.size, self.until = now, 0, now + STUCK

    def add(self, size, now):
        """Notes how much was read."""
        self.heard, self.size = now, self.size + size

    def is_over(self, now, is_taken):
        """Returns whether what comes is of others.

        A pipe has no more, or all is taken that came and nothing does, or they write on and on.
        """
        return self.size >= READ or is_taken and now > min(self.heard + QUIET, self.until)


class Signal:
    """A signal that this process got, which may be one for the whole group."""

    def __init__(self, number, now):
        self.number, self.came = number, now
        # until when the sentinel is awaited, and which answer of it says that it has told all
        self.until, self.answer = now + ALONE, None

    def asked(self, answer, now):
        """Notes that the sentinel is asked, which tells what it got ahead of the answer."""
        self.until, self.answer = now + STUCK, answer


class Run(Relay):
    """A job, its display, and all that is read and written between them."""

    # whether a signal that ends the job is one of the terminal for the whole group
    ends_group = False

    def __init__(self, *words):
        super().__init__(*words)
        # what the job writes; None once nobody writes there
        self.output = self.sentinel = None
        # whether another program reads what the job writes to standard output
        self.is_piped = stat.S_ISFIFO(os.fstat(1).st_mode)
        # the keys of the terminal, and the modes of the job's output if nobody reads keys there
        self.keys = self.modes = None
        self.pid = self.status = None
        # signals that this process got, and when the sentinel told each number
        self.own, self.told = [], {}
        # when the job has ended
        self.ended = time.monotonic()
        self.output_rest, self.events_rest = Rest(), Rest()

    def may_draw(self):
        """Returns whether the terminal is for rows now, and not for a pager of the output."""
        is_pager_there = self.is_piped and not self.holds_keys() and self.terminal.is_taken()
        return super().may_draw() and not is_pager_there

    def holds_keys(self):
        """Returns whether keys are passed on to the job."""
        return self.keys is not None and self.keys.is_held()

    def look(self):
        """Has the keys that are the job's, while rows may be drawn."""
        super().look()
        if self.keys and self.holds_keys() != (self.screen.is_shown and self.wants_keys()):
            if self.holds_keys():
                self.keys.give_back()
            else:
                self.keys.hold()

    def wants_keys(self):
        """Returns whether the job reads keys from its output, as less does: it has set modes."""
        return self.output is not None and termios.tcgetattr(self.output) != self.modes

    def keys_back(self):
        """Gives the terminal back its modes."""
        if self.keys:
            self.keys.give_back()

    def read_output(self):
        """Passes on what the job has written."""
        read = []
        try:
            while sum(map(len, read)) < READ:
                read.append(os.read(self.output, READ))
                if not read[-1]:
                    raise OSError(errno.EIO, "nobody writes")
        except BlockingIOError:
            pass
        except OSError:
            os.close(self.output)
            self.output = None
        output = b"".join(read)
        if output:
            self.output_rest.add(len(output), self.clock())
            self.paint(self.screen.put(output))

    def read_events(self):
        """Passes on lines to the display."""
        size = super().read_events()
        if size:
            self.events_rest.add(size, self.clock())

    def open_output(self, streams, kind):
        """Opens what the job writes to in place of these streams, and returns the job's end."""
        if not streams:
            return None
        if kind == PIPE or not os.isatty(streams[0]):
            self.output, theirs = os.pipe()
        else:
            self.output, theirs = job.output_terminal(self.screen.columns, self.screen.height)
            self.modes = termios.tcgetattr(self.output)
            if os.isatty(0):
                self.keys = Keys(0, self.output, False)
        os.set_blocking(self.output, False)
        return theirs

    def start(self, command, _):
        """Starts the job."""
        self.sentinel = job.Sentinel()
        self.pid, self.status = command.start()

    def reads(self):
        found = [*super().reads(), self.sentinel.told if self.sentinel else None]
        if self.holds_keys() and not self.keys.left:
            found.append(self.keys.stream)
        if len(self.terminal.left) < READ:
            found.append(self.output)
        return found

    def writes(self):
        keys = self.output if self.keys and self.keys.left else None
        return [*super().writes(), keys]

    def times(self):
        now, times = time.monotonic(), super().times()
        times += [it.until - now for it in self.own]
        if self.holds_keys():
            times.append(LOOK)
        if self.status is not None:
            times.append(QUIET)
        return times

    def hear_all(self, ready):
        """Handles the signals that have come, here or at the sentinel."""
        if self.sentinel and self.sentinel.told in ready:
            self.hear_sentinel()
        super().hear_all(ready)
        self.pass_on()

    def pass_lines(self, ready):
        """Passes on keys, output, lines and frames."""
        if self.holds_keys() and self.keys.stream in ready:
            self.keys.read()
        if self.keys and self.keys.left and self.output is not None:
            self.keys.write()
        if self.output in ready:
            self.read_output()
        super().pass_lines(ready)

    def hear(self, numbers):
        """Handles signals."""
        now = time.monotonic()
        # one that comes later than the job's end ends this process, too
        is_over = self.status is not None and now > self.ended + ALONE
        for it in numbers:
            if it == signals.SIGCHLD:
                self.reap()
            elif it == signals.SIGWINCH:
                self.resize()
            elif it in job.PASSED:
                self.is_hurried |= is_over
                self.own.append(Signal(it, now))

    def hear_sentinel(self):
        """Notes which signals the group got. Another sentinel takes the place of one that ended."""
        told = os.read(self.sentinel.told, READ)
        self.told.update(dict.fromkeys(told, time.monotonic()))
        self.sentinel.answers += told.count(0)
        if not told:
            self.sentinel.end()
            try:
                self.sentinel = job.Sentinel()
            except OSError:
                # what this process gets is passed on then
                self.sentinel = None

    def reap(self):
        """Notes whether the job has ended."""
        if self.pid and self.status is None:
            pid, status = os.waitpid(self.pid, os.WNOHANG)
            if pid:
                self.note_end(status)

    def note_end(self, status):
        """Notes how the job has ended."""
        self.status, self.ended = status, time.monotonic()
        for it in (self.output_rest, self.events_rest):
            it.end(self.clock())

    def has_answer(self, answer):
        """Returns whether the sentinel has told what it got, or there is none."""
        return not self.sentinel or answer is not None and answer <= self.sentinel.answers

    def was_for_all(self, it):
        """Returns whether a signal counts as one for the whole group, which the job got by itself.

        The system makes one of two signals of a kind that wait, here or at the sentinel, so they
        can't be paired. So each that came within a moment of one for the group counts as one for
        the group. The job gets from the group what it gets without this process, and never more. A
        signal for this process alone at that moment is lost, as the system itself makes one of two
        that follow at once.
        """
        told = self.told.get(it.number)
        return told is not None and it.came < told + ALONE

    def is_open(self, it, now):
        """Returns whether the sentinel may still tell of a signal, and asks it at last."""
        if now < it.until and not self.has_answer(it.answer):
            return True
        if it.answer is not None or not self.sentinel:
            return False
        it.asked(self.sentinel.ask(), now)
        return True

    def pass_on(self):
        """Passes on the signals that the group didn't get, and stops with the job."""
        now, own = time.monotonic(), self.own
        self.own = [it for it in own if not self.was_for_all(it) and self.is_open(it, now)]
        numbers = []
        for it in own:
            if it not in self.own:
                numbers.append(it.number)
                if self.status is None and not self.was_for_all(it):
                    os.kill(self.pid, it.number)
        if signals.SIGTSTP in numbers:
            self.stop()

    def drain(self):
        """Passes on what the job writes as it stops."""
        until, poll = time.monotonic() + LOOK, select.poll()
        if self.output is not None:
            poll.register(self.output, select.POLLIN)
        while self.output is not None and time.monotonic() < until and poll.poll(SHORT * 1000):
            self.read_output()

    def stop(self):
        """Stops without rows, and goes on with them."""
        self.drain()
        super().stop()

    def suspend(self):
        """Stops this process. The job was sent the signal as well."""
        self.keys_back()
        super().suspend()

    def resize(self):
        """Tells everyone a new size."""
        size = super().resize()
        if size and self.output is not None and os.isatty(self.output):
            # the job may have asked for the size before
            job.set_size(self.output, *size)
            os.killpg(0, signals.SIGWINCH)

    def is_over(self):
        """Returns whether the job has ended and all is read, or what is left is of others."""
        if self.status is None or self.is_hurried:
            return self.is_hurried
        now, output = self.clock(), (self.output, self.output_rest, self.terminal.left)
        rests = output, (self.events, self.events_rest, self.display.lines)
        return all(
            fd is None or rest.is_over(now, not (left or relay.has_input(fd)))
            for fd, rest, left in rests
        )

    def end(self):
        """Ends the display, and leaves the terminal to others. Returns how the job ended."""
        for fd, to in ((self.output, self.terminal.stream), (self.events, None)):
            if fd is not None:
                os.set_blocking(fd, True)
                job.leave(fd, to, self.kept())
        self.output = self.events = None
        self.finish()
        self.keys_back()
        if self.sentinel:
            self.sentinel.end()
        return self.status

    def kept(self):
        """Returns a descriptor that stays open as long as others write to the job's output."""


def begins_with_option(words):
    """Returns whether the first of the words is an option."""
    return bool(words) and words[0].startswith("-") and words[0] != "--"


def take_option(words):
    """Takes the option off the beginning of the words, and its value. Returns the two."""
    option = [words.pop(0)]
    if option[0] in VALUED and words and not words[0].startswith("--"):
        option.append(words.pop(0))
    return option


def command_of(words):
    """Returns the command behind the options."""
    return words[1:] if words[:1] == ["--"] else words


def split(words):
    """Returns the options and the command among the words."""
    options, rest = [], list(words)
    while begins_with_option(rest):
        options += take_option(rest)
    return options, command_of(rest)


def stream_to_draw_on(options):
    """Returns the stream whose terminal has the rows, or None if there are none."""
    found = [it for it in (2, 1) if os.isatty(it)]
    stream = found[0] if found else 2
    return stream if relay.draws_on(stream, options) else None


def begin(make, program, options, stream):
    """Starts the display. Returns the run without a job."""
    terminal = Terminal(2 if stream is None else stream)
    columns, rows = terminal.size() or (80, 24)
    draws = stream is not None
    screen = Screen(columns, rows, os.isatty(0)) if draws else Messages(columns, rows)
    return relay.begin(make, program, options, terminal, screen, draws)


def streams_of(stream, kind):
    """Returns the streams of the job that are the terminal with the rows."""
    if stream is None:
        return []
    if not os.isatty(stream):
        return [stream]
    device, wanted = os.fstat(stream).st_rdev, (0, 1, 2) if kind == SESSION else (1, 2)
    return [it for it in wanted if os.isatty(it) and os.fstat(it).st_rdev == device]


def start(run, command, streams, digit, kind):
    """Starts the job. Its output and its lines are then read by this process."""
    run.events, writes = os.pipe()
    theirs = run.open_output(streams, kind)
    command.moves = [(theirs, it) for it in streams]
    # what is there is of another wrapper
    job.forget_descriptor()
    if digit:
        command.moves.append((writes, digit))
        os.environ.update(PRODASH_FD=str(digit), PRODASH_FD_ID=job.identity(run.events))
    run.handle((*job.handled(), signals.SIGCHLD, signals.SIGWINCH))
    command.end_early()
    run.start(command, theirs)
    signals.pthread_sigmask(signals.SIG_SETMASK, command.mask)
    for it in (theirs, writes):
        if it is not None:
            os.close(it)


def run_of(kind):
    """Returns the type of a run whose job has this kind of output."""
    if kind != SESSION:
        return Run
    from session import SessionRun

    return SessionRun


def report(run, status):
    """Says what has failed, and ends this process as the job has ended."""
    reason = run.display.reason or run.display.said
    if reason and not run.is_hurried:
        # behind the ^C that the terminal has shown
        feed = "\n" * os.WIFSIGNALED(status)
        relay.say(2, f"{feed}prodash run: {reason}")
        if not status:
            os._exit(1)
    if not status and run.display.status == UNFINISHED << 8:
        os._exit(UNFINISHED)
    job.end_as(status, run.ends_group)


def wrap(program, options, command):
    """Starts the display, and the job unless the options are wrong."""
    signals.pthread_sigmask(signals.SIG_BLOCK, job.handled())
    digit, stream = job.free_digit(), stream_to_draw_on(options)
    kinds = [it for it in options if it in KINDS and stream is not None]
    kind = kinds[-1] if kinds else TERMINAL
    plain = [f"--plain={PLAIN}", "--summary"] if stream is None and not os.isatty(2) else []
    words = [*plain, *(it for it in options if it not in KINDS)]
    run = begin(run_of(kind), program, words, stream)
    frames = run.display.awaits(STUCK)
    if frames is not None:
        start(run, command, streams_of(stream, kind), digit, kind)
        run.take(frames)
    return run


def main(program, words):
    """Runs the command of these words, with the program at this path as display."""
    # before there is a job
    job.end_at_interrupt()
    options, command = split(words)
    if "-h" in options or "--help" in options:
        os.write(1, HELP.encode())
        return 0
    if "--dashboard" in options:
        os.write(2, f"{NO_DASHBOARD}\n".encode())
        return 2
    if not command:
        os.write(2, b"prodash run: no command\n\n")
        os.write(2, b"Usage: prodash run [OPTIONS] [--] COMMAND [WORD ..]\n")
        return 2
    if job.is_nested():
        # the wrapper above has the rows
        return job.Command(command).become()
    job.open_streams()
    command = job.Command(command)
    try:
        run = wrap(program, options, command)
    except OSError as error:
        # of this process: it has no descriptors or no processes left
        relay.say(2, f"prodash run: {error.strerror}")
        return command.become_alone()
    if run.pid is None and run.status is None:
        return relay.tell(run.display)
    run.go_on()
    report(run, run.end())
