#!/usr/bin/env python3
"""on-terminal COLUMNS ROWS: plays steps on a terminal whose shell has one job.

The steps are lines of standard input:

  run COMMAND    the shell starts a job in a group of its own, in the foreground
  until TEXT     waits until the window shows a text
  gone TEXT      waits until it doesn't show a text any more
  screen         prints the window
  all            prints also what has left the window
  style TEXT     prints the style of a text
  keys TEXT      types a text, in which \\n, \\x03 and the like stand for keys
  tell PIPE TEXT writes a line to a named pipe
  size C R       changes the size of the terminal, or with 0 0 has it say none
  stopped        waits until the job is stopped, and says whether the modes are as at the start
  fg, bg         the shell has the job go on, in the foreground or not
  signal NAME    sends a signal to the job's group, `one NAME` to its first process alone
  kill NAME P    sends a signal to the first child of the job's process whose words begin with P
  updates        says whether all rows were drawn in synchronized updates, which have ended
  modes          says whether the modes of the terminal are those of the start
  page           says which page is shown, and whether the cursor, wrapping or, on the main page,
                 the style aren't as at the start
  raw            waits until it passes on each key at once, or `cooked` until it passes on lines
  file NAME      waits until there is a file
  close          closes the window
  ended          waits until the job has ended, and says how
  end NAME       sends a signal to its first process again and again until then
"""
import contextlib
import fcntl
import os
import select
import signal
import struct
import subprocess
import sys
import termios
import time

from terminal import Terminal

# The signals that stop a job, and those that may end it.
STOPS = (signal.SIGTTOU, signal.SIGTTIN, signal.SIGTSTP)
ENDS = (signal.SIGINT, signal.SIGQUIT, signal.SIGHUP, signal.SIGPIPE)
# How long a step may take.
SECONDS = 30


def shell(orders, reports):
    """Starts a job on the terminal that is standard input, and says what becomes of it."""
    for it in (*STOPS, *ENDS):
        signal.signal(it, signal.SIG_IGN)
    job = None

    def hang_up(*_):
        """Does what a shell does whose window is closed."""
        if job:
            with contextlib.suppress(ProcessLookupError):
                # it may have ended meanwhile
                os.killpg(job, signal.SIGHUP)

    signal.signal(signal.SIGHUP, hang_up)
    for line in orders:
        order, _, words = line.rstrip("\n").partition(" ")
        if order == "run":
            job = os.fork()
            with contextlib.suppress(PermissionError):
                # the job itself may have been faster
                os.setpgid(job, job or os.getpid())
            if not job:
                os.tcsetpgrp(0, os.getpid())
                for it in (*STOPS, *ENDS):
                    signal.signal(it, signal.SIG_DFL)
                os.execvp("sh", ["sh", "-c", f"exec {words}"])
        else:
            os.tcsetpgrp(0, job if order == "fg" else os.getpid())
            os.killpg(job, signal.SIGCONT)
        if order == "bg":
            continue
        print(f"job {job}", file=reports, flush=True)
        status = os.waitpid(job, os.WUNTRACED)[1]
        with contextlib.suppress(OSError):
            # unless the window is closed
            os.tcsetpgrp(0, os.getpid())
        if not os.WIFSTOPPED(status):
            job = None
        print(said_of(status), file=reports, flush=True)


def said_of(status):
    """Returns how a job was stopped or has ended."""
    if os.WIFSTOPPED(status):
        return "stopped"
    if os.WIFSIGNALED(status):
        return f"signal {signal.Signals(os.WTERMSIG(status)).name}"
    return f"status {os.WEXITSTATUS(status)}"


def told(pipe, line):
    """Writes a line to a named pipe, and returns whether anyone reads there."""
    try:
        fd = os.open(pipe, os.O_WRONLY | os.O_NONBLOCK)
    except OSError:
        return False
    os.write(fd, f"{line}\n".encode())
    os.close(fd)
    return True


class Play:
    """A terminal, its shell, and the steps that they take."""

    def __init__(self, columns, rows):
        self.window = Terminal(columns, rows)
        self.ours, theirs = os.openpty()
        self.set_size(columns, rows)
        self.modes_before = termios.tcgetattr(theirs)
        orders, self.orders = os.pipe()
        self.reports, reports = os.pipe()
        if not os.fork():
            os.setsid()
            fcntl.ioctl(theirs, termios.TIOCSCTTY, 0)
            for it in (0, 1, 2):
                os.dup2(theirs, it)
            for it in (self.orders, self.reports, self.ours):
                os.close(it)
            with open(orders, encoding="utf-8") as read, open(reports, "w") as write:
                shell(read, write)
            os._exit(0)
        for it in (orders, reports):
            os.close(it)
        self.theirs, self.said, self.job = theirs, [], None

    def set_size(self, columns, rows):
        fcntl.ioctl(self.ours, termios.TIOCSWINSZ, struct.pack("HHHH", rows, columns, 0, 0))

    def wait(self, is_there, what):
        """Plays what is written until something is there."""
        deadline = time.monotonic() + SECONDS
        while not is_there():
            self.read()
            if time.monotonic() > deadline:
                print(f"not {what}:", *self.window.lines(), sep="\n")
                if self.job:
                    with contextlib.suppress(ProcessLookupError):
                        os.killpg(self.job, signal.SIGKILL)
                sys.exit(1)

    def read(self):
        """Plays what is written, and keeps what the shell reports, as soon as there is any."""
        reads = [self.reports] + [self.ours] * (self.ours is not None)
        ready = select.select(reads, [], [], 0.05)[0]
        if self.ours in ready:
            self.window.play(os.read(self.ours, 65536))
        if self.reports in ready:
            self.said += os.read(self.reports, 4096).decode().splitlines()
            while self.said and self.said[0].startswith("job "):
                self.job = int(self.said.pop(0).split()[1])

    def order(self, text):
        os.write(self.orders, f"{text}\n".encode())

    def settle(self):
        """Plays what is there."""
        while self.ours is not None and select.select([self.ours], [], [], 0.02)[0]:
            self.window.play(os.read(self.ours, 65536))

    def report(self, name):
        """Waits for a report, and prints it."""
        self.wait(lambda: self.said, name)
        print(self.said.pop(0))

    def child(self, name):
        """Returns the first child of the job's process whose words begin so."""
        words = ["pgrep", "-f", "-P", str(self.job), f"^{name}"]
        found = subprocess.run(words, capture_output=True)
        return int(found.stdout.split()[0])

    def has_lines(self):
        """Returns whether the terminal passes on lines."""
        return bool(termios.tcgetattr(self.theirs)[3] & termios.ICANON)

    def same_modes(self):
        """Returns whether the modes of the terminal are those of the start."""
        is_same = termios.tcgetattr(self.theirs) == self.modes_before
        return "same modes" if is_same else "other modes"

    def close(self):
        """Closes the window, which hangs up the shell and its job."""
        self.settle()
        os.close(self.theirs)
        os.close(self.ours)
        self.ours = None

    def step(self, name, words):
        """Takes a step."""
        first, _, rest = words.partition(" ")
        if name in ("run", "fg", "bg"):
            self.order(f"{name} {words}")
        elif name == "until":
            self.wait(lambda: words in "\n".join(self.window.lines()), f"shown: {words}")
        elif name == "gone":
            self.wait(lambda: words not in "\n".join(self.window.lines()), f"gone: {words}")
        elif name in ("screen", "all", "style", "updates", "modes", "page"):
            self.show(name, words)
        elif name == "keys":
            os.write(self.ours, words.encode().decode("unicode_escape").encode("latin-1"))
        elif name == "tell":
            self.wait(lambda: told(first, rest), f"read: {first}")
        elif name == "size":
            self.settle()
            if int(first):
                self.window.resize(int(first), int(rest))
            self.set_size(int(first), int(rest))
        elif name in ("stopped", "ended"):
            self.report(name)
            self.settle()
        elif name == "end":
            while not self.said:
                with contextlib.suppress(ProcessLookupError):
                    self.send("one", words, "")
                self.read()
            self.report(name)
        elif name in ("raw", "cooked"):
            self.wait(lambda: self.has_lines() == (name == "cooked"), name)
        elif name == "file":
            self.wait(lambda: os.path.exists(words), f"there: {words}")
        elif name == "close":
            self.close()
        else:
            self.send(name, first, rest)

    def show(self, name, words):
        """Prints what a step asks for."""
        if name == "style":
            print(self.window.style_of(words))
        elif name == "updates":
            is_whole = not (self.window.flickers or self.window.is_updating)
            print("in updates" if is_whole else "not in updates")
        elif name == "modes":
            print(self.same_modes())
        elif name == "page":
            self.settle()
            print(self.window.state())
        else:
            self.settle()
            lines = self.window.lines if name == "screen" else self.window.all_lines
            print(*lines(), sep="\n")

    def send(self, name, signal_name, child):
        """Sends a signal."""
        number = getattr(signal, f"SIG{signal_name}")
        self.wait(lambda: self.job, "started")
        if name == "signal":
            os.killpg(self.job, number)
        else:
            os.kill(self.child(child) if name == "kill" else self.job, number)


def main():
    play = Play(int(sys.argv[1]), int(sys.argv[2]))
    for line in sys.stdin:
        name, _, words = line.rstrip("\n").partition(" ")
        play.step(name, words)
    return 0


if __name__ == "__main__":
    sys.exit(main())
