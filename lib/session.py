"""A job with a whole terminal of its own, in a session of its own.

A monitor leads the session, so that the job can be stopped by Ctrl-Z: the system drops that for the
leader itself.
"""
import _signal as signals
import fcntl
import os
import struct
import termios

import job
from keys import Keys
from run import Run

# A report of the monitor: the number of the job's process first, then each status.
REPORT = struct.Struct("i")


def begin_job(command, terminal):
    """Runs a command in the foreground of a terminal, in place of this process."""
    os.setpgid(0, 0)
    signals.signal(signals.SIGTTOU, signals.SIG_IGN)
    os.tcsetpgrp(terminal, os.getpid())
    signals.signal(signals.SIGTTOU, signals.SIG_DFL)
    os._exit(command.become())


def monitor(command, terminal, tells, ends):
    """Leads a session, and reports the job's process and each of its statuses."""
    os.setsid()
    fcntl.ioctl(terminal, termios.TIOCSCTTY, 0)
    pid = job.fork(begin_job, command, terminal)
    job.keep_only(tells, ends)
    os.write(tells, REPORT.pack(pid))
    status = None
    while status is None or os.WIFSTOPPED(status):
        status = os.waitpid(pid, os.WUNTRACED)[1]
        os.write(tells, REPORT.pack(status))
    os.read(ends, 1)


class Session:
    """The monitor of a job, as the wrapper sees it."""

    def __init__(self, command, terminal):
        """Starts the monitor and the job."""
        self.told, tells = os.pipe()
        ends, self.alive = os.pipe()
        self.pid = job.fork(monitor, command, terminal, tells, ends)
        os.close(tells)
        os.close(ends)


class SessionRun(Run):
    """A job in a session of its own, whose terminal gets all keys in the foreground."""

    def __init__(self, *words):
        super().__init__(*words)
        self.screen.has_gap = False
        self.session = None

    def open_output(self, streams, kind):
        """Opens the terminal of the job, and returns its end of it."""
        self.output, theirs = os.openpty()
        if os.isatty(0):
            if self.terminal.is_foreground():
                # else they are those of the shell's line editor
                termios.tcsetattr(theirs, termios.TCSANOW, termios.tcgetattr(0))
            self.keys = Keys(0, self.output, True)
        job.set_size(self.output, self.screen.columns, self.screen.height)
        os.set_blocking(self.output, False)
        return theirs

    def start(self, command, theirs):
        """Starts the monitor, which starts the job."""
        self.session = Session(command, theirs)
        self.pid = REPORT.unpack(os.read(self.session.told, REPORT.size))[0]

    def wants_keys(self):
        """Returns whether the keys are the job's: as long as there is one."""
        return self.status is None

    def reads(self):
        return [*super().reads(), self.session.told if self.status is None else None]

    def hear_all(self, ready):
        """Handles the signals that have come, and hears what becomes of the job."""
        super().hear_all(ready)
        if self.status is None and self.session.told in ready:
            self.hear_report(os.read(self.session.told, REPORT.size))

    def hear_report(self, report):
        """Stops with the job, or notes that it has ended."""
        status = REPORT.unpack(report)[0] if report else signals.SIGHUP
        if os.WIFSTOPPED(status):
            self.stop()
            os.killpg(self.pid, signals.SIGCONT)
        else:
            self.note_end(status)

    def reap(self):
        """Leaves the job to the monitor."""

    def pass_on(self):
        """Passes all signals on. The job's group is stopped and hung up whole, as by a terminal."""
        own, self.own = self.own, []
        for it in [it.number for it in own]:
            if self.status is None:
                is_for_all = it in (signals.SIGTSTP, signals.SIGHUP)
                (os.killpg if is_for_all else os.kill)(self.pid, it)

    def suspend(self):
        """Stops the whole group, as the terminal would have."""
        self.keys_back()
        os.killpg(0, signals.SIGTSTP)

    def kept(self):
        """Returns what keeps the monitor: the terminal is hung up at its end."""
        return self.session.alive

    def end(self):
        """Ends the display. The monitor ends with this process, unless others keep it."""
        status = super().end()
        self.ends_group = self.terminal.is_foreground()
        return status
