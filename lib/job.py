"""A job, its streams, and the signals that it gets."""
import _signal as signals
import fcntl
import os
import struct
import termios

# What ends a job, stops it or tells it something, and is sent to it by whoever knows the wrapper.
PASSED = (
    signals.SIGINT,
    signals.SIGQUIT,
    signals.SIGTERM,
    signals.SIGHUP,
    signals.SIGTSTP,
    signals.SIGUSR1,
    signals.SIGUSR2,
)
# The digits that a descriptor has in the shells that take only one. 9 is often that of a lock.
DIGITS = range(8, 2, -1)
# No descriptor of a wrapper is as high as this, unless the first ones are all taken.
OWN = 256
# How a job ends that isn't there, or can't be run.
NOT_FOUND, NOT_RUN = 127, 126


def is_free(fd):
    """Returns whether no program that this one starts has the descriptor."""
    try:
        return not os.get_inheritable(fd)
    except OSError:
        return True


def free_digit():
    """Returns the highest free descriptor of one digit, or None."""
    return next(filter(is_free, DIGITS), None)


def identity(fd):
    """Returns the device and the number of the file that a descriptor is open on."""
    it = os.fstat(fd)
    return f"{it.st_dev}:{it.st_ino}"


def forget_descriptor():
    """Leaves the descriptor of the lines out of the environment."""
    for it in ("PRODASH_FD", "PRODASH_FD_ID"):
        os.environ.pop(it, None)


def is_nested():
    """Returns whether the environment names a descriptor that a wrapper above reads."""
    try:
        fd = int(os.environ["PRODASH_FD"])
        return identity(fd) == os.environ["PRODASH_FD_ID"]
    except (KeyError, ValueError, OSError):
        return False


def open_streams():
    """Opens each of the three streams that is closed, so that no pipe gets its number.

    It is closed again in any other program.
    """
    for it in range(3):
        try:
            os.fstat(it)
        except OSError:
            os.open(os.devnull, os.O_RDWR)


def output_terminal(columns, rows):
    """Returns both ends of a terminal of this size that passes on output as it is.

    A program that reads keys from it sets other modes, as of any terminal.
    """
    ours, theirs = os.openpty()
    modes = termios.tcgetattr(theirs)
    modes[1] &= ~termios.OPOST
    termios.tcsetattr(theirs, termios.TCSANOW, modes)
    set_size(ours, columns, rows)
    return ours, theirs


def set_size(terminal, columns, rows):
    """Sets the size of a terminal."""
    fcntl.ioctl(terminal, termios.TIOCSWINSZ, struct.pack("HHHH", rows, columns, 0, 0))


def handled():
    """Returns the signals to pass on: those that aren't ignored from the start."""
    return [it for it in PASSED if signals.getsignal(it) != signals.SIG_IGN]


def end_at_interrupt():
    """Has SIGINT end this process without a word, unless it is ignored."""
    if signals.getsignal(signals.SIGINT) == signals.default_int_handler:
        signals.signal(signals.SIGINT, signals.SIG_DFL)


def defaults():
    """Returns the signals that other programs get with their default action.

    Python ignores the first two.
    """
    return [signals.SIGPIPE, signals.SIGXFSZ, *handled()]


def fork(does, *words):
    """Begins a process that does this and ends. Returns its number.

    What fails there ends there: it must not run on as a second wrapper.
    """
    pid = os.fork()
    if not pid:
        try:
            # its signals don't wake this process
            signals.set_wakeup_fd(-1)
            does(*words)
        finally:
            os._exit(1)
    return pid


class Command:
    """A command, with what it gets of this process."""

    def __init__(self, words):
        # descriptors that take the place of others
        self.words, self.moves = words, []
        # signals that are blocked, and those that have their default action
        self.mask, self.reset = signals.pthread_sigmask(signals.SIG_BLOCK, ()), defaults()

    def keep(self):
        """Keeps descriptors that are in their place already."""
        for fd, at in self.moves:
            if fd == at:
                os.set_inheritable(fd, True)

    def came(self):
        """Returns the signals that have come and wait here. One that stops may go on waiting."""
        return signals.sigpending() - {*self.mask, signals.SIGTSTP}

    def end_early(self):
        """Ends this process by a signal that has come before the command."""
        for it in self.came():
            end_as(it)

    def tell(self, pid):
        """Sends its process the signals that have come since.

        If it got them with the group, it ends by one or the other: its program has just begun.
        """
        for it in self.came():
            os.kill(pid, it)

    def start(self):
        """Starts it. Returns its process, or None and the status that it ended with at once."""
        self.keep()
        actions = [(os.POSIX_SPAWN_DUP2, fd, at) for fd, at in self.moves]
        how = {"file_actions": actions, "setsigmask": self.mask, "setsigdef": self.reset}
        try:
            pid = os.posix_spawnp(self.words[0], self.words, os.environ, **how)
        except OSError as error:
            return None, self.refused(error) << 8
        self.tell(pid)
        return pid, None

    def become(self):
        """Runs it in place of this process, or returns an exit status."""
        self.keep()
        for fd, at in self.moves:
            os.dup2(fd, at)
        for it in self.reset:
            signals.signal(it, signals.SIG_DFL)
        signals.pthread_sigmask(signals.SIG_SETMASK, self.mask)
        try:
            return os.execvp(self.words[0], self.words)
        except OSError as error:
            return self.refused(error)

    def become_alone(self):
        """Runs it in place of this process, with what this one was given and nothing else."""
        self.moves = []
        forget_descriptor()
        for it in range(3, OWN):
            try:
                if not os.get_inheritable(it):
                    os.close(it)
            except OSError:
                pass
        return self.become()

    def refused(self, error):
        """Says why it can't be run, and returns the exit status."""
        os.write(2, f"prodash run: {self.words[0]}: {error.strerror}\n".encode())
        return NOT_FOUND if isinstance(error, FileNotFoundError) else NOT_RUN


def keep_only(*kept):
    """Closes all descriptors but the streams and these.

    Who else has an end of a pipe must be the only one that does.
    """
    low = 3
    for it in (*sorted(kept), OWN):
        os.closerange(low, it)
        low = it + 1


def watch(ends, tells):
    """Tells the numbers of signals, and answers by a 0 once all are told, until the end."""
    # the handlers do nothing but this
    signals.set_wakeup_fd(tells)
    keep_only(ends, tells)
    signals.pthread_sigmask(signals.SIG_UNBLOCK, PASSED)
    while os.read(ends, 1):
        os.write(tells, b"\0")


class Sentinel:
    """A process of the same group, which says which signals the whole group gets."""

    def __init__(self):
        """Starts the process."""
        ends, self.alive = os.pipe()
        self.told, tells = os.pipe()
        # how often it was asked, and has answered
        self.asked = self.answers = 0
        os.set_blocking(tells, False)
        mask = signals.pthread_sigmask(signals.SIG_BLOCK, PASSED)
        self.pid = fork(watch, ends, tells)
        signals.pthread_sigmask(signals.SIG_SETMASK, mask)
        os.close(ends)
        os.close(tells)

    def ask(self):
        """Asks it for an answer, and returns which one it will be."""
        try:
            os.write(self.alive, b"?")
        except OSError:
            # another one takes its place
            pass
        self.asked += 1
        return self.asked

    def end(self):
        """Ends the process, before a signal finds nobody whom it can be told."""
        os.kill(self.pid, signals.SIGKILL)
        os.waitpid(self.pid, 0)
        os.close(self.alive)
        os.close(self.told)


def pass_rest(fd, to, kept):
    """Becomes a `cat` of what others write, to a stream or to nowhere."""
    os.setpgid(0, 0)
    null = os.open(os.devnull, os.O_WRONLY)
    for source, at in ((fd, 0), (null if to is None else to, 1), (null, 2)):
        os.dup2(source, at)
    if kept is not None:
        os.set_inheritable(kept, True)
    os.execvp("cat", ["cat"])


def leave(fd, to, kept=None):
    """Leaves a process that reads what others still write there, so that they aren't ended.

    It keeps a descriptor open until then.
    """
    fork(pass_rest, fd, to, kept)


def end_as(status, of_group=False):
    """Ends this process as another one ended: with its exit status, or by its signal.

    The signal is for the whole group, if the terminal would have sent it to that.
    """
    if os.WIFEXITED(status):
        os._exit(os.WEXITSTATUS(status))
    number = os.WTERMSIG(status)
    import resource

    resource.setrlimit(resource.RLIMIT_CORE, (0, 0))
    try:
        signals.signal(number, signals.SIG_DFL)
    except (OSError, ValueError):
        # as of SIGKILL
        pass
    signals.pthread_sigmask(signals.SIG_UNBLOCK, (number,))
    if of_group and number in (signals.SIGINT, signals.SIGQUIT):
        os.killpg(0, number)
    os.kill(os.getpid(), number)
    os._exit(128 + number)
