"""Progress of a Python script: rows below `prodash run`, and nothing without it.

    from prodash import Task, say, track

    for path in track(paths, "compress", unit="files"):
        compress(path)

    with Task("download", total=len(urls), unit="files") as task:
        for url in urls:
            with task.child(url, unit="bytes") as part:
                for block in blocks(url):
                    part.step(len(block))
            task.step()

`PYTHONPATH=$(prodash --lib python) prodash run python3 script.py` finds this file. It needs no
other one, and may be copied. It works with Python 3.9 or later.

All calls may be made from any thread and process of the job. None raises an exception because
nobody shows the rows.
"""
import os
import select
import sys

__all__ = ["Task", "pass_fds", "say", "track"]

# How many characters of a line are written: so it stays whole among those of other processes.
_MOST = 1000
# A line has none of these, which would end it or are shown as U+FFFD.
_CONTROLS = dict.fromkeys((*range(32), *range(127, 160)), " ")


class _Lines:
    """Event lines for the descriptor PRODASH_FD, or for nobody."""

    def __init__(self, environment):
        self.identity = environment.get("PRODASH_FD_ID")
        try:
            self.fd = int(environment.get("PRODASH_FD", ""))
        except ValueError:
            self.fd = None

    def open_fd(self):
        """Returns the descriptor, or None unless it is open on the file of PRODASH_FD_ID.

        Without that it may be open on any file.
        """
        fd = self.fd
        if fd is None:
            return None
        try:
            found = os.fstat(fd)
        except (OSError, OverflowError):
            return None
        return fd if self.identity in (None, "", f"{found.st_dev}:{found.st_ino}") else None

    def write(self, *lines):
        """Writes each line at once, unless nobody reads them any more."""
        for it in lines:
            fd = self.open_fd()
            if fd is None:
                return
            text = str(it)[:_MOST].translate(_CONTROLS)
            try:
                _write(fd, f"{text}\n".encode(errors="replace"))
            except OSError:
                self.fd = None


def _write(fd, left):
    """Writes bytes, also where another process of the job has set that writes don't block."""
    while left:
        try:
            left = left[os.write(fd, left) :]
        except BlockingIOError:
            poll = select.poll()
            poll.register(fd, select.POLLOUT)
            poll.poll()


_LINES = _Lines(os.environ)


def _new_word():
    """Returns a word that is used nowhere else."""
    return f"@{os.urandom(8).hex()}"


class Task:
    """A task, which has a row until it is done or has failed.

    At the end of a `with` it is done, or has failed if an exception was raised there.
    """

    def __init__(self, name, total=None, unit=None, parent=None):
        """Adds the task, below another one if that is given.

        `total` is the step at which it is complete, if that is known. `unit` is what it counts, as
        in event lines: a name, "bytes", or "files/s" to show the throughput as well.
        """
        # stands for it in event lines
        self.word, self._has_ended = _new_word(), False
        lines = [f"add {self.word} {0 if parent is None else parent.word} {name}"]
        if total is not None or unit is not None:
            lines.append(f"init {self.word} {'-' if total is None else total} {unit or '-'}")
        _LINES.write(*lines)

    def __enter__(self):
        return self

    def __exit__(self, kind, error, _):
        if isinstance(error, Exception):
            self.fail(str(error) or kind.__name__)
        else:
            self.done()

    def child(self, name, total=None, unit=None):
        """Adds a task below this one."""
        return Task(name, total, unit, self)

    def step(self, count=1):
        """Adds to the step of the task."""
        self._write(f"inc {self.word} {count}")

    def set(self, step):
        """Sets the step of the task."""
        self._write(f"set {self.word} {step}")

    def say(self, text):
        """Prints a message of the task above the rows."""
        self._write(f"info {self.word} - {text}")

    def done(self, text=None):
        """Removes the task. The text is a message of its success."""
        self._end(*[f"done {self.word} - {text}"] * (text is not None))

    def fail(self, text="failed"):
        """Removes the task. The text is a message of its failure."""
        self._end(f"fail {self.word} - {text}")

    def _write(self, *lines):
        if not self._has_ended:
            _LINES.write(*lines)

    def _end(self, *lines):
        self._write(*lines, f"drop {self.word}")
        self._has_ended = True


def track(items, name, total=None, unit=None, parent=None):
    """Yields items. Each is a step of a task, taken when the next one is asked for.

    The total is their number, if that is known.
    """
    if total is None and hasattr(items, "__len__"):
        total = len(items)
    with Task(name, total, unit, parent) as task:
        for it in items:
            yield it
            task.step()


def say(text):
    """Prints a message of the script above the rows."""
    word = _new_word()
    name = os.path.basename(sys.argv[0]) or "python"
    # a message is that of a task
    _LINES.write(f"add {word} 0 {name}", f"info {word} - {text}", f"drop {word}")


def pass_fds():
    """Returns the descriptors that a child needs to show progress: subprocess closes all others.

    subprocess.run(words, pass_fds=prodash.pass_fds())
    """
    fd = _LINES.open_fd()
    return () if fd is None else (fd,)
