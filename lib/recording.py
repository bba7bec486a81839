"""A recording of a run: its lines, and the frames that prodash-replay draws of them.

prodash-replay reads all lines before it writes a frame, so it is run once for a size, and its
frames are taken one by one. They are defensive: each ends in what turns wrapping on, which is
nowhere else, and goes up again by the rows that it has drawn. Lines above those are its messages.
"""
import io
import itertools
import os
import re
import subprocess

# The first line. It is an event that changes nothing, since the root has no name to change.
BEGIN, VERSION = b"name 0 prodash recording ", b"1"
# The lines that draw, each with a moment in nanoseconds as its second word.
DRAWS = (b"tick", b"resize", b"quit")
# What a frame has before each of its lines, what brings the cursor back up, and its end.
ERASE_LINE, UP, END = b"\x1b[2K", re.compile(rb"\x1b\[([0-9]+)A"), b"\x1b[?7h"
# What the program says of a line that is no event.
FAULT = re.compile("line ([0-9]+): not an event")
# The most columns and rows that a terminal may have.
MOST = 65535
# How the program draws: as prodash-live does.
HOW = ("--any-unit", "--defensive", "--times", "--prefer-running")
# How many bytes are read at a time, and how many characters of a faulty line are shown.
READ, SHOWN = 65536, 60


class Faulty(Exception):
    """Why a file can't be replayed."""


class Failed(Exception):
    """Why the program has failed."""


def count_of_messages(frame):
    """Returns how many lines of a frame are messages: those that it leaves above the cursor."""
    up = UP.search(frame)
    return frame.count(b"\n") - (int(up[1]) if up else 0)


def lines_of(frame):
    """Returns the lines that a frame draws."""
    return [it.rpartition(ERASE_LINE)[2] for it in frame.split(b"\n")[:-1]]


def moment_of(line):
    """Returns the moment of a line that draws, and None for any other."""
    word, _, rest = line.partition(b" ")
    at = rest.partition(b" ")[0]
    # any other number is faulty
    return int(at) if word in DRAWS and at.isdigit() and len(at) <= 20 else None


class Frames:
    """The frames that the program draws of lines, on a terminal of a size."""

    def __init__(self, program, lines, size, options):
        words = [program, "bytes", *map(str, size), *HOW, *options]
        how = dict.fromkeys(("stdin", "stdout", "stderr"), subprocess.PIPE)
        try:
            # the keys that end or stop this process are not for the program
            self.process = subprocess.Popen(words, start_new_session=True, **how)
        except OSError as error:
            raise Failed(f"{program}: {error.strerror}") from None
        self.output = self.process.stdout.fileno()
        try:
            self.process.stdin.writelines(it + b"\n" for it in lines)
            self.process.stdin.close()
        except BrokenPipeError:
            # its status says why it has ended
            pass

    def __iter__(self):
        """Yields each frame. Raises `Failed` if the program fails, before the first."""
        rest = b""
        while part := os.read(self.output, READ):
            *frames, rest = (rest + part).split(END)
            for it in frames:
                yield it + END
        said = self.process.stderr.read().decode(errors="replace").strip()
        if self.process.wait():
            raise Failed(said or f"prodash-replay ended with status {self.process.returncode}")

    def close(self):
        """Ends the program."""
        self.process.kill()
        self.process.wait()
        for it in (self.process.stdout, self.process.stderr):
            it.close()


class Recording:
    """The lines of a recording, and the times of its frames."""

    def __init__(self, path):
        """Reads a file. A line that was cut off at its end is left out."""
        self.path = path
        try:
            with open(path, "rb") as it:
                text = it.read()
        except OSError as error:
            raise Faulty(f"{path}: {error.strerror}") from None
        self.text = text[: text.rfind(b"\n") + 1]
        if not self.text:
            raise Faulty(f"{path} is no recording of prodash: it has no line")
        first = next(self.lines())
        self.has_begin = first.startswith(BEGIN)
        if self.has_begin and first != BEGIN + VERSION:
            version = shown(first[len(BEGIN) :])
            raise Faulty(f"{path} is a recording in version {version}, and only '1' can be read")
        self.is_whole = self.text.startswith(b"quit ", self.text.rfind(b"\n", 0, -1) + 1)
        moments = [it for it in map(moment_of, self.lines()) if it is not None]
        self.end = moments[-1] if moments else 0
        if not self.is_whole:
            # for what came behind the last frame
            moments.append(self.end)
            self.text += b"tick %d\n" % self.end
        self.times = times_of(moments)

    def lines(self):
        """Yields each line. A list of them takes six times as much memory as the file."""
        return (it[:-1] for it in io.BytesIO(self.text))

    def redrawn(self, columns, rows):
        """Returns the lines for this size, in which each line that draws draws all rows.

        A tick draws none if nothing has changed. So it becomes a `hold`, which prints its messages,
        and a `resize`, which draws its rows. The sizes of the run are left out.
        """
        size = b" %d %d" % (columns, rows)
        for line in self.lines():
            word, _, rest = line.partition(b" ")
            if word == b"tick":
                yield b"hold " + rest
                yield b"resize " + rest + size
            elif word == b"resize" and line.count(b" ") == 3:
                yield b"resize " + rest.partition(b" ")[0] + size
            else:
                yield line

    def frames(self, program, size, options):
        """Returns frames of which each line that draws has one of rows, behind its messages."""
        return Frames(program, self.redrawn(*size), size, options)

    def said(self, program, rows, options):
        """Yields the messages, as whole lines. They are aligned as on so many rows."""
        lines = (it for it in self.lines() if not it.startswith((b"resize ", b"quit ")))
        held = (b"hold" + it[4:] if it.startswith(b"tick ") else it for it in lines)
        for frame in Frames(program, held, (MOST, rows), options):
            yield from lines_of(frame)

    def left(self, program, size, options):
        """Returns the rows of the last tick, for the columns of this size."""
        lines = (it for it in self.lines() if not it.startswith(b"quit "))
        end = b"resize %d %d %d" % (self.end, size[0], MOST)
        last = b""
        for last in Frames(program, itertools.chain(lines, [end]), size, options):
            pass
        return lines_of(last)

    def why_faulty(self, program, failed):
        """Returns why the program has failed, with what is wrong if that is a line."""
        if not FAULT.fullmatch(str(failed)):
            return failed
        try:
            for _ in Frames(program, self.lines(), (1, 1), []):
                pass
        except Failed as its_own:
            # by the number that the line has in the file
            failed = its_own
        number = int(FAULT.fullmatch(str(failed))[1])
        what = f"is no event: {shown(list(self.lines())[number - 1])}"
        if self.has_begin:
            return Faulty(f"{self.path} is damaged: line {number} {what}")
        name = "first line" if number == 1 else f"line {number}"
        return Faulty(f"{self.path} is no recording of prodash: its {name} {what}")


def times_of(moments):
    """Returns the seconds from the first moment to each. A clock that was set back stands still."""
    times, before = [0.0] * len(moments), moments[0]
    for n, at in enumerate(moments[1:], 1):
        times[n] = times[n - 1] + max(at - before, 0) / 1e9
        before = at
    return times


def shown(text):
    """Returns the beginning of a text as errors show it."""
    return repr(text.decode(errors="replace")[:SHOWN])
