"""prodash-live behind two pipes: it reads event lines, and marks the end of each frame."""
import os
import select

# How many bytes are read at a time, as many as a pipe has.
READ = 65536
MARK = b"\0"
# What a line for a dashboard begins with that no script has written.
LINE_OF_RELAY = b"\0"
# A line of more bytes is faulty, whatever they are.
LONGEST = 65536 + len("\r\n")


class Display:
    """The program that draws. Whatever becomes of it, its lines are taken."""

    def __init__(self, program, words):
        """Starts the program in a process group of its own, with no signal blocked."""
        lines, self.to = os.pipe()
        self.frames, writes = os.pipe()
        moves = [(os.POSIX_SPAWN_DUP2, fd, at) for fd, at in ((lines, 0), (writes, 1), (writes, 2))]
        how = {"file_actions": moves, "setpgroup": 0, "setsigmask": ()}
        # lines that it has not taken, the beginning of a line, and parts of its next frame
        self.lines, self.rest, self.parts = bytearray(), b"", []
        # how it ended, why it was given up, and what it said at its end
        self.status, self.reason, self.said = None, "", ""
        try:
            self.pid = os.posix_spawnp(program, ["prodash-live", *words], os.environ, **how)
        except OSError as error:
            self.pid = None
            self.give_up(f"{program}: {error.strerror}")
        os.close(lines)
        os.close(writes)
        if self.pid:
            os.set_blocking(self.to, False)

    def is_alive(self):
        return self.pid is not None

    def awaits(self, seconds):
        """Waits for the first mark, which says that the options are right.

        Returns the frames behind it, or None if the program has ended with a status instead.
        """
        poll = select.poll()
        poll.register(self.frames, select.POLLIN)
        while self.is_alive():
            if not poll.poll(seconds * 1000):
                self.give_up("the display did not begin", 9)
            elif frames := self.read():
                return frames[1:]
        return [] if self.status is None or os.WIFSIGNALED(self.status) else None

    def send(self, lines):
        """Takes lines, and leaves them out if there is no program any more.

        The last may be the beginning of a line, which waits for its end.
        """
        if self.is_alive():
            whole, feed, rest = (self.rest + lines).rpartition(b"\n")
            self.lines += whole + feed
            self.rest = rest[:LONGEST]

    def tell(self, line):
        """Takes a line of the relay, between two lines."""
        if self.is_alive():
            self.lines += line

    def resize(self, columns, rows):
        """Takes a size, between two lines."""
        self.tell(b"size %d %d\n" % (columns, rows))

    def drop_rest(self):
        """Leaves out a line that isn't whole."""
        self.rest = b""

    def finish(self):
        """Takes the rest as the last line. The program says that it is cut off."""
        self.lines += self.rest

    def write(self):
        """Writes as many lines as the program takes."""
        try:
            del self.lines[: os.write(self.to, self.lines[:READ])]
        except BlockingIOError:
            pass
        except OSError:
            # its end is seen where it is read
            self.lines.clear()

    def read(self):
        """Reads what is there, and returns the frames that are whole."""
        more = os.read(self.frames, READ)
        if not more:
            self.end()
            return []
        *frames, rest = more.split(MARK)
        if frames:
            frames[0] = b"".join(self.parts) + frames[0]
            self.parts.clear()
        self.parts.append(rest)
        return frames

    def close(self):
        """Ends the input of the program."""
        if self.to is not None:
            os.close(self.to)
            self.to = None

    def give_up(self, reason, number=None):
        """Ends the program by a signal, if it hasn't ended, and keeps the reason."""
        self.reason = reason
        if number:
            os.kill(self.pid, number)
        self.end()

    def end(self):
        """Notes how the program ended."""
        self.close()
        os.close(self.frames)
        self.lines.clear()
        if not self.pid:
            return
        self.status = os.waitpid(self.pid, 0)[1]
        self.pid = None
        if not os.WIFSIGNALED(self.status):
            self.said = b"".join(self.parts).decode(errors="replace").strip()
        elif not self.reason:
            self.reason = f"the display was ended by signal {os.WTERMSIG(self.status)}"
