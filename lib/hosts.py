"""prodash each -S: the commands of `prodash each` on other hosts.

A process of this module is the job of `prodash run` in place of xargs, and stops when xargs would.
It has an ssh for each command that runs, passes on what the command writes in whole lines, and adds
the rows that the command asks for below the command's own. All commands end when it does, since the
input of their shells ends then.
"""
import _signal as signals
import os
import resource
import select
import sys
import time

import job
import remote
from each import ENDS, Lines, Row, name_of, words_for

# How many connections a host is asked for at a time: an sshd refuses some of more than ten.
SETUPS = 4
# How often in a row a host may not be reached that was before. It rests so many seconds after the
# first time, their square after the second, and so on: half a minute together.
TRIES, PAUSE = 5, 2
# How many bytes are read at a time, and how long a line may be that is passed on in one piece.
READ = 65536
# The descriptors of a command, and how many are left to this process.
STREAMS, OWN = 3, 32
# The statuses of xargs: a command has failed, one has exited with 255, a signal has killed one.
FAILED, STOPS, KILLED = 123, 124, 125
# What ssh says where it would ask, and what helps.
QUESTIONS = (b"Permission denied", b"Host key verification failed")
HINT = b"ssh asks nothing here: the host has to be known, and a key be enough"
# The word of this machine among the hosts, and its name.
HERE, HERE_NAME = ":", "localhost"


def split_host(word):
    """Returns the number before a host, or nothing, and the host."""
    number, slash, name = word.partition("/")
    return (number, name) if slash and number.isascii() and number.isdecimal() else ("", word)


def is_host(word):
    """Returns whether a word is a host, with or without a number of commands."""
    name = split_host(word)[1]
    is_text = name.isprintable() and not set(name) & set(" ,")
    return name == HERE or is_text and name[:1] not in ("", "-", "/")


def need_ssh(words):
    """Returns whether one of these hosts isn't this machine."""
    return any(split_host(it)[1] != HERE for it in words)


def in_file(path):
    """Returns the hosts in the lines of a file. A `#` begins a comment."""
    with open(path, encoding="utf-8", errors="surrogateescape") as it:
        return [found for line in it if (found := line.partition("#")[0].strip())]


class Host:
    """A host, and how many commands it has."""

    def __init__(self, word, most):
        number, self.word = split_host(word)
        self.name = HERE_NAME if self.word == HERE else self.word
        # how many it may have, has, and has of which no shell runs yet
        self.most, self.running, self.beginning = int(number or most) or sys.maxsize, 0, 0
        # whether it has been reached, how often in a row it has not been, and until when it rests
        self.is_known, self.failures, self.rests = False, 0, 0.0

    def is_left(self):
        """Returns whether it may have commands, now or later."""
        return self.failures < (TRIES if self.is_known else 1)

    def has_room(self, now):
        """Returns whether it may have another command now."""
        setups = SETUPS if self.is_known and not self.failures else 1
        has_rested = self.is_left() and now >= self.rests
        return has_rested and self.running < self.most and self.beginning < setups

    def load(self):
        return self.running / self.most

    def reached(self):
        """Notes that a shell runs there."""
        self.is_known, self.failures = True, 0
        self.beginning -= 1

    def failed(self, now):
        """Notes that it wasn't reached. Returns whether that counts: of several at a time one."""
        self.beginning -= 1
        counts = self.is_left() and now >= self.rests
        if counts:
            self.failures += 1
            self.rests = now + PAUSE**self.failures
        return counts

    def words(self):
        """Returns the words that begin a shell there."""
        return ["sh"] if self.word == HERE else [*remote.SSH, self.word, "exec sh"]


def write_all(stream, left):
    """Writes all of it to a stream, also if another process has set that writes don't block.

    If that fails this process ends, as each command would.
    """
    while left:
        try:
            left = left[os.write(stream, left) :]
        except BlockingIOError:
            poll = select.poll()
            poll.register(stream, select.POLLOUT)
            poll.poll()
        except BrokenPipeError:
            job.end_as(signals.SIGPIPE)
        except OSError as error:
            name = "error" if stream == 2 else "output"
            complain(f"cannot write to standard {name}: {error.strerror}")
            os._exit(1)


def complain(text):
    """Writes a line to standard error, if that can be written."""
    try:
        os.write(2, f"prodash each: {text}\n".encode(errors="surrogateescape"))
    except OSError:
        pass


def spawn(host):
    """Starts a shell on a host. Returns the process, and this end of each of its streams."""
    pipes = []
    try:
        for _ in range(STREAMS):
            pipes.append(os.pipe())
        (reads, to), (out, writes), (err, complains) = pipes
        theirs = (reads, writes, complains)
        how = {"setsigdef": [signals.SIGPIPE, signals.SIGXFSZ]}
        how["file_actions"] = [(os.POSIX_SPAWN_DUP2, fd, at) for at, fd in enumerate(theirs)]
        if host.word == HERE:
            # which it ends if this process does
            how["setpgroup"] = 0
        words = host.words()
        pid = os.posix_spawnp(words[0], words, os.environ, **how)
    except OSError:
        for it in pipes:
            os.close(it[0])
            os.close(it[1])
        raise
    for it in theirs:
        os.close(it)
    for it in (to, out, err):
        os.set_blocking(it, False)
    return pid, to, out, err


class Output:
    """A stream of a command, passed on in whole lines, so that it tears none of another's."""

    def __init__(self, fd, to):
        # the descriptor, or None at the end, and the beginning of a line
        self.fd, self.to, self.rest = fd, to, b""

    def read(self):
        """Returns what is there, or None if that is nothing."""
        try:
            more = os.read(self.fd, READ)
        except BlockingIOError:
            return None
        if not more:
            self.close()
        return more or None

    def put(self, more, is_held):
        """Takes text, and passes on the lines that are whole, unless they are held."""
        read = self.rest + more
        end = 0 if is_held else read.rfind(b"\n") + 1
        if len(read) - end > READ:
            end = len(read)
        write_all(self.to, read[:end])
        self.rest = read[end:]

    def close(self):
        if self.fd is not None:
            os.close(self.fd)
            self.fd = None


class Command:
    """A command on a host, from the start of its shell to its end."""

    def __init__(self, host, line, row, script, mark):
        """Starts the shell. Raises `OSError` if the system has no room for it."""
        self.host, self.line, self.row, self.left = host, line, row, memoryview(script)
        self.items, self.marked = remote.Items(row), remote.Marked(mark)
        # whether the shell runs, how the command has ended, and how ssh has
        self.has_begun, self.ended, self.status = False, None, None
        self.pid, self.to, out, err = spawn(host)
        self.out, self.err = Output(out, 1), Output(err, 2)

    def awaited(self):
        """Returns the descriptors to wait for, each with what."""
        found = [(it.fd, select.POLLIN) for it in (self.out, self.err) if it.fd is not None]
        return found + [(self.to, select.POLLOUT)] * bool(self.left)

    def write(self):
        """Sends the shell what it has room for."""
        try:
            self.left = self.left[os.write(self.to, self.left) :]
        except BlockingIOError:
            pass
        except OSError:
            # it has ended
            self.left = b""

    def read(self, stream):
        """Passes on what is there. Returns the event lines of it, or None if that is nothing."""
        more, lines = stream.read(), []
        if more is None:
            return None
        if stream is self.err:
            more, marked = self.marked.split(more)
            for it in marked:
                lines += self.hear(it[:1], it[1:])
        stream.put(more, not self.has_begun)
        return lines

    def hear(self, kind, line):
        """Notes what the shell tells. Returns the event lines of it."""
        if kind == remote.LINE:
            return [self.items.renamed(line)]
        if kind == remote.BEGUN:
            self.has_begun = True
            self.host.reached()
            self.out.put(b"", False)
        elif kind == remote.ENDED:
            self.ended = line
        return []

    def finish(self):
        """Passes on what is left, and closes the streams. Returns the last event lines."""
        lines = []
        for it in (self.out, self.err):
            while it.fd is not None and (more := self.read(it)) is not None:
                lines += more
            it.close()
        self.err.rest += self.marked.finish()
        for it in (self.out, self.err) if self.has_begun else ():
            write_all(it.to, it.rest)
        os.close(self.to)
        return lines

    def failure(self):
        """Returns how the command has failed, if it has, and the status that xargs has for that."""
        if self.ended is None:
            return f"lost the connection to {self.host.name}", FAILED
        status, _, killed = self.ended.partition(b" ")
        status = int(status)
        if killed:
            return f"killed by signal {status - 128} on {self.host.name}", KILLED
        code = STOPS if status == 255 else FAILED if status else 0
        return f"exited with status {status} on {self.host.name}" if status else "", code

    def reason(self):
        """Returns why no shell was begun, as ssh says it at last, and passes on what is above."""
        *above, said = (self.err.rest.strip() or self.out.rest.strip()).splitlines() or [b""]
        write_all(2, b"".join(it.rstrip() + b"\n" for it in above))
        if not said:
            return b"ssh has ended with status %d" % os.waitstatus_to_exitcode(self.status)
        is_question = any(it in said for it in QUESTIONS)
        return b"%s; %s" % (said.rstrip(b"."), HINT) if is_question else said


class Run:
    """The commands that run, and the lines that wait for a host."""

    def __init__(self, hosts, lines, command, row):
        self.hosts, self.lines, self.command, self.row = hosts, lines, command, row
        self.mark = os.urandom(8).hex()
        # the commands by their process, and lines whose host wasn't reached
        self.running, self.again = {}, []
        # how many commands were started, and how many of these have ended
        self.started = self.ended = 0
        # how many may run, and whether no more are begun
        self.most = max((resource.getrlimit(resource.RLIMIT_NOFILE)[0] - OWN) // STREAMS, 1)
        self.is_stopping = False
        # the exit status, and what is wrong if no command is
        self.status, self.fault = 0, ""
        self.woken, wakes = os.pipe()
        for it in (self.woken, wakes):
            os.set_blocking(it, False)
        signals.signal(signals.SIGCHLD, lambda *_: None)
        signals.set_wakeup_fd(wakes, warn_on_full_buffer=False)

    def say(self, *lines):
        """Writes event lines."""
        if self.row.fd is not None and lines:
            write_all(self.row.fd, b"".join(it + b"\n" for it in lines))

    def message(self, kind, text, line):
        """Returns the line of a message of the row for the whole."""
        return b"%s %s - %s: %s" % (kind, self.row.word, os.fsencode(text), name_of(line))

    def has_line(self):
        return bool(self.again or self.lines.lines)

    def begin(self):
        """Begins commands as long as there are lines, and room on a host."""
        while self.has_line() and not self.is_stopping and len(self.running) < self.most:
            now = time.monotonic()
            free = [it for it in self.hosts if it.has_room(now)]
            if not free:
                return
            line = self.again.pop() if self.again else self.lines.take()
            self.start(min(free, key=Host.load), line)

    def start(self, host, line):
        """Starts a command, or keeps the line for later if the system has no room for more."""
        self.started += 1
        row = b"@each-%d-%d" % (os.getpid(), self.started)
        is_same = b"{}" not in self.command[0]
        script = remote.script(self.mark, words_for(line, self.command), is_same)
        try:
            it = Command(host, line, row, script, self.mark)
        except OSError as error:
            self.again.append(line)
            self.most, self.is_stopping = len(self.running), not self.running
            self.fault = f"ssh: {error.strerror}" if self.is_stopping else ""
            return
        host.running += 1
        host.beginning += 1
        self.running[it.pid] = it
        name = os.fsencode(host.name)
        self.say(b"add %s %s %s: %s" % (row, self.row.word, name, name_of(line)))

    def wait(self):
        """Waits until something can be done, and returns the descriptors with which it can."""
        poll, now = select.poll(), time.monotonic()
        poll.register(self.woken, select.POLLIN)
        if self.lines.wants_more() and not self.is_stopping:
            poll.register(0, select.POLLIN)
        for it in self.running.values():
            for fd, event in it.awaited():
                poll.register(fd, event)
        rests = [it.rests - now for it in self.hosts if it.is_left() and it.rests > now]
        timeout = min(rests) * 1000 + 1 if rests and self.has_line() else None
        return {fd for fd, _ in poll.poll(timeout)}

    def step(self):
        """Does what can be done."""
        ready = self.wait()
        if 0 in ready:
            self.lines.read()
        for it in self.running.values():
            if it.left and it.to in ready:
                it.write()
            for stream in (it.out, it.err):
                if stream.fd in ready:
                    self.say(*(it.read(stream) or ()))
        if self.woken in ready:
            os.read(self.woken, READ)
            self.reap()

    def reap(self):
        """Notes which commands have ended."""
        for pid, it in [*self.running.items()]:
            found, it.status = os.waitpid(pid, os.WNOHANG)
            if found:
                del self.running[pid]
                it.host.running -= 1
                self.say(*it.finish())
                if it.has_begun:
                    self.note_end(it)
                else:
                    self.note_unreached(it)

    def note_end(self, it):
        """Notes how a command has ended."""
        text, status = it.failure()
        self.ended, self.status = self.ended + 1, max(self.status, status)
        self.is_stopping |= status in (STOPS, KILLED)
        said = [self.message(b"fail", text, it.line)] if text else []
        self.say(*said, b"inc %s 1" % self.row.word, *it.items.drops())

    def note_unreached(self, it):
        """Keeps the line of a command that wasn't begun, for another host or for later."""
        self.again.append(it.line)
        said = []
        if it.host.failed(time.monotonic()):
            kind, more = (b"info", ", trying again") if it.host.is_left() else (b"fail", "")
            said.append(self.message(kind, f"cannot run on {it.host.name}{more}", it.reason()))
        self.say(*said, *it.items.drops())

    def is_over(self):
        """Returns whether no command runs, and none will."""
        if self.running:
            return False
        has_host = any(it.is_left() for it in self.hosts)
        if self.has_line() and not has_host:
            count = self.row.steps
            self.fault = f"no host is left: {count - self.ended} of {count} lines were not run"
            return True
        return self.is_stopping or self.lines.is_over and not self.has_line()

    def go_on(self):
        """Runs the commands. Returns the exit status."""
        self.begin()
        while not self.is_over():
            self.step()
            self.begin()
        self.fault = self.fault or self.lines.fault
        if self.fault:
            complain(self.fault)
        return 1 if self.fault else self.status


def become_job(words, end, most, name, *command):
    """Runs the commands, as the job of prodash run, and ends as xargs would end."""
    job.end_at_interrupt()
    job.open_streams()
    fd = int(os.environ["PRODASH_FD"]) if "PRODASH_FD" in os.environ else None
    if fd is not None:
        # it is of no use to ssh
        os.set_inheritable(fd, False)
        job.forget_descriptor()
    row = Row(fd, b"@each-%d" % os.getpid(), name_of(os.fsencode(name)))
    hosts = [Host(it, most) for it in words.split(",")]
    run = Run(hosts, Lines(ENDS[end], row), [os.fsencode(it) for it in command], row)
    status = run.go_on()
    row.drop()
    job.end_as(status << 8)
