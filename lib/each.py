"""prodash each: a command for each line of standard input, with a row for each that runs.

The commands are run by xargs, below a process of this module that is the job of `prodash run`. It
reads ahead of xargs, so that the row of the whole has a bound, and hands xargs the words of each
command. A shell between xargs and the command writes the event lines: it starts ten times as fast
as Python. Commands on other hosts are those of hosts.py.
"""
import _signal as signals
import os
import select
import sys

import job

HELP = """\
Runs a command for each line of standard input, with a row for each that runs

Usage: prodash each [-P N] [-0] [-n NAME] [-S HOSTS] [OPTIONS] [--] COMMAND [WORD ..]

The line is where {} stands in the words of the command, or is the last of them, as
  find . -name '*.log' | prodash each -P 4 gzip

The commands are run by xargs, whose exit status this is: 123 if a command failed.

With -S they run on other hosts, as
  ls packages | prodash each -S build1,build2 -P 4 make -C
ssh has to reach a host without asking anything, and the host needs nothing but sh. The rows that a
command adds there are below its own.

Options:
  -P N         how many commands run at a time, with -S on each host; 1 by default, 0 for as many as
               possible
  -0           a NUL ends each line, as in the output of find -print0
  -n NAME      the name of the row for the whole; that of the command by default
  -S HOSTS     the hosts, with commas between them: each as ssh takes it, or : for this one. 8/HOST
               runs 8 commands at a time
      --sshlogin <HOSTS>     as -S
      --sshloginfile <FILE>  as -S, with a host on each line of a file
  -h, --help   print help
  and those of prodash run: prodash run --help
"""
USAGE = "Usage: prodash each [-P N] [-0] [-n NAME] [-S HOSTS] [OPTIONS] [--] COMMAND [WORD ..]"
# How Python begins as the job. Its words are the folder of the modules, the one of them that has
# `become_job`, and the words of that.
JOB = (
    "from sys import argv, path; path.insert(0, argv[1]); "
    "__import__(argv[2]).become_job(*argv[3:])"
)
# What the options take.
TAKES = {
    "-P": "a number, 0 for as many as possible",
    "-n": "a name",
    "-0": "no value",
    "-S": "hosts, as build1,build2",
    "--sshlogin": "hosts, as build1,build2",
    "--sshloginfile": "a file of hosts",
}
# Why these programs are needed.
XARGS = "runs the commands, and is part of findutils"
SSH = "runs the commands on other hosts, and is part of OpenSSH"
READ = 65536
# The options that add hosts.
HOSTS = ("-S", "--sshlogin", "--sshloginfile")
# What ends a line.
ENDS = {"newline": b"\n", "nul": b"\0"}
# How many bytes are read ahead of xargs, and how many an argument can have.
AHEAD, LONGEST = 1 << 26, 1 << 17
# How many characters a name has. An event line is written at once if it has 4096 bytes.
NAMED = 1000
# What would end an event line, and what is shown in its place.
FEEDS = {ord(it): "\ufffd" for it in "\r\n"}

# Runs a command, $2 and the rest, whose row is called $1. `exec` finds programs alone, where a
# shell has commands of its own. What the shell says of a signal that has ended the command is in
# $said, and not on the terminal. Before it only one variable is set, since the command gets them.
SHELL = """\
prodash_name=$1
printf 'add @each-%s {row} %s\\n' $$ "$1" >&{lines}
shift
exec {out}>&1 {err}>&2
said=$({{ (exec "$@" >&{out} 2>&{err} {out}>&- {err}>&-); exit $?; }} 2>&1)
status=$?
ended=
if [ $status -gt 128 ] && [ "$said" ]; then
    ended="killed by signal $((status - 128))"
elif [ $status -ne 0 ]; then
    ended="exited with status $status"
fi
[ -z "$ended" ] || printf 'fail {row} - %s: %s\\n' "$ended" "$prodash_name" >&{lines}
printf 'inc {row} 1\\ndrop @each-%s\\n' $$ >&{lines}
case $ended in killed*)
    ulimit -c 0
    kill -$((status - 128)) $$
esac
exit $status
"""


class Row:
    """The row of the whole, with as many steps as lines were read."""

    def __init__(self, fd, word, name):
        self.fd, self.word, self.name, self.steps = fd, word, name, 0

    def say(self, line):
        if self.fd is not None:
            os.write(self.fd, line + b"\n")

    def add(self, lines):
        """Counts more lines. The first ones add the row."""
        if not lines:
            return
        is_first, self.steps = not self.steps, self.steps + lines
        if is_first:
            self.say(b"add %s 0 %s" % (self.word, self.name))
        self.say(b"%s %s %d" % (b"init" if is_first else b"max", self.word, self.steps))

    def drop(self):
        if self.steps:
            self.say(b"drop %s" % self.word)


class Lines:
    """Lines of standard input, which are read ahead."""

    def __init__(self, end, row):
        self.end, self.row = end, row
        # whole lines, and the beginning of one
        self.lines, self.rest = bytearray(), b""
        # whether no more is read, and why, if that is a fault
        self.is_over, self.fault = False, ""

    def wants_more(self):
        """Returns whether more may be read."""
        return not self.is_over and len(self.lines) < AHEAD

    def read(self):
        """Reads what is there, or notes that there is no more."""
        try:
            more = os.read(0, READ)
        except OSError as error:
            more, self.fault = b"", f"cannot read standard input: {error.strerror}"
        read = self.rest + more
        if self.end == b"\n" and b"\0" in more:
            # it can't be in an argument
            read, self.fault = read.partition(b"\0")[0], "a line has a NUL; with -0 it ends a line"
        whole, end, self.rest = read.rpartition(self.end)
        if self.rest and not more:
            whole, end = self.rest, self.end
        elif len(self.rest) > LONGEST:
            self.fault = f"a line is longer than {LONGEST} bytes"
        self.is_over = not more or bool(self.fault)
        self.lines += whole + end
        self.row.add((whole + end).count(self.end))

    def take(self):
        """Takes the next line of those that are there."""
        at = self.lines.find(self.end)
        line = bytes(self.lines[:at])
        del self.lines[: at + 1]
        return line


class Feed(Lines):
    """Lines on their way from standard input to xargs, which gets words for each."""

    def __init__(self, to, end, words_of, row):
        super().__init__(end, row)
        self.to, self.words_of = to, words_of
        # words that wait for room
        self.words = memoryview(b"")

    def fill(self):
        """Takes the words of the next lines."""
        at = self.lines.rfind(self.end, 0, select.PIPE_BUF)
        at = self.lines.find(self.end) if at < 0 else at
        lines = bytes(self.lines[:at]).split(self.end)
        del self.lines[: at + 1]
        words = (word for line in lines for word in self.words_of(line))
        self.words = memoryview(b"".join(word + b"\0" for word in words))

    def write(self):
        """Writes as many words as there is room for."""
        try:
            self.words = self.words[os.write(self.to, self.words) :]
        except BlockingIOError:
            pass

    def run(self):
        """Passes words on until there are no more lines, or xargs has ended."""
        while self.lines or self.words or not self.is_over:
            if self.lines and not self.words:
                self.fill()
            poll = select.poll()
            poll.register(self.to, select.POLLOUT if self.words else 0)
            if self.wants_more():
                poll.register(0, select.POLLIN)
            ready = dict(poll.poll())
            if ready.get(self.to, 0) & (select.POLLERR | select.POLLHUP):
                return
            if self.to in ready:
                self.write()
            if 0 in ready:
                self.read()


def name_of(line):
    """Returns the name of a line's row: text that doesn't end an event line."""
    return line.decode(errors="replace").translate(FEEDS)[:NAMED].encode()


def unkept():
    """Returns the beginning of a command that sets the variables which no shell can name.

    Some shells don't pass them on, as those that are functions of bash.
    """
    names = [it for it in os.environ if not (it.isascii() and it.isidentifier())]
    return ["env", *(f"{it}={os.environ[it]}" for it in names)] if names else []


def shell_of(word):
    """Returns the script that runs a command, and the descriptor of the event lines if it has one.

    It needs two more descriptors of one digit.
    """
    free = [it for it in job.DIGITS if job.is_free(it)][:2]
    if "PRODASH_FD" not in os.environ or len(free) < 2:
        return 'shift; exec "$@"', None
    lines = int(os.environ["PRODASH_FD"])
    return SHELL.format(row=word, lines=lines, out=free[0], err=free[1]), lines


def words_for(line, command):
    """Returns the words of the command for a line."""
    return [it.replace(b"{}", line) for it in command]


def start(words, reads):
    """Starts xargs with this input. It gets the signals of this process."""
    passed = [it for it in job.handled() if it != signals.SIGTSTP]
    mask = signals.pthread_sigmask(signals.SIG_BLOCK, passed)
    how = {"setsigmask": mask, "setsigdef": [signals.SIGPIPE, signals.SIGXFSZ]}
    how["file_actions"] = [(os.POSIX_SPAWN_DUP2, reads, 0)]
    pid = os.posix_spawnp(words[0], words, os.environ, **how)

    def pass_on(number, _):
        try:
            os.kill(pid, number)
        except ProcessLookupError:
            # it has just ended
            pass

    for it in passed:
        signals.signal(it, pass_on)
    signals.pthread_sigmask(signals.SIG_SETMASK, mask)
    os.close(reads)
    return pid


def become_job(end, most, name, *command):
    """Runs the commands, as the job of prodash run, and ends as xargs ends."""
    job.end_at_interrupt()
    job.open_streams()
    for it in (1, 2):
        # a shell can't keep one that is closed
        os.set_inheritable(it, True)
    word = f"@each-{os.getpid()}"
    script, lines = shell_of(word)
    begin, command = ([os.fsencode(it) for it in words] for words in (unkept(), command))

    def words_of(line):
        return name_of(line), *begin, *words_for(line, command)

    reads, to = os.pipe()
    count = str(len(words_of(b"")))
    xargs = ["xargs", "-0", "-r", "-x", "-n", count, "-P", most]
    pid = start([*xargs, "sh", "-c", script, "prodash-each"], reads)
    os.set_blocking(to, False)
    row = Row(lines, word.encode(), name_of(os.fsencode(name)))
    feed = Feed(to, ENDS[end], words_of, row)
    feed.run()
    os.close(to)
    status = os.waitpid(pid, 0)[1]
    if feed.fault:
        os.write(2, f"prodash each: {feed.fault}\n".encode())
    if os.WIFEXITED(status):
        # else commands that go on still count their steps
        row.drop()
    job.end_as(status or bool(feed.fault) << 8)


class Given:
    """What the words of the command line say."""

    def __init__(self):
        self.end, self.most, self.name = "newline", "1", None
        # the hosts, none for this one with xargs
        self.hosts = []
        # the options of prodash run, and the command
        self.options, self.command = [], []

    def read(self, words):
        """Reads the words. Returns what is wrong with them, or nothing."""
        # which no command needs
        import run

        words = list(words)
        while run.begins_with_option(words):
            option, value = split_option(words[0])
            if option is None:
                self.options += run.take_option(words)
                continue
            del words[0]
            if option == "-0" and not value:
                self.end = "nul"
                continue
            value = value or (words.pop(0) if words else "")
            if option == "-P" and value.isascii() and value.isdecimal():
                self.most = value
            elif option == "-n" and value:
                self.name = value
            elif option in HOSTS and value:
                wrong = self.add_hosts(option, value)
                if wrong:
                    return wrong
            else:
                return f"{option} takes {TAKES[option]}, not {value!r}"
        return self.set_command(run.command_of(words))

    def add_hosts(self, option, value):
        """Adds hosts. Returns what is wrong with them, or nothing."""
        # most calls name none
        import hosts

        is_file = option == "--sshloginfile"
        try:
            found = hosts.in_file(value) if is_file else value.split(",")
        except OSError as error:
            return f"{option} {value}: {error.strerror}"
        self.hosts += found
        wrong = [it for it in found if not hosts.is_host(it)]
        if is_file and (wrong or not found):
            return f"{option} {value}: {f'{wrong[0]!r} is no host' if wrong else 'no host in it'}"
        return f"{option} takes {TAKES[option]}, not {wrong[0]!r}" if wrong else ""

    def set_command(self, words):
        """Sets the command. Returns what is wrong with it, or nothing."""
        if not words:
            return "no command"
        self.name = self.name or os.path.basename(words[0])
        has_place = any("{}" in it for it in words)
        self.command = words if has_place else [*words, "{}"]
        return ""

    def needed(self):
        """Returns the programs that have to be here, and what those that aren't the command do."""
        if not self.hosts:
            return ("xargs", XARGS), (self.command[0], "")
        import hosts

        return (("ssh", SSH),) if hosts.need_ssh(self.hosts) else ()


def split_option(word):
    """Returns the option that a word is or begins with, and the rest; None for another option."""
    name, _, value = word.partition("=")
    if not name.startswith("--"):
        name, value = word[:2], word[2:]
    return (name, value) if name in TAKES else (None, word)


def missing(program, why):
    """Says why a program can't be run, and why it is needed.

    Returns the exit status, or None if it can be run.
    """
    folders = [""] if "/" in program else [f"{it}/" for it in os.get_exec_path()]
    there = [f"{it}{program}" for it in folders if os.path.exists(f"{it}{program}")]
    if any(os.path.isfile(it) and os.access(it, os.X_OK) for it in there):
        return None
    said = "Permission denied" if there else "No such file or directory"
    os.write(2, f"prodash each: {program}: {said}\n".encode(errors="surrogateescape"))
    if why:
        os.write(2, f"prodash each: {program} {why}\n".encode())
    return job.NOT_RUN if there else job.NOT_FOUND


def main(program, words):
    """Runs the commands of these words. `program` returns the path of the display, or None."""
    if words and words[0] in ("-h", "--help"):
        os.write(1, HELP.encode())
        return 0
    given = Given()
    wrong = given.read(words)
    if wrong:
        os.write(2, f"prodash each: {wrong}\n\n{USAGE}\n".encode(errors="surrogateescape"))
        return 2
    for it, why in given.needed():
        status = None if "{}" in it else missing(it, why)
        if status:
            return status
    found = program()
    if found is None:
        return 1
    job.end_at_interrupt()
    # no other command needs it
    import run

    folder = os.path.dirname(os.path.realpath(__file__))
    python = [sys.executable, "-I", "-S", "-B", "-c", JOB, folder]
    python += ["hosts", ",".join(given.hosts)] if given.hosts else ["each"]
    words = [*python, given.end, given.most, given.name, *given.command]
    # a log would have two lines for each command
    return run.main(found, ["--plain=0", "--no-summary", *given.options, "--", *words])
