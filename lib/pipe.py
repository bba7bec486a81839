"""prodash pipe: passes standard input on to standard output, and shows how much has passed.

The program prodash-pipe copies. Where its row is shown, standard error has its event lines: below a
`prodash run`, or on a terminal, as the job of one.
"""
import _signal as signals
import fcntl
import os
import stat
import sys

import job

HELP = """\
Passes standard input on to standard output, and shows how much has passed

Usage: prodash pipe [-s SIZE] [-l] [-N NAME]

as in
  tar c . | prodash pipe -s 2G | gzip >all.tgz

The row is on the terminal that standard error is, or that of the prodash run around it. Without
either nothing is shown.

Options:
  -s SIZE      how much will come: bytes, as 700, 20k, 5M, 1.5G or 2T, where k is 1024; with -l
               lines. By default the size of standard input, if that is a file
  -l           counts lines, and not bytes
  -N NAME      the name of the row; pipe by default
  -h, --help   print help
"""
USAGE = "Usage: prodash pipe [-s SIZE] [-l] [-N NAME]"
# What the options take.
TAKES = {"-s": "a size, as 700, 20k or 1.5G", "-N": "a name", "-l": "no value"}
POWERS = "kmgt"
# How Python begins as the job. Its words are the folder of this module, and those of `become`.
JOB = "import sys; sys.path.insert(0, sys.argv[1]); import pipe; pipe.become(*sys.argv[2:])"
# How many characters a name has, and what would end its line.
NAMED, FEEDS = 1000, {ord(it): "\ufffd" for it in "\r\n"}
# How many bytes a pipe holds, so that the programs beside this one are woken less often.
ROOM, SET_ROOM = 1 << 20, 1031


def size_of(text):
    """Returns the number that a size is, or None if it is none."""
    number, power = text, 0
    if text[-1:].lower() in tuple(POWERS):
        number, power = text[:-1], POWERS.index(text[-1].lower()) + 1
    whole, point, part = number.partition(".")
    if not (number.isascii() and (whole + part).isdecimal() and (part or not point)):
        return None
    size = (int(whole + part) << 10 * power) // 10 ** len(part)
    return size if size < 1 << 64 else None


def size_to_come():
    """Returns the size of what is left of standard input, if that is a file."""
    try:
        it = os.fstat(0)
        if stat.S_ISREG(it.st_mode):
            return max(it.st_size - os.lseek(0, 0, os.SEEK_CUR), 0)
    except OSError:
        pass
    return None


class Given:
    """What the words of the command line say."""

    def __init__(self):
        self.unit, self.size, self.name = "bytes", None, "pipe"

    def read(self, words):
        """Reads the words. Returns what is wrong with them, or nothing."""
        words = list(words)
        while words:
            word = words.pop(0)
            option, value = word[:2], word[2:]
            if option not in TAKES:
                return f"there is no option {word}" if word[:1] == "-" else f"{word} is no option"
            if option == "-l" and not value:
                self.unit = "lines"
                continue
            value = value or (words.pop(0) if words else "")
            size = size_of(value)
            if option == "-s" and size is not None:
                self.size = size
            elif option == "-N" and value:
                self.name = value
            else:
                return f"{option} takes {TAKES[option]}, not {value!r}"
        return ""

    def lines(self, word):
        """Returns the event lines that add the row."""
        name = os.fsencode(self.name).decode(errors="replace").translate(FEEDS)[:NAMED]
        size = size_to_come() if self.size is None and self.unit == "bytes" else self.size
        most, percentage = ("-", "") if size is None else (size, "%")
        return f"add {word} 0 {name}\ninit {word} {most} {self.unit}{percentage}/s\n".encode()


def open_anew(fd):
    """Returns another descriptor of a pipe, by which a write fails where it would have to wait."""
    try:
        return os.open(f"/proc/self/fd/{fd}", os.O_WRONLY | os.O_NONBLOCK)
    except OSError:
        return fd


def become(copier, *words):
    """Becomes the program that copies, and shows its row if there is a display."""
    given = Given()
    given.read(words)
    started = [copier]
    if job.is_nested():
        word = f"@pipe-{os.getpid()}"
        lines = open_anew(int(os.environ["PRODASH_FD"]))
        try:
            os.write(lines, given.lines(word))
            os.dup2(lines, 2)
            started = [copier, given.unit, word]
        except OSError:
            # nobody takes lines
            pass
    for it in (0, 1):
        try:
            fcntl.fcntl(it, SET_ROOM, ROOM)
        except OSError:
            # it is no pipe, or of another system
            pass
    signals.signal(signals.SIGXFSZ, signals.SIG_DFL)
    os.execv(copier, started)


def main(program, words):
    """Passes on what there is. `program` returns the path of a program, or None."""
    if words and words[0] in ("-h", "--help"):
        os.write(1, HELP.encode())
        return 0
    wrong = Given().read(words)
    if wrong:
        os.write(2, f"prodash pipe: {wrong}\n\n{USAGE}\n".encode(errors="surrogateescape"))
        return 2
    copier = program("prodash-pipe")
    if copier is None:
        return 1
    job.end_at_interrupt()
    # no other command needs it
    import relay

    if job.is_nested() or not relay.draws_on(2, []):
        return become(copier, *words)
    found = program("prodash-live")
    if found is None:
        return 1
    import run

    folder = os.path.dirname(os.path.realpath(__file__))
    python = [sys.executable, "-I", "-S", "-B", "-c", JOB, folder]
    return run.main(found, ["--", *python, copier, *words])
