r"""Runs transcripts: files in the format of cram, whose commands have to write what they say.

A line that begins with two spaces, `$` and a space is a command, and goes on in lines with `>` in
place of `$`. The indented lines below it are what it writes to standard output and standard error:
with ` (no-eol)` if there is no line feed at the end, and with ` (esc)` if bytes are written as
`\x1b`. A line `[2]` is a status other than 0. All other lines are prose. One shell runs all
commands of a file.
"""
import contextlib
import difflib
import operator
import os
import re
import select
import shutil
import signal
import subprocess
import tempfile
import time

# The crates of the programs that the path has.
NAMES = [f"prodash_{it}" for it in ("bench", "examples", "live", "pipe", "replay", "words")]
# How long a command may take, and how many bytes it may write.
SECONDS, BYTES = 60, 1 << 20
# A command, and what it writes.
COMMAND = re.compile(r"(?m)(^  \$ .*\n?(?:^  > .*\n?)*)((?:^  (?!\$ ).*\n?)*)")
# Scripts that the path has too.
TOP = os.path.dirname(os.path.dirname(os.path.dirname(os.path.realpath(__file__))))
SCRIPTS = {
    "build-failures": f"{TOP}/dev/lib/build-failures",
    "dashboard": f"{TOP}/tests/scripts/dashboard.py",
    "install-prodash": f"{TOP}/bin/install",
    "live": f"{TOP}/tests/scripts/live.py",
    "many-hosts": f"{TOP}/examples/many_hosts.sh",
    "example": f"{TOP}/examples/run",
    "on-terminal": f"{TOP}/tests/scripts/on_terminal.py",
    "picture": f"{TOP}/bin/picture",
    "prodash": f"{TOP}/tests/scripts/prodash.py",
    "prodash-run": f"{TOP}/tests/scripts/run.py",
}
# A terminal that shows frames, and characters in UTF-8.
TERMINAL = {"TERM": "xterm", "LC_ALL": "C.UTF-8"}
SHORT = {"\\": "\\\\", "\r": "\\r", "\t": "\\t"}


def read(path):
    """Returns the prose around the commands of a transcript, these, and what they have to write."""
    with open(path, encoding="utf-8") as it:
        parts = COMMAND.split(it.read())
    return parts[::3], parts[1::3], parts[2::3]


def escaped(found):
    """Returns how a transcript writes a character that isn't printed, or a backslash."""
    return SHORT.get(found[0], f"\\x{ord(found[0]):02x}")


def shown(line):
    """Returns a line of output as a transcript has it."""
    text = line.decode("latin-1")
    text = text[:-1] if text.endswith("\n") else f"{text} (no-eol)"
    if re.search(r"[^ -~]", text):
        text = re.sub(r"[^ -~]|\\", escaped, text) + " (esc)"
    return f"  {text}\n"


def read_to(end, pipe, given):
    """Reads a pipe until what was given has such an end.

    Returns all of it, and why there is no end if there is none.
    """
    deadline = time.monotonic() + SECONDS
    while not end.search(given):
        left = deadline - time.monotonic()
        if left < 0 or not select.select([pipe], [], [], left)[0]:
            return given, f"no end within {SECONDS} seconds"
        more = os.read(pipe.fileno(), 65536)
        if not more:
            return given, "the shell ended"
        given += more
        if len(given) > BYTES:
            return given[:BYTES], "too much is written"
    return given, None


def outputs(end, pipe, count):
    """Yields what each command writes, and its status, or why it has none."""
    given, why = b"", None
    for _ in range(count):
        given, why = (b"", "not run") if why else read_to(end, pipe, given)
        output, *ended = end.split(given, 1)
        status, given = (ended[0].decode(), ended[1]) if ended else (why, b"")
        yield output, status


def run(commands, programs, **variables):
    """Runs commands in a new folder, and yields what a transcript has of what each writes.

    The path begins with these programs, by their crates, and the scripts. The environment has
    these variables.
    """
    mark = f"end-of-command-{os.urandom(8).hex()}"
    end = re.compile(rb"%s (\d+)\n" % mark.encode())
    with contextlib.ExitStack() as at_end:
        room = tempfile.mkdtemp(prefix="transcripts-")
        # what was stopped may still write there
        at_end.callback(shutil.rmtree, room, ignore_errors=True)
        for folder in ("bin", "work"):
            os.mkdir(f"{room}/{folder}")
        for name, path in {**programs, **SCRIPTS}.items():
            os.symlink(path, f"{room}/bin/{name.replace('_', '-')}")
        with open(f"{room}/script", "w", encoding="utf-8") as it:
            texts = (re.sub(r"(?m)^  [$>] ", "", command) for command in commands)
            it.writelines(f"{text}echo {mark} $?\n" for text in texts)
        env = {"PATH": f"{room}/bin:{os.environ['PATH']}", **TERMINAL, **variables}
        how = {"cwd": f"{room}/work", "env": env, "stdin": subprocess.DEVNULL}
        how |= {"stdout": subprocess.PIPE, "stderr": subprocess.STDOUT}
        # also below nohup
        words = ["env", "--default-signal", "sh", f"{room}/script"]
        with subprocess.Popen(words, start_new_session=True, **how) as shell:
            try:
                for output, status in outputs(end, shell.stdout, len(commands)):
                    lines = [shown(it) for it in re.findall(rb"[^\n]*\n|[^\n]+", output)]
                    yield "".join(lines) + (f"  [{status}]\n" if status != "0" else "")
            finally:
                # what hangs, or goes on in the background
                os.killpg(shell.pid, signal.SIGKILL)


def play(path, programs, **variables):
    """Runs a transcript, prints how it differs, and returns how many commands passed and failed."""
    prose, commands, expected = read(path)
    written = list(run(commands, programs, **variables))
    texts = ([prose[0], *map("".join, zip(commands, it, prose[1:]))] for it in (expected, written))
    lines, played = (re.findall(r"[^\n]*\n|[^\n]+", "".join(it)) for it in texts)
    print(end="".join(difflib.unified_diff(lines, played, path, f"{path} as it was played")))
    passed = sum(map(operator.eq, expected, written))
    return passed, len(commands) - passed


def passes(path, programs):
    """Runs the commands of a transcript until one doesn't write what it has to.

    Returns whether all do.
    """
    _, commands, expected = read(path)
    with contextlib.closing(run(commands, programs)) as written:
        return all(map(operator.eq, expected, written))
