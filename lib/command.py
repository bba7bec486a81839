"""The command prodash: one word for each of its programs."""
import os

HELP = """\
Progress on the terminal, for a job, a script or a recording

Usage: prodash COMMAND [WORD ..]

Commands:
{commands}
  help     prints this

Each has a help of its own, as prodash run --help.

A script shows its progress by event lines. Below prodash run it writes them to PRODASH_FD:
  prodash run sh -c 'echo "add @all 0 compress" >&$PRODASH_FD; ..'
or all its standard output has them:
  sh compress.sh | prodash live

Lines:
  add @WORD 0 NAME         adds an item, and calls it @WORD
  add @WORD @ABOVE NAME    the same, below another item
  init @WORD MAX [UNIT]    it has so many steps, as init @all 20 files; - for no maximum
  set @WORD N, inc @WORD N
                           sets its step, or adds to it
  name @WORD NAME          changes its name
  max @WORD MAX            changes its maximum
  blocked @WORD, halted @WORD, running @WORD
                           sets its state
  info @WORD TEXT, done @WORD TEXT, fail @WORD TEXT
                           prints a message above the rows; a TEXT that may begin with a
                           number has a - before it, as info @all - 3 files
  print TEXT               prints a line above the rows
  drop @WORD               removes it, and its word is free again
  title TEXT, info_title TEXT, info_text TEXT, info_clear
                           for prodash live --dashboard: its title, and lines of information

Libraries that write them, and do nothing where nobody shows them:
  . "$(prodash --lib sh)"  prodash_task, prodash_step and others, for sh
  PYTHONPATH=$(prodash --lib python)
                           the module prodash with track and Task, for Python

The manual says all of it: man prodash
"""
SHORT = {
    "run": "runs a command with rows below its output, which any of its processes may add",
    "each": "runs a command for each line of its input, with rows for those that run",
    "pipe": "passes standard input on to standard output, with a row that counts it",
    "live": "shows the event lines of standard input",
    "replay": "plays a recording, or writes its last rows, its frames or the page that they leave",
    "picture": "makes an animated picture of a recording",
}
# Words by which prodash-replay writes frames; without one a file is played.
FRAMES = ("bytes", "page", "dashboard", "--help", "-h", "--version", "-V")
# What a script loads, below the folder of the libraries.
LIBRARIES = {"sh": "/prodash.sh", "python": ""}


def text(scripts):
    """Returns the help, with the commands that there are."""
    names = ("run", "each", "pipe", *scripts)
    return HELP.format(commands="\n".join(f"  {it:8} {SHORT[it]}" for it in names))


def say_library(words, folder):
    """Prints where the library for a language is, and returns the exit status."""
    if len(words) == 1 and words[0] in LIBRARIES:
        os.write(1, f"{os.path.realpath(folder)}{LIBRARIES[words[0]]}\n".encode())
        return 0
    what = f"library for {' '.join(words)}" if words else "language"
    os.write(2, f"prodash --lib: no {what}: {' or '.join(LIBRARIES)}\n".encode())
    return 2


def main(words, program, scripts, libraries):
    """Runs a command. `program` returns the path of a program, or None if there is none.

    It is that of prodash-live, unless another one is named. The other commands are the scripts at
    these paths. The libraries for scripts are in a folder.
    """
    name, *rest = words or ["help"]
    if name == "run":
        # no other command needs it
        import run

        found = program()
        return 1 if found is None else run.main(found, rest)
    if name == "each":
        import each

        return each.main(program, rest)
    if name == "pipe":
        import pipe

        return pipe.main(program, rest)
    if name == "replay":
        import play

        if not any(it in FRAMES for it in rest):
            return play.main(program, rest)
        if "-h" in rest or "--help" in rest:
            # that of the other words follows
            os.write(1, f"{play.HELP}\n".encode())
    if name in scripts:
        os.execv(scripts[name], [scripts[name], *rest])
    if name in ("--version", "-V"):
        os.execv(scripts["live"], [scripts["live"], name])
    if name == "--lib":
        return say_library(rest, libraries)
    if name in ("help", "--help", "-h"):
        os.write(1, text(scripts).encode())
        return 0
    said = f"prodash: no command {name}: run, each, pipe, {', '.join(scripts)} or help\n"
    os.write(2, said.encode())
    return 2
