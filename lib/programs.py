"""Where the programs are built, whether they are up to date, and how they are run."""
import os
import signal
import subprocess
import sys

from crates import TOP, with_below

# What is installed is made of these.
SOURCES = ("bin", "crates", "lib", "share")


def proved(name):
    """Returns the path of the proved program of a crate."""
    return f"{TOP}/crates/{name}/out/{name}"


def unproved(name):
    """Returns the path of the program that is built without proofs."""
    return f"{TOP}/crates/{name}/out/unproved/{name}"


def newest(name, parts):
    """Returns when the newest of these parts of a program's crates was changed.

    A crate that uses one more crate has a changed source, so crates.txt is not asked.
    """
    paths = []
    for crate in with_below([name]):
        for part in parts:
            for folder, _, files in os.walk(f"{TOP}/crates/{crate}/{part}"):
                paths += [folder, *(f"{folder}/{it}" for it in files)]
    return max(map(os.path.getmtime, paths))


def is_proved(name):
    """Returns whether the proved program is there and nothing that it was proved from is newer."""
    return is_current(proved(name), name, ("src", "specs", "proofs"))


def is_built(name):
    """Returns whether the program that is built without proofs is there and no source is newer."""
    return is_current(unproved(name), name, ("src",))


def is_current(program, name, parts):
    return os.access(program, os.X_OK) and os.path.getmtime(program) >= newest(name, parts)


def git(*words):
    """Returns what git says of this repository, or nothing if it can't."""
    how = {"stdout": subprocess.PIPE, "stderr": subprocess.DEVNULL, "text": True}
    try:
        return subprocess.run(["git", "-C", TOP, *words], **how).stdout.strip()
    except OSError:
        return ""


def origin(name, program):
    """Returns which commit a program is built from, whether files have changed since, and how."""
    commit = git("rev-parse", "--verify", "--quiet", "HEAD")
    parts = [f"commit {commit}" if commit else "no commit"]
    if git("status", "--porcelain", "--", *SOURCES):
        parts.append("with changes")
    parts.append("proved" if program == proved(name) else "without proofs")
    return f"built from {', '.join(parts)}"


def say(text, stderr_is_output):
    """Writes a line to standard error.

    If that is the output of a program and no terminal, the line goes to the terminal, if there is
    one.
    """
    if not stderr_is_output or os.isatty(2):
        print(text, file=sys.stderr, flush=True)
        return
    try:
        with open("/dev/tty", "w", encoding="utf-8") as terminal:
            print(text, file=terminal)
    except OSError:
        pass


def builds(*words):
    """Runs bin/build with these words, and returns whether it built. Else it has said why."""
    words = [f"{TOP}/bin/build", *words]
    try:
        return subprocess.run(words, stdin=subprocess.DEVNULL).returncode == 0
    except KeyboardInterrupt:
        return False


def ready(name, stderr_is_output=False):
    """Returns the path of the proved program if it is up to date.

    Else it builds the program without proofs, if that isn't up to date either, and says so once.
    Returns the path of that, or None if it can't be built.
    """
    if is_proved(name):
        return proved(name)
    if not is_built(name):
        how = "building without proofs, in about a minute; bin/build proves and builds it"
        say(f"{name.replace('_', '-')}: {how}", stderr_is_output)
        if not builds("--unproved", "--quiet", name):
            return None
    return unproved(name)


def paths(names, are_unproved):
    """Returns the paths of programs by name: those that are proved, or built without proofs.

    Returns None if one isn't proved as it is, or can't be built. Then it says so.
    """
    if are_unproved:
        return {it: unproved(it) for it in names} if builds("--unproved", *names) else None
    stale = [it for it in names if not is_proved(it)]
    if stale:
        said = f"not proved as they are: {' '.join(stale)}; bin/build proves and builds them"
        print(said, file=sys.stderr)
        return None
    return {it: proved(it) for it in names}


def run(name, words, stderr_is_output=False):
    """Runs a program with these words in place of this one, or returns a status if it isn't built.

    Asked for help it prints what the script of the program says.
    """
    if words in (["-h"], ["--help"]):
        print(sys.modules["__main__"].__doc__.strip())
        return 0
    program = ready(name, stderr_is_output)
    if program is None:
        return 1
    # Python ignores these two signals, and the program would too
    for it in (signal.SIGPIPE, signal.SIGXFSZ):
        signal.signal(it, signal.SIG_DFL)
    os.execv(program, [name.replace("_", "-"), *words])

