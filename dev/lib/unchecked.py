"""Compiles the module of a program that is built without proofs as if it were proved.

A trial run checks what isn't proved: that an index is in range, that a sum fits, and more. It also
fills memory before its first use. A proved program does neither. So these instructions are left out
of the module, and it is optimized as one. Its front end also forgets which functions are `#[cold]`
or `#[inline]`; these are marked again. What is built is for counting what it takes, and for nothing
else: a bug that a check would have stopped goes on.
"""
import glob
import os
import re
import shlex
import subprocess
import sys
import tempfile

# The processor that `rattle build` compiles for, unless it is told another.
MARCH = "-march=x86-64-v2"
CHECK = 'call void @"rattle-llvm-checks::'
FILL = re.compile(r"call void @llvm\.memset\.p0\.i64\(.*, i8 -86,")
TRAP = "call void @llvm.trap()"
# What the attributes of a checked function have more than those of a proved one.
OF_CHECKED = re.compile(r'sanitize_address |"frame-pointer"="all" |"target-cpu"="[^"]*" ?')
# What a hint on a function is in a module.
HINTS = {
    "cold": "noinline cold",
    "inline(never)": "noinline cold",
    "inline(always)": "alwaysinline",
    "inline": "inlinehint",
}
# A function with a hint in a source, and the path of a function in a module.
HINTED = re.compile(
    r"^ *#\[(cold|inline(?:\(\w+\))?)\]\n(?: *#\[.*\]\n)*[^\n]*?\bfn (\w+)", re.M
)
DEFINED = re.compile(r'^define [^\n]*?@"([^"<]*?)(?:::<[^"]*>)?"\(')


def hinted_functions(crate, folder):
    """Yields a crate's functions that have a hint: their module, name and hint."""
    for path in glob.glob(f"{folder}/**/*.rt", recursive=True):
        parts = os.path.relpath(path, folder).removesuffix(".rt").split("/")
        module = "::".join([crate, *(it for it in parts if it not in ("lib", "main"))])
        with open(path, encoding="utf-8") as it:
            for hint, name in HINTED.findall(it.read()):
                yield module, name, HINTS[hint]


def compiler(crates, kit, room):
    """Returns the command that compiles so, with the hints of these crates and of a kit's."""
    folders = [*glob.glob(f"{crates}/*/src"), *glob.glob(f"{kit}/rattle/*/src")]
    with open(f"{room}/hinted", "w", encoding="utf-8") as it:
        for folder in folders:
            found = hinted_functions(os.path.basename(os.path.dirname(folder)), folder)
            it.writelines(f"{' '.join(words)}\n" for words in found)
    script = os.path.realpath(__file__)
    return shlex.join([sys.executable, "-ISB", script, f"{kit}/toolchain/bin", f"{room}/hinted"])


def hint_of(path, hints):
    """Returns the hint on the function of a path, or None."""
    *owner, name = path.split("::")
    # a method has its type between its module and its name
    return hints.get(("::".join(owner), name)) or hints.get(("::".join(owner[:-1]), name))


def unchecked(lines, hints):
    """Yields the lines of a module without its checks, and with hints on its functions."""
    for line in lines:
        if CHECK in line or FILL.search(line) or TRAP in line:
            continue
        defined = DEFINED.match(line)
        hint = hint_of(defined[1], hints) if defined else None
        if hint:
            line = line.replace(" #", f" {hint} #", 1)
        elif line.startswith("attributes #"):
            # a group has one at least
            line = OF_CHECKED.sub("", line).replace("{ }", "{ nounwind }")
        yield line


def compile_module(tools, names, words):
    """Compiles as `clang` is asked to by these words, but without checks.

    A file has the functions that have hints.
    """
    source, to = words[words.index("-c") + 3], words[words.index("-o") + 1]
    clang = f"{tools}/clang"
    with open(names, encoding="utf-8") as it:
        found = (line.split(maxsplit=2) for line in it.read().splitlines())
        hints = {(module, name): hint for module, name, hint in found}
    with tempfile.TemporaryDirectory(dir=os.path.dirname(os.path.abspath(to))) as room:
        shown = [clang, "-x", "ir", source, "-S", "-emit-llvm", "-Xclang", "-disable-llvm-passes"]
        subprocess.run([*shown, "-o", f"{room}/all"], check=True)
        with open(f"{room}/all", encoding="utf-8") as old:
            with open(f"{room}/unchecked", "w", encoding="utf-8") as new:
                new.writelines(unchecked(old, hints))
        own = {source: f"{room}/unchecked"}
        words = [MARCH if it.startswith("-march=") else own.get(it, it) for it in words]
        return subprocess.run([clang, *words]).returncode


if __name__ == "__main__":
    sys.exit(compile_module(sys.argv[1], sys.argv[2], sys.argv[3:]))
