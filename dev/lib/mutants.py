"""Wrong bodies of functions, the mutants: files `crates/NAME/edits/MODULE/Type/function/what.edit`.

The folders name the function. A file has a line `file:`, pairs of lines `old:` and `new:`, of which
each goes on from what the one before made, and, if a test has to catch it, a line `tests:`.
"""
import glob
import os
import re
from dataclasses import dataclass

WORDS = ("file", "old", "new", "tests")
# What stands before `fn`: `pub`, `pub(in crate::tree)`, `const`.
BEFORE = r"(?:(?:pub(?:\([^)]*\))?|const) )*"


class Unfit(Exception):
    """Why a wrong body can't be made of the sources as they are."""


@dataclass(frozen=True)
class Mutant:
    """A wrong body, as its file says."""

    crate: str
    # The modules, the type and the name of its function, and what is wrong.
    path: str
    file: str
    # The old and the new text of each replacement.
    steps: tuple
    # What must fail: beginnings of names of tests, and transcripts. Without any a proof must.
    tests: tuple

    @property
    def label(self):
        return f"{self.crate}/{self.path}"

    @property
    def function(self):
        """Returns the function's path in its crate, as `rt check --only` takes it."""
        return os.path.dirname(self.path).replace("/", "::")

    def place(self, text):
        """Returns where its function begins and ends in the text of its file.

        It is the only one of its name that has the first old text, once.
        """
        name, old = self.function.rpartition("::")[2], self.steps[0][0]
        spans = list(functions(text, name))
        if not spans:
            raise Unfit(f"{self.file} has no function `{name}`")
        counts = [text.count(old, *span) for span in spans]
        if sum(counts) != 1:
            raise Unfit(f"`{old.strip()}` is {sum(counts)} times in `{name}`, and not once")
        return spans[counts.index(1)]

    def changed(self, text):
        """Returns the text of its function, or of a part of it, with the replacements made."""
        for old, new in self.steps:
            if text.count(old) != 1:
                raise Unfit(f"`{old.strip()}` is {text.count(old)} times there, and not once")
            text = text.replace(old, new)
        return text


def functions(text, name):
    """Yields where each function of this name begins and ends, in the layout of `rt fmt`."""
    for head in re.finditer(rf"(?m)^( *){BEFORE}fn {re.escape(name)}\b", text):
        # one without a body ends where the next item begins
        ends = re.compile(rf"(?m)^{head[1]}(?:(\}}$)|#|//|{BEFORE}fn )")
        end = ends.search(text, head.end())
        if end and end[1]:
            yield head.start(), end.end()


def read(crate, path, file):
    """Reads the wrong body of a file."""
    found = {word: [] for word in WORDS}
    with open(file, encoding="utf-8") as it:
        for line in it.read().splitlines():
            word, _, text = line.partition(":")
            if word not in found:
                raise Unfit(f"it has a line that begins with none of {', '.join(WORDS)}")
            found[word].append(text.removeprefix(" "))
    tests = tuple(word for it in found["tests"] for word in it.split())
    steps = tuple(zip(found["old"], found["new"]))
    if len(found["file"]) != 1 or not steps or len(found["old"]) != len(found["new"]):
        raise Unfit("it has not one line `file:` and pairs of lines `old:` and `new:`")
    return Mutant(crate, path, found["file"][0], steps, tests)


def find(top, crates, below=""):
    """Returns the wrong bodies of these crates that are below a folder of their edits/.

    Returns also why others don't apply, by their labels.
    """
    found, unfit, inside = [], {}, below.strip("/") + "/" if below else ""
    for crate in crates:
        folder = f"{top}/crates/{crate}"
        for file in sorted(glob.glob(f"{folder}/edits/**/*.edit", recursive=True)):
            path = os.path.relpath(file, f"{folder}/edits").removesuffix(".edit")
            if not path.startswith(inside):
                continue
            try:
                mutant = read(crate, path, file)
                apply([mutant], folder)
                found.append(mutant)
            except (Unfit, OSError) as why:
                unfit[f"{crate}/{path}"] = str(why)
    return found, unfit


def apply(mutants, folder):
    """Returns the files of a crate's folder with these wrong bodies, each of another function."""
    texts = {}
    for file in dict.fromkeys(it.file for it in mutants):
        with open(f"{folder}/{file}", encoding="utf-8") as it:
            text = it.read()
        spans = [(*it.place(text), it) for it in mutants if it.file == file]
        for begin, end, mutant in sorted(spans, key=lambda it: it[:2], reverse=True):
            text = text[:begin] + mutant.changed(text[begin:end]) + text[end:]
        texts[file] = text
    return texts
