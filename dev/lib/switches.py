"""Wrong bodies behind a switch: one build holds all of them, and a word of it chooses one.

A function keeps its right body, and gets each wrong one beside it, as in `if on(2) { wrong } else
{ right }`. `on` reads a static that lies in the program between two marks.
"""
import os
import re
import struct

import mutants

# The marks: numbers that no program has otherwise.
MARKS = (0x9D3B_62F1_A847_C05E, 0x517E_D94A_0C6B_83F2)
MODULE = f"""\
//! Which wrong body stands in for a right one.
static SWITCH: [u64; 3] = [{MARKS[0]}, 0, {MARKS[1]}];

/// Whether the body of this number is chosen.
pub(crate) fn on(n: u64) -> bool {{
    SWITCH[1] == n
}}
"""
# What begins a wrong body in a switched file, by its number, and a right one.
BEGINS = re.compile(r"crate::switch::on\((\d+)\) \{|else /\* right \*/ \{")


def body(text):
    """Returns where the body lies in the braces of a function in the layout of `rt fmt`.

    Its brace is alone in a line, or else it ends the first line that is indented as the function.
    """
    indentation = re.match(" *", text)[0]
    alone = re.search(rf"(?m)^{indentation}\{{$", text)
    begin = alone or re.search(rf"(?m)^{indentation}\S.*\{{$", text)
    if not begin:
        raise mutants.Unfit("its function has no body")
    return begin.end(), text.rindex("}")


def switched(text, wrong):
    """Returns a file's text with wrong bodies by their numbers, and why others don't apply."""
    places, unfit = {}, {}
    for number, mutant in wrong.items():
        try:
            begin, end = mutant.place(text)
            first, last = (begin + it for it in body(text[begin:end]))
            changed = mutant.changed(text[first:last])
            places.setdefault((first, last), {})[number] = changed
        except mutants.Unfit as why:
            unfit[mutant] = str(why)
    for (first, last), bodies in sorted(places.items(), reverse=True):
        ours = "".join(f" if crate::switch::on({n}) {{{it}}} else" for n, it in bodies.items())
        right = f"{ours} /* right */ {{{text[first:last]}}} "
        text = text[:first] + right + text[last:]
    return text, unfit


def switch(numbered, top, names):
    """Puts wrong bodies by their numbers in the files of a copy, which has these crates.

    Returns why others don't apply.
    """
    unfit = {}
    for name in names:
        folder = f"{top}/crates/{name}/src"
        with open(f"{folder}/switch.rt", "w", encoding="utf-8") as it:
            it.write(MODULE)
        root = "main.rt" if os.path.isfile(f"{folder}/main.rt") else "lib.rt"
        with open(f"{folder}/{root}", "a", encoding="utf-8") as it:
            it.write("\nmod switch;\n")
    for crate, file in dict.fromkeys((it.crate, it.file) for it in numbered.values()):
        path = f"{top}/crates/{crate}/{file}"
        ours = {n: it for n, it in numbered.items() if (it.crate, it.file) == (crate, file)}
        with open(path, encoding="utf-8") as it:
            text, faults = switched(it.read(), ours)
        unfit.update(faults)
        with open(path, "w", encoding="utf-8") as it:
            it.write(text)
    return unfit


def blamed(said, top):
    """Returns the errors that a compiler found in wrong bodies of a copy, by their numbers."""
    found = {}
    for path, line, why in re.findall(r"(?m)^(\S+\.rt):(\d+):\d+: (error.*)$", said):
        with open(path if os.path.isabs(path) else f"{top}/{path}", encoding="utf-8") as it:
            above = "".join(it.readlines()[: int(line)])
        begun = list(BEGINS.finditer(above))
        if begun and begun[-1][1]:
            found.setdefault(int(begun[-1][1]), why)
    return found


def choose(program, number, to):
    """Writes a program with the body of this number chosen.

    A program that uses none of the crates with wrong bodies has no switch, and is as it was.
    """
    old, new = (struct.pack("<QQQ", MARKS[0], it, MARKS[1]) for it in (0, number))
    with open(program, "rb") as it:
        text = it.read()
    with open(to, "wb") as it:
        it.write(text.replace(old, new))
    os.chmod(to, 0o755)
