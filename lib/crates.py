"""The crates that crates.txt lists, and copies of them in which `rt` works as in a clone."""
import os
import shutil

TOP = os.path.dirname(os.path.dirname(os.path.realpath(__file__)))


def uses():
    """Returns the libraries that each crate uses, by its name."""
    found = {}
    with open(f"{TOP}/crates.txt", encoding="utf-8") as it:
        for line in it:
            name, colon, libraries = line.partition("#")[0].partition(":")
            if colon:
                found[name.strip()] = libraries.split()
    return found


def with_below(names):
    """Returns crates and all crates of the repository that they use, each after those it uses."""
    listed, found = uses(), []

    def add(name):
        for it in listed[name]:
            if it in listed and it not in found:
                add(it)
        if name not in found:
            found.append(name)

    for name in names:
        add(name)
    return found


def copy(names, to):
    """Copies crates and those that they use to a new folder, without what was made of them."""
    listed, found = uses(), with_below(names)
    os.makedirs(f"{to}/.git")
    shutil.copy(f"{TOP}/HANDLES", to)
    with open(f"{to}/crates.txt", "w", encoding="utf-8") as it:
        it.writelines(f"{name}: {' '.join(listed[name])}\n" for name in found)
    for name in found:
        made = shutil.ignore_patterns("out", "edits")
        shutil.copytree(f"{TOP}/crates/{name}", f"{to}/crates/{name}", ignore=made)


def link(folder, to):
    """Copies a copy and what `rt` has made in it, by links where `rt` replaces files whole."""

    def link_or_copy(source, made):
        if "/rlib/" in source or source.endswith(".oantt"):
            os.link(source, made)
        else:
            shutil.copy2(source, made)

    shutil.copytree(folder, to, copy_function=link_or_copy)
