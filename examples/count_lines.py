#!/usr/bin/env python3
"""Counts the lines of files, four at a time, with the library for Python.

    PYTHONPATH=$(prodash --lib python) prodash run examples/count_lines.py FILE..
"""
import concurrent.futures
import os
import sys

from prodash import Task


def count(path, all_files):
    """Returns how many lines a file has."""
    name, lines = os.path.basename(path), 0
    with all_files.child(name, os.path.getsize(path), "bytes") as task, open(path, "rb") as it:
        for block in iter(lambda: it.read(65536), b""):
            lines += block.count(b"\n")
            task.step(len(block))
    all_files.step()
    return lines


def main(paths):
    with Task("count", len(paths), "files") as task:
        with concurrent.futures.ThreadPoolExecutor(4) as pool:
            counted = pool.map(lambda it: count(it, task), paths)
            for path, lines in zip(paths, counted):
                print(f"{lines:8} {path}")
    return 0


if __name__ == "__main__":
    sys.exit(main(sys.argv[1:]))
