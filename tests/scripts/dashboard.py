#!/usr/bin/env python3
"""Runs `prodash-replay dashboard` with these words, and writes the rows of its last frame.

Lines, corners and branches, bars and their eighths, and other signs are written in ASCII.
"""
import re
import subprocess
import sys

sys.dont_write_bytecode = True

from terminal import Terminal

ASCII = str.maketrans("│─┌┐└┘├█▏▎▍▌▋▊▉…→⇊↓⇈↑⨯▢", "|-....+#1234567~>VvA^xo")


def main():
    lines = sys.stdin.buffer.read()
    words = ["prodash-replay", "dashboard", *sys.argv[1:]]
    written = subprocess.run(words, input=lines, stdout=subprocess.PIPE, check=True).stdout
    sizes = re.findall(rb"^resize \d+ (\d+) (\d+)$", lines, re.MULTILINE)
    terminal = Terminal(*map(int, sizes[-1] if sizes else sys.argv[1:3]))
    # the last frame that is written whole, and those after it, up to what leaves the screen
    drawn = written.split(b"\x1b[0m\x1b[2J\x1b[?1049l")[0]
    terminal.play(drawn.split(b"\x1b[2J")[-1])
    print("\n".join(terminal.lines()).translate(ASCII))


main()
