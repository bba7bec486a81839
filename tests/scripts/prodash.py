#!/usr/bin/env -S python3 -I -S
"""prodash, with the programs that are on the path."""
import os
import shutil
import sys

sys.dont_write_bytecode = True
TOP = f"{os.path.dirname(os.path.realpath(__file__))}/../.."
sys.path.insert(0, f"{TOP}/lib")

import command


def program(name="prodash-live"):
    """Returns the path of a program."""
    return shutil.which(name)


if __name__ == "__main__":
    names = {"live": "prodash-live", "replay": "prodash-replay", "picture": "picture"}
    scripts = {it: f"{TOP}/bin/{name}" for it, name in names.items()}
    sys.exit(command.main(sys.argv[1:], program, scripts, f"{TOP}/share/prodash"))
