#!/usr/bin/env -S python3 -I -S
"""prodash run, with the prodash-live that is on the path, and without times in its rows."""
import os
import sys

sys.dont_write_bytecode = True
sys.path.insert(0, f"{os.path.dirname(os.path.realpath(__file__))}/../../lib")

import run

if __name__ == "__main__":
    sys.exit(run.main("prodash-live", ["--no-times", *sys.argv[1:]]))
