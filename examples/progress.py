#!/usr/bin/env python3
"""Writes three made-up downloads as lines for prodash-live.

    examples/progress.py | bin/prodash-live
"""
import random
import time


def write_event(*words):
    """Writes one event as a line, at once."""
    print(*words, flush=True)


write_event("add @all 0 downloads")
write_event("init @all 3 items")
for name in ("readme.txt", "manual.pdf", "disk.img"):
    size = random.randrange(500_000, 5_000_000)
    write_event("add @file @all", name)
    write_event("init @file", size, "bytes")
    for done in range(0, size, 100_000):
        write_event("set @file", done)
        time.sleep(0.02)
    write_event("done @file downloaded")
    write_event("drop @file")
    write_event("inc @all 1")
