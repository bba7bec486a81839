"""Tries the wrong bodies that a test has to catch: a test of a crate, or a transcript of tests/.

The sources are copied, and each function gets its wrong bodies beside its right one, behind a
switch. Crates of tests and programs are built of this copy without proofs. With the right bodies
all tests have to pass. Then each wrong body is chosen in turn, and its tests run until one fails.
"""
import math
import multiprocessing
import os
import re
import resource
import subprocess
import tempfile
import time
from concurrent.futures import ProcessPoolExecutor, ThreadPoolExecutor, as_completed

import crates
import switches
import transcripts
import unproved
from against_proofs import UNFIT

CAUGHT, MISSED = "caught", "not caught"
# The seconds that a test or a command of a transcript may take, and all tests of a crate.
SECONDS = transcripts.SECONDS = 60
WHOLE = 600
# The CPU seconds that a test may take. With right bodies one takes five, and the others less than
# one: programs are not optimized, since a compiler would take the switch for a constant.
CPU_SECONDS = 20
# How often a test has to pass, since one of threads may end otherwise now and then: with the right
# bodies, if that takes no longer than so many seconds, and before a wrong body is not caught.
RIGHT, RIGHT_SECONDS, WRONG = 50, 5, 20


class Bench:
    """The crates of tests and the programs with all wrong bodies, as they are built in a folder."""

    def __init__(self, found, room, end):
        self.room, self.end = room, end
        # The wrong bodies by their numbers.
        self.left = dict(enumerate(found, 1))
        words = {word for it in found for word in it.tests}
        self.transcripts = sorted(it for it in words if it.endswith(".t"))
        self.suites = sorted({it.partition("::")[0] for it in words - {*self.transcripts}})
        self.programs = transcripts.NAMES if self.transcripts else []

    def drop(self, number, why):
        self.end(self.left.pop(number), UNFIT, why)

    def build(self, jobs):
        """Builds all, without the bodies that don't build. Returns what is wrong else, or None."""
        names = [*self.suites, *self.programs]
        while True:
            with tempfile.TemporaryDirectory(dir=self.room) as folder:
                crates.copy(names, f"{folder}/copy")
                unfit = switches.switch(self.left, f"{folder}/copy", crates.with_below(names))
                for number in [n for n, it in self.left.items() if it in unfit]:
                    self.drop(number, unfit[self.left[number]])
                with ThreadPoolExecutor(jobs) as pool:
                    said = list(pool.map(lambda it: self.build_crate(folder, it), names))
                wrong = [it for it in said if it]
                faults = switches.blamed("\n".join(wrong), f"{folder}/copy") if wrong else {}
            for number, why in faults.items():
                self.drop(number, why)
            if not faults:
                return wrong[0] if wrong else None

    def build_crate(self, folder, name):
        """Builds a crate and runs its tests. Returns what was said if that fails, or None."""
        room = f"{folder}/{name}"
        os.mkdir(room)
        is_suite = name in self.suites
        words, seconds = (["--test"], WHOLE) if is_suite else ([], 1)
        crate = f"{folder}/copy/crates/{name}"
        passed, said, made = unproved.build(crate, room, *words, seconds=seconds, level="-O0")
        if made is None or is_suite and not passed:
            return said
        os.replace(made, f"{self.room}/{name}")
        return None

    def tests(self):
        """Returns the names of all tests, each with that of its crate."""
        found = []
        for suite in self.suites:
            words = [f"{self.room}/{suite}", "--list"]
            listed = subprocess.run(words, stdout=subprocess.PIPE, text=True, check=True).stdout
            found += [f"{suite}::{it}" for it in re.findall(r"(?m)^(\S+): test$", listed)]
        return found

    def run(self, jobs):
        """Tries all wrong bodies. Returns what is wrong with the right ones, or None."""
        why = self.build(jobs)
        if why:
            return why
        names = [*self.tests(), *self.transcripts]
        words = {word for it in self.left.values() for word in it.tests}
        of_words = {it: [name for name in names if f"{name}::".startswith(f"{it}::")] for it in words}
        for number, mutant in list(self.left.items()):
            lacking = [it for it in mutant.tests if not of_words[it]]
            if lacking:
                self.drop(number, f"there is no test {lacking[0]}")
        # a thread that starts a program would keep open what another one writes
        with ProcessPoolExecutor(jobs, multiprocessing.get_context("fork")) as pool:
            return self.try_right(pool, of_words) or self.try_wrong(pool, of_words)

    def try_right(self, pool, of_words):
        """Runs each test that a wrong body names. Returns which one fails, or None."""
        tests = sorted({it for named in of_words.values() for it in named})
        right = [(self.room, 0, [it], RIGHT, RIGHT_SECONDS) for it in tests]
        failed = [it for it in pool.map(failing, *zip(*right)) if it]
        return f"{failed[0]} fails with the right bodies" if failed else None

    def try_wrong(self, pool, of_words):
        tried = {}
        for number, mutant in self.left.items():
            tests = [it for word in mutant.tests for it in of_words[word]]
            tried[pool.submit(failing, self.room, number, tests, WRONG)] = mutant
        for it in as_completed(tried):
            self.end(tried[it], CAUGHT if it.result() else MISSED, it.result() or "")


def failing(room, number, tests, times, seconds=math.inf):
    """Runs tests so many times, or for so long, with the body of this number.

    Returns the first that fails, or None.
    """
    began = time.monotonic()
    with tempfile.TemporaryDirectory(dir=room) as folder:
        made = {}

        def program(name):
            if name not in made:
                made[name] = f"{folder}/{name}"
                switches.choose(f"{room}/{name}", number, made[name])
            return made[name]

        for n, it in enumerate(tests * times):
            if n >= len(tests) and time.monotonic() - began > seconds:
                break
            if it.endswith(".t"):
                paths = {name: program(name) for name in transcripts.NAMES}
                passes = transcripts.passes(f"{crates.TOP}/tests/{it}", paths)
            else:
                suite, _, name = it.partition("::")
                passes = test_passes(program(suite), name)
            if not passes:
                return it
    return None


def test_passes(program, name):
    """Runs a test, and returns whether it passes in time."""
    how = {"stdin": subprocess.DEVNULL, "stdout": subprocess.DEVNULL, "stderr": subprocess.DEVNULL}
    with subprocess.Popen([program, name], **how) as test:
        resource.prlimit(test.pid, resource.RLIMIT_CPU, (CPU_SECONDS, CPU_SECONDS))
        try:
            return test.wait(SECONDS) == 0
        except subprocess.TimeoutExpired:
            test.kill()
            return False
