"""Tries the wrong bodies that the prover must refuse.

A check goes on past a refused function and names its goals that aren't proved. Callers are proved
from the function's contract, so a wrong body opens none of their goals. So many are tried in one
check, a round, which has one of each function. A function may have no goals where one that it calls
isn't proved, and is then tried in a further round, and at last alone.
"""
import subprocess
import tempfile

import crates
import mutants
from verdicts import Verdict

# How a wrong body ends that a proof must refuse.
REFUSED, OTHERWISE, PROVED = "refused at a goal", "refused otherwise", "proved"
UNFIT = "does not apply"
# The most wrong bodies of a round, which loads the libraries and may prove what its functions call.
ROUND = 60


class Trial:
    """How the wrong bodies of one crate are tried.

    `end` is told how each ended, and `pool` has the threads that wait for checks. The folder
    `proved` of the room has the right bodies of the crate and of those that it uses.
    """

    def __init__(self, crate, room, pool, end):
        self.crate, self.room, self.pool, self.end = crate, room, pool, end
        self.proved = f"{room}/proved"

    def check(self, folder, *words):
        """Checks the crate of a copy."""
        how = {"stdin": subprocess.DEVNULL, "stdout": subprocess.PIPE, "stderr": subprocess.STDOUT}
        how |= {"cwd": f"{folder}/crates/{self.crate}", "errors": "replace"}
        ran = subprocess.run(["rt", "check", *words], **how)
        return Verdict(self.crate, ran.returncode, ran.stdout)

    def prove_right_bodies(self):
        """Proves the crate as it is. Returns None, or what was said last if that fails."""
        verdict = self.check(self.proved)
        return "\n".join(verdict.lines[-5:]) if verdict.status else None

    def run(self, left):
        """Tries wrong bodies in rounds, while these end some, and then the others alone."""
        while left:
            tried = list(self.pool.map(self.try_round, rounds(left)))
            still = [it for each in tried for it in each]
            if len(still) == len(left):
                break
            left = still
        list(self.pool.map(self.try_alone, left))

    def verdict_on(self, round_):
        """Checks the functions of a round, in a copy with its wrong bodies."""
        with tempfile.TemporaryDirectory(dir=self.room) as room:
            crates.link(self.proved, f"{room}/copy")
            folder = f"{room}/copy/crates/{self.crate}"
            for path, text in mutants.apply(round_, folder).items():
                with open(f"{folder}/{path}", "w", encoding="utf-8") as it:
                    it.write(text)
            asked = [word for it in round_ for word in ("--only", it.function)]
            return self.check(f"{room}/copy", "--jobs", "1", *asked)

    def try_round(self, round_):
        """Tries wrong bodies in one check, and returns those that it leaves open.

        Where one of them doesn't compile, which takes seconds, each half is a round of its own.
        """
        verdict = self.verdict_on(round_)
        if not verdict.judges():
            if len(round_) == 1:
                self.end(round_[0], UNFIT, verdict.reason(round_[0].function))
                return []
            middle = len(round_) // 2
            return self.try_round(round_[:middle]) + self.try_round(round_[middle:])
        return [it for it in round_ if not self.is_ended(it, verdict)]

    def is_ended(self, mutant, verdict):
        """Ends a wrong body that was refused at a goal or proved, and returns whether it was."""
        goal = verdict.goal_of(mutant.function)
        if goal:
            self.end(mutant, REFUSED, goal)
        elif verdict.is_proved(mutant.function):
            self.end(mutant, PROVED, "")
        else:
            return False
        return True

    def try_alone(self, mutant):
        verdict = self.verdict_on([mutant])
        if not self.is_ended(mutant, verdict):
            self.end(mutant, OTHERWISE, verdict.reason(mutant.function))


def rounds(left):
    """Shares wrong bodies out to rounds of one of each function, and of about the same length."""
    found, most = [], -(-len(left) // -(-len(left) // ROUND))
    for mutant in left:
        fits = (it for it in found if all(mutant.function != other.function for other in it))
        room = next((it for it in fits if len(it) < most), None)
        if room is None:
            found.append([mutant])
        else:
            room.append(mutant)
    return found
