"""Reads what `rt check` says of a crate's functions."""
import re

GOALS = re.compile(r"`search` did not prove ((?:`[^`]+`(?:, | and )?)+)")
ERROR = re.compile(r"(?m)^(?:\./)?proofs/(\S+?\.antt):\d+:\d+: error: (?:`([^`]+)`: )?(.*)")
# Errors that follow from another one.
FOLLOWS = re.compile(r"declarations? that depends? on|was not admitted")
# Errors of a proof file that names what is no longer there.
LOST = re.compile(r"has no field|is not in scope|has no `|is no name")


class Verdict:
    """What one check of a crate said."""

    def __init__(self, crate, status, text):
        self.crate, self.status, self.lines = crate, status, text.rstrip("\n").split("\n")
        # By the path of a function in the crate: whether it is proved, and if not, why.
        self.functions = dict(re.findall(rf"(?m)^fn {crate}::(\S+): (.*)$", text))
        # File, goal and text of each error in a proof file.
        self.errors = [it for it in ERROR.findall(text) if not FOLLOWS.search(it[2])]

    def judges(self):
        """Returns whether the check came to the functions at all."""
        ended = any(it.startswith(("logic=", "only=")) for it in self.lines)
        return ended and bool(self.functions)

    def parts_of(self, function):
        """Returns the paths of a function and of its closures, which are below `fn::`."""
        paths = {it: re.sub(r"\bfn::", "", it, count=1) for it in self.functions}
        return [it for it, path in paths.items() if f"{path}::".startswith(f"{function}::")]

    def is_proved(self, function):
        """Returns whether the function and its closures are proved."""
        parts = self.parts_of(function)
        return function in parts and all(self.functions[it] == "proved" for it in parts)

    def goal_of(self, function):
        """Returns a goal of the function, or of a closure of it, that is not proved, or None.

        That a callee isn't proved is none, nor that a proof names what is gone.
        """
        for part in self.parts_of(function):
            found = GOALS.search(self.functions[part])
            if found:
                return found[1].split("`")[1]
        return next((goal or file for file, goal, _ in self.own_errors(function, False)), None)

    def own_errors(self, function, are_lost):
        """Yields the errors in the proof of a function: of names that are gone, or the others."""
        folders = tuple(f"{it.replace('::', '/')}/" for it in self.parts_of(function))
        for error in self.errors:
            is_lost = bool(LOST.search(re.sub(r"(?<!has no )`[^`]*`", "", error[2])))
            if error[0].startswith(folders) and is_lost == are_lost:
                yield error

    def reason(self, function):
        """Returns the best that can be said of why the check refuses the function at no goal."""
        lost = [f"{file}: {why}" for file, _, why in self.own_errors(function, True)]
        unproved = [self.functions[it] for it in self.parts_of(function)]
        errors = [it for it in self.lines if "error" in it]
        found = [*lost, *(it for it in unproved if it != "proved"), *errors, self.lines[-1]]
        return found[0][:200]
