"""What models of frames share: their words, the program's frames, and a model of a tree."""
import collections
import subprocess

import options

# The progress of a row; no unit is an empty one.
Progress = collections.namedtuple("Progress", "step bound unit phase")
Row = collections.namedtuple("Row", "path name progress")
Message = collections.namedtuple("Message", "at level origin text")


def arguments(text, count):
    """Returns a parser of the words of a script, which plays so many scripts if none are said."""
    words = options.parser(text)
    words.add_argument("scripts", nargs="?", type=int, default=count, help="how many (%(default)s)")
    words.add_argument("--seed", type=int, default=1, help="of the random numbers (1)")
    return words


def frames(words, lines):
    """Returns the text that a program writes for these lines."""
    given = "".join(f"{it}\n" for it in lines).encode()
    ran = subprocess.run(words, input=given, stdout=subprocess.PIPE, check=True)
    return ran.stdout.decode()


def bound_of(word):
    return None if word == "-" else int(word)


class Tree:
    """The tasks after event lines, and the messages that are kept."""

    def __init__(self):
        self.made, self.items = 0, {0: {"path": (), "next": 0, "step": 0}}
        self.tasks, self.messages = {}, []

    def play(self, word, rest):
        """Plays an event line that draws no frame."""
        number, _, rest = rest.partition(" ")
        it = self.items.get(int(number or 0))
        if word == "droproot":
            self.items.pop(0, None)
        elif it and word == "add":
            self.add(it, rest)
        elif it and it["path"]:
            self.change(int(number), it, word, rest)

    def add(self, parent, name):
        path = (*parent["path"], parent["next"])
        parent["next"] += 1
        self.made += 1
        self.items[self.made] = {"path": path, "next": 0, "step": 0}
        self.tasks[path] = {"name": name, "item": self.items[self.made], "progress": None}

    def change(self, number, it, word, rest):
        """Plays an event line of an item."""
        task = self.tasks[it["path"]]
        if word == "drop":
            del self.tasks[it["path"]]
            del self.items[number]
        elif word in ("set", "inc"):
            it["step"] = (int(rest) + it["step"] * (word == "inc")) % 2**64
        elif word == "name":
            task["name"] = rest
        elif word in ("info", "done", "fail"):
            at, _, text = rest.partition(" ")
            self.messages = [*self.messages[-19:], Message(int(at), word, task["name"], text)]
        elif word == "init":
            bound, unit = rest.split(" ")
            p = {"bound": bound_of(bound), "unit": "" if unit == "-" else unit, "phase": "running"}
            it["step"] = 0
            task["progress"] = None if rest == "- -" else p
        elif task["progress"]:
            task["progress"].update({"bound": bound_of(rest)} if word == "max" else {"phase": word})

    def rows(self):
        """Returns the rows in the order of their paths."""
        return [
            Row(path, it["name"], it["progress"] and Progress(it["item"]["step"], **it["progress"]))
            for path, it in sorted(self.tasks.items())
        ]
