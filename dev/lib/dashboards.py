"""A model of the dashboard: its tree, its state, and the grid of each frame."""
import time

from cells import BOLD, PLAIN, Grid, Rect, Style, width_of
from tasks import Tree

BLACK, RED, GREEN, YELLOW, WHITE, LIGHT_RED = 30, 31, 32, 33, 37, 91
# How far a key scrolls the tasks. With Shift it scrolls the messages.
STEPS = {"j": 1, "d": 10, "k": -1, "u": -10}
LEVELS = {"info": WHITE, "done": GREEN, "fail": RED}


def scaled(n, places, unit):
    """Returns a number with its power of a thousand, rounded down."""
    power = min((len(str(n)) - 1) // 3, 6)
    if not power:
        return f"{n}{unit}"
    tenths = n * 10**places // 1000**power
    return f"{tenths // 10**places}.{tenths % 10**places:0{places}}{' kMGTPE'[power]}{unit}"


def lasting(seconds):
    """Returns seconds in days, hours, minutes and seconds, without those that are zero."""
    parts = ((seconds // 86400, "d"), (seconds // 3600 % 24, "h"))
    parts += ((seconds // 60 % 60, "m"), (seconds % 60, "s"))
    return "".join(f"{n}{unit}" for n, unit in parts if n) or "0s"


def percentage(p):
    if p.bound is None:
        return ""
    hundredths = 100 * p.step // p.bound if p.bound else (2**64 - 1) * (p.step > 0)
    return f"[{min(hundredths, 2**64 - 1)}%]"


# How numbers of a kind of unit are shown, and what stands before a bound.
KINDS = {
    "steps": (str, " of "),
    "bytes": (lambda n: scaled(n, 1, "B"), "/"),
    "duration": (lasting, " of "),
    "objects": (lambda n: scaled(n, 2, ""), "/"),
}


def amount_of(p):
    """Returns a progress in its unit; throughput isn't measured."""
    kind = p.unit.replace("/s", "").strip("%")
    show, separator = KINDS.get(kind, (str, "/"))
    name = {"bytes": "", "duration": "", "label:steps": "steps"}.get(kind, kind)
    bound = "" if p.bound is None else separator + show(p.bound)
    text = show(p.step + (kind == "steps")) + bound
    done = percentage(p) if "%" in p.unit else ""
    parts = (done, text, name) if p.unit.startswith(("%", "/")) else (text, name, done)
    return " ".join(filter(None, parts))


def share_of(step, bound, of):
    """Returns how much of this number is done, rounded down."""
    return of if not bound else of * min(step, bound) // bound


def branches_of(rows, row):
    """Returns the branches that lead to a row."""
    paths, path = [it.path for it in rows], row.path

    def sides(n):
        """Returns whether a branch of level n goes on above and below the row."""
        beside = [it for it in paths if len(it) == n and it[: n - 1] == path[: n - 1]]
        return n == 1 or any(it < path for it in beside), any(it > path for it in beside)

    above, below = sides(len(path))
    above = above or path[:-1] in paths
    gap = " " if above or below else "·"
    chars = ["│" if n == 1 or all(sides(n)) else gap for n in range(1, len(path))]
    return " ".join([*chars, "├" if len(path) == 1 else " ┌└├"[2 * above + below]])


class Dashboard:
    """A tree, and what a dashboard shows of it."""

    def __init__(self, columns, height, interval):
        self.columns, self.height, self.interval = columns, height, interval
        self.tree, self.title, self.window = Tree(), "Progress Dashboard", None
        self.information = []
        self.at = self.tasks = self.messages = self.tree_columns = 0
        self.hides = dict.fromkeys("`~[{", False)
        self.is_deferred = self.is_requested = self.is_closed = False

    def play(self, line):
        """Plays a line, and returns whether a frame is drawn after it."""
        word, _, rest = line.partition(" ")
        redraws = True
        if word in ("tick", "hold", "resize"):
            self.at, *size = map(int, rest.split())
            self.columns, self.height = size or (self.columns, self.height)
            redraws = word != "hold"
        elif word == "quit":
            self.is_closed = True
        elif word == "key":
            redraws = self.press(rest)
        elif word == "interrupt":
            self.set_interrupt(rest)
        elif word == "title":
            self.title = rest
        elif word == "window":
            self.window = Rect(*map(int, rest.split()))
        elif word == "info_clear":
            self.information = []
        elif word.startswith("info_"):
            self.information = [*self.information, (word == "info_title", rest)]
        else:
            self.tree.play(word, rest)
            redraws = False
        self.is_closed |= redraws and 0 not in self.tree.items
        return redraws and not self.is_closed

    def press(self, key):
        """Presses a key, and returns whether that changes what is shown."""
        if key in ("esc", "q", "ctrl-c", "ctrl-[", "ctrl-q"):
            self.is_closed |= not self.is_deferred
            self.is_requested = True
            return True
        key = key[5:] if key.startswith("ctrl-") else key
        if key in self.hides:
            self.hides[key] ^= True
        elif key in STEPS:
            self.tasks = max(self.tasks + STEPS[key], 0)
        elif key.lower() in STEPS:
            self.messages = max(self.messages + STEPS[key.lower()], 0)
        else:
            return False
        return True

    def set_interrupt(self, mode):
        self.is_closed |= mode == "instantly" and self.is_deferred and self.is_requested
        self.is_requested &= self.is_deferred
        self.is_deferred = mode == "deferred"

    def draw(self):
        """Returns the grid of a frame."""
        grid = Grid(self.columns, self.height)
        window, beside = self.split_right(self.window or Rect(0, 0, self.columns, self.height))
        inside = Rect(window.x + 1, window.y + 1, window.width - 2, window.height - 2)
        tasks, below = self.split_below(inside)
        grid.border(window)
        grid.text(window.behind(1).first(window.width - 2), self.title, BOLD)
        if window.width < 4 or window.height < 4:
            return grid
        rows = self.tree.rows()
        headline = self.headline(rows)
        room = window.first(window.width - 1).behind(width_of(self.title) + 2)
        grid.short(room.last(width_of(headline) + 1), headline, BOLD)
        self.draw_tasks(grid, tasks, rows)
        if below:
            self.draw_messages(grid, below, window.rows(window.height - 1))
        if beside:
            self.draw_information(grid, beside)
        return grid

    def split_right(self, area):
        """Returns where the window is, and where the information is, if it is shown."""
        if self.hides["["] or not self.information:
            return area, None
        wanted = max(width_of(text) for _, text in self.information) + 2
        width = min(max(area.width - 8, 0) if self.hides["{"] else area.width // 3, wanted)
        if width < wanted // 3:
            return area, None
        return area.first(area.width - width), area.last(width)

    def split_below(self, area):
        """Returns where the tasks are, and where the messages are, if they are shown."""
        count = 0 if self.hides["`"] else len(self.tree.messages)
        height = area.height * 9 // 10 if self.hides["~"] else area.height // 4
        if not count or height < 2:
            return area, None
        height = min(height, count + 1)
        top = area.height - height
        return area.rows(0, top), area.rows(top, height)

    def headline(self, rows):
        text = "'q' or CTRL+c to quit"
        if self.is_deferred and self.is_requested:
            text = "interrupt requested - please wait"
        elif self.is_deferred:
            text = "cannot interrupt current operation"
        every = ""
        if self.interval > 1000:
            now = written("%Y-%m-%dT%H:%M:%S", self.at)
            every = f" Every {self.interval // 1000}s → {now}"
        runs = sum(bool(it.progress and it.progress.phase == "running") for it in rows)
        groups = sum(it.progress is None for it in rows)
        waits = len(rows) - runs - groups
        counts = f"{runs:3} running + {waits:3} blocked + {groups:3} groups = {len(rows)}"
        return f" {text} {every} {counts} "

    def draw_tasks(self, grid, area, rows):
        """Draws the tree and the progress of tasks, and scrolls no further than to the last."""
        known = self.tree_columns or area.width // 3
        tree = 0 if area.width // 3 < 20 else min(known, area.width // 2)
        overflows = area.height < len(rows)
        height = area.height - overflows
        first = self.tasks = min(self.tasks, max(len(rows) - height, 0))
        shown = rows[first : first + height]
        self.tree_columns = 0
        names = Rect(area.x - 1, area.y, min(tree, area.width) - 1, area.height)
        amounts = [width_of(amount_of(it.progress)) if it.progress else 0 for it in shown]
        for n, row in enumerate(shown):
            line, branches = area.behind(tree).rows(n), branches_of(rows, row)
            if tree:
                text = f"{branches} {row.name}"
                grid.short(names.rows(n), text, PLAIN if row.progress else BOLD)
                self.tree_columns = max(self.tree_columns, width_of(text) + 1)
            grid.short(line, "│")
            grid.short(line, branches)
            place = line.behind(width_of(branches))
            if row.progress:
                draw_progress(grid, place, row.progress, line.behind(max(amounts)), n)
            else:
                draw_group(grid, place, row, rows[first + n + 1 :][:1], line.width)
        if overflows:
            hidden = rows[:first] + rows[first + height :]
            self.draw_overflow(grid, area.rows(height), tree, first, hidden)

    def draw_overflow(self, grid, line, tree, first, hidden):
        """Draws how many rows are hidden, over a bar that says how much of them is done."""
        bounded = [it.progress for it in hidden if it.progress and it.progress.bound is not None]
        share = sum(share_of(p.step, p.bound, 10**6) for p in bounded) // max(1, len(hidden))
        filled = draw_bar(grid, line, share, 10**6, GREEN)
        grid.paint(line.behind(max(filled - 1, 0)), RED)
        bar = "│" if tree else ""
        text = f"{bar} …{first} skipped and {len(hidden) - first} more"
        keys = "⇊ = d|↓ = j|⇈ = u|↑ = k "
        for place, it in ((line.behind(tree), text), (line.last(width_of(keys)), keys)):
            grid.text(place, it, Style(False, BLACK, RED))
            grid.text(place.first(filled - place.x + line.x), it, Style(False, BLACK, GREEN))

    def draw_messages(self, grid, area, below):
        """Draws the messages, the newest first, and what is hidden of them below the window."""
        draw_head(grid, area, "Messages", " ⨯ = `| ▢ = ~ ")
        messages, height = self.tree.messages, area.height - 1
        first = self.messages = min(self.messages, max(len(messages) - height, 0))
        shown = messages[::-1][first : first + height]
        width = max((width_of(it.origin) for it in shown), default=0)
        for n, it in enumerate(shown):
            line = area.rows(n + 1)
            if line.width - 16 - width < 30:
                grid.short(line, it.text)
                continue
            parts = [(0, written("%H:%M:%S", it.at)), (8, "│"), (13, "│"), (14, it.origin)]
            for column, part in [*parts, (14 + width, "→"), (16 + width, it.text)]:
                grid.short(line.behind(column), part)
            grid.short(line.behind(9), it.level, Style(True, BLACK, LEVELS[it.level]))
        more = max(len(messages) - first - height, 0)
        if first + more:
            grid.short(below.behind(1), f"… {first} skipped and {more} more", BOLD)
            keys = " ⇊ = D|↓ = J|⇈ = U|↑ = K ┘"
            grid.short(below.last(width_of(keys)), keys, BOLD)

    def draw_information(self, grid, area):
        """Draws the lines of the information."""
        grid.fill(area.rows(area.height - 1), "─")
        draw_head(grid, area, "Information", " ⨯ = [ | ▢ = { ")
        place = Rect(area.x, area.y + 1, area.width - 1, area.height - 2)
        n = 0
        for i, (is_title, text) in enumerate(self.information):
            if n >= place.height:
                break
            line, is_last = place.rows(n), i == len(self.information) - 1
            if not is_title:
                grid.short(line.behind(1), text, BOLD if is_last else PLAIN)
            elif not is_last:
                grid.short(line, text, BOLD)
                grid.fill(line.behind(width_of(text) + 1), "─")
            n += 1 + is_title + (not is_last and self.information[i + 1][0])


def written(form, at):
    """Returns a moment in nanoseconds, written in this form."""
    return time.strftime(form, time.gmtime(at // 10**9))


def draw_head(grid, area, title, keys):
    """Draws the first row of a pane."""
    grid.fill(area, "─")
    grid.text(area, title, BOLD)
    grid.short(area.last(width_of(keys)), keys, BOLD)


def draw_group(grid, place, row, following, columns):
    """Draws a group, which may be followed by a task of its own, in a row of so many columns."""
    has_child = any(it.progress and it.path[: len(row.path)] == row.path for it in following)
    grid.fill(place.behind(1).first(max(1, columns - 3) if has_child else 1), "─")
    grid.short(place, f" {row.name} ", BOLD)


def draw_progress(grid, place, p, spins, n):
    """Draws a progress on line n, with a bar, or where it spins if it has no bound."""
    label = f" {amount_of(p)}" + (" [replay]" if p.phase != "running" else "")
    waits = {"blocked": RED, "halted": LIGHT_RED}.get(p.phase)
    if p.bound is None:
        grid.short(place, label)
        grid.paint(spins.behind((p.step + n) % max(spins.width, 1)).first(5), waits or WHITE)
        return
    ink = waits or (GREEN if 4 * p.bound <= 5 * p.step else YELLOW)
    filled = draw_bar(grid, place, p.step, p.bound, ink)
    grid.text(place, label)
    grid.text(place.first(filled), label, Style(False, BLACK, ink))


def draw_bar(grid, area, step, bound, ink):
    """Draws a bar, whose last cell is filled by eighths. Returns its columns with that cell."""
    filled = share_of(step, bound, area.width)
    grid.fill(area.first(filled), "█", Style(ink=ink))
    rest = 0
    if bound:
        rest = (16 * (area.width * min(step, bound) % bound) + bound) // (2 * bound)
    block = chr(0x2590 - rest) if rest else " "
    grid.fill(area.behind(filled).first(1), block, Style(ink=ink))
    return min(filled + 1, area.width)
