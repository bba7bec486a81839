"""What the terminal emulator tmux shows."""
import re
import subprocess
import tempfile
import time

SIGN = re.compile(r"\x1b\[([\d;]*)m|(.)", re.S)


def shown(written, columns, rows):
    """Returns the rows that a pane of this size shows behind this text, once they stay the same.

    A row is a list of characters, each with the codes of its style.
    """
    with tempfile.TemporaryDirectory(prefix="tmux-") as room:
        with open(f"{room}/written", "w", encoding="utf-8", newline="") as it:
            it.write(written)
        tmux = ["tmux", "-S", f"{room}/socket", "-f", "/dev/null"]
        begin = ["start-server", ";", "set", "-g", "status", "off", ";", "new-session", "-d"]
        command = f"cat {room}/written; tmux wait-for -S written; exec sleep 600"
        begin += ["-x", str(columns), "-y", str(rows), command]
        for words in (begin, ["wait-for", "written"]):
            subprocess.run([*tmux, *words], check=True)
        capture, text, last = [*tmux, "capture-pane", "-peN"], "", None
        while text != last:
            last = text
            time.sleep(0.1)
            text = subprocess.run(capture, check=True, stdout=subprocess.PIPE, text=True).stdout
        subprocess.run([*tmux, "kill-server"], check=True)
    return rows_of(text)[:rows]


def rows_of(text):
    """Returns the rows of a captured pane."""
    found, style = [[]], set()
    for codes, char in SIGN.findall(text):
        if char == "\n":
            found.append([])
        elif char:
            found[-1].append((char, style))
        for code in (int(it or 0) for it in codes.split(";") if not char):
            # a colour ends the one before, and 39 or 49 does, as 0 ends all
            style = {it for it in style if code and kind(it) != kind(code)} | {code} - {0, 39, 49}
    return found


def kind(code):
    """Returns what a code sets: a colour, or what no other code does."""
    return {3: "ink", 9: "ink", 4: "paper", 10: "paper"}.get(code // 10, code)
