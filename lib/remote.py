"""A command on another host: what ssh sends to a shell there, and what comes back beside output.

ssh gives that shell two streams, and no descriptor of this machine. So the shell has a pipe for the
event lines, and sends each of them by its standard error, behind a mark that no other text has. It
needs nothing there but a POSIX sh.
"""
# The words that begin a shell on a host. ssh asks nothing, since questions of several hosts would
# stand among the rows, and notices within a minute that a host is gone. It forwards nothing, as
# each but the first would fail to, and is no master of others, which it would have to outlive.
SSH = (
    *("ssh", "-T", "-o", "BatchMode=yes", "-o", "ConnectTimeout=20"),
    *("-o", "ServerAliveInterval=15", "-o", "ClearAllForwardings=yes", "-o", "ControlMaster=no"),
)
# The longest event line, as of prodash-live.
LONGEST = 65536
# What a shell runs, with a random text in place of MARK. A mark begins with the record separator,
# which text doesn't have.
#
# 3, 4 and 5 are the streams of the shell, and 8 is the pipe of the lines. A subshell waits for the
# end of standard input, which says that the connection is gone, and ends all processes of the group
# then. The command's status is the last line of the pipe. What others write there behind it is left
# out, so that they don't keep the connection open.
SCRIPT = r"""{
exec 3<&0 4>&1 5>&2 2>/dev/null
printf '\036MARK!\n' >&5
(while read -r prodash_it; do :; done; kill -HUP -$$) <&3 >/dev/null 4>&- 5>&- &
prodash_watch=$!
prodash_mark=$(printf '\036MARK')
{
    PRODASH_FD=8
    PRODASH_FD_ID=$(stat -L -c %d:%i /dev/fd/8 || stat -L -f %d:%i /dev/fd/8)
    export PRODASH_FD PRODASH_FD_ID
    [ "$PRODASH_FD_ID" ] || unset PRODASH_FD_ID
    prodash_it=$({ (exec "$@" >&4 2>&5 3<&- 4>&- 5>&-); exit $?; } 2>&1)
    printf '\n%s=%d%s\n' "$prodash_mark" $? "${prodash_it:+ killed}" >&8
} 8>&1 </dev/null | {
    exec 6<&0
    while IFS= read -r prodash_it; do
        case $prodash_it in
            "$prodash_mark="*)
                printf '%s\n' "$prodash_it" >&5
                break
                ;;
            ?*) printf '%s+%s\n' "$prodash_mark" "$prodash_it" >&5 ;;
        esac
    done
    (while read -r prodash_it; do :; done) <&6 >/dev/null 3<&- 4>&- 5>&- 6<&- &
}
kill $prodash_watch
exit
}
"""
# What it runs ahead of that, where each line has the same program.
CHECK = r"""command -v "$1" >/dev/null || { printf '%s: not found\n' "$1" >&2; exit 127; }
"""
# What follows a mark: the shell runs, an event line, or how the command has ended.
BEGUN, LINE, ENDED = b"!", b"+", b"="
# The event lines whose second word is an item.
CHANGES = b"init drop name max set inc blocked halted running info done fail".split()


def script(mark, words, is_checked):
    """Returns what a shell is sent to run a command of these words.

    It may check that there is such a program, and begins none if there isn't.
    """
    quoted = (b"'%s'" % it.replace(b"'", b"'\\''") for it in words)
    text = (CHECK if is_checked else "") + SCRIPT.replace("MARK", mark)
    return b"set -- %s\n%s" % (b" ".join(quoted), text.encode())


class Marked:
    """A text with marked lines in it."""

    def __init__(self, mark):
        # a marked line that isn't whole, or what may be the beginning of a mark
        self.mark, self.rest = b"\036" + mark.encode(), b""

    def split(self, more):
        """Returns the text that has come, and the marked lines, without the mark."""
        read, at, texts, lines = self.rest + more, 0, [], []
        while (found := read.find(self.mark, at)) >= 0:
            texts.append(read[at:found])
            at, end = found, read.find(b"\n", found)
            if end < 0:
                break
            lines.append(read[found + len(self.mark) : end])
            at = end + 1
        else:
            begin = read.rfind(self.mark[:1], at)
            rest = begin if begin >= 0 and self.mark.startswith(read[begin:]) else len(read)
            texts.append(read[at:rest])
            at = rest
        self.rest = read[at:]
        if len(self.rest) > LONGEST:
            # the end of a line that would be faulty is text
            self.rest = b""
        return b"".join(texts), lines

    def finish(self):
        """Returns the rest of the text, which is not the beginning of a mark."""
        return b"" if self.rest.startswith(self.mark) else self.rest


class Items:
    """The items that a command has: its words are its own, and the topmost are below its row."""

    def __init__(self, row):
        # the words of those that it hasn't dropped, in their order, and how many it has added
        self.row, self.words, self.added = row, {b"0": None}, 0

    def own(self, handle):
        """Returns the word of an item."""
        return self.row if handle == b"0" else b"%s/%s" % (self.row, handle)

    def renamed(self, line):
        """Returns an event line about the items, with their words."""
        words = line.rstrip(b"\r").split(b" ", 3)
        if words[0] == b"add" and len(words) > 1:
            return self.added_by(words)
        if words[0] in CHANGES and len(words) > 1 and words[1] != b"0":
            if words[0] == b"drop":
                self.words.pop(words[1], None)
            words[1] = self.own(words[1])
        return b" ".join(words)

    def added_by(self, words):
        """Returns the line that adds an item. One without a word has its number for one."""
        self.added += 1
        if not words[1].startswith(b"@"):
            words[1:] = [b"%d" % self.added, words[1], *[b" ".join(words[2:])] * (len(words) > 2)]
        if len(words) > 3 and words[2] in self.words:
            self.words[words[1]] = None
        return b" ".join((words[0], *map(self.own, words[1:3]), *words[3:]))

    def drops(self):
        """Returns the lines that drop what is left, the lowest first."""
        return [b"drop %s" % self.own(it) for it in reversed(self.words)]
