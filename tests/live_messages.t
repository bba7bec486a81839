prodash-live: messages
======================

Off a terminal the messages alone are written, to standard error. A faulty line is reported, and
the rest is read; the status is 2 then. The script comes in pieces of five bytes.

  $ unset COLUMNS LINES NO_COLOR
  $ cat >script <<END
  > add @a 0 alpha
  > add @b @a beta
  > init @b 10 -
  > set @b 3
  > info @b 0 one
  > bad
  > done @a 0 two
  > tick 0
  > set @c 1
  > add @b 0 delta
  > fail 3 0 three
  > drop 2
  > drop @b
  > info @b - four
  > done 1 0 five
  > add 0 zeta
  > END
  $ { cat script; printf 'info 3 0 si'; } | dd bs=5 2>/dev/null |
  >   prodash-live --replace-words >other
   beta one
   \xe2\x9c\x97 input line 6: unknown command "bad", in: bad (esc)
   \xe2\x9c\x93 alpha two (esc)
   \xe2\x9c\x97 input line 8: "tick" isn't allowed here: prodash-live draws the frames, in: tick 0 (esc)
   \xe2\x9c\x97 input line 9: no item @c, in: set @c 1 (esc)
   \xe2\x9c\x97 delta three (esc)
   \xe2\x9c\x97 input line 12: no item 2, in: drop 2 (esc)
   \xe2\x9c\x97 input line 14: no item @b, in: info @b - four (esc)
   \xe2\x9c\x93 alpha five (esc)
   \xe2\x9c\x97 input line 17: the line is cut off: it has no line feed, in: info 3 0 si (esc)
  [2]
  $ cat other

The same on standard output, without the line that is cut off.

  $ prodash-live --replace-words --stdout <script 2>other
   beta one
   \xe2\x9c\x97 input line 6: unknown command "bad", in: bad (esc)
   \xe2\x9c\x93 alpha two (esc)
   \xe2\x9c\x97 input line 8: "tick" isn't allowed here: prodash-live draws the frames, in: tick 0 (esc)
   \xe2\x9c\x97 input line 9: no item @c, in: set @c 1 (esc)
   \xe2\x9c\x97 delta three (esc)
   \xe2\x9c\x97 input line 12: no item 2, in: drop 2 (esc)
   \xe2\x9c\x97 input line 14: no item @b, in: info @b - four (esc)
   \xe2\x9c\x93 alpha five (esc)
  [2]
  $ cat other

Without a faulty line the status is 0.

  $ printf 'add 0 a\ninfo 1 3723000000000 one\n' | prodash-live --timestamps
   01:02:03 a one

The moment may be left out. A first word that is a number, or `-`, is the moment.

  $ prodash-live --timestamps <<'END' 2>&1 | sed 's/ [0-9][0-9]:[0-9][0-9]:[0-9][0-9] / TIME /'
  > add @a 0 alpha
  > info @a one more
  > done @a - two
  > info @a 3 files
  > info @a - 4 files
  > info @a -5
  > fail @a 
  > END
   TIME alpha one more
   TIME \xe2\x9c\x93 alpha two (esc)
   TIME   alpha files
   TIME   alpha 4 files
   TIME   alpha -5
   TIME \xe2\x9c\x97 alpha  (esc)

What isn't UTF-8 is U+FFFD, in a name, a text or a word.

  $ printf 'add @\377 0 caf\351\ninfo @\377 a\377\376b\nset @\377 1\n' | prodash-live
   caf\xef\xbf\xbd a\xef\xbf\xbd\xef\xbf\xbdb (esc)

A line `print` has its text alone, without a row, an origin or a severity.

  $ prodash-live <<'END'
  > print 3 files, of no item
  > add @a 0 alpha
  > done @a one
  > print  two
  > print 
  > END
  3 files, of no item
   \xe2\x9c\x93 alpha one (esc)
   two
  

With times it stands behind its own.

  $ printf 'print one\n' | prodash-live --timestamps 2>&1 | sed 's/^[0-9:]\{8\} /TIME /'
  TIME one

In colour it has the style of an information. So has a message of an item without a name, which is
its text alone, too.

  $ printf 'print one\nadd @a 0 \ninfo @a two\n' | CLICOLOR_FORCE=1 prodash-live 2>&1
  \x1b[1;37mone\x1b[0m (esc)
  \x1b[1;37mtwo\x1b[0m (esc)

Without the root there is nothing to print above.

  $ printf 'droproot\nprint one\n' | prodash-live --strict

Whole messages
==============

On a terminal a message isn't cut: it goes on in the next row, which is blank. Rows don't wrap.
`until_shown` keeps the input of a command open until a text is in the file `frames`.

  $ until_shown() {
  >   text=$1; shift
  >   { cat; until grep -qs "$text" frames; do sleep 0.02; done; } | "$@"
  > }
  $ long_message() {
  >   printf 'add 0 task\ninfo 1 0 a long message\n' | until_shown message prodash-live \
  >     --terminal always --no-color --columns 10 --rows "$1" --delay 86400000 2>frames
  > }
  $ long_message 4
  $ cat frames
  \x1b[?2026h\r\x1b[?7h\x1b[2K (esc)
  \x1b[J\x1b[1A task a long message (esc)
  \x1b[?7l\x1b[J\x1b[?7h\x1b[?2026l\x1b[?2026h\r\x1b[?7l\x1b[J\x1b[?7h\x1b[?2026l (no-eol) (esc)

A window of one row has none below the cursor's that could be blanked.

  $ long_message 1
  $ cat frames
  \x1b[?2026h\r\x1b[?7h\x1b[2K task a long message (esc)
  \x1b[?7l\x1b[J\x1b[?7h\x1b[?2026l\x1b[?2026h\r\x1b[?7l\x1b[J\x1b[?7h\x1b[?2026l (no-eol) (esc)

Severity
========

Without colours a sign before the origin says that a message is a success or a failure. The row of
the item has none. `last_rows` shows the rows drawn last before the closing frame.

  $ last_rows() { tail -n $((2 * $1 + 1)) frames | head -n "$1" | sed 's/.*\[2K//'; }
  $ printf 'add 0 task\ninfo 1 0 a\ndone 1 0 b\nfail 1 0 c\ninit 1 3 -\nset 1 2\n' >said
  $ until_shown 2/3 prodash-live --no-times --no-color --columns 30 --terminal always <said 2>frames
  $ last_rows 1
   task 2/3 [===========>------]
  $ prodash-live <said
   task a
   \xe2\x9c\x93 task b (esc)
   \xe2\x9c\x97 task c (esc)

With colours there are no signs.

  $ until_shown 2/3 prodash-live --no-times --columns 30 --terminal always <said 2>frames
  $ grep -c -e ✓ -e ✗ frames
  0
  [1]
