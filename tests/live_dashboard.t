prodash live --dashboard
========================

`on-terminal` plays steps on a terminal, and `live` is `prodash live`. It reads a named pipe, into
which a script writes that waits for lines of another one, `go`. `ascii` shows the characters of a
dashboard in ASCII, and the times of its messages as TIME.

  $ export TERM=xterm
  $ unset COLUMNS LINES NO_COLOR
  $ mkfifo go lines
  $ cat >begin <<'.'
  > exec 3<>go
  > next() { until read _ <&3; do :; done; }
  > echo title Build; echo add @a 0 all; echo add @b @a one; echo init @b 10 files; echo set @b 3
  > .
  $ cat >script <<'.'
  > . ./begin
  > next; echo set @b 4; echo info @b - first
  > next; echo done @b - second
  > .
  $ ascii() {
  >   sed -E '
  >     y/┌─┐│└┘├┤·→⨯▢█▏▎▍▌▋▊▉⇊⇈↓↑…/+-+|++||.>xo########duDU~/
  >     s/[0-9]{2}(:[0-9]{2}){2}/TIME/'
  > }
  $ play() {
  >   sh ${script-script} >lines & { echo "run sh -c 'echo before; exec live --dashboard $1' <lines"
  >   cat; } | on-terminal ${size-60 10} | ascii
  >   wait $!; echo "script: $?"
  > }

It fills the terminal, to its last row. At the end the terminal is as it was: its page, its modes
and its cursor. The messages are below.

  $ play <<'.'
  > until 3/10 files
  > until Build
  > raw
  > page
  > screen
  > updates
  > tell go
  > until first
  > screen
  > tell go
  > ended
  > screen
  > page
  > modes
  > .
  full page, no cursor, no wrap
  +Build- 'q' or CTRL+c to quit    1 running +   0 blocked +~+
  || all --------------------------------------------------- |
  || + 3/10 files######                                      |
  |                                                          |
  |                                                          |
  |                                                          |
  |                                                          |
  |                                                          |
  |                                                          |
  +----------------------------------------------------------+
  in updates
  +Build- 'q' or CTRL+c to quit    1 running +   0 blocked +~+
  || all --------------------------------------------------- |
  || + 4/10 files###########                                 |
  |                                                          |
  |                                                          |
  |                                                          |
  |                                                          |
  |Messages------------------------------------ x = `| o = ~ |
  |TIME|info|one> first                                  |
  +----------------------------------------------------------+
  status 0
  before
   one first
   one second
  main page
  same modes
  script: 0

It is there before any item is, with a title of its own, and has no colours if none are wanted.

  $ cat >later <<'.'
  > . ./begin >/dev/null; next; echo add @b 0 one; echo init @b 10; echo set @b 3; next
  > .
  $ script=later
  $ for it in '' --no-color; do
  >   play "$it" <<'.'
  > until Progress (? = keys)
  > tell go
  > until 3/10
  > style 3/10
  > style Progress
  > tell go
  > ended
  > .
  > done
  30;43
  1
  status 0
  script: 0
  plain
  1
  status 0
  script: 0

Keys
====

`?` shows the keys, also where the information is hidden, and takes them away. The lines of a script
come back.

  $ cat >says <<'.'
  > . ./begin
  > echo info_title About; echo info_text this script
  > next; echo info_text and more; echo set @b 4; next
  > .
  $ script=says size='90 14'
  $ play <<'.'
  > until this script
  > keys ?
  > until hide these keys
  > screen
  > tell go
  > until 4/10
  > until hide these keys
  > keys [
  > gone hide these keys
  > keys ?
  > until hide these keys
  > keys ?
  > until and more
  > keys [
  > gone and more
  > keys ?
  > until hide these keys
  > keys ?
  > until and more
  > tell go
  > ended
  > .
  +Build- 'q' or CTRL+c to quit    1 running +   0 blocked +   1~+Information x = [ | o = {
  | all    | all ----------------------------------------------- |Keys --------------------
  | + one  | + 3/10 files#####                                   |
  |                                                              | j k  scroll tasks
  |                                                              | d u  the same by ten
  |                                                              | J K D U  scroll messages
  |                                                              | `  hide messages
  |                                                              | ~  maximize messages
  |                                                              | [  hide this pane
  |                                                              | {  maximize this pane
  |                                                              | q Esc Ctrl-C  interrupt
  |                                                              | Ctrl-L  draw anew
  |                                                              | ?  hide these keys
  +--------------------------------------------------------------+--------------------------
  status 0
  script: 0

They scroll, one by one and by ten.

  $ cat >many <<'.'
  > . ./begin
  > for it in $(seq 40); do echo add 0 task $it; done; next
  > .
  $ script=many size='60 8'
  $ play <<'.'
  > until task 2
  > keys j
  > gone all
  > until task 3
  > keys d
  > until task 13
  > keys u
  > gone task 13
  > keys k
  > until all
  > tell go
  > ended
  > .
  status 0
  script: 0

No byte of another key is one by itself, and none is echoed: not of arrows, of functions, of Alt, of
a mouse, of what a terminal answers, or of what isn't UTF-8. The rest of a key may come later.

  $ play <<'.'
  > until task 2
  > keys \x1b[A\x1b[1;5C\x1bOj\x1b[[Aj\x1bd\x1b\xc3\xa9\xc3\xa9\x1b[M !!\x1b]11;d\x07\x1bPjd\x1b\\\xff\x9bj\x1b[1;
  > keys 5
  > keys D
  > until 2 skipped
  > screen
  > tell go
  > ended
  > .
  +Build- 'q' or CTRL+c to quit    1 running +   0 blocked +~+
  || task 1                                                  |
  || task 2                                                  |
  || task 3                                                  |
  || task 4                                                  |
  || task 5                                                  |
  | ~2 skipped and 35 more           d = d|D = j|u = u|U = k |
  +----------------------------------------------------------+
  status 0
  script: 0

Ctrl-L draws all of it anew, over what the script has written to the terminal by itself.

  $ cat >writes <<'.'
  > . ./begin
  > next; printf '\r\ntorn\r\n' >&2; next
  > .
  $ { echo "run sh -c 'sh writes | live --dashboard'"; cat <<'.'; } | on-terminal 60 8
  > until 3/10
  > until Build
  > tell go
  > until torn
  > keys \x0c
  > gone torn
  > until 3/10
  > until Build
  > tell go
  > ended
  > page
  > .
  status 0
  main page

An interrupt
============

`q`, Esc and Ctrl-C are SIGINT for the script and all of its group. If it goes on, the dashboard
stays until the lines end, and says that an interrupt was requested.

  $ cat >asked <<'.'
  > trap 'echo info @b - interrupted' INT
  > . ./begin
  > next
  > .
  $ for it in q \\x1b \\x03; do
  >   { echo "run sh -c 'trap : INT; sh asked | live --dashboard'"; printf 'until CTRL+c\nkeys %s\n' $it
  >   cat <<'.'; } | on-terminal 100 10
  > until interrupt requested - please wait
  > until interrupted
  > page
  > tell go
  > ended
  > screen
  > page
  > modes
  > .
  > done
  full page, no cursor, no wrap
  status 0
   one interrupted
  main page
  same modes
  full page, no cursor, no wrap
  status 0
   one interrupted
  main page
  same modes
  full page, no cursor, no wrap
  status 0
   one interrupted
  main page
  same modes

With `--leave-on-interrupt` the dashboard is left at once, and messages come as where there are no
rows.

  $ cat >goes_on <<'.'
  > trap : INT
  > . ./begin
  > echo info @b - begun; next; echo info @b - still at it; next
  > .
  $ { echo "run sh -c 'trap : INT; sh goes_on | live --dashboard --leave-on-interrupt'"; cat <<'.'; } |
  > until begun
  > keys q
  > until one begun
  > page
  > modes
  > tell go
  > until still at it
  > screen
  > tell go
  > ended
  > modes
  > .
  >   on-terminal 60 10
  main page
  same modes
   one begun
   one still at it
  status 0
  same modes

None of them is lost, however many come at once.

  $ { printf '\0key q\n'; yes 'print ' | head -n 20000; } |
  >   live --dashboard --leave-on-interrupt --stdout --terminal always | wc -l
  20000

A script that ends at it ends the dashboard.

  $ { echo "run sh -c 'trap : INT; sh script | live --dashboard'"; cat <<'.'; } | on-terminal 60 10
  > until 3/10
  > until Build
  > tell go
  > until first
  > keys q
  > ended
  > screen
  > page
  > modes
  > .
  status 0
   one first
  main page
  same modes

The size
========

The dashboard follows the size of the terminal, down to three by three and back.

  $ script=script size='60 10'
  $ play <<'.'
  > until 3/10
  > until Build
  > size 3 3
  > until B┐
  > screen
  > size 1 1
  > gone B
  > size 60 10
  > until 3/10 files
  > until Build
  > screen
  > tell go
  > until first
  > tell go
  > ended
  > page
  > .
  +B+
  | |
  +-+
  +Build- 'q' or CTRL+c to quit    1 running +   0 blocked +~+
  || all --------------------------------------------------- |
  || + 3/10 files######                                      |
  |                                                          |
  |                                                          |
  |                                                          |
  |                                                          |
  |                                                          |
  |                                                          |
  +----------------------------------------------------------+
  status 0
  main page
  script: 0

One that an option or the environment says stays, as far as the terminal has it.

  $ cat >steps <<'.'
  > until 3/10
  > until Build
  > screen
  > size 20 4
  > until CTR…
  > screen
  > size 60 10
  > tell go
  > tell go
  > ended
  > .
  $ play '--columns 30 --rows 5' <steps
  +Build- 'q' or CTRL+c to qui~+
  || all --------------------- |
  || + 3/10 files              |
  |                            |
  +----------------------------+
  +Build- 'q' or CTR~+
  || all ----------- |
  || + 3/10 files    |
  +------------------+
  status 0
  script: 0
  $ sh script >lines & { echo 'run env COLUMNS=30 LINES=5 live --dashboard <lines'; cat steps; } |
  >   on-terminal 60 10 | ascii
  +Build- 'q' or CTRL+c to qui~+
  || all --------------------- |
  || + 3/10 files              |
  |                            |
  +----------------------------+
  +Build- 'q' or CTR~+
  || all ----------- |
  || + 3/10 files    |
  +------------------+
  status 0

Where there is none
===================

Off a terminal, and on one that can't show frames, it is as without the option.

  $ printf 'add @a 0 a\ninfo @a - one\n' | live --dashboard
   a one
  $ printf 'add @a 0 a\ninfo @a - one\n' | live --dashboard --plain 60 2>&1 | grep -c ' a '
  3
  $ for it in 'env TERM=dumb live --dashboard' 'live --dashboard --terminal never'; do
  >   sh script >lines & { echo "run $it <lines"; cat <<'.'; } | on-terminal 60 8
  > tell go
  > until first
  > screen
  > tell go
  > ended
  > modes
  > .
  > done
   one first
  status 0
  same modes
   one first
  status 0
  same modes

With `--terminal always` the bytes off a terminal are those of the program, with marks also.

  $ for it in '' --marks --stdout; do
  >   prodash-live --dashboard --terminal always $it </dev/null >expected 2>&1
  >   live --dashboard --terminal always $it </dev/null 2>&1 | cmp - expected
  > done

Other options, and other commands
=================================

  $ live --leave-on-interrupt </dev/null
  error: '--leave-on-interrupt' needs '--dashboard'
  
  For more information, try '--help'.
  [2]
  $ live --dashboard=yes </dev/null
  error: unexpected value 'yes' for '--dashboard', which takes none
  
  For more information, try '--help'.
  [2]
  $ { echo 'run live --dashboard'; echo ended; echo screen; } | on-terminal 60 8
  status 2
  error: '--dashboard' takes the keys of the terminal, so no l
  ines can be typed: pipe them in, as in
    script | prodash-live --dashboard
  $ prodash-run --dashboard -- touch done
  error: '--dashboard' is an option of prodash live alone: what a job writes stands above its rows,
  and a dashboard fills the terminal
  [2]
  $ prodash each --dashboard touch </dev/null
  error: '--dashboard' is an option of prodash live alone: what a job writes stands above its rows,
  and a dashboard fills the terminal
  [2]
  $ ls done
  ls: cannot access 'done': No such file or directory
  [2]

The lines for a dashboard do nothing without one. Keys are the user's: no script has lines for them.
A key counts as no line of the script, nor does a size. Messages are written also without the root.

  $ cat >lines.txt <<'.'
  > title a
  > info_title b
  > info_text c
  > info_clear
  > add @a 0 a
  > info @a - one
  > key q
  > window 0 0 3 3
  > .
  $ live <lines.txt
   a one
   \xe2\x9c\x97 input line 7: unknown command "key", in: key q (esc)
   \xe2\x9c\x97 input line 8: unknown command "window", in: window 0 0 3 3 (esc)
  [2]
  $ printf '\0key q\nfoo\n\0size 40 10\n\0key\nbar\n' >keys
  $ live <keys
   \xe2\x9c\x97 input line 1: unknown command "\xef\xbf\xbdkey", in: \xef\xbf\xbdkey q (esc)
   \xe2\x9c\x97 input line 2: unknown command "foo", in: foo (esc)
   \xe2\x9c\x97 input line 3: unknown command "\xef\xbf\xbdsize", in: \xef\xbf\xbdsize 40 10 (esc)
   \xe2\x9c\x97 input line 4: unknown command "\xef\xbf\xbdkey", in: \xef\xbf\xbdkey (esc)
   \xe2\x9c\x97 input line 5: unknown command "bar", in: bar (esc)
  [2]
  $ printf 'add @a 0 a\ninfo @a - one\ndroproot\n' | live --dashboard --no-color --terminal always 2>&1 |
  >   sed 's/.*\[?25h//'
   a one
  $ live --dashboard --no-color --terminal always <keys 2>&1 | grep -ao ' input line.*'
   input line 1: unknown command "foo", in: foo
   input line 2: unknown command "bar", in: bar
