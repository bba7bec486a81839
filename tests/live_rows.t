prodash-live: rows
==================

`until_shown` keeps the input of a command open until a text is in the file `frames`. `last_row`
shows the row drawn last before the closing frame, and `last_rows` the last few. What was drawn
earlier depends on time.

  $ unset COLUMNS LINES NO_COLOR
  $ until_shown() {
  >   text=$1; shift
  >   { cat; until grep -qs "$text" frames; do sleep 0.02; done; } | "$@"
  > }
  $ last_row() { tail -n 3 frames | head -n 1 | sed 's/.*\[2K//'; }
  $ last_rows() { tail -n $((2 * $1 + 1)) frames | head -n "$1" | sed 's/.*\[2K//'; }
  $ printf 'add 0 task\ninit 1 10 -\nset 1 3\n' >one_task

A row without progress is drawn once, and the closing frame erases it. An earlier frame may have
been drawn before the task was added, and then it has no rows.

  $ echo 'add 0 task' | until_shown task prodash-live --terminal always 2>frames
  $ sed 's/^.\[?2026h\r.\[?7l.\[J.\[?7h.\[?2026l//' frames
  \x1b[?2026h\r\x1b[?7l\x1b[2K \x1b[1;37mtask\x1b[0m (esc)
  \x1b[J\x1b[1A\x1b[?7h\x1b[?2026l\x1b[?2026h\r\x1b[?7l\x1b[2K (esc)
  \x1b[J\x1b[1A\x1b[?7h\x1b[?2026l (no-eol) (esc)

By default there are 80 columns, of which a bar takes at most 40, colours, and no rows if the output
is no terminal.

  $ until_shown 3/10 prodash-live --fps=10 --stdout --no-times --terminal always <one_task >frames
  $ last_row
   \x1b[1;36mtask\x1b[0m \x1b[1;2m3/10\x1b[0m [\x1b[33m==========\x1b[0m\x1b[33m>\x1b[0m\x1b[2;33m--------------------------\x1b[0m] (esc)
  $ until_shown 3/10 prodash-live --no-color --no-times --terminal=always <one_task 2>frames
  $ last_row
   task 3/10 [==========>--------------------------]
  $ prodash-live <one_task
  $ prodash-live --terminal never <one_task

The unit may be left out, and may have any name, with a percentage before or after the value.

  $ in_unit() {
  >   printf 'add 0 task\ninit 1 %s\nset 1 3\n' "$1" \
  >     | until_shown 3/10 prodash-live --no-color --no-times --columns 40 --terminal always 2>frames
  >   last_row | sed 's/ \[=*>-*\]$//'
  > }
  $ in_unit 10
   task 3/10
  $ in_unit '10 flies'
   task 3/10 flies
  $ in_unit '10 %flies'
   task [30%] 3/10 flies
  $ in_unit '10 flies%'
   task 3/10 flies [30%]
  $ in_unit '10 steps'
   task 3/10 steps

States
======

A task that is halted, one that is blocked, and one that runs again with a new bound.

  $ until_shown last prodash-live --no-times --terminal always --columns 30 2>frames <<END
  > add 0 a
  > init 1 10 -
  > set 1 3
  > halted 1
  > add 0 b
  > init 2 10 -
  > set 2 3
  > blocked 2
  > add 0 c
  > init 3 5 -
  > max 3 10
  > set 3 1
  > inc 3 2
  > halted 3
  > running 3
  > add 0 last
  > END
  $ last_rows 4
   \x1b[1;36ma\x1b[0m \x1b[1;2m3/10\x1b[0m [\x1b[2;31m=====\x1b[0m\x1b[2;31m>\x1b[0m\x1b[2;31m--------------\x1b[0m] (esc)
   \x1b[1;36mb\x1b[0m \x1b[1;2m3/10\x1b[0m [\x1b[31m=====\x1b[0m\x1b[31m>\x1b[0m\x1b[2;31m--------------\x1b[0m] (esc)
   \x1b[1;36mc\x1b[0m \x1b[1;2m3/10\x1b[0m [\x1b[33m=====\x1b[0m\x1b[33m>\x1b[0m\x1b[2;33m--------------\x1b[0m] (esc)
   \x1b[1;37mlast\x1b[0m (esc)
