prodash-live: the size of the terminal
======================================

A line sets the size. Empty lines and those that begin with `#` do nothing, and a line may end in
CR LF.

  $ shown() { until grep -qs "$1" output; do sleep 0.01; done; }
  $ mkfifo lines
  $ prodash-live --no-times --stdout --no-color --terminal always --columns 40 <lines >output &
  $ exec 3>lines
  $ printf 'add @a 0 task\r\n\n\r\n# a task\ninit @a 10 -\nset @a 3\r\n' >&3
  $ shown ' task 3/10 \[=======>-------------------\]'
  $ printf 'size 30 4\n' >&3
  $ shown ' task 3/10 \[====>------------\]'
  $ exec 3>&-
  $ wait $!

Lines that set no size.

  $ printf 'size\nsize 40\nsize 40 4 5\nsize 0 4\nsize 40 65536\nsize  40 4\n' | prodash-live --stdout
   \xe2\x9c\x97 input line 1: the number of columns is missing (1 to 65535), in: size (esc)
   \xe2\x9c\x97 input line 2: the number of rows is missing (1 to 65535), in: size 40 (esc)
   \xe2\x9c\x97 input line 3: "4 5" is no number of rows (1 to 65535), in: size 40 4 5 (esc)
   \xe2\x9c\x97 input line 4: "0" is no number of columns (1 to 65535), in: size 0 4 (esc)
   \xe2\x9c\x97 input line 5: "65536" is no number of rows (1 to 65535), in: size 40 65536 (esc)
   \xe2\x9c\x97 input line 6: "" is no number of columns (1 to 65535), in: size  40 4 (esc)
  [2]

Columns
=======

`until_shown` keeps the input of a command open until a text is in the file `frames`. `last_row`
shows the row drawn last before the closing frame.

  $ unset COLUMNS LINES NO_COLOR
  $ until_shown() {
  >   text=$1; shift
  >   { cat; until grep -qs "$text" frames; do sleep 0.02; done; } | "$@"
  > }
  $ last_row() { tail -n 3 frames | head -n 1 | sed 's/.*\[2K//'; }
  $ printf 'add 0 task\ninit 1 10 -\nset 1 3\n' >one_task

The environment gives the number of columns, unless an option does. It also turns colours off.

  $ until_shown 3/10 env COLUMNS=100 NO_COLOR=1 prodash-live --no-times --terminal always \
  >   --bar-columns 100 <one_task 2>frames
  $ last_row
   task 3/10 [=========================>-------------------------------------------------------------]
  $ until_shown 3/10 env COLUMNS=100 NO_COLOR=1 prodash-live --no-times --columns 40 \
  >   --terminal always <one_task 2>frames
  $ last_row
   task 3/10 [=======>-------------------]
  $ until_shown 3/10 env COLUMNS="$(printf '\377')" NO_COLOR="$(printf '\377')" prodash-live \
  >   --no-times --terminal always --bar-columns 100 <one_task 2>frames
  $ last_row
   task 3/10 [===================>-----------------------------------------------]
  $ until_shown 3/10 env COLUMNS=0 NO_COLOR= prodash-live --no-times --terminal always \
  >   --bar-columns 100 <one_task 2>frames
  $ last_row
   \x1b[1;36mtask\x1b[0m \x1b[1;2m3/10\x1b[0m [\x1b[33m===================\x1b[0m\x1b[33m>\x1b[0m\x1b[2;33m-----------------------------------------------\x1b[0m] (esc)

Rows
====

A frame aligns its messages with the origins of earlier ones, as many as the terminal has rows.
`aligned` sends a message from `long`, then a number of messages from `a`, and shows the next one.

  $ aligned() {
  >   count=$1; shift
  >   {
  >     {
  >       printf 'add 0 long\nadd 0 a\ninfo 1 0 first\n'
  >       seq "$count" | sed 's/.*/info 2 0 number &./'
  >       until grep -qs "number $count[.]" frames; do sleep 0.02; done
  >       echo 'info 2 0 next'
  >     } | "$@"
  >   } 2>frames
  >   tail -n 1 frames
  > }

By default there are 20 rows. The environment may set another number, and an option overrides it.

  $ aligned 19 prodash-live
      a next
  $ aligned 20 prodash-live
   a next
  $ aligned 29 env LINES=30 prodash-live
      a next
  $ aligned 30 env LINES=30 prodash-live
   a next
  $ aligned 6 env LINES=30 prodash-live --rows 7
      a next
  $ aligned 7 env LINES=30 prodash-live --rows 7
   a next
