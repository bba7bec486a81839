prodash-live: recordings
========================

A recording has what a run did as event lines, which `prodash-replay` reads. The first one says what
it is, and changes nothing. `events` shows a recording without that line, its ticks and the moments of
the run.

  $ unset COLUMNS LINES NO_COLOR
  $ events() { sed -E '1d; /^tick/d; s/[0-9]{19}/NOW/' "$1"; }
  $ cat >script <<END
  > # two items, and a third in the place of the second
  > add @a 0 alpha
  > add @b @a beta
  > init @b 10 files%
  > set @b 3
  > info @b - one
  > bad
  > add @b 0 delta
  > init @b 007
  > name @b epsilon
  > blocked @b
  > halted @b
  > running @b
  > inc @b 2
  > max @b -
  > fail @b - three
  > done 1 - two
  > set 2 1
  > size 60 10
  > drop @a
  > END
  $ prodash-live --replace-words --record recording <script 2>said
  [2]
  $ head -n 1 recording
  name 0 prodash recording 1
  $ events recording
  add 0 alpha
  add 1 beta
  init 2 10 files%
  set 2 3
  info 2 NOW one
  add 0 input
  name 3 \xe2\x9c\x97 input (esc)
  fail 3 NOW line 7: unknown command "bad", in: bad
  name 3 input
  drop 3
  add 0 delta
  drop 2
  init 4 7 -
  name 4 epsilon
  blocked 4
  halted 4
  running 4
  inc 4 2
  max 4 -
  name 4 \xe2\x9c\x97 epsilon (esc)
  fail 4 NOW three
  name 4 epsilon
  name 1 \xe2\x9c\x93 alpha (esc)
  done 1 NOW two
  name 1 alpha
  add 0 input
  name 5 \xe2\x9c\x97 input (esc)
  fail 5 NOW line 18: no item 2, in: set 2 1
  name 5 input
  drop 5
  resize NOW 60 10
  drop 1
  quit NOW

A replay has the messages of the run, and its closing frame erases the rows.

  $ cat said
   beta one
   \xe2\x9c\x97 input line 7: unknown command "bad", in: bad (esc)
   \xe2\x9c\x97 epsilon three (esc)
     \xe2\x9c\x93 alpha two (esc)
     \xe2\x9c\x97 input line 18: no item 2, in: set 2 1 (esc)
  $ prodash-replay page 80 20 --any-unit --defensive <recording | sed '/^$/d' | cmp said -
  $ prodash-replay page 80 20 --any-unit <recording | sed '/^$/d' | cmp said -

So has one without the first line, as an older recording is.

  $ sed 1d recording | prodash-replay page 80 20 --any-unit | sed '/^$/d' | cmp said -

With colours there are no signs, neither in the run nor in the replay.

  $ prodash-live --replace-words --record recording --terminal always <script 2>frames
  [2]
  $ grep -c '^name [1-9]' recording
  1
  $ prodash-replay page 80 20 --any-unit <recording | sed '/^$/d'
   beta one
   input line 7: unknown command "bad", in: bad
   epsilon three
     alpha two
     input line 18: no item 2, in: set 2 1

Rows
====

The rows of the last tick are those that the run drew last. `until_shown` keeps the input of a
command open until a text is in the file `frames`, and `last_rows` shows the rows drawn last before
a closing frame.

  $ until_shown() {
  >   text=$1; shift
  >   { cat; until grep -qs "$text" frames; do sleep 0.02; done; } | "$@"
  > }
  $ last_rows() { tail -n $((2 * $1 + 1)) | head -n "$1" | sed 's/.*\[2K//'; }
  $ until_shown last prodash-live --record recording --no-color --no-times --columns 40 \
  >   --terminal always --replace-words 2>frames <<END
  > add @a 0 alpha
  > init @a 10 %files
  > set @a 3
  > add @b @a beta
  > add @b @a gamma
  > add @c 0 last
  > END
  $ last_rows 3 <frames
   alpha [30%] 3/10 files [===>----------]
    gamma
   last
  $ prodash-replay bytes 40 20 --any-unit --defensive <recording | last_rows 3
   alpha [30%] 3/10 files [===>----------]
    gamma
   last

Without its last line, a recording leaves these rows on the page.

  $ sed '$d' recording | prodash-replay page 40 4 --any-unit
   alpha [30%] 3/10 files [===>----------]
    gamma
   last
  

Dropping the root ends the frames, as in the run.

  $ printf 'add 0 a\ndroproot\ninfo 1 0 b\n' | prodash-live --record recording
  $ events recording
  add 0 a
  droproot
  info 1 0 b
  quit NOW
  $ prodash-replay bytes 40 4 --defensive <recording
  \r\x1b[?7l\x1b[J\x1b[?7h\r\x1b[?7l\x1b[J\x1b[?7h (no-eol) (esc)

The unit `steps` is a label in a script. In a recording it has another word, since `steps` is a range
there, which counts from 1.

  $ printf 'add @a 0 a\ninit @a 10 steps\nadd @b 0 b\ninit @b 10 %%range:steps\nset @b 9\n' |
  >   until_shown '10 of 10' prodash-live --record recording --no-color --no-times --columns 40 \
  >   --terminal always 2>frames
  $ last_rows 2 <frames
   a 0/10 steps [>-----------------------]
   b [90%] 10 of 10 steps [===========>--]
  $ events recording
  add 0 a
  init 1 10 label:steps
  add 0 b
  init 2 10 %steps
  set 2 9
  quit NOW
  $ prodash-replay bytes 40 20 --any-unit --defensive <recording | last_rows 2
   a 0/10 steps [>-----------------------]
   b [90%] 10 of 10 steps [===========>--]

Lines that are printed are the messages of an item whose row another has replaced, and which was
dropped.

  $ printf 'print one\nadd 0 a\nprint two\n' | prodash-live --record recording 2>said
  $ cat said
  one
  two
  $ events recording | sed 's/ *$//'
  add 0
  add 1
  drop 1
  add 2
  drop 2
  add 3
  drop 3
  add 4
  drop 4
  add 5
  drop 5
  add 6
  drop 7
  info 6 NOW one
  add 0 a
  info 6 NOW two
  quit NOW
  $ prodash-replay page 80 20 <recording | sed '/^$/d; s/^  //' | cmp said -

Ticks
=====

If a frame was due since the previous line, there is a tick with the moment at which it was due, and
one at the end. At ten frames a second, all but the last are whole tenths of a second apart.

  $ {
  >   for it in 1 2 3 4; do echo "add 0 $it"; sleep 0.25; done
  > } | prodash-live --record recording --fps 10
  $ sed -E '1d; s/^tick .*/tick/; /^quit/d' recording | uniq
  tick
  add 0 1
  tick
  add 0 2
  tick
  add 0 3
  tick
  add 0 4
  tick
  $ sed -n -E 's/^tick [0-9]*([0-9]{8})$/\1/p' recording | sed '$d' | sort -u | wc -l
  1

A replay keeps 20 messages until the next tick, so there is a tick after every 20.

  $ { echo 'add 0 a'; seq 50 | sed 's/^/info 1 0 /'; } >many
  $ prodash-live --record recording --fps 1 <many 2>said
  $ prodash-replay page 80 4 <recording | sed '/^$/d' | cmp said -

Files
=====

A recording has all lines that were taken, even if the run is killed.

  $ mkfifo lines
  $ prodash-live --record recording <lines &
  $ exec 3>lines
  $ printf 'add 0 a\nset 1 3\n' >&3
  $ until grep -qs set recording; do sleep 0.01; done
  $ kill -9 $!
  $ exec 3>&-
  $ events recording
  add 0 a
  set 1 3

After a write that fails nothing is recorded, so that a recording has no gap. The reader of this one
is gone at the second message, and another has come before the third. Once a message is shown, what
came before it has been written.

  $ shown() { until grep -qs "$1" messages; do sleep 0.01; done; }
  $ mkfifo pipe
  $ (trap '' PIPE; exec prodash-live --record pipe <lines 2>messages) &
  $ recorder=$!
  $ exec 3>lines 4<pipe
  $ printf 'add 0 a\ninfo 1 0 one\n' >&3
  $ shown one
  $ exec 4<&-
  $ printf 'info 1 0 two\n' >&3
  $ shown two
  $ printf 'info 1 0 three\n' >&3
  $ shown three
  $ exec 4<>pipe
  $ printf 'info 1 0 four\n' >&3
  $ exec 3>&-
  $ wait $recorder
  [1]
  $ echo 'nothing more' >&4
  $ head -n 1 <&4
  nothing more
  $ exec 4<&-
  $ cat messages
   a one
   a two
   a three
   a four
  cannot write pipe: Broken pipe (os error 32)

The script that starts it doesn't change that.

  $ printf 'add 0 a\ninfo 1 0 one\n' | live --record recording
   a one
  $ events recording
  add 0 a
  info 1 0 one
  quit NOW

A file that can't be created, and one that can't be written. No message is lost.

  $ prodash-live --record no/recording <script
  cannot write no/recording: No such file or directory (os error 2)
  [1]
  $ prodash-live --record /dev/full <many 2>written
  [1]
  $ grep -v '^ a' written
  cannot write /dev/full: No space left on device (os error 28)
  $ sed '$d' written | cmp said -
