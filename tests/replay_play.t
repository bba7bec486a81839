prodash replay: a recording in real time
========================================

`on-terminal` plays steps on a terminal. The recording is one of four seconds, of which the last is
its end.

  $ export TERM=xterm
  $ unset COLUMNS LINES NO_COLOR
  $ cat >recording <<'.'
  > add 0 alpha
  > init 1 4 files
  > set 1 1
  > tick 1000000000
  > set 1 2
  > info 1 5 half
  > tick 3000000000
  > set 1 3
  > tick 5000000000
  > drop 1
  > tick 5000000000
  > quit 5000000000
  > .
  $ on-terminal 50 8 <<'.'
  > run prodash replay recording --speed 2 --no-color
  > until 1/4
  > screen
  > until 2/4
  > screen
  > ended
  > screen
  > modes
  > .
   alpha 1/4 files 0s [======>---------------------]
   alpha half
   alpha 2/4 files 2s, 4s left [=========>---------]
  status 0
   alpha half
  same modes

It takes the time of the run, or as many times less as `--speed` says.

  $ cat >times <<'.'
  > for it in 2 4; do
  >     began=$(date +%s%N)
  >     prodash replay recording --speed=$it 2>&1
  >     took=$((($(date +%s%N) - began) / 1000000))
  >     [ $took -ge $((4000 / it)) ] || echo "too fast: $took"
  > done
  > .
  $ on-terminal 50 8 <<'.'
  > run sh times
  > ended
  > screen
  > .
  status 0
   alpha half
   alpha half

A terminal that changes its size has the frames of its size from the next one on.

  $ on-terminal 50 8 <<'.'
  > run prodash replay recording --no-color
  > until 1/4
  > size 30 8
  > until 2/4
  > screen
  > signal INT
  > ended
  > screen
  > .
   alpha half
   alpha 2/4 files 2s, 4s left [
  signal SIGINT
   alpha half

It is stopped without rows, which come back as it goes on. No time passes meanwhile, nor in the
background.

  $ on-terminal 50 8 <<'.'
  > run prodash replay recording --no-color
  > until 1/4
  > keys \x1a
  > stopped
  > screen
  > bg
  > fg
  > until 1/4
  > screen
  > until 2/4
  > signal TERM
  > ended
  > screen
  > modes
  > .
  stopped
  
   alpha 1/4 files 0s [======>---------------------]
  signal SIGTERM
   alpha half
  same modes

A window that is closed, and a terminal that says no size.

  $ on-terminal 50 8 <<'.'
  > run prodash replay recording
  > until 1/4
  > close
  > ended
  > .
  signal SIGHUP
  $ on-terminal 100 8 <<'.'
  > size 0 0
  > run prodash replay recording --speed 1000 --no-color
  > ended
  > screen
  > .
  status 0
   alpha half

Each tick is drawn, also one at which nothing has changed, and one at a moment before that of the
tick ahead of it. The sizes of the run say nothing of the terminal.

  $ cat >set_back <<'.'
  > resize 9000000000 200 3
  > add 0 beta
  > add 0 gamma
  > tick 9000000000
  > tick 9000000000
  > info 2 5 one
  > tick 3000000000
  > name 1 delta
  > resize 3500000000 20 20
  > tick 3500000000
  > quit 9000000000
  > .
  $ on-terminal 50 8 <<'.'
  > run prodash replay set_back --no-color
  > until delta
  > screen
  > signal INT
  > ended
  > .
   gamma one
   delta
   gamma
  signal SIGINT

A recording that was cut off, also within a line, is played as far as it goes, with what came behind
its last tick.

  $ { head -n 7 recording; echo 'info 1 5 last'; printf 'set 1 '; } >cut
  $ on-terminal 50 8 <<'.'
  > run prodash replay cut --speed 100 --no-color
  > ended
  > screen
  > .
  status 0
   alpha half
   alpha last
  prodash replay: cut was cut off: its run has no en
  d

What a run has left
===================

`--last` writes the messages, and the rows of the last tick. Messages are whole, and rows have the
columns of the terminal, or as many as `COLUMNS` says.

  $ cat >finished <<'.'
  > add 0 alpha
  > init 1 4 files%/s
  > info 1 5 a message of many words, which is as long as it is
  > tick 1000000000
  > add 0 beta
  > inc 1 2
  > fail 2 5 two
  > resize 2000000000 20 1
  > tick 3000000000
  > quit 3000000000
  > .
  $ prodash replay finished --last
   alpha a message of many words, which is as long as it is
    beta two
   alpha 2/4 files [50%] 2s, 2s left [=====================>---------------------]
   beta
  $ COLUMNS=40 prodash replay --last finished | tail -n 2
   alpha 2/4 files [50%] 2s, 2s left [=>-]
   beta
  $ prodash replay --last finished | head -n 1
   alpha a message of many words, which is as long as it is
  $ prodash replay --last finished >/dev/full
  prodash replay: cannot write to standard output: No space left on device (os error 28)
  [1]
  $ on-terminal 40 8 <<'.'
  > run prodash replay --last finished
  > ended
  > screen
  > style alpha 2
  > .
  status 0
   alpha a message of many words, which is
   as long as it is
    beta two
   alpha 2/4 files [50%] 2s, 2s left [=>-]
   beta
  1;36

Tasks that were removed have no rows, and of a run that was killed all is there.

  $ prodash replay --last recording
   alpha half
  $ prodash replay --last cut
   alpha half
   alpha last
   alpha 2/4 files 2s, 4s left [========================>------------------------]
  prodash replay: cut was cut off: its run has no end

A recording of prodash run.

  $ prodash-run --no-summary --record record --no-color -- sh -c '
  >     echo "add @a 0 a" >&$PRODASH_FD; echo "init @a 4 steps" >&$PRODASH_FD; echo output
  >     echo "set @a 4" >&$PRODASH_FD; echo "done @a is done" >&$PRODASH_FD' >said 2>&1
  $ head -n 1 record
  name 0 prodash recording 1
  $ prodash replay --last record
   \xe2\x9c\x93 a is done (esc)
   a 4/4 steps in 0s [==========================================================>]

Faults
======

What is no recording, and what is no terminal.

  $ for it in /etc/passwd /dev/null nothing . "$(printf 'odd\377')"; do
  >     prodash replay --last "$it" 2>&1; echo $?
  > done
  prodash replay: /etc/passwd is no recording of prodash: its first line is no event: 'root:x:0:0:root:/root:/bin/bash'
  2
  prodash replay: /dev/null is no recording of prodash: it has no line
  2
  prodash replay: nothing: No such file or directory
  2
  prodash replay: .: Is a directory
  2
  prodash replay: odd\xff: No such file or directory (esc)
  2
  $ prodash replay recording
  prodash replay: standard output is no terminal that shows frames; prodash replay FILE --last writes what is left at the end
  [2]
  $ { cat recording; echo bad; } >faulty
  $ on-terminal 50 8 <<'.'
  > run prodash replay faulty
  > ended
  > screen
  > .
  status 2
  prodash replay: faulty is no recording of prodash:
   its line 13 is no event: 'bad'
  $ printf 'name 0 prodash recording 1\nadd 0 a\ntick 1\n\033\377[2J\n' >damaged
  $ prodash replay damaged --last
  prodash replay: damaged is damaged: line 4 is no event: '\\x1b\xef\xbf\xbd[2J' (esc)
  [2]
  $ printf 'name 0 prodash recording 2\n' >newer
  $ prodash replay newer
  prodash replay: newer is a recording in version '2', and only '1' can be read
  [2]
  $ for it in '' '--last' '--speed' 'recording --speed 0' 'recording --speed=x' 'recording --fast' \
  >     'recording other' 'recording --last --speed 2' 'recording --last=3'; do
  >     prodash replay $it 2>&1 | head -n 1
  > done
  prodash replay: no FILE
  prodash replay: no FILE
  prodash replay: --speed takes a number from 0.001 to 1000, not ''
  prodash replay: --speed takes a number from 0.001 to 1000, not '0'
  prodash replay: --speed takes a number from 0.001 to 1000, not 'x'
  prodash replay: unexpected --fast
  prodash replay: unexpected other
  prodash replay: --last has no --speed, since it plays nothing
  prodash replay: unexpected --last=3
  $ prodash replay page 80 24 --any-unit <recording | head -n 1
   alpha half
