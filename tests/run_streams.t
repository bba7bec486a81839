prodash run: streams
====================

`on-terminal` plays steps on a terminal, and `prodash-run` is `prodash run`.

  $ export TERM=xterm
  $ unset COLUMNS LINES NO_COLOR
  $ mkfifo go
  $ cat >job <<'.'
  > exec 3<>go
  > say() { echo "$@" >&$PRODASH_FD; }
  > next() { read _ <&3; }
  > say add @a 0 build
  > say init @a 10 files
  > say set @a 3
  > .

Without a terminal the job has the streams as they are, and its messages go to standard error, with
plain lines unless the option leaves them out.

  $ cat >streams <<'.'
  > echo out; echo err >&2
  > echo "add @a 0 alpha" >&$PRODASH_FD
  > echo "info @a - one" >&$PRODASH_FD
  > .
  $ prodash-run sh streams 2>errors
  out
  $ sed 's/after .*/after T/; s/ in .*/ in T/' errors
  err
  [00:00] alpha started
   alpha one
  [00:00] alpha ended after T
   alpha in T
  $ prodash-run --plain=0 --no-summary -- sh streams 2>&1 >output | sort
   alpha one
  err
  $ cat output
  out
  $ echo in | prodash-run sed 's/^/from /'
  from in
  $ prodash-run sh -c 'yes | head -n 1'
  y

What the job has of the terminal depends on the streams that are one.

  $ cat >terminals <<'.'
  > exec 3>terminals.txt
  > for it in 0 1 2; do [ -t $it ] && echo "$it is a terminal" >&3; done
  > exit 0
  > .
  $ terminals() {
  >   { echo "run $1"; echo ended; } | on-terminal 40 8 && cat terminals.txt
  > }
  $ terminals 'prodash-run sh terminals'
  status 0
  0 is a terminal
  1 is a terminal
  2 is a terminal
  $ terminals 'prodash-run --pty -- sh terminals'
  status 0
  0 is a terminal
  1 is a terminal
  2 is a terminal
  $ terminals 'prodash-run --no-pty -- sh terminals'
  status 0
  0 is a terminal
  $ terminals 'prodash-run sh terminals >file'
  status 0
  0 is a terminal
  2 is a terminal
  $ terminals 'prodash-run --pty -- sh terminals 2>file </dev/null'
  status 0
  1 is a terminal
  $ terminals 'env TERM=dumb prodash-run --pty -- sh terminals'
  status 0
  0 is a terminal
  1 is a terminal
  2 is a terminal

Standard output that is a file gets what the job writes, and the terminal the rows.

  $ cat >writes <<'.'
  > . ./job
  > echo out; echo err >&2; next
  > .
  $ { echo 'run prodash-run --no-color -- sh writes >output'; cat <<'.'; } | on-terminal 40 8
  > until 3/10
  > until err
  > screen
  > tell go
  > ended
  > screen
  > .
  err
  
   build 3/10 files [=====>--------------]
  status 0
  err
  $ cat output
  out

If standard output is a pipe, there are no rows as long as a program has each key of the terminal, as
a pager has behind that pipe.

  $ mkfifo turn
  $ cat >pager <<'.'
  > exec 4<>turn
  > read _ <&4; stty -icanon </dev/tty; echo >taken; read _ <&4; stty icanon </dev/tty; cat
  > .
  $ cat >pages <<'.'
  > . ./job
  > next; say set @a 4; next
  > .
  $ { echo 'run sh -c "prodash-run --no-color -- sh pages | sh pager"'; cat <<'.'; } | on-terminal 40 8
  > until 3/10
  > tell turn
  > file taken
  > tell go
  > gone build
  > tell turn
  > until 4/10
  > tell go
  > ended
  > modes
  > .
  status 0
  same modes

Nor does a program have the keys of what is no terminal, on which rows may be drawn all the same.

  $ prodash-run --no-color --terminal always -- sh writes 2>frames | cat &
  $ until grep -qs 3/10 frames; do :; done; echo >go; wait $!
  out

On a terminal without rows there are messages alone.

  $ for how in 'TERM=dumb prodash-run' '-u TERM prodash-run' 'TERM= prodash-run --pty' \
  >     'prodash-run --terminal never'; do
  >   echo "run env $how -- sh streams
  > ended
  > screen" | on-terminal 40 8
  > done
  status 0
  out
  err
   alpha one
  status 0
  out
  err
   alpha one
  status 0
  out
  err
   alpha one
  status 0
  out
  err
   alpha one

  $ cat >tells <<'.'
  > . ./job
  > next; say info @a - told; next
  > .
  $ for how in 'TERM=dumb prodash-run --no-color' 'TERM=xterm prodash-run --no-color'; do
  >   { echo "run env $how -- sh tells"; cat <<'.'; } | on-terminal 40 8
  > tell go
  > until told
  > screen
  > tell go
  > ended
  > .
  > done
   build told
  status 0
   build told
  
   build 3/10 files [=====>--------------]
  status 0

In the background there are none either, and no mode of the terminal is changed.

  $ cat >behind <<'.'
  > until 3/10
  > keys \x1a
  > stopped
  > bg
  > tell go
  > until message
  > screen
  > modes
  > tell go
  > fg
  > ended
  > .
  $ cat >two <<'.'
  > . ./job
  > next; echo two; say info @a - message; next
  > .
  $ { echo 'run prodash-run --no-color -- sh two'; cat behind; } | on-terminal 40 8
  stopped
  ^Ztwo
   build message
  same modes
  status 0

Streams that are closed stay so.

  $ cat >closed.py <<'.'
  > import os
  > for it in range(3):
  >     try:
  >         os.fstat(it)
  >     except OSError:
  >         os.write(int(os.environ["PRODASH_FD"]), b"info @a - %d is closed\n" % it)
  > .
  $ cat >closed <<'.'
  > echo "add @a 0 a" >&$PRODASH_FD
  > exec "$PYTHON" -I -S closed.py
  > .
  $ export PYTHON=$(python3 -c 'import sys; print(sys.executable)')
  $ prodash-run --plain=0 --no-summary -- sh closed <&-
   a 0 is closed
  $ prodash-run --plain=0 --no-summary -- sh closed >&-
   a 1 is closed
  $ prodash-run --plain=0 --no-summary -- sh closed <&- >&-
   a 0 is closed
   a 1 is closed
  $ prodash-run --record recording -- sh closed <&- >&- 2>&-
  $ grep -c closed recording
  3

The descriptor of the lines is the highest that is free from 3 to 8, and the job has its identity.

  $ prodash-run sh -c 'echo $PRODASH_FD'
  8
  $ prodash-run sh -c 'echo $PRODASH_FD' 8>file
  7
  $ prodash-run sh -c 'echo $PRODASH_FD; echo kept >&8; cat file' 8>file 7>file
  6
  kept
  $ prodash-run sh -c '[ "$(stat -L -c %d:%i /proc/self/fd/$PRODASH_FD)" = "$PRODASH_FD_ID" ]'
  $ PRODASH_FD=8 prodash-run sh -c 'echo "${PRODASH_FD-none}"' 3>a 4>a 5>a 6>a 7>a 8>a
  none

One inside another adds its lines to that. A descriptor that is not the wrapper's is left alone.

  $ prodash-run --plain=0 --no-summary -- sh -c 'prodash-run --pty -- sh -c "echo add 0 inner >&\$PRODASH_FD"
  >   echo "info 1 - outer" >&$PRODASH_FD'
   inner outer
  $ prodash-run prodash-run nothing
  prodash run: nothing: No such file or directory
  [127]
  $ PRODASH_FD=8 PRODASH_FD_ID=1:2 prodash-run --plain=0 --no-summary -- sh streams 8>stale
  out
  err
   alpha one
  $ cat stale
