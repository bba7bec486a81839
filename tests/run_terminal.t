prodash run: a terminal that stops, or is gone
==============================================

`on-terminal` plays steps on a terminal, and `prodash-run` is `prodash run`. The job waits for lines
of a named pipe, `go`.

  $ export TERM=xterm
  $ unset COLUMNS LINES NO_COLOR
  $ mkfifo go
  $ cat >job <<'.'
  > exec 3<>go
  > say() { echo "$@" >&$PRODASH_FD; }
  > next() { read _ <&3; }
  > say add @a 0 build
  > say init @a 10 files
  > say set @a 3
  > .

After Ctrl-S nothing is written, and signals reach the job all the same. The display is not taken
for stuck.

  $ cat >stops <<'.'
  > trap 'echo >got; echo got it' TERM
  > . ./job
  > next() { until read _ <&3; do :; done; }
  > echo one; next; echo two
  > { seq 4000 | sed 's/^/info @a - number /'; echo set @a 4; } >&$PRODASH_FD &
  > for it in 1 2 3 4 5 6 7 8; do sleep 0.3; done; echo >waited; next; wait; echo three; next
  > .
  $ cat >stopped <<'.'
  > until one
  > until 3/10
  > keys \x13
  > tell go
  > file waited
  > one TERM
  > file got
  > screen
  > keys \x11
  > until 4/10
  > tell go
  > until three
  > tell go
  > ended
  > .
  $ { echo 'run prodash-run --no-color -- sh stops'; cat stopped; } | on-terminal 40 8
  one
  
   build 3/10 files [=====>--------------]
  status 0
  $ rm got waited

What is written meanwhile is all there after that, in its order.

  $ cat >holds <<'.'
  > . ./job
  > echo one; next; echo two; next; echo three; next; echo four; echo >done
  > .
  $ for it in : 'kill KILL prodash-live'; do
  >   { printf 'run prodash-run --no-color -- sh holds\nuntil one\nuntil 3/10\n'
  >   [ "$it" = : ] || printf '%s\ngone build\n' "$it"; cat <<'.'; } | on-terminal 60 8; rm done
  > keys \x13
  > tell go
  > tell go
  > tell go
  > file done
  > keys \x11
  > ended
  > screen
  > .
  > done
  status 0
  one
  two
  three
  four
  status 1
  one
  two
  three
  four
  prodash run: the display was ended by signal 9

How long it is stopped counts nowhere, also at the end.

  $ cat >late <<'.'
  > . ./job
  > next
  > { seq 4000 | sed 's/^/info @a - number /'; echo info @a - last; } >&$PRODASH_FD &
  > (eval "exec $PRODASH_FD>&-"; for it in 1 2 3 4 5 6 7 8 9; do sleep 0.3; done; echo >waited) \
  >   </dev/null >/dev/null 2>&1 &
  > .
  $ { echo 'run prodash-run --no-color -- sh late'; cat <<'.'; } | on-terminal 40 8
  > until 3/10
  > keys \x13
  > tell go
  > file waited
  > keys \x11
  > until last
  > ended
  > .
  status 0
  $ rm waited

A second signal ends what waits for the terminal at the end.

  $ cat >never <<'.'
  > echo one; exec 3<>go; read _ <&3; echo two; echo >ends
  > .
  $ { echo 'run prodash-run --no-color -- sh never'; cat <<'.'; } | on-terminal 40 8
  > until one
  > keys \x13
  > tell go
  > file ends
  > end TERM
  > .
  status 0

A window that is closed hangs the job up. One that doesn't care goes on to its end.

  $ cat >closed <<'.'
  > . ./job
  > echo one; next; echo two; say set @a 4; echo >file; exit 3
  > .
  $ for kind in -- '--no-pty --' '--pty --'; do
  >   { echo "run prodash-run --no-color $kind sh closed"; printf 'until one\nclose\nended\n'; } |
  >     on-terminal 40 8
  >   { echo "run prodash-run --no-color $kind sh -c \"trap '' HUP; . ./closed\""; cat <<'.'; } |
  > until one
  > close
  > tell go
  > file file
  > ended
  > .
  >     on-terminal 40 8
  >   rm file
  > done
  signal SIGHUP
  status 3
  signal SIGHUP
  status 3
  signal SIGHUP
  status 3

With a terminal of its own the job's children are hung up, too.

  $ cat >child <<'.'
  > sh -c 'trap "echo >hung; exit" HUP; echo one; exec 3<>go; read _ <&3'; echo two
  > .
  $ { echo "run prodash-run --no-color --pty -- sh child"; cat <<'.'; } | on-terminal 40 8
  > until one
  > close
  > file hung
  > ended
  > .
  signal SIGHUP

SIGTERM to the display, and to the process that watches the signals of the group.
  $ { echo 'run prodash-run --no-color -- sh closed'; cat <<'.'; } | on-terminal 60 8
  > until 3/10
  > kill TERM .*python
  > kill KILL .*python
  > kill TERM prodash-live
  > gone 3/10
  > tell go
  > ended
  > screen
  > .
  status 3
  one
  two
  prodash run: the display was ended by signal 15
  $ { echo 'run prodash-run --no-color -- sh closed'; cat <<'.'; } | on-terminal 60 8
  > until 3/10
  > kill KILL .*python
  > one TERM
  > ended
  > screen
  > .
  signal SIGTERM
  one

