prodash run: a display that fails
=================================

`on-terminal` plays steps on a terminal, and `prodash-run` is `prodash run`. The job waits for lines
of a named pipe, `go`.

  $ export TERM=xterm
  $ unset COLUMNS LINES NO_COLOR
  $ mkfifo go
  $ cat >job <<'.'
  > exec 3<>go
  > say() { echo "$@" >&$PRODASH_FD; }
  > next() { read _ <&3; }
  > say add @a 0 build
  > say init @a 10 files
  > say set @a 3
  > echo one; next; say set @a 4; echo two; next
  > .

A display that is killed leaves no rows, and the job ends as without it. Only a status of 0 becomes
1.

  $ cat >killed <<'.'
  > until 3/10
  > until one
  > kill KILL prodash-live
  > gone build
  > tell go
  > until two
  > tell go
  > ended
  > screen
  > modes
  > .
  $ for kind in -- '--no-pty --' '--pty --'; do
  >   { echo "run prodash-run --no-color $kind sh job"; cat killed; } | on-terminal 60 8
  > done
  status 1
  one
  two
  prodash run: the display was ended by signal 9
  same modes
  status 1
  one
  two
  prodash run: the display was ended by signal 9
  same modes
  status 1
  one
  two
  prodash run: the display was ended by signal 9
  same modes
  $ { echo 'run prodash-run --no-color -- sh -c ". ./job; exit 3"'; cat killed; } | on-terminal 60 8 |
  >   grep status
  status 3

What is said is below the ^C of a job that is ended.

  $ { echo 'run prodash-run --no-color -- sh job'; cat <<'.'; } | on-terminal 60 8
  > until 3/10
  > until one
  > kill KILL prodash-live
  > gone build
  > keys \x03
  > ended
  > screen
  > .
  signal SIGINT
  one
  ^C
  prodash run: the display was ended by signal 9

One that is stopped holds the job up for two seconds at most, however many lines it writes.

  $ cat >many <<'.'
  > . ./job
  > yes "set @a 5" | head -n 300000 >&$PRODASH_FD
  > .
  $ cat >stopped <<'.'
  > until 3/10
  > until one
  > kill STOP prodash-live
  > tell go
  > until two
  > tell go
  > ended
  > screen
  > .
  $ { echo 'run prodash-run --no-color -- sh many'; cat stopped; } | on-terminal 60 8
  status 1
  one
  two
  prodash run: the display was stuck
  $ { echo 'run prodash-run --no-color -- sh job'; cat stopped; } | on-terminal 60 8
  status 1
  one
  two
  prodash run: the display was stuck

A recording that can't be written.

  $ { echo 'run prodash-run --record /dev/full --no-color -- sh job'; cat <<'.'; } | on-terminal 60 8
  > until one
  > tell go
  > until two
  > tell go
  > ended
  > screen
  > .
  status 1
  one
  two
  prodash run: cannot write /dev/full: No space left on device
   (os error 28)

Options are checked before the job begins, and so is the file of a recording.

  $ prodash-run --rows 0 -- echo begins
  error: invalid value '0' for '--rows', which takes a number from 1 to 65535
  
  For more information, try '--help'.
  [2]
  $ prodash-run --nothing -- echo begins
  error: unexpected argument '--nothing'
  
  For more information, try '--help'.
  [2]
  $ prodash-run --record nowhere/file -- echo begins
  cannot write nowhere/file: No such file or directory (os error 2)
  [1]
  $ mkfifo unread
  $ prodash-run --record unread -- echo begins
  begins
  prodash run: the display did not begin
  [1]
  $ prodash-run --version -- echo begins | grep -o '^prodash-live'
  prodash-live
  $ prodash-run --help | head -n 1
  Runs a command with rows below its output, which any of its processes may add

A faulty line is a message, and the status is the job's. With `--strict` it ends the display.

  $ prodash-run -- sh -c 'echo foo >&$PRODASH_FD'
   \xe2\x9c\x97 input line 1: unknown command "foo", in: foo (esc)
  $ prodash-run --strict -- sh -c 'echo foo >&$PRODASH_FD; echo goes on'
  goes on
  prodash run: line 1: unknown command "foo", in: foo
  [1]
  $ prodash-run --strict -- sh -c 'echo foo >&$PRODASH_FD; exit 5'
  prodash run: line 1: unknown command "foo", in: foo
  [5]

Without descriptors for a display, or without processes, there is none.

  $ export PYTHON=$(python3 -c 'import sys; print(sys.executable)') RUN=$(command -v prodash-run)
  $ export JOB='echo "runs ${PRODASH_FD-alone}"; exit 3'
  $ for it in 5 9; do
  >   PRODASH_FD=8 sh -c 'ulimit -n $0; exec $PYTHON -I -S $RUN -- sh -c "$JOB"' $it 2>errors; echo $?
  > done
  runs alone
  3
  runs alone
  3

A display that isn't there.

  $ cat >without.py <<'.'
  > import os, sys
  > sys.dont_write_bytecode = True
  > sys.path.insert(0, os.path.realpath(sys.argv[1] + "/../../lib"))
  > import run
  > run.main("/nowhere/prodash-live", sys.argv[2:])
  > .
  $ scripts=$(dirname "$(readlink -f "$(command -v prodash-run)")")
  $ python3 without.py "$scripts" sh -c 'echo runs; echo "add 0 a" >&$PRODASH_FD; exit 3'
  runs
  prodash run: /nowhere/prodash-live: No such file or directory
  [3]
  $ python3 without.py "$scripts" echo runs
  runs
  prodash run: /nowhere/prodash-live: No such file or directory
  [1]

A fault of the script that writes the frames leaves none on the terminal, and the output is passed on.

  $ cat >faulty.py <<'.'
  > import os, sys
  > sys.dont_write_bytecode = True
  > sys.path.insert(0, os.path.realpath(sys.argv[1] + "/../../lib"))
  > import run, screen
  > parts = screen.parts
  > def broken(frame):
  >     if b"4/10" in frame:
  >         raise ValueError("no such frame")
  >     return parts(frame)
  > screen.parts = broken
  > run.main("prodash-live", ["--no-color", "--", "sh", "-c", ". ./job; echo three"])
  > .
  $ { echo "run python3 faulty.py $scripts"; cat <<'.'; } | on-terminal 60 8
  > until 3/10
  > tell go
  > until two
  > gone build
  > tell go
  > ended
  > screen
  > .
  status 1
  one
  two
  three
  prodash run: ValueError: no such frame
