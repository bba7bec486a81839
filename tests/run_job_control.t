prodash run: job control
========================

`on-terminal` plays steps on a terminal, whose shell has one job. `prodash-run` is `prodash run`.
The job waits for lines of a named pipe, `go`.

  $ export TERM=xterm
  $ unset COLUMNS LINES NO_COLOR
  $ mkfifo go
  $ cat >job <<'.'
  > exec 3<>go
  > say() { echo "$@" >&$PRODASH_FD; }
  > next() { read _ <&3; }
  > say add @a 0 build
  > say init @a 10 files
  > say set @a 3
  > .
  $ cat >one <<'.'
  > . ./job
  > echo one; next; say set @a 4; echo two; next
  > .

Ctrl-Z stops the job without rows, and `fg` has it go on with them. The keys are echoed as without
`prodash run`, and the modes of the terminal are the same.

  $ cat >stop_and_go <<'.'
  > until 3/10
  > until one
  > keys \x1a
  > stopped
  > gone build
  > screen
  > modes
  > fg
  > until 3/10
  > tell go
  > until 4/10
  > until two
  > screen
  > tell go
  > ended
  > screen
  > modes
  > .
  $ { echo 'run prodash-run --no-color -- sh one'; cat stop_and_go; } | on-terminal 40 8
  stopped
  one
  ^Z
  same modes
  one
  ^Ztwo
  
   build 4/10 files [=======>------------]
  status 0
  one
  ^Ztwo
  same modes
  $ { echo 'run prodash-run --no-pty --no-color -- sh one'; cat stop_and_go; } | on-terminal 40 8
  stopped
  one
  ^Z
  same modes
  one
  ^Ztwo
  
   build 4/10 files [=======>------------]
  status 0
  one
  ^Ztwo
  same modes
  $ { echo 'run prodash-run --pty --no-color -- sh one'; cat stop_and_go; } | on-terminal 40 8
  stopped
  one
  ^Z
  same modes
  one
  ^Ztwo
   build 4/10 files [=======>------------]
  status 0
  one
  ^Ztwo
  same modes

A second Ctrl-Z before it has stopped is one with the first, and another signal has its effect later.

  $ cat >twice.py <<'.'
  > import os, signal, sys
  > sys.dont_write_bytecode = True
  > sys.path.insert(0, os.path.realpath(sys.argv[1] + "/../../lib"))
  > import run
  > def drain(_):
  >     for it in (signal.SIGTSTP, signal.SIGUSR1):
  >         os.kill(os.getpid(), it)
  > run.Run.drain = drain
  > run.main("prodash-live", sys.argv[2:])
  > .
  $ cat >traps <<'.'
  > trap 'echo got it' USR1
  > . ./job
  > until read _ <&3; do :; done
  > .
  $ scripts=$(dirname "$(readlink -f "$(command -v prodash-run)")")
  $ { echo "run python3 twice.py $scripts --no-color -- sh traps"; cat <<'.'; } | on-terminal 40 8
  > until 3/10
  > keys \x1a
  > stopped
  > fg
  > until got it
  > tell go
  > ended
  > .
  stopped
  status 0

What the job writes as it stops is there.

  $ cat >says <<'.'
  > trap 'echo stopping; kill -STOP $$' TSTP
  > . ./job
  > echo one; next; echo on; next
  > .
  $ { echo 'run prodash-run --no-color -- sh says'; cat <<'.'; } | on-terminal 40 8
  > until 3/10
  > until one
  > keys \x1a
  > stopped
  > screen
  > fg
  > until on
  > until 3/10
  > tell go
  > ended
  > screen
  > .
  stopped
  one
  ^Zstopping
  status 0
  one
  ^Zstopping
  on

After `bg` the output is written without rows, which come back in the foreground.

  $ cat >background <<'.'
  > until 3/10
  > until one
  > keys \x1a
  > stopped
  > bg
  > tell go
  > until two
  > screen
  > modes
  > fg
  > until 4/10
  > tell go
  > ended
  > modes
  > .
  $ { echo 'run prodash-run --no-color -- sh one'; cat background; } | on-terminal 40 8
  stopped
  one
  ^Ztwo
  same modes
  status 0
  same modes
  $ { echo 'run prodash-run --pty --no-color -- sh one'; cat background; } | on-terminal 40 8
  stopped
  one
  ^Ztwo
  same modes
  status 0
  same modes

Ctrl-C ends the job, and `prodash run` ends by the same signal, so a script around it ends too.

  $ cat >around <<'.'
  > for it in 1 2; do prodash-run --no-color $KIND -- sh one; done
  > echo goes on
  > .
  $ cat >interrupted <<'.'
  > until 3/10
  > until one
  > keys \x03
  > ended
  > screen
  > modes
  > .
  $ { echo 'run env KIND= bash around'; cat interrupted; } | on-terminal 40 8
  signal SIGINT
  one
  ^C
  same modes
  $ { echo 'run env KIND=--no-pty bash around'; cat interrupted; } | on-terminal 40 8
  signal SIGINT
  one
  ^C
  same modes
  $ { echo 'run env KIND=--pty bash around'; cat interrupted; } | on-terminal 40 8
  signal SIGINT
  one
  ^C
  same modes
  $ { echo 'run prodash-run -- sh one'; cat interrupted; } | on-terminal 40 8 | grep signal
  signal SIGINT

That is for the script only if it is in the foreground, and if the job was ended as a terminal would.

  $ cat >goes_on <<'.'
  > prodash-run --pty -- sh -c '. ./job; echo one; next; kill -'$1' $$'
  > echo "goes on $?" >status
  > .
  $ { echo 'run bash goes_on INT'; cat <<'.'; } | on-terminal 40 8
  > until one
  > until 3/10
  > keys \x1a
  > stopped
  > bg
  > tell go
  > file status
  > fg
  > ended
  > .
  stopped
  status 0
  $ cat status; rm status
  goes on 130
  $ { echo 'run bash goes_on TERM'; cat <<'.'; } | on-terminal 40 8
  > until one
  > tell go
  > ended
  > .
  status 0
  $ cat status
  goes on 143

So it is with Ctrl-Z.

  $ { echo 'run env KIND=--pty bash around'; cat <<'.'; } | on-terminal 40 8
  > until 3/10
  > until one
  > keys \x1a
  > stopped
  > gone 3/10
  > fg
  > until 3/10
  > keys \x03
  > ended
  > .
  stopped
  signal SIGINT

With a terminal of its own all processes of the job are stopped with it.

  $ cat >child <<'.'
  > . ./job
  > sh -c 'echo $$ >pid; exec sleep 60' & until [ -s pid ]; do :; done; echo one; next; kill $(cat pid)
  > .
  $ { until ps -o stat= -p "$(cat pid 2>/dev/null)" 2>/dev/null | grep -q T; do sleep 0.1; done
  >   echo T >halts; } &
  $ { echo 'run prodash-run --pty -- sh child'; cat <<'.'; } | on-terminal 40 8
  > until one
  > one TSTP
  > stopped
  > file halts
  > .
  stopped
  $ wait $!

The job may handle it.

  $ cat >handles <<'.'
  > trap 'echo handled; exit 4' INT
  > . ./one
  > .
  $ { echo 'run prodash-run --no-color -- sh handles'; cat interrupted; } | on-terminal 40 8
  status 4
  one
  ^Chandled
  same modes
  $ { echo 'run prodash-run --pty --no-color -- sh handles'; cat interrupted; } | on-terminal 40 8
  status 4
  one
  ^Chandled
  same modes

A new size is that of the rows, and of the job's output once the job is told of it.

  $ cat >sized.py <<'.'
  > import os, signal
  > signal.signal(signal.SIGINT, signal.SIG_DFL)
  > signal.pthread_sigmask(signal.SIG_BLOCK, [signal.SIGWINCH])
  > while True:
  >     print("size", *os.get_terminal_size(1), flush=True)
  >     signal.sigwait([signal.SIGWINCH])
  > .
  $ cat >sized <<'.'
  > . ./job
  > exec python3 sized.py
  > .
  $ cat >sizes <<'.'
  > until 3/10 files [==========>--------------------------]
  > until size 80 8
  > size 40 10
  > until 3/10 files [=====>--------------]
  > until size 40 10
  > until 3/10
  > keys \x03
  > ended
  > .
  $ { echo 'run prodash-run --no-color -- sh sized'; cat sizes; } | on-terminal 80 8
  signal SIGINT
  $ { echo 'run prodash-run --pty --no-color -- sh sized'; cat sizes; } | on-terminal 80 8
  signal SIGINT

The display is told a new size between two lines of the job.

  $ sed 's/while True/while os.get_terminal_size(1).columns > 40/' sized.py >narrow.py
  $ cat >within <<'.'
  > . ./job
  > printf 'set @a' >&$PRODASH_FD; python3 narrow.py; echo >narrow; next; echo ' 4' >&$PRODASH_FD; next
  > .
  $ { echo 'run prodash-run --no-color -- sh within'; cat <<'.'; } | on-terminal 80 8
  > until size 80 8
  > until 3/10
  > size 40 10
  > file narrow
  > tell go
  > until 4/10 files [=======>------------]
  > tell go
  > ended
  > .
  status 0
