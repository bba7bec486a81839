prodash run: keys
=================

`on-terminal` plays steps on a terminal, and `prodash-run` is `prodash run`. The keys are the
job's, as without `prodash run`.

  $ export TERM=xterm
  $ unset COLUMNS LINES NO_COLOR
  $ mkfifo go
  $ cat >job <<'.'
  > exec 3<>go
  > say() { echo "$@" >&$PRODASH_FD; }
  > next() { read _ <&3; }
  > say add @a 0 build
  > say init @a 10 files
  > say set @a 3
  > .

A program that reads keys of the terminal that its output is gets them, too.

  $ cat >reads.py <<'.'
  > import os, termios
  > before = termios.tcgetattr(2)
  > modes = [*before[:3], before[3] & ~(termios.ICANON | termios.ECHO), *before[4:]]
  > termios.tcsetattr(2, termios.TCSADRAIN, modes)
  > print("press", flush=True)
  > print("pressed", os.read(os.open(os.ttyname(2), os.O_RDONLY), 1).decode(), flush=True)
  > termios.tcsetattr(2, termios.TCSADRAIN, before)
  > .
  $ cat >keys <<'.'
  > . ./job
  > python3 reads.py; next; printf 'and '; read line; echo "read $line"
  > .
  $ for kind in -- '--pty --'; do
  >   { echo "run prodash-run --no-color $kind sh keys"; cat <<'.'; } | on-terminal 40 8
  > until press
  > keys k
  > until pressed k
  > until 3/10
  > screen
  > tell go
  > until and
  > keys a line\n
  > ended
  > screen
  > modes
  > .
  > done
  press
  pressed k
  
   build 3/10 files [=====>--------------]
  status 0
  press
  pressed k
  and a line
  read a line
  same modes
  press
  pressed k
   build 3/10 files [=====>--------------]
  status 0
  press
  pressed k
  and a line
  read a line
  same modes

The terminal passes on lines again soon after the program has set the modes back, also if nothing is
written then.

  $ sed 's/^termios.*before)$/os.read(3, 9); &/' reads.py >later.py
  $ cat >quiet <<'.'
  > . ./job
  > python3 later.py; read line; echo "read $line"
  > .
  $ begun=$(date +%s)
  $ { echo "run prodash-run --no-color -- sh quiet"; cat <<'.'; } | on-terminal 40 8
  > until press
  > raw
  > keys k
  > until pressed k
  > tell go
  > cooked
  > keys a line\n
  > ended
  > screen
  > .
  status 0
  press
  pressed k
  a line
  read a line
  $ [ $(($(date +%s) - begun)) -lt 15 ]

While it is stopped, the user's terminal has its own modes.

  $ { echo "run prodash-run --no-color -- sh keys"; cat <<'.'; } | on-terminal 40 8
  > until press
  > until 3/10
  > raw
  > keys \x1a
  > stopped
  > modes
  > fg
  > raw
  > keys k
  > until pressed k
  > tell go
  > until and
  > keys a line\n
  > ended
  > modes
  > .
  stopped
  same modes
  status 0
  same modes

So does one that reads them one by one of standard input, and the rows stay.

  $ cat >raw <<'.'
  > . ./job
  > stty -icanon; say set @a 4; next; stty icanon
  > .
  $ { echo 'run prodash-run --no-color -- sh raw'; cat <<'.'; } | on-terminal 40 8
  > until 4/10
  > tell go
  > ended
  > modes
  > .
  status 0
  same modes

A prompt for a password is written to the terminal by itself. It stands in the free line, and what is
typed isn't shown.

  $ cat >secret <<'.'
  > . ./job
  > { next; say set @a 4; } &
  > python3 -c 'import getpass; print("got", getpass.getpass("Secret: "))'; next
  > .
  $ for kind in -- '--pty --'; do
  >   { echo "run prodash-run --no-color $kind sh secret"; cat <<'.'; } | on-terminal 40 8
  > until Secret:
  > until 3/10
  > tell go
  > until 4/10
  > keys abc
  > screen
  > keys \n
  > until got abc
  > until 4/10
  > screen
  > tell go
  > ended
  > modes
  > .
  > done
  Secret:
   build 4/10 files [=======>------------]
  Secret:
  got abc
  
   build 4/10 files [=======>------------]
  status 0
  same modes
  Secret:
   build 4/10 files [=======>------------]
  Secret:
  got abc
   build 4/10 files [=======>------------]
  status 0
  same modes

The modes of the user's terminal are given back also if it doesn't set its own back.

  $ sed '$d' reads.py >ends.py
  $ for it in raw 'kill KILL prodash-live'; do
  >   { echo "run prodash-run --no-color -- python3 ends.py"; printf 'until press\nraw\n%s\n' "$it"
  >   cat <<'.'; } | on-terminal 60 8
  > keys k
  > ended
  > modes
  > .
  > done
  status 0
  same modes
  status 1
  same modes

So they are at a signal behind the end of a job that has left a child.

  $ cat >child <<'.'
  > stty -icanon <&1; echo one
  > (while kill -0 $$; do :; done; echo >over; while printf x; do sleep 0.1; done) 2>/dev/null &
  > .
  $ { echo 'run prodash-run -- sh child'; cat <<'.'; } | on-terminal 40 8
  > until one
  > raw
  > file over
  > end TERM
  > modes
  > .
  status 0
  same modes

On a terminal without rows they are the job's, too.

  $ { echo "run env TERM=dumb prodash-run --pty -- sh -c 'read line; echo read \$line'"; cat <<'.'; } |
  > keys a line\n
  > ended
  > screen
  > .
  >   on-terminal 40 8
  status 0
  a line
  read a line

A terminal of the job's own has the modes of the user's, but not those that a shell sets for its own
keys while the job is in the background. A key is passed on at once whatever MIN was.

  $ cat >stty <<'.'
  > stty kill ^G; prodash-run --pty -- sh -c 'stty -a | grep -o "kill = .G"'
  > .
  $ { echo "run sh stty"; echo ended; echo screen; } | on-terminal 40 8
  status 0
  kill = ^G
  $ cat >behind <<'.'
  > stty -icrnl; set -m
  > prodash-run --pty -- sh -c 'stty -a >modes' & wait
  > .
  $ { echo "run sh behind"; echo ended; } | on-terminal 40 8
  status 0
  $ grep -o ' -*icrnl' modes
   icrnl
  $ { echo "run sh -c 'stty min 5; exec prodash-run --pty -- sh keys'"; cat <<'.'; } | on-terminal 40 8
  > until press
  > raw
  > keys k
  > until pressed k
  > tell go
  > until and
  > keys \n
  > ended
  > .
  status 0

What is typed stays for the next program, unless the job has a terminal of its own.

  $ cat >later <<'.'
  > prodash-run --no-color -- sh -c '. ./job; next'; read line; echo "later $line"
  > .
  $ { echo 'run sh later'; cat <<'.'; } | on-terminal 40 8
  > until 3/10
  > keys a line\n
  > until a line
  > tell go
  > ended
  > screen
  > .
  status 0
  a line
  later a line
