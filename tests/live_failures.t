prodash live: what fails
========================

Whatever becomes of the display, the script that writes the lines goes on: what it writes is read
and left out. At the end one line says what has failed, and the status isn't 0.

`on-terminal` plays steps on a terminal, and `live` is `prodash live`. It reads a named pipe, into
which a script writes that waits for lines of another one, `go`. Then it writes more than two pipes
hold. `play` says how each has ended.

  $ export TERM=xterm
  $ unset COLUMNS LINES NO_COLOR
  $ mkfifo go lines
  $ cat >script <<'.'
  > trap '' HUP
  > exec 3<>go
  > next() { until read _ <&3; do :; done; }
  > echo add @a 0 build; echo init @a 10 files; echo set @a 3
  > next; echo set @a 4; next
  > yes '#' | head -n 100000
  > .
  $ play() {
  >   sh ${script-script} >lines & { echo "run live --no-color $1 <lines"; cat; } | on-terminal 60 8
  >   wait $!; echo "script: $?"
  > }

A display that is killed leaves no rows.

  $ play <<'.'
  > until 3/10
  > kill KILL prodash-live
  > gone build
  > screen
  > tell go
  > tell go
  > ended
  > screen
  > modes
  > .
  
  status 137
  prodash live: the display was ended by signal 9
  same modes
  script: 0

One that is stuck is given up after two seconds, and the lines that it was to take are left out.

  $ { cat script; echo next; } >waits; script=waits
  $ play <<'.'
  > until 3/10
  > kill STOP prodash-live
  > tell go
  > tell go
  > gone build
  > tell go
  > ended
  > screen
  > .
  status 137
  prodash live: the display was stuck
  script: 0
  $ sed '$d' script >few; script=few

So it is at the end.

  $ play <<'.'
  > until 3/10
  > kill STOP prodash-live
  > tell go
  > tell go
  > ended
  > screen
  > .
  status 137
  prodash live: the display was stuck
  script: 0

One that had nothing to take for as long isn't.

  $ { printf 'add @a 0 a\ninfo @a - one\n'; sleep 2.2; printf 'info @a - two\n'; } | live
   a one
   a two

A recording that can't be written.

  $ play '--record /dev/full' <<'.'
  > until 3/10
  > tell go
  > until 4/10
  > tell go
  > ended
  > screen
  > .
  status 1
  cannot write /dev/full: No space left on device (os error 28
  )
  script: 0

A window that is closed. The recording goes on, and the script as well, if it doesn't care.

  $ play '--record recording' <<'.'
  > until 3/10
  > close
  > tell go
  > tell go
  > ended
  > .
  status 1
  script: 0
  $ grep -c '^set' recording
  2

SIGTERM ends it then, too.

  $ sh few >lines & { echo 'run live <lines'; cat <<'.'; } | on-terminal 60 8; kill $!
  > until 3/10
  > close
  > one TERM
  > ended
  > .
  status 1

Wrong options, a recording that can't be there, and a display that isn't. These are told at once.

  $ more() { yes '#' | head -n 100000; echo "the script: $?" >&2; }
  $ more | live --rows 0
  error: invalid value '0' for '--rows', which takes a number from 1 to 65535
  
  For more information, try '--help'.
  the script: 0
  [2]
  $ more | live --record nowhere/file
  cannot write nowhere/file: No such file or directory (os error 2)
  the script: 0
  [1]
  $ mkfifo unread
  $ more | live --record unread
  the script: 0
  prodash live: the display did not begin
  [137]
  $ cat >with.py <<'.'
  > import os, sys
  > sys.dont_write_bytecode = True
  > sys.path.insert(0, os.path.realpath(sys.argv[1] + "/../../lib"))
  > import live
  > sys.exit(live.run(sys.argv[2], sys.argv[3:]))
  > .
  $ scripts=$(dirname "$(readlink -f "$(command -v live)")")
  $ more | python3 with.py "$scripts" /nowhere/prodash-live
  the script: 0
  prodash live: /nowhere/prodash-live: No such file or directory
  [1]

One that ends before the lines do.

  $ printf "#!/bin/sh\nprintf '\\\\0'; read _; echo no memory; exit 1\n" >ends; chmod +x ends
  $ more | python3 with.py "$scripts" ./ends
  the script: 0
  no memory
  [1]

One that has stopped once its pipe was full.

  $ cat >stops <<'.'
  > #!/usr/bin/env python3
  > import fcntl, os, signal, struct, termios, time
  > os.write(1, b"\0")
  > while struct.unpack("i", fcntl.ioctl(0, termios.FIONREAD, bytes(4)))[0] < 60000:
  >     time.sleep(0.01)
  > os.read(0, 4096)
  > signal.pause()
  > .
  $ chmod +x stops
  $ more | python3 with.py "$scripts" ./stops
  the script: 0
  prodash live: the display was stuck
  [137]

A frame that comes with the first mark is shown, and a signal that comes before it is kept.

  $ printf "#!/bin/sh\nprintf '\\\\0 one\\\\n\\\\0'; cat >rest\n" >begins; chmod +x begins
  $ echo line | python3 with.py "$scripts" ./begins
   one
  $ printf "#!/bin/sh\nkill -TERM \$PPID; printf '\\\\0'; cat >rest\n" >kills; chmod +x kills
  $ exec 3<>lines
  $ echo line >&3
  $ python3 with.py "$scripts" ./kills <lines
  $ cat rest
  line
  $ exec 3>&-

Wrong options leave SIGINT to the script, too, and SIGTERM ends what reads.

  $ env --default-signal=INT live --rows 0 <lines 2>errors &
  $ exec 3>lines
  $ until grep -qs error errors; do :; done
  $ kill -INT $!
  $ yes '#' | head -n 100000 >&3
  $ kill -TERM $!
  $ wait $! 2>/dev/null
  [143]
  $ exec 3>&-

Keys are left to others, so wrong options end it on a terminal.

  $ printf 'run live --rows 0\nended\n' | on-terminal 60 8
  status 2

An output that can't be written.

  $ messages() { echo add @a 0 a; echo info @a - one; more 2>written; }
  $ messages | live --stdout >/dev/full
  cannot write to standard output: No space left on device (os error 28)
  [1]
  $ cat written
  the script: 0
  $ messages | live 2>/dev/full
  [1]
  $ cat written
  the script: 0
  $ { echo add 0 a; yes 'info 1 - one' | head -n 100000; } >many
  $ { cat many - | live --stdout 2>errors; echo $? >status; } | head -n 1
   a one
  $ cat errors status
  cannot write to standard output: Broken pipe (os error 32)
  1

An input that can't be read.

  $ live <&-
  cannot read standard input: Bad file descriptor (os error 9)
  [1]
  $ live 0>file
  cannot read standard input: Bad file descriptor (os error 9)
  [1]

Streams that are closed are read and written as if they were empty.

  $ printf 'add @a 0 a\ninfo @a - one\n' | live --stdout >&-
  $ printf 'add @a 0 a\ninfo @a - one\n' | live 2>&-
  $ printf 'add @a 0 a\ninfo @a - one\n' | live --stdout 2>&-
   a one

A fault of the script that writes the frames leaves none on the terminal.

  $ cat >faulty.py <<'.'
  > import os, sys
  > sys.dont_write_bytecode = True
  > sys.path.insert(0, os.path.realpath(sys.argv[1] + "/../../lib"))
  > import live, screen
  > parts = screen.parts
  > def broken(frame):
  >     if b"4/10" in frame:
  >         raise ValueError("no such frame")
  >     return parts(frame)
  > screen.parts = broken
  > sys.exit(live.run("prodash-live", ["--no-color"]))
  > .
  $ sh few >lines & { echo "run python3 faulty.py $scripts <lines"; cat <<'.'; } | on-terminal 60 8
  > until 3/10
  > tell go
  > gone build
  > tell go
  > ended
  > screen
  > .
  status 137
  prodash live: ValueError: no such frame
  $ wait $!

Without descriptors there is no display.

  $ export PYTHON=$(python3 -c 'import sys; print(sys.executable)') LIVE=$(command -v live)
  $ for it in 5 6; do
  >   more 2>written | sh -c 'ulimit -n $0; exec $PYTHON -I -S $LIVE' $it; echo $?; cat written
  > done
  prodash live: Too many open files
  1
  the script: 0
  prodash live: Too many open files
  1
  the script: 0

Faulty lines are reported as ever, and with `--strict` the first one ends the script as well:
nothing reads any more.

  $ { echo foo; more 2>written; } | live
   \xe2\x9c\x97 input line 1: unknown command "foo", in: foo (esc)
  [2]
  $ cat written
  the script: 0
  $ { echo foo; yes '#' | head -n 1000000; echo $? >status; } | live --strict
  line 1: unknown command "foo", in: foo
  [2]
  $ cat status
  141
  $ printf 'add @a 0 a\nset @a 1' | live
   \xe2\x9c\x97 input line 2: the line is cut off: it has no line feed, in: set @a 1 (esc)
  [2]
