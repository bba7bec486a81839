What is between a script, the display and the terminal
======================================================

These cases need a display, a terminal or a fault that is made for them. `prodash-run` is
`prodash run`, `live` is `prodash live`, and the scripts in Python load their modules.

  $ export TERM=xterm PYTHONDONTWRITEBYTECODE=1
  $ unset COLUMNS LINES NO_COLOR
  $ scripts=$(dirname "$(readlink -f "$(command -v live)")")
  $ export PYTHONPATH=$(readlink -f "$scripts/../../lib")
  $ mkfifo go lines out
  $ cat >job <<'.'
  > exec 3<>go
  > say() { echo "$@" >&$PRODASH_FD; }
  > next() { until read _ <&3; do :; done; }
  > say add @a 0 build
  > say init @a 10 files
  > say set @a 3
  > .

The terminal
============

What it has no room for waits, and before a stop it is written as soon as there is.

  $ cat >finish.py <<'.'
  > import os, threading
  > from relay import Terminal
  > ours, theirs = os.openpty()
  > terminal = Terminal(theirs)
  > terminal.write(b"x" * 300000)
  > print("waits" if terminal.left else "written")
  > def read():
  >     size = 0
  >     while size < 300000:
  >         size += len(os.read(ours, 65536))
  > reader = threading.Thread(target=read, daemon=True)
  > reader.start()
  > terminal.finish(30)
  > print("waits" if terminal.left else "written")
  > .
  $ python3 finish.py
  waits
  written

A script waits for an output that nobody reads, and a second SIGTERM ends what writes there.

  $ cat >writes.py <<'.'
  > import os, select
  > os.set_blocking(1, False)
  > poll, size, lines = select.poll(), 0, b"info @a - a message of some length\n" * 100
  > poll.register(1, select.POLLOUT)
  > os.write(1, b"add @a 0 a\n")
  > while size < 1 << 24 and poll.poll(1000):
  >     size += os.write(1, lines)
  > os.write(2, b"waits\n" if size < 1 << 24 else b"goes on\n")
  > .
  $ exec 4<>out
  $ python3 writes.py 2>said | live --stdout >out &
  $ until pgrep -P $! prodash-live >/dev/null; do sleep 0.05; done
  $ until [ -s said ]; do sleep 0.05; done; cat said; rm said
  waits
  $ while ps -o stat= -p $! | grep -q '^[^Z]'; do kill -TERM $! 2>/dev/null; sleep 0.05; done
  $ wait $!
  [137]
  $ exec 4>&-

So does a job for a terminal that stops.

  $ cat >fast <<'.'
  > echo one; read _ <go; python3 writes.py 2>saying; mv saying said
  > .
  $ { echo 'run prodash-run --no-color -- sh fast'; cat <<'.'; } | on-terminal 60 8
  > until one
  > keys \x13
  > tell go
  > file said
  > keys \x11
  > ended
  > .
  status 0
  $ cat said
  waits

A terminal that isn't the controlling one has rows, too.

  $ cat >one <<'.'
  > . ./job
  > next
  > .
  $ { echo 'run setsid --wait prodash-run --no-color -- sh one'; cat <<'.'; } | on-terminal 40 8
  > until 3/10
  > tell go
  > ended
  > .
  status 0

The display
===========

One that takes lines slowly isn't stuck, and one that takes none is given up in two seconds.

  $ cat >slow <<'.'
  > #!/usr/bin/env python3
  > import os, time
  > os.write(1, b"\0")
  > for _ in range(5):
  >     time.sleep(0.5)
  >     os.read(0, 16384)
  > while os.read(0, 65536):
  >     pass
  > .
  $ chmod +x slow
  $ yes '#' | head -n 100000 | python3 -c 'import live; print(live.run("./slow", []))'
  0
  $ printf '#!/bin/sh\nprintf "\\0"; exec sleep 60\n' >stuck; chmod +x stuck
  $ begun=$(date +%s)
  $ yes '#' | head -n 100000 | python3 -c 'import live; print(live.run("./stuck", []))'
  prodash live: the display was stuck
  137
  $ [ $(($(date +%s) - begun)) -lt 10 ]

All lines of a job that has ended are for the display, however long it takes to take them.

  $ cat >late <<'.'
  > #!/usr/bin/env python3
  > import os, time
  > os.write(1, b"\0")
  > size = 0
  > while more := len(os.read(0, 65536)):
  >     size += more
  >     time.sleep(0.4)
  > os.write(1, b"%d bytes\n\0" % size)
  > .
  $ chmod +x late
  $ yes 'print line four' | head -n 20000 >lines.txt
  $ python3 -c 'import run; run.main("./late", ["sh", "-c", "cat lines.txt >&$PRODASH_FD"])'
  320000 bytes

Nor is one that had nothing to take for as long, at a new size of the terminal.

  $ cat >rests <<'.'
  > . ./job
  > sleep 2.2; echo >rested; next
  > .
  $ { echo 'run prodash-run --no-color -- sh rests'; cat <<'.'; } | on-terminal 60 8
  > until 3/10
  > file rested
  > size 40 8
  > until 3/10 files [=====>--------------]
  > tell go
  > ended
  > .
  status 0

How long this is stopped counts nowhere. On this clock it is a hundred seconds.

  $ cat >clock.py <<'.'
  > import sys, time
  > import relay, run
  > class Clock:
  >     ahead = 0
  >     def monotonic(self):
  >         return time.monotonic() + self.ahead
  > suspend = relay.Relay.suspend
  > def suspended(self):
  >     suspend(self)
  >     Clock.ahead += 100
  > relay.time, relay.STUCK, relay.Relay.suspend = Clock(), 50, suspended
  > run.main("prodash-live", sys.argv[1:])
  > .
  $ cat >fills <<'.'
  > . ./job
  > next; yes '#' | head -n 70000 >&$PRODASH_FD; say set @a 4; echo two; next
  > .
  $ { echo 'run python3 clock.py --no-color -- sh fills'; cat <<'.'; } | on-terminal 40 8
  > until 3/10
  > kill STOP prodash-live
  > tell go
  > until two
  > keys \x1a
  > stopped
  > fg
  > until 3/10
  > kill CONT prodash-live
  > until 4/10
  > tell go
  > ended
  > .
  stopped
  status 0

What the job writes as it stops is awaited: here for two seconds, and else for a moment.

  $ cat >short.py <<'.'
  > import sys
  > import run
  > run.SHORT = run.LOOK = 2
  > run.main("prodash-live", sys.argv[1:])
  > .
  $ cat >says <<'.'
  > trap 'sleep 0.2; echo stopping; kill -STOP $$' TSTP
  > . ./job
  > echo one; next
  > .
  $ { echo 'run python3 short.py -- sh says'; cat <<'.'; } | on-terminal 40 8
  > until one
  > keys \x1a
  > stopped
  > screen
  > fg
  > tell go
  > ended
  > .
  stopped
  one
  ^Zstopping
  status 0

Nothing is done while nothing comes: while rows stand or the terminal is stopped, also if the display
has ended, and once keys were passed on of a window that is closed.

  $ cat >counted.py <<'.'
  > import sys
  > import relay, run
  > steps, wait, report = [], relay.Relay.wait, run.report
  > relay.Relay.wait = lambda self: steps.append(self) or wait(self)
  > def reported(*words):
  >     print("few" if len(steps) < 100 else "many", file=open("steps", "w"))
  >     report(*words)
  > run.report = reported
  > run.main("prodash-live", sys.argv[1:])
  > .
  $ cat >idles <<'.'
  > trap '' HUP
  > . ./job
  > echo one; next; sleep 0.3; echo two; sleep 0.3; echo >wrote; next
  > say set @a 4; sleep 0.5; echo >waited; next
  > .
  $ counted() {
  >   { echo "run python3 counted.py --no-color $1 sh idles"; printf 'until one\nuntil 3/10\n'; cat; } |
  >     on-terminal 60 8
  >   cat steps; rm -f steps wrote waited
  > }
  $ counted -- <<'.'
  > keys \x13
  > tell go
  > file wrote
  > kill KILL prodash-live
  > tell go
  > file waited
  > keys \x11
  > tell go
  > ended
  > screen
  > .
  status 1
  one
  two
  prodash run: the display was ended by signal 9
  few
  $ counted '--pty --' <<'.'
  > tell go
  > file wrote
  > tell go
  > until 4/10
  > tell go
  > ended
  > .
  status 0
  few
  $ counted '--pty --' <<'.'
  > close
  > tell go
  > file wrote
  > tell go
  > file waited
  > tell go
  > ended
  > .
  status 0
  few

A fault that goes on ends `prodash live`, and not the script.

  $ cat >faulty.py <<'.'
  > import live, relay
  > def broken(*_):
  >     raise ValueError("no such step")
  > relay.Relay.pass_lines = broken
  > print(live.run("prodash-live", []))
  > .
  $ { yes '#' | head -n 100000; echo "the script: $?" >&2; } | python3 faulty.py
  prodash live: no such step
  the script: 0
  1

A display is ended by SIGTERM, also by one that `prodash live` leaves alone at its start.

  $ { echo add @a 0 a; read _ <go; } | live --terminal always 2>frames &
  $ until pid=$(pgrep -P $! prodash-live); do :; done; kill -TERM $pid
  $ until ! pgrep -P $! prodash-live >killed; do :; done; echo >go; wait $!
  [143]

A recording that is larger than the system allows has a reason, and no signal.

  $ messages='yes "print a message" | head -n 1000 >&$PRODASH_FD'
  $ sh -c "ulimit -f 8; prodash-run --record recording -- sh -c '$messages'" 2>&1 | tail -n 1
  prodash run: cannot write recording: File too large (os error 27)

What it keeps
=============

Of a line without an end the display keeps what makes it too long, and the screen more than a terminal
has columns: from a carriage return on, if there is one.

  $ cat >kept.py <<'.'
  > from display import Display
  > from screen import Screen
  > display, screen = Display("prodash-live", []), Screen(80, 24, True)
  > for _ in range(9):
  >     display.send(b"#" * 10000)
  > print(len(display.rest))
  > for _ in range(9):
  >     screen.put(b"#" * 1000)
  > print(len(screen.line))
  > for _ in range(90):
  >     screen.put(b"\r\x1b[38;5;123m#")
  > screen.put(b"\r##" * 2000)
  > print(screen.line[:4], 4000 < len(screen.line) <= 4096)
  > .
  $ python3 kept.py
  65538
  4096
  b'\r##\r' True

Keys that the job doesn't read yet wait, and none is lost. A terminal that is gone has none.

  $ cat >typed.py <<'.'
  > import os, threading, tty
  > from keys import Keys
  > ours, theirs = os.openpty()
  > tty.setraw(theirs)
  > os.set_blocking(ours, False)
  > keys, size = Keys(0, ours, True), 0
  > keys.left = b"k" * 300000
  > while True:
  >     before = len(keys.left)
  >     keys.write()
  >     if len(keys.left) == before:
  >         break
  > print("wait" if keys.left else "written")
  > while size < 300000:
  >     size += len(os.read(theirs, 65536))
  >     keys.write()
  > print(len(keys.left))
  > keys.stream, keys.left = ours, b"k"
  > os.set_blocking(ours, True)
  > keys.hold()
  > os.close(theirs)
  > keys.read()
  > print(keys.left, keys.is_held())
  > .
  $ python3 typed.py
  wait
  0
  b'' False

Signals at the start
====================

Before there is a job, SIGINT ends `prodash run` without a word, and it leaves no display that waits for
who reads the recording.

  $ mkfifo nobody.$$
  $ env --default-signal=INT prodash-run --record nobody.$$ -- echo begins 2>said &
  $ until pgrep -P $! prodash-live >/dev/null; do :; done; kill -INT $!; wait $!
  [130]
  $ cat said; pgrep -f "record nobody.$$"
  [1]

So does one that comes as the display has begun, unless it is ignored or blocked. Ctrl-Z stops the job.

  $ cat >early.py <<'.'
  > import os, signal, sys
  > import run
  > begin = run.begin
  > def begun(*words):
  >     made = begin(*words)
  >     os.kill(os.getpid(), signal.Signals[sys.argv[1]])
  >     return made
  > start = run.Run.start
  > def starts(*words):
  >     print("starts", flush=True)
  >     start(*words)
  > run.begin, run.Run.start = begun, starts
  > run.main("prodash-live", sys.argv[2:])
  > .
  $ python3 early.py SIGTERM echo begins
  Terminated
  [143]
  $ (trap '' TERM; exec python3 early.py SIGTERM --plain=0 --no-summary echo begins)
  starts
  begins
  $ env --block-signal=TERM python3 early.py SIGTERM --plain=0 --no-summary echo begins
  starts
  begins
  $ { echo 'run python3 early.py SIGTSTP --no-color sh one'; cat <<'.'; } | on-terminal 40 8
  > stopped
  > fg
  > tell go
  > ended
  > .
  stopped
  status 0

One for the whole group that comes when the job isn't yet in that reaches it, too.

  $ cat >grouped.py <<'.'
  > import os, signal, sys
  > import run
  > spawn = os.posix_spawnp
  > def spawns(path, *words, **how):
  >     if path == "sleep":
  >         os.killpg(0, signal.SIGTERM)
  >     return spawn(path, *words, **how)
  > os.posix_spawnp = spawns
  > run.main("prodash-live", sys.argv[1:])
  > .
  $ printf 'run python3 grouped.py sleep 60\nended\n' | on-terminal 40 8
  signal SIGTERM

One that comes before the job is run in its process waits until then, and so does one for the process
that watches those of the group.

  $ cat >forked.py <<'.'
  > import os, signal, sys
  > import run, session
  > begin_job = session.begin_job
  > def begins(*words):
  >     os.kill(os.getpid(), signal.SIGTERM)
  >     begin_job(*words)
  > session.begin_job = begins
  > run.main("prodash-live", sys.argv[1:])
  > .
  $ printf 'run python3 forked.py --pty echo begins\nended\n' | on-terminal 40 8
  signal SIGTERM
  $ cat >watched.py <<'.'
  > import os, signal
  > import job
  > signal.signal(signal.SIGTERM, lambda *_: None)
  > watch = job.watch
  > def watches(*words):
  >     os.kill(os.getpid(), signal.SIGTERM)
  >     watch(*words)
  > job.watch = watches
  > sentinel = job.Sentinel()
  > sentinel.ask()
  > print(os.read(sentinel.told, 1)[0])
  > sentinel.end()
  > .
  $ python3 watched.py
  15
