prodash live --dashboard: stops and ends
=======================================

`on-terminal` plays steps on a terminal, and `live` is `prodash live`. It reads a named pipe, into
which a script writes that waits for lines of another one, `go`. `ascii` shows the characters of a
dashboard in ASCII, and the times of its messages as TIME. `play_to_end` also ends the script.

  $ export TERM=xterm
  $ unset COLUMNS LINES NO_COLOR
  $ mkfifo go lines on
  $ cat >begin <<'.'
  > exec 3<>go
  > next() { until read _ <&3; do :; done; }
  > echo title Build; echo add @a 0 all; echo add @b @a one; echo init @b 10 files; echo set @b 3
  > .
  $ cat >script <<'.'
  > . ./begin
  > next; echo set @b 4; echo info @b - first
  > next; echo done @b - second
  > .
  $ cat >long <<'.'
  > . ./script; yes '#' | head -n 100000
  > .
  $ ascii() {
  >   sed -E '
  >     y/┌─┐│└┘├┤·→⨯▢█▏▎▍▌▋▊▉⇊⇈↓↑…/+-+|++||.>xo########duDU~/
  >     s/[0-9]{2}(:[0-9]{2}){2}/TIME/'
  > }
  $ play() {
  >   sh ${script-script} >lines & { echo "run sh -c 'echo before; exec live --dashboard $1' <lines"
  >   cat; } | on-terminal ${size-60 10} | ascii
  >   wait $!; echo "script: $?"
  > }
  $ play_to_end() {
  >   sh script >lines & { echo 'run live --dashboard <lines'; cat; } | on-terminal 60 10; kill $!
  > }

Stopped and in the background
=============================

Ctrl-Z shows the main page with its modes. `fg` has the dashboard come back whole, in the size that
the terminal has then.

  $ play <<'.'
  > until 3/10
  > until Build
  > keys \x1a
  > stopped
  > screen
  > page
  > modes
  > fg
  > until 3/10
  > until Build
  > raw
  > page
  > tell go
  > until first
  > keys \x1a
  > stopped
  > size 40 10
  > fg
  > until first
  > raw
  > screen
  > tell go
  > ended
  > screen
  > page
  > modes
  > .
  stopped
  before
  main page
  same modes
  full page, no cursor, no wrap
  stopped
  +Build- 'q' or CTRL+c to quit    1 run~+
  || all ------------------------------- |
  || + 4/10 files###                     |
  |                                      |
  |                                      |
  |                                      |
  |                                      |
  |Messages---------------- x = `| o = ~ |
  |first                                 |
  +--------------------------------------+
  status 0
  before
   one first
   one second
  main page
  same modes
  script: 0

It isn't told of SIGSTOP. When it goes on it has the keys again, and draws all anew, whatever others
have made of the terminal.

  $ cat >stopper <<'.'
  > live --dashboard <lines & read _ <on
  > kill -STOP $!; stty icanon echo; printf '\033[2J\033[Htorn' >&2; kill -CONT $!; echo >went; wait $!
  > .
  $ sh script >lines & { echo 'run sh stopper'; cat <<'.'; } | on-terminal 60 10
  > until 3/10
  > tell on
  > file went
  > tell go
  > until first
  > gone torn
  > raw
  > tell go
  > ended
  > page
  > modes
  > .
  status 0
  main page
  same modes
  $ wait $!

In the background nothing is drawn and no key is read, also if it was begun there.

  $ play <<'.'
  > until 3/10
  > until Build
  > keys \x1a
  > stopped
  > bg
  > tell go
  > screen
  > modes
  > fg
  > until first
  > raw
  > tell go
  > ended
  > screen
  > modes
  > .
  stopped
  before
  same modes
  status 0
  before
   one first
   one second
  same modes
  script: 0
  $ cat >behind <<'.'
  > set -m; live --dashboard <lines & wait
  > .
  $ sh script >lines & { echo 'run sh behind'; cat <<'.'; } | on-terminal 60 10
  > tell go
  > tell go
  > ended
  > screen
  > page
  > modes
  > .
  status 0
   one first
   one second
  [1] + Done                       live --dashboard 0<lines
  main page
  same modes

Ways out
========

Whatever ends it, the terminal is as it was. SIGTERM and SIGHUP end it after the lines that have
come.

  $ for it in TERM HUP; do
  >   { echo until 3/10; echo tell go; echo until first; echo end $it; cat <<'.'; } | play_to_end
  > screen
  > page
  > modes
  > .
  > done
  status 0
   one first
  main page
  same modes
  status 0
   one first
  main page
  same modes

A second one ends it at once, also if the program or the terminal is stopped.

  $ for it in 'kill STOP prodash-live' 'keys \x13'; do
  >   { echo until 3/10; echo "$it"; cat <<'.'; } | play_to_end | sed 's/^status .*/ended/'
  > end TERM
  > page
  > modes
  > .
  > done
  ended
  main page
  same modes
  ended
  main page
  same modes

A program that is killed, and one that is stuck. Their messages are lost.

  $ script=long
  $ for it in KILL STOP; do
  >   { echo until 3/10; echo kill $it prodash-live; cat <<'.'; } | play
  > tell go
  > tell go
  > gone all
  > page
  > modes
  > ended
  > screen
  > .
  > done
  main page
  same modes
  status 137
  before
  prodash live: the display was ended by signal 9
  script: 0
  main page
  same modes
  status 137
  before
  prodash live: the display was stuck
  script: 0
  $ script=script

`q`, Ctrl-C and Ctrl-\ end the script, however stuck the program is.

  $ cat >both <<'.'
  > env --default-signal=INT,QUIT sh -c 'ulimit -c 0; exec sh script' >lines &
  > exec live --dashboard <lines
  > .
  $ for it in q \\x03 \\x1c; do
  >   { echo 'run sh both'; echo until 3/10; echo kill STOP prodash-live; echo keys $it; cat <<'.'; } |
  > ended
  > screen
  > page
  > modes
  > .
  >     on-terminal 60 10
  > done
  status 137
  prodash live: the display was stuck
  main page
  same modes
  status 137
  prodash live: the display was stuck
  main page
  same modes
  status 137
  prodash live: the display was stuck
  main page
  same modes

A script that is killed.

  $ printf '. ./begin; echo info @b - first; next; kill -9 $$\n' >dies; script=dies
  $ play <<'.'
  > until first
  > tell go
  > ended
  > screen
  > page
  > modes
  > .
  status 0
  before
   one first
  main page
  same modes
  script: 137
  $ script=script

A fault of the script that writes the frames.

  $ scripts=$(dirname "$(readlink -f "$(command -v live)")")
  $ cat >faulty.py <<'.'
  > import os, sys
  > sys.dont_write_bytecode = True
  > sys.path.insert(0, os.path.realpath(sys.argv[1] + "/../../lib"))
  > import dashboard, live
  > take = dashboard.Board.take
  > def broken(self, frame):
  >     if b"first" in frame:
  >         raise ValueError("no such frame")
  >     return take(self, frame)
  > dashboard.Board.take = broken
  > sys.exit(live.run("prodash-live", ["--dashboard"]))
  > .
  $ sh script >lines & { echo "run python3 faulty.py $scripts <lines"; cat <<'.'; } | on-terminal 60 10
  > until 3/10
  > until Build
  > tell go
  > gone all
  > page
  > modes
  > tell go
  > ended
  > screen
  > .
  main page
  same modes
  status 137
  prodash live: ValueError: no such frame
  $ wait $!

A window that is closed.

  $ play <<'.'
  > until 3/10
  > until Build
  > close
  > tell go
  > tell go
  > ended
  > .
  status 1
  script: 0
