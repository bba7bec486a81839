prodash live: signals
=====================

`on-terminal` plays steps on a terminal, and `live` is `prodash live`. It reads a named pipe, into
which a script writes that waits for lines of another one, `go`. `play` says how each has ended.

  $ export TERM=xterm
  $ unset COLUMNS LINES NO_COLOR
  $ mkfifo go lines
  $ cat >script <<'.'
  > exec 3<>go
  > next() { until read _ <&3; do :; done; }
  > echo add @a 0 build; echo init @a 10 files; echo set @a 3
  > next; echo set @a 4; echo info @a - two
  > next
  > .
  $ play() {
  >   sh script >lines & { echo "run live --no-color $1 <lines"; cat; } | on-terminal 60 8
  >   wait $!; echo "script: $?"
  > }

Ctrl-Z stops it without rows, and `fg` has it go on with them. The row above them is for what is
typed, and the modes of the terminal are never changed.

  $ play <<'.'
  > until 3/10
  > modes
  > keys \x1a
  > stopped
  > gone build
  > screen
  > modes
  > fg
  > until 3/10
  > tell go
  > until 4/10
  > until two
  > keys abc\n
  > screen
  > keys \x1a
  > stopped
  > gone 4/10
  > size 40 8
  > fg
  > until 4/10 files [=======>------------]
  > tell go
  > ended
  > modes
  > .
  same modes
  stopped
  ^Z
  same modes
   build two
  abc
   build 4/10 files [==============>----------------------]
  stopped
  status 0
  same modes
  script: 0

After `bg` there are messages without rows, which come back in the foreground.

  $ play <<'.'
  > until 3/10
  > keys \x1a
  > stopped
  > bg
  > tell go
  > until two
  > screen
  > fg
  > until 4/10
  > tell go
  > ended
  > screen
  > .
  stopped
   build two
  status 0
   build two
  script: 0

SIGINT and SIGQUIT are left to the script, and the input ends when the script does. They are handled
before the size that comes later.

  $ for it in INT QUIT; do
  >   { printf 'until 3/10\none %s\n' $it; cat <<'.'; } | play
  > size 40 8
  > until 3/10 files [=====>--------------]
  > tell go
  > until 4/10
  > tell go
  > ended
  > screen
  > .
  > done
  status 0
  
   build two
  script: 0
  status 0
  
   build two
  script: 0

On a terminal they end the input, and what is drawn is erased. `^C` has a line of its own.

  $ { echo 'run live --no-color'; cat <<'.'; } | on-terminal 60 8
  > keys add @a 0 build\ninit @a 10 files\nset @a 3\n
  > until build 3/10
  > keys \x03
  > ended
  > screen
  > modes
  > .
  status 0
  add @a 0 build
  init @a 10 files
  set @a 3
  ^C
  same modes

So does its end.

  $ { echo 'run live --no-color'; cat <<'.'; } | on-terminal 60 8
  > keys add @a 0 build\ninfo @a - one\n
  > until build one
  > keys \x04
  > ended
  > .
  status 0

SIGTERM and SIGHUP end the input: the lines that have arrived are taken, and an incomplete one is
left out. The signal and the lines are there when it goes on.

  $ for it in TERM HUP; do
  >   rm -f output; live --stdout <lines >output &
  >   exec 3>lines
  >   printf 'add @a 0 alpha\ninfo @a 0 one\n' >&3
  >   until grep -qs one output; do sleep 0.01; done
  >   kill -STOP $!; until ps -o stat= -p $! | grep -q T; do :; done
  >   printf 'info @a 0 two\ninfo @a 0 thr' >&3
  >   kill -$it $!
  >   kill -CONT $!
  >   wait $!
  >   exec 3>&-
  >   cat output
  > done
   alpha one
   alpha two
   alpha one
   alpha two

SIGINT doesn't, and leaves nothing in a file.

  $ env --default-signal=INT live --stdout <lines >output &
  $ exec 3>lines
  $ printf 'add @a 0 alpha\ninfo @a 0 one\n' >&3
  $ until grep -qs one output; do sleep 0.01; done
  $ kill -INT $!
  $ printf 'info @a 0 two\n' >&3
  $ exec 3>&-
  $ wait $!
  $ cat output
   alpha one
   alpha two

Lines of which a part came before are taken as well.

  $ live --stdout <lines >output &
  $ exec 3>lines
  $ printf 'add @a 0 alpha\ninfo @a 0 one\ninfo @a 0 tw' >&3
  $ until grep -qs one output; do sleep 0.01; done
  $ printf 'o\ninfo @a 0 three\n' >&3
  $ until grep -qs three output; do sleep 0.01; done
  $ exec 3>&-
  $ wait $!
  $ cat output
   alpha one
   alpha two
   alpha three

A second one ends what is waited for: here a program that is stopped, and a terminal.

  $ play_to_end() {
  >   sh script >lines & { echo 'run live --no-color <lines'; cat; } | on-terminal 60 8; kill $!
  > }
  $ play_to_end <<'.'
  > until 3/10
  > kill STOP prodash-live
  > end TERM
  > screen
  > .
  status 137
  
  $ play_to_end <<'.' | sed 's/status .*/ended/'
  > until 3/10
  > keys \x13
  > end TERM
  > .
  ended

What was ignored from the start stays so, as below `nohup`.

  $ cat >ignores <<'.'
  > trap '' HUP; exec live --stdout
  > .
  $ sh ignores <lines >output &
  $ exec 3>lines
  $ printf 'add @a 0 alpha\ninfo @a 0 one\n' >&3
  $ until grep -qs one output; do sleep 0.01; done
  $ kill -HUP $!
  $ printf 'info @a 0 two\n' >&3
  $ until grep -qs two output; do sleep 0.01; done
  $ printf 'info @a 0 three\n' >&3
  $ until grep -qs three output; do sleep 0.01; done
  $ exec 3>&-
  $ wait $!

The program that draws gets no signal of the terminal.

  $ play <<'.'
  > until 3/10
  > signal INT
  > signal QUIT
  > tell go
  > until 4/10
  > tell go
  > ended
  > .
  status 0
  script: 0
