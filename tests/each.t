prodash each: a command for each line
=====================================

Each line is an argument, whatever is in it: the last one, or in place of `{}`.

  $ printf 'one\ntwo  words\n\n-x\n{}\n"a\\b' >lines
  $ prodash each echo got <lines
  got one
  got two  words
  got 
  got -x
  got {}
  got "a\b
  $ printf 'a\nb' | prodash each printf '%s %s.\n' {} x{}x
  a xax.
  b xbx.
  $ printf 'a\nb\0-c\0' | prodash each -0 printf '<%s>\n'
  <a
  b>
  <-c>
  $ seq 200 >numbers
  $ prodash each -P 4 echo <numbers | sort -n | cmp - numbers
  $ prodash each -P0 echo <numbers | sort -n | cmp - numbers

Without a line there is no command.

  $ prodash each false </dev/null

A command has its output, an empty standard input, and the environment whole: also variables whose
names a shell can't have.

  $ echo a | prodash each sh -c 'cat; echo "out of $1"; echo "err of $1" >&2' x 2>told
  out of a
  $ cat told
  err of a
  $ echo x=1 | env 'a.b={} d' prodash each env | grep -e ^a.b -e ^x=
  a.b={} d
  x=1

It has the descriptors of a job, and runs also where output is closed.

  $ prodash-run sh -c 'ls /proc/$$/fd' </dev/null >of-job
  $ echo a | prodash each sh -c 'ls /proc/$$/fd' >of-command
  $ cmp of-job of-command
  $ echo a | prodash each sh -c 'echo "out of $1" >file' x >&-
  $ cat file
  out of a

How a command fails is a message, and the status is that of xargs. A command that a signal has
ended, or that exits with 255, is the last.

  $ for it in 'exit 0' 'exit 3' 'exit 255' 'exit 137' 'kill -9 $$' 'kill -15 $$'; do
  >     printf 'a\nb\n' | prodash each -n "$it" sh -c "$it" 2>told
  >     prodash=$?
  >     printf 'a\nb\n' | xargs -n 1 sh -c "$it" 2>said
  >     echo "$prodash $?"
  >     grep exited.with.status.*: told || grep killed told
  > done
  0 0
  123 123
   \xe2\x9c\x97 exit 3 exited with status 3: a (esc)
   \xe2\x9c\x97 exit 3 exited with status 3: b (esc)
  124 124
   \xe2\x9c\x97 exit 255 exited with status 255: a (esc)
  123 123
   \xe2\x9c\x97 exit 137 exited with status 137: a (esc)
   \xe2\x9c\x97 exit 137 exited with status 137: b (esc)
  125 125
   \xe2\x9c\x97 kill -9 $$ killed by signal 9: a (esc)
  125 125
   \xe2\x9c\x97 kill -15 $$ killed by signal 15: a (esc)
  $ prodash each nothing <lines
  prodash each: nothing: No such file or directory
  [127]
  $ prodash each /dev/null <lines
  prodash each: /dev/null: Permission denied
  [126]

Without free descriptors for the event lines there are no messages.

  $ echo a | prodash each sh -c 'echo "$1"; exit 3' x 3>&1 4>&1 5>&1 6>&1 7>&1
  a
  [123]
  $ echo a | prodash each sh -c 'echo "$1"; exit 3' x 3>&1 4>&1 5>&1 6>&1 7>&1 8>&1
  a
  [123]

In a message, and in the name of a row, is what a line may have.

  $ printf 'a\nb\0\377\0c\r\033[31m\0' | prodash each -0 -n 'x
  > y' false
   \xe2\x9c\x97 x\xef\xbf\xbdy exited with status 1: a\xef\xbf\xbdb (esc)
   \xe2\x9c\x97 x\xef\xbf\xbdy exited with status 1: \xef\xbf\xbd (esc)
   \xe2\x9c\x97 x\xef\xbf\xbdy exited with status 1: c\xef\xbf\xbd\xef\xbf\xbd[31m (esc)
  [123]
  $ printf '%090000d\n' 1 | prodash each sh -c 'echo ${#1}; exit 1' x 2>told
  90000
  [123]
  $ wc -c <told
  1031

A line that no command can have.

  $ printf 'a\nb\0c\nd\n' | prodash each echo
  a
  prodash each: a line has a NUL; with -0 it ends a line
  [1]
  $ printf 'a\n%0200000d\n' 1 | prodash each echo
  a
  prodash each: a line is longer than 131072 bytes
  [1]

  $ printf 'a\n%0100000d\n' 1 | prodash each echo {} {} 2>told
  a a
  [1]
  $ grep -c '^xargs: ' told
  1

Words that are wrong, and xargs that isn't there.

  $ prodash each
  prodash each: no command
  
  Usage: prodash each [-P N] [-0] [-n NAME] [-S HOSTS] [OPTIONS] [--] COMMAND [WORD ..]
  [2]
  $ prodash each --no-color --columns 40 2>&1 | head -n 1
  prodash each: no command
  $ prodash each -P x echo 2>&1 | head -n 1
  prodash each: -P takes a number, 0 for as many as possible, not 'x'
  $ prodash each -n 2>&1 | head -n 1
  prodash each: -n takes a name, not ''
  $ prodash each -0P 2>&1 | head -n 1
  prodash each: -0 takes no value, not 'P'
  $ prodash each --fsp=3 echo <lines 2>&1 | head -n 1
  error: unexpected argument '--fsp=3'
  $ python=$(python3 -c 'import sys; print(sys.executable)')
  $ PATH=nowhere "$python" -I -S "$(command -v prodash)" each echo <lines
  prodash each: xargs: No such file or directory
  prodash each: xargs runs the commands, and is part of findutils
  [127]

On a terminal there is a row for the whole, and one for each command that runs. `on-terminal` plays
steps on a terminal. A command waits for a line of the named pipe that its argument names.

  $ export TERM=xterm
  $ unset COLUMNS LINES NO_COLOR
  $ mkfifo a b c more
  $ echo 'read _ <"$1"; echo "$1 is read"; [ "$1" != b ]' >reads
  $ echo 'printf "a\nb\nc\n" | prodash each -n pipes --no-color --no-times -- sh reads' >one
  $ on-terminal 60 8 <<'.'
  > run sh one
  > until 0/3
  > until a
  > screen
  > tell a
  > until a is read
  > until 1/3
  > tell b
  > until exited
  > until   c
  > until 2/3
  > screen
  > tell c
  > ended
  > screen
  > modes
  > .
   pipes 0/3 [>------------------------------------]
    a
  a is read
  b is read
   \xe2\x9c\x97 pipes exited with status 1: b (esc)
   pipes 2/3 [========================>------------]
    c
  status 123
  a is read
  b is read
   \xe2\x9c\x97 pipes exited with status 1: b (esc)
  c is read
  same modes

Several run at a time. As long as there may be more lines, the bound is how many there were.

  $ cat >grows <<'.'
  > { echo a; echo b; read _ <more; echo c; } | prodash each -P 2 --no-color --no-times -- sh reads
  > .
  $ on-terminal 60 8 <<'.'
  > run sh grows
  > until 0/2
  > until   a
  > until   b
  > tell more
  > until 0/3
  > tell b
  > until 1/3
  > until   c
  > tell c
  > until 2/3
  > gone   c
  > screen
  > tell a
  > ended
  > .
  b is read
   \xe2\x9c\x97 sh exited with status 1: b (esc)
  c is read
   sh 2/3 [========================>------------]
    a
  status 123

Below `prodash run` the rows are its own, until all commands have ended.

  $ cat >below <<'.'
  > echo 'add @job 0 job' >&$PRODASH_FD
  > printf 'a\nc\n' | prodash each sh reads
  > echo end
  > read _ <more
  > .
  $ on-terminal 60 8 <<'.'
  > run prodash-run --no-color -- sh below
  > until job
  > until sh 0/2
  > tell a
  > until sh 1/2
  > tell c
  > until end
  > gone sh
  > screen
  > tell more
  > ended
  > .
  a is read
  c is read
  end
  
   job
  status 0

A signal for `prodash each` alone ends xargs. The commands that run go on, as those of xargs.

  $ printf 'a\nb\n' >two
  $ on-terminal 60 8 <<'.'
  > run prodash each --no-color -- sh reads <two
  > until sh 0/2
  > until   a
  > one TERM
  > ended
  > screen
  > tell a
  > until a is read
  > .
  signal SIGTERM
  

Ctrl-C ends the commands, and leaves no row.

  $ echo 'printf "a\nb\nc\n" | prodash each -P 2 --no-color -- cat' >cats
  $ on-terminal 60 8 <<'.'
  > run sh cats
  > until 0/3
  > until   a
  > keys \x03
  > ended
  > screen
  > modes
  > .
  signal SIGINT
  
  same modes
