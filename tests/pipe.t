prodash pipe: what flows through a pipe
=======================================

What is read is written, whatever is in it, and nothing is said where there is no display.

  $ seq 300000 >numbers
  $ head -c 300000 /dev/urandom >bytes
  $ for it in numbers bytes /dev/null; do
  >     prodash pipe <$it 2>told | cmp - $it
  >     cat $it | prodash pipe -l -s 3 -N name 2>>told | cmp - $it
  >     cat told
  > done
  $ (printf one; sleep 0.1; printf two) | prodash pipe
  onetwo (no-eol)

The program behind it counts bytes or lines, in event lines on standard error. The last count is that
of all, and no count is less than the one before.

  $ printf 'a\nb' | prodash-pipe bytes @a 2>told
  a
  b (no-eol)
  $ tail -n 2 told
  set @a 3
  drop @a
  $ printf 'a\nb' | prodash-pipe lines @a 2>&1 >copy | tail -n 2
  set @a 1
  drop @a
  $ cat numbers | prodash-pipe lines @n 2>told >copy
  $ cmp numbers copy
  $ tail -n 2 told
  set @n 300000
  drop @n
  $ sed -n 's/set @n //p' told | sort -nc

At most ten lines are written in a second, besides the first and the last.

  $ began=$(date +%s)
  $ for it in $(seq 40); do echo $it; sleep 0.02; done | prodash-pipe lines @n 2>told >copy
  $ [ "$(grep -c set told)" -le $((($(date +%s) - began + 1) * 10 + 2)) ]
  $ [ "$(grep -c set told)" -gt 4 ]

While nothing flows, none is written.

  $ (echo a; sleep 1) | prodash-pipe lines @n 2>told >copy
  $ [ "$(grep -c set told)" -le 2 ]

If nobody reads any more, that is the end, as of any copy: quiet, and with status 0.

  $ { yes | { prodash pipe; echo "status $?" >&2; } | head -n 1; } 2>&1
  y
  status 0
  $ { yes | { prodash-pipe lines @a 2>told; echo "status $?" >&2; } | head -n 1; } 2>&1
  y
  status 0
  $ tail -n 1 told
  drop @a

What can't be written or read is said.

  $ cat numbers | prodash pipe >/dev/full
  prodash pipe: cannot write to standard output: No space left on device (os error 28)
  [1]
  $ prodash-pipe </
  prodash pipe: cannot read standard input: Is a directory (os error 21)
  [1]
  $ prodash pipe <&-
  prodash pipe: cannot read standard input: Bad file descriptor (os error 9)
  [1]
  $ echo a | prodash pipe >&-
  prodash pipe: cannot write to standard output: Bad file descriptor (os error 9)
  [1]
  $ echo a | prodash-pipe bytes @a 2>&1 >/dev/full
  set @a 0
  fail @a - cannot write to standard output: No space left on device (os error 28)
  drop @a
  [1]

A display that takes no lines doesn't hold up what flows. Here nobody reads them, and the pipe for
them is full.

  $ mkfifo lines
  $ exec 4<>lines
  $ dd if=/dev/zero of=lines bs=4096 count=1000 oflag=nonblock 2>dd
  [1]
  $ id=$(stat -Lc %d:%i /proc/$$/fd/4)
  $ PRODASH_FD=4 PRODASH_FD_ID=$id prodash pipe <numbers | cmp - numbers
  $ cat numbers | prodash-pipe lines @a 2>/proc/self/fd/1 >copy | tail -n 1
  drop @a
  $ exec 4<&-

Words that are wrong.

  $ prodash pipe -s 3x
  prodash pipe: -s takes a size, as 700, 20k or 1.5G, not '3x'
  
  Usage: prodash pipe [-s SIZE] [-l] [-N NAME]
  [2]
  $ for it in '-s' '-s 1.' '-s 99999999T' '-N' '-lx' '-x' 'file'; do prodash pipe $it 2>&1 | head -n 1; done
  prodash pipe: -s takes a size, as 700, 20k or 1.5G, not ''
  prodash pipe: -s takes a size, as 700, 20k or 1.5G, not '1.'
  prodash pipe: -s takes a size, as 700, 20k or 1.5G, not '99999999T'
  prodash pipe: -N takes a name, not ''
  prodash pipe: -l takes no value, not 'x'
  prodash pipe: there is no option -x
  prodash pipe: file is no option
  $ prodash-pipe bytes
  usage: prodash-pipe [bytes|lines WORD]
  [2]
  $ prodash-pipe steps @a
  usage: prodash-pipe [bytes|lines WORD]
  [2]

On a terminal there is a row, which is right also while nothing flows. `on-terminal` plays steps on a
terminal, and the producer waits for lines of the named pipe `go`.

  $ export TERM=xterm
  $ unset COLUMNS LINES NO_COLOR
  $ mkfifo go
  $ echo 'exec 3<>go; printf 12345; read _ <&3; printf 67; printf 890; read _ <&3' >writes
  $ echo 'sh writes | prodash pipe -s 10 -N all | cat >copy' >sized
  $ on-terminal 60 8 <<'.' | sed 's/ [0-9]s \[/ Ns [/'
  > run sh sized
  > until 5B
  > screen
  > tell go
  > until 10B/10B
  > screen
  > tell go
  > ended
  > modes
  > .
   all 5B/10B  [50%] Ns [=================>------------------]
   all 10B/10B  [100%] in Ns [==============================>]
  status 0
  same modes
  $ cat copy
  1234567890 (no-eol)

A file has its size, and lines have none. What is written to the terminal stands above the row.

  $ printf 'one\ntwo\n' >file
  $ on-terminal 60 8 <<'.'
  > run prodash pipe <file
  > ended
  > screen
  > .
  status 0
  one
  two
  $ echo 'exec 3<>go; cat file; read _ <&3' >keeps
  $ echo 'sh keeps | prodash pipe -l' >shown
  $ on-terminal 60 8 <<'.' | sed 's/ [0-9]s \[/ Ns [/'
  > run sh shown
  > until 2 lines
  > screen
  > tell go
  > ended
  > screen
  > .
  one
  two
   pipe 2 lines Ns [===   ===   ===   ===   ===   ===   =]
  status 0
  one
  two

Ctrl-C ends it as it ends any copy, without a row.

  $ on-terminal 60 8 <<'.'
  > run sh shown
  > until 2 lines
  > keys \x03
  > ended
  > screen
  > modes
  > .
  signal SIGINT
  one
  two
  same modes

Below a `prodash run` the row is one of its rows, and a failure is a message.

  $ cat >job <<'.'
  > echo 'add @job 0 job' >&$PRODASH_FD
  > sh writes | prodash pipe >/dev/full
  > echo "status $?"
  > .
  $ on-terminal 60 8 <<'.'
  > run prodash-run --no-color -- sh job
  > until pipe cannot write
  > tell go
  > ended
  > screen
  > .
  status 0
   \xe2\x9c\x97 pipe cannot write to standard output: No space left on de (esc)
  vice (os error 28)
  status 1
  $ for it in '' -l '-l -s 1k' '-s 1.5k -Nall'; do
  >     prodash-run --plain=0 --no-summary --record recorded -- sh -c "prodash pipe $it <file >copy"
  >     grep -e add -e init recorded
  > done
  add 0 pipe
  init 1 8 bytes%/s
  add 0 pipe
  init 1 - lines/s
  add 0 pipe
  init 1 1024 lines%/s
  add 0 all
  init 1 1536 bytes%/s
  $ prodash-run --plain=0 --no-summary --record recorded -- \
  >     sh -c 'cat file | prodash pipe >copy'
  $ grep -e init -e drop recorded
  init 1 - bytes/s
  drop 1
