prodash run: plain lines
========================

`timeless` leaves out what depends on time.

  $ export TERM=xterm
  $ unset COLUMNS LINES NO_COLOR
  $ timeless() { sed 's/^\[00:[0-5][0-9]\]/[..]/; s/ [0-9]\.[0-9]s$/ T/; s/ [0-9]*s left/ T left/'; }

Without a terminal each task of the job has a line when it begins and when it ends, on standard
error, also if the job sends no message and drops nothing. What the job writes stays as it is.

  $ cat >job <<'.'
  > echo "add @all 0 build" >&$PRODASH_FD
  > echo "init @all 40 files" >&$PRODASH_FD
  > for it in 1 2 3 4; do
  >   echo "inc @all 10" >&$PRODASH_FD
  > done
  > echo output
  > .
  $ prodash-run sh job 2>log
  output
  $ timeless <log
  [..] build started
  [..] build 40/40 files 100%, done in T
   \xe2\x9c\x93 build 40/40 files in T (esc)

A job that dies has said how far it was.

  $ prodash-run sh -c 'echo "add @a 0 deploy
  > init @a 10
  > set @a 4" >&$PRODASH_FD; exit 3' 2>log
  [3]
  $ timeless <log
  [..] deploy started
  [..] deploy 4/10 40%, stopped after T
   \xe2\x9c\x97 deploy stopped at 4/10 after T (esc)

With `--fail-unfinished` one that ends well has the status 3 if a task of its first two levels
hasn't finished.

  $ prodash-run --plain=0 --no-summary --fail-unfinished -- sh -c 'echo "add @a 0 deploy
  > init @a 10
  > set @a 4" >&$PRODASH_FD'
   \xe2\x9c\x97 input ended, unfinished: deploy 4/10 (esc)
  [3]
  $ prodash-run --plain=0 --no-summary --fail-unfinished -- sh -c 'echo "add @a 0 deploy
  > init @a 10" >&$PRODASH_FD; exit 5' 2>log
  [5]

After so many seconds what has changed is said.

  $ cat >job <<'.'
  > echo "add @a 0 deploy" >&$PRODASH_FD
  > echo "init @a 10" >&$PRODASH_FD
  > echo "set @a 4" >&$PRODASH_FD
  > until grep -q 4/10 log; do sleep 0.02; done
  > echo "drop @a" >&$PRODASH_FD
  > .
  $ prodash-run --plain 1 --no-summary -- sh job 2>log
  $ timeless <log
  [..] deploy started
  [..] deploy 4/10 40%, T left
  [..] deploy 4/10 40%, stopped after T

With 0 there are messages alone. `prodash each` has 0 by default.

  $ prodash-run --plain=0 --no-summary -- sh -c 'echo "add @a 0 a
  > info @a - hello" >&$PRODASH_FD'
   a hello
  $ seq 3 | prodash each true
