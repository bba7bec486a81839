prodash-examples: workers and primes on a terminal
==================================================

`on_terminal` runs a command on a terminal, and on one processor, so that what its threads do takes
its time.

  $ on_terminal() {
  >     python3 -c '
  > import os, pty, sys
  > os.sched_setaffinity(0, {min(os.sched_getaffinity(0))})
  > pty.spawn(["sh", "-c", sys.argv[1]])' "$1" </dev/null
  > }

The parts and the workers go on, in frames that erase each row before they write it.

  $ on_terminal 'exec prodash-examples workers 2' >frames
  $ grep -q 'part.* .\[1;2m[2-9]/10' frames
  $ grep -q 'index.* .\[1;2m[1-3]/4' frames
  $ grep -q '^.\[2K .*index' frames

The ranges of the primes show how many numbers are counted in a second. Four of them share the
processor, so that none is done before.

  $ for it in 1 2 3; do on_terminal 'exec prodash-examples primes' >/dev/null & done
  $ on_terminal 'NO_COLOR=1 exec prodash-examples primes' >frames &
  $ until grep -q ' from [0-9]* .*/500.00k numbers |[0-9.]*k*/s| \[' frames; do sleep 0.1; done
  $ kill $!
