prodash-examples: primes, workers and colors
============================================

examples_threads.t has the example `threads`, and the frames of `colors colored` are stored with the
crate.

Another program has found the same number of primes.

  $ prodash-examples primes 2>messages
  283146 primes below 4000000
  $ grep -c 'done 500.00k numbers in' messages
  8

Off a terminal there are the messages of the workers and their parts, and no others.

  $ counted() { sed 's/^ *//' | sort | uniq -c | sed 's/^ *//'; }
  $ prodash-examples workers 1 2>messages
  $ counted <messages
  1 compress all parts are done
  1 fetch all parts are done
  1 index all parts are done
  8 part a part is done
  1 verify all parts are done

With `messages` it is the same on a terminal.

  $ on_terminal() {
  >     python3 -c 'import pty, sys; pty.spawn(["sh", "-c", sys.argv[1]])' "$1" </dev/null
  > }
  $ on_terminal 'exec prodash-examples workers 1 messages' | tr -d '\r' | counted >shown
  $ counted <messages | cmp - shown

The frames without colours have the same characters as those with colours.

  $ prodash-examples colors colored | sed 's/\x1b\[[0-9;]*m//g' >uncolored
  $ prodash-examples colors plain | cmp - uncolored

Arguments that an example doesn't take, and arguments that name no example.

  $ prodash-examples workers
  usage: prodash-examples workers SECONDS [messages]
  [2]
  $ prodash-examples workers 1 all
  usage: prodash-examples workers SECONDS [messages]
  [2]
  $ prodash-examples colors
  usage: prodash-examples colors colored|plain
  [2]
  $ prodash-examples colors plain plain
  usage: prodash-examples colors colored|plain
  [2]
  $ prodash-examples
  usage: prodash-examples threads | dashboard | primes | workers SECONDS [messages] | batch JOBS | audit [check] | colors colored|plain
  [2]
  $ prodash-examples thread
  usage: prodash-examples threads | dashboard | primes | workers SECONDS [messages] | batch JOBS | audit [check] | colors colored|plain
  [2]
  $ prodash-examples threads.
  usage: prodash-examples threads | dashboard | primes | workers SECONDS [messages] | batch JOBS | audit [check] | colors colored|plain
  [2]

An output that can't be written.

  $ prodash-examples colors plain >/dev/full
  output is broken
  [1]

`examples/run` is `example` here, and passes its words on.

  $ example colors plain | cmp - uncolored
  $ example workers 1 all
  usage: prodash-examples workers SECONDS [messages]
  [2]
