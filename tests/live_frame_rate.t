prodash-live: frame rate and delay
==================================

`one_by_one` sends a message once the one before it is written, so each is in a frame of its own.
The status of `takes` is 0 if a command takes at least a given number of milliseconds.

  $ one_by_one() {
  >   count=$1; shift
  >   {
  >     {
  >       echo 'add 0 a'
  >       for i in $(seq "$count"); do
  >         echo "info 1 0 number $i."
  >         until grep -qs "number $i[.]" frames; do sleep 0.02; done
  >       done
  >     } | "$@"
  >   } 2>frames
  > }
  $ takes() {
  >   least=$1 began=$(date +%s%N); shift
  >   "$@" && [ $((($(date +%s%N) - began) / 1000000)) -ge "$least" ]
  > }

At ten frames a second, ten frames take at least nine tenths of a second. At two frames a second,
five take at least two seconds.

  $ takes 900 one_by_one 10 prodash-live --fps=10
  $ takes 2000 one_by_one 5 prodash-live --fps 2

Without the option there are six frames a second, of which ten take at least one and a half seconds.

  $ takes 1490 one_by_one 10 prodash-live

Between two frames nothing is done, however close they are. In these five seconds a program that
asks for the time again and again would take two CPU seconds, and one that takes a second is killed.

  $ (ulimit -t 1; sleep 5 | prodash-live --fps 1000)

A throughput is drawn after a second, if the unit asks for it.

  $ {
  >   {
  >     printf 'add 0 t\ninit 1 - files/s\n'
  >     until grep -qs 't [0-9]* files |[0-9]*/s|' frames; do echo 'inc 1 1'; sleep 0.02; done
  >   } | prodash-live --no-color --terminal always
  > } 2>frames

Delay
=====

With a delay of a second, rows appear after one second, and within a minute.

  $ began=$(date +%s%N)
  $ {
  >   {
  >     printf 'add 0 a\ninit 1 10 -\n'
  >     until grep -qs a frames; do echo 'inc 1 1'; sleep 0.1; done
  >   } | prodash-live --terminal always --no-color --delay 1000
  > } 2>frames
  $ [ $((($(date +%s%N) - began) / 1000000)) -ge 1000 ]

Rows are hidden until the delay has passed; messages are not.

  $ until_shown() {
  >   text=$1; shift
  >   { cat; until grep -qs "$text" frames; do sleep 0.02; done; } | "$@"
  > }
  $ printf 'add 0 a\ninfo 1 0 one\n' \
  >   | until_shown one prodash-live --terminal always --delay 86400000 2>frames
  $ cat frames
  \x1b[?2026h\r\x1b[?7h\x1b[2K (esc)
  \x1b[J\x1b[1A \x1b[2ma\x1b[0m \x1b[1;37mone\x1b[0m (esc)
  \x1b[?7l\x1b[J\x1b[?7h\x1b[?2026l\x1b[?2026h\r\x1b[?7l\x1b[J\x1b[?7h\x1b[?2026l (no-eol) (esc)
