prodash-live: bursts of messages
================================

No message is lost, however many come between two frames, and they stay in order. Here the reader of
the frames starts late: it waits until all lines are taken, or for ten seconds.

  $ burst() {
  >   echo 'add @a 0 a'
  >   seq 20000 | sed 's/^/info @a 0 /; s/$/ of a burst of messages/'
  >   touch taken
  > }
  $ late() {
  >   for _ in $(seq 100); do [ -f taken ] || sleep 0.1; done
  >   cat
  > }
  $ seq 20000 | sed 's/^/ a /; s/$/ of a burst of messages/' >expected
  $ burst | timeout 60 prodash-live --stdout --fps 1 | late | cmp expected -
  $ rm taken

The same on a terminal, where rows wait for the delay.

  $ as_on_a_terminal() {
  >   timeout 60 prodash-live --stdout --fps 1 --no-color --terminal always --delay 86400000
  > }
  $ burst | as_on_a_terminal | late >output
  $ rm taken
  $ grep -o ' a [0-9][0-9]* of a burst of messages' output | cmp expected -
  $ grep -c '\[2K a' output
  0
  [1]

So are lines that are printed.

  $ prints() { seq 20000 | sed 's/^/print /; s/$/ of a burst of lines/' && touch taken; }
  $ prints | timeout 60 prodash-live --stdout --fps 1 | late >output
  $ rm taken
  $ seq 20000 | sed 's/$/ of a burst of lines/' | cmp output -

Faulty lines are messages too. These are so long that few of them fit in the pipe.

  $ nothings() { yes "$(printf 'nothing %0200d' 0)" | head -n 20000 && touch taken; }
  $ nothings | timeout 60 prodash-live --stdout --fps 1 | late >output
  $ shown=$(printf 'nothing %052d' 0)
  $ seq 20000 | sed "s/.*/ ✗ input line &: unknown command \"nothing\", in: $shown/" | cmp output -

Nothing waits for a frame that won't come, because the output is broken or the root was dropped.

  $ burst | timeout 60 prodash-live --stdout --fps 1 >/dev/full
  cannot write to standard output: No space left on device (os error 28)
  [1]
  $ burst | sed '1adroproot' | timeout 60 prodash-live --stdout --fps 1

Frames in a burst
=================

While lines wait for a frame it is drawn early: at one frame a second, 270,000 messages take less
than a minute. If each of their frames came a second after the one before, they would take longer.

  $ {
  >   echo 'add @a 0 a'
  >   yes 'info @a 0 one' | head -n 270000
  > } | timeout 60 prodash-live --stdout --fps 1 | uniq -c | sed 's/^ *//'
  270000  a one

After a burst frames are as far apart as before it: at two a second, the last four of these
messages, each of which is in a frame of its own, take two seconds.

  $ burst_and_more() {
  >   echo 'add @a 0 a'
  >   yes 'info @a 0 burst' | head -n 10000
  >   for it in one two three four five; do
  >     echo "info @a 0 $it"
  >     until grep -q "$it" output; do sleep 0.02; done
  >   done
  > }
  $ began=$(date +%s%N)
  $ burst_and_more | prodash-live --stdout --fps 2 >output
  $ [ $((($(date +%s%N) - began) / 1000000)) -ge 2000 ]
