prodash live: a terminal
========================

`on-terminal` plays steps on a terminal, and `live` is `prodash live`. It reads a named pipe, into
which a script writes that waits for lines of another one, `go`.

  $ export TERM=xterm
  $ unset COLUMNS LINES NO_COLOR
  $ mkfifo go lines
  $ cat >script <<'.'
  > exec 3<>go
  > next() { until read _ <&3; do :; done; }
  > echo add @a 0 build; echo init @a 10 files; echo set @a 3
  > next; echo set @a 4; next; echo set @a 5
  > next
  > .
  $ play() {
  >   sh script >lines & { echo "run $1 <lines"; cat; } | on-terminal 60 8
  >   wait $!
  > }

Rows have the columns of the terminal, from which they are drawn. A row above them is for what is
typed, and for what the script writes there by itself.

  $ play 'live --no-color' <<'.'
  > until 3/10
  > screen
  > size 30 8
  > until 3/10 files [==>-------]
  > size 40 8
  > until 3/10 files [=====>--------------]
  > tell go
  > until 4/10 files [=======>------------]
  > tell go
  > until 5/10
  > tell go
  > ended
  > screen
  > updates
  > .
  
   build 3/10 files [==========>--------------------------]
  status 0
  
  in updates

A size that an option or the environment says stays, also if the terminal gets another one.

  $ cat >sizes <<'.'
  > until 3/10 files [==>-------]
  > size 50 8
  > tell go
  > until 4/10 files [===>------]
  > tell go
  > until 5/10
  > tell go
  > ended
  > .
  $ play 'live --no-color --columns 30' <sizes
  status 0
  $ play 'env COLUMNS=30 live --no-color' <sizes
  status 0

A terminal of unknown size has 80 columns, and one that loses its size keeps it.

  $ play 'live --no-color' <<'.'
  > until 3/10
  > size 0 0
  > tell go
  > until 4/10 files [==============>----------------------]
  > tell go
  > until 5/10
  > tell go
  > ended
  > .
  status 0

Rows that wouldn't fit are left out, whatever LINES says.

  $ cat >many <<'.'
  > seq -f 'add 0 item %g' 9; read _ <go
  > .
  $ for it in 'live --no-color' 'env LINES=20 live --no-color' 'live --no-color --rows 20' \
  >     'live --no-color --rows 4'; do
  >   sh many >lines & { echo "run $it <lines"; cat <<'.'; } | on-terminal 60 8
  > until more
  > screen
  > tell go
  > ended
  > .
  > done
  
   item 1
   item 2
   item 3
   item 4
   \xe2\x80\xa6 and 5 more (esc)
  status 0
  
   item 1
   item 2
   item 3
   item 4
   \xe2\x80\xa6 and 5 more (esc)
  status 0
  
   item 1
   item 2
   item 3
   item 4
   \xe2\x80\xa6 and 5 more (esc)
  status 0
  
   item 1
   item 2
   \xe2\x80\xa6 and 7 more (esc)
  status 0

So they are once the terminal is too small.

  $ sh many >lines & { echo "run live --no-color --rows 4 <lines"; cat <<'.'; } | on-terminal 60 8
  > until more
  > size 60 3
  > gone more
  > size 60 8
  > until more
  > tell go
  > ended
  > .
  status 0

With `--stdout` it is the terminal of standard output, whatever standard error is.

  $ play 'live --no-color --stdout 2>errors' <<'.'
  > until 3/10 files [==========>--------------------------]
  > size 40 8
  > until 3/10 files [=====>--------------]
  > tell go
  > until 4/10
  > tell go
  > until 5/10
  > tell go
  > ended
  > screen
  > .
  status 0
  
  $ cat errors

On a terminal without rows, and with `--terminal never`, there are messages alone.

  $ cat >tells <<'.'
  > echo add @a 0 build; echo info @a - one; read _ <go
  > .
  $ for it in 'env TERM=dumb live' 'env -u TERM live' 'live --terminal never' \
  >     'live --terminal=always --terminal=never'; do
  >   sh tells >lines & { echo "run $it <lines"; cat <<'.'; } | on-terminal 60 8
  > until build one
  > screen
  > tell go
  > ended
  > .
  > done
   build one
  status 0
   build one
  status 0
   build one
  status 0
   build one
  status 0

Off a terminal the bytes are those of the program, with marks also.

  $ for it in '--terminal always' '--marks' '--marks --stdout --terminal always'; do
  >   prodash-live $it </dev/null >expected 2>&1; live $it </dev/null 2>&1 | cmp - expected
  > done
  $ printf 'add @a 0 a\ninfo @a - one\n' | live --marks
  \x00 a one (esc)
  \x00 (no-eol) (esc)

  $ { printf 'add @a 0 task\ninit @a 10 -\nset @a 3\n'; until grep -qs 3/10 frames; do :; done; } |
  >   live --no-color --terminal always --bar-columns 100 2>frames
  $ tail -n 3 frames | head -n 1 | sed 's/.*\[2K//'
   task 3/10 [===================>-----------------------------------------------]

What is written to standard error by the script stands above the rows.

  $ cat >warns <<'.'
  > exec 3<>go
  > next() { until read _ <&3; do :; done; }
  > echo add @a 0 build; echo init @a 10 files; echo set @a 3
  > next; echo "a warning" >&2; echo set @a 4; next; echo "the end" >&2
  > .
  $ { echo 'run sh -c "sh warns | live --no-color"'; cat <<'.'; } | on-terminal 60 8
  > until 3/10
  > tell go
  > until a warning
  > until 4/10
  > screen
  > tell go
  > ended
  > screen
  > .
  a warning
  
   build 4/10 files [==============>----------------------]
  status 0
  a warning
  the end

Lines on their way
==================

A program that is stopped takes the new size behind the lines before it, of which none is lost, also
within a line that is longer than all that is read at a time. A line that is as long is faulty.

  $ cat >long <<'.'
  > exec 3<>go
  > next() { until read _ <&3; do :; done; }
  > echo add @a 0 build; echo init @a 10 files; echo set @a 3; next
  > for it in 1 2 3 4 5 6 7 8 9; do head -c 50000 /dev/zero | tr '\0' '#'; echo; echo inc @a 1; done &
  > next; wait
  > head -c 100000 /dev/zero | tr '\0' '#'; next; echo; echo set @a 5; echo set @a 6; next
  > .
  $ sh long >lines & { echo "run live --no-color <lines"; cat <<'.'; } | on-terminal 60 8
  > until 3/10
  > kill STOP prodash-live
  > tell go
  > size 50 8
  > kill CONT prodash-live
  > tell go
  > until 12/10
  > until 12/10 files [
  > size 40 8
  > until 12/10 files [==================>]
  > tell go
  > until 6/10 files [==========>--------]
  > tell go
  > ended
  > .
  status 2
