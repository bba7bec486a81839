prodash run: rows below a job's output
======================================

`on-terminal` plays steps on a terminal, and `prodash-run` is `prodash run`. The job waits for lines
of a named pipe, `go`. `say` writes an event line.

  $ export TERM=xterm
  $ unset COLUMNS LINES NO_COLOR
  $ mkfifo go
  $ cat >job <<'.'
  > exec 3<>go
  > say() { echo "$@" >&$PRODASH_FD; }
  > next() { read _ <&3; }
  > say add @a 0 build
  > say init @a 10 files
  > say set @a 3
  > .

A job writes lines, then a line that isn't whole. Rows are drawn in synchronized updates, so that they
don't flicker.

  $ cat >lines <<'.'
  > . ./job
  > echo one; next; printf 'two: '; next; echo 2; next
  > .
  $ on-terminal 50 8 <<'.'
  > run prodash-run --no-color -- sh lines
  > until 3/10
  > until one
  > screen
  > tell go
  > until two:
  > screen
  > tell go
  > until 2
  > screen
  > tell go
  > ended
  > screen
  > updates
  > modes
  > .
  one
  
   build 3/10 files [========>---------------------]
  one
  two:
   build 3/10 files [========>---------------------]
  one
  two: 2
  
   build 3/10 files [========>---------------------]
  status 0
  one
  two: 2
  in updates
  same modes

Nothing is erased from the window's first cell on, since tmux keeps that above the window.

  $ cat >first <<'.'
  > . ./job
  > next; echo one; next
  > .
  $ on-terminal 50 8 <<'.'
  > run prodash-run --no-color -- sh first
  > until 3/10
  > tell go
  > until one
  > tell go
  > ended
  > all
  > .
  status 0
  one

A message that is wider than the window goes on in the next row.

  $ cat >wide <<'.'
  > . ./job
  > echo one; next; say info @a - a message that is wider than the window of fifty columns; next
  > .
  $ on-terminal 50 8 <<'.'
  > run prodash-run --no-color -- sh wide
  > until 3/10
  > until one
  > tell go
  > until columns
  > until 3/10
  > screen
  > tell go
  > ended
  > screen
  > .
  one
   build a message that is wider than the window of
  fifty columns
  
   build 3/10 files [========>---------------------]
  status 0
  one
   build a message that is wider than the window of
  fifty columns

A job that has switched off the terminal's carriage returns has none.

  $ cat >stairs <<'.'
  > . ./job
  > stty -opost; printf 'one\ntwo'; next; stty opost
  > .
  $ on-terminal 50 8 <<'.'
  > run prodash-run --no-color -- sh stairs
  > until two
  > until 3/10
  > screen
  > tell go
  > ended
  > modes
  > .
  one
     two
   build 3/10 files [========>---------------------]
  status 0
  same modes

A line that isn't whole may be a prompt that was answered, if keys can be typed. So a message goes
in below it. If what is typed is part of the output, or none can be, it goes in above the line.

  $ cat >prompts <<'.'
  > . ./job
  > echo one; printf 'name? '; say info @a - asked; read name; echo "it is $name"; next
  > .
  $ cat >answers <<'.'
  > until asked
  > until name?
  > until 3/10
  > keys Bob
  > until Bob
  > screen
  > keys \n
  > until it is Bob
  > until 3/10
  > screen
  > tell go
  > ended
  > screen
  > .
  $ { echo 'run prodash-run --no-color -- sh prompts'; cat answers; } | on-terminal 50 8
  one
  name?
   build asked
  Bob
   build 3/10 files [========>---------------------]
  one
  name?
   build asked
  Bob
  it is Bob
  
   build 3/10 files [========>---------------------]
  status 0
  one
  name?
   build asked
  Bob
  it is Bob
  $ { echo 'run prodash-run --pty --no-color -- sh prompts'; cat answers; } | on-terminal 50 8
  one
   build asked
  name? Bob
   build 3/10 files [========>---------------------]
  one
   build asked
  name? Bob
  it is Bob
   build 3/10 files [========>---------------------]
  status 0
  one
   build asked
  name? Bob
  it is Bob
  $ cat >asks <<'.'
  > . ./job
  > printf 'go on? '; read answer; say info @a - "$answer"; next
  > .
  $ { echo 'run prodash-run --no-color -- sh asks'; cat <<'.'; } | on-terminal 50 8
  > until go on?
  > until 3/10
  > keys yes\n
  > until build yes
  > screen
  > tell go
  > ended
  > screen
  > .
  go on? yes
   build yes
  
   build 3/10 files [========>---------------------]
  status 0
  go on? yes
   build yes
  $ mkfifo answers.pipe
  $ { echo 'run prodash-run --no-color -- sh prompts 0<>answers.pipe'; cat <<'.'; } | on-terminal 50 8
  > until asked
  > until name?
  > screen
  > tell answers.pipe Bob
  > tell go
  > ended
  > screen
  > .
  one
   build asked
  name?
   build 3/10 files [========>---------------------]
  status 0
  one
   build asked
  name? it is Bob

A line that begins again with a carriage return stays, too, also one that nothing is written over.

  $ cat >returns <<'.'
  > . ./job
  > printf 'got 10%%\r'; next; say info @a - ten; next; printf 'got 90%%\r'; next
  > printf '\r2'; next; echo; next
  > .
  $ { echo 'run prodash-run --no-color -- sh returns'; cat <<'.'; } | on-terminal 50 8
  > until got 10%
  > until 3/10
  > screen
  > tell go
  > until ten
  > screen
  > tell go
  > until got 90%
  > tell go
  > until 2ot 90%
  > until 3/10
  > screen
  > tell go
  > tell go
  > ended
  > screen
  > .
  got 10%
   build 3/10 files [========>---------------------]
   build ten
  got 10%
   build 3/10 files [========>---------------------]
   build ten
  2ot 90%
   build 3/10 files [========>---------------------]
  status 0
   build ten
  2ot 90%

While a line is as long as the terminal is wide, or longer, there are no rows below it.

  $ cat >long <<'.'
  > . ./job
  > next; printf 1234567890123456789012345678901234567890; next; echo; next; printf %05000d 1; next
  > .
  $ { echo 'run prodash-run --no-color -- sh long'; cat <<'.'; } | on-terminal 40 8
  > until 3/10
  > tell go
  > until 1234567890123456789012345678901234567890
  > gone 3/10
  > tell go
  > until 3/10
  > screen
  > tell go
  > until 0000000001
  > gone 3/10
  > tell go
  > ended
  > .
  1234567890123456789012345678901234567890
  
   build 3/10 files [=====>--------------]
  status 0

Colours and other styles of the job go on behind the rows, and a sequence is never cut in two.

  $ cat >styles <<'.'
  > . ./job
  > next; printf 'one\033]0;ti'; next; printf 'tle\007two '; next
  > printf 'a\033[3'; next; printf '1mred\n'; next; printf 'still red\033[m\303'; next; printf '\244\n'; next
  > .
  $ { echo 'run prodash-run --no-color -- sh styles'; cat <<'.'; } | on-terminal 40 8
  > until 3/10
  > tell go
  > until one
  > tell go
  > until onetwo
  > tell go
  > until onetwo a
  > tell go
  > until red
  > until 3/10
  > style build
  > tell go
  > until still red
  > tell go
  > until 3/10
  > style red
  > style still
  > screen
  > tell go
  > ended
  > screen
  > .
  plain
  31
  31
  onetwo ared
  still red\xc3\xa4 (esc)
  
   build 3/10 files [=====>--------------]
  status 0
  onetwo ared
  still red\xc3\xa4 (esc)

On the page of a full screen there are no rows and no messages until it is left.

  $ cat >full <<'.'
  > . ./job
  > echo one; next; printf 'abc\033[?1049h\033[Hfull'; say info @a - meanwhile; next
  > say info @a - also; say set @a 4; next
  > printf '\033[?1049l'; next
  > .
  $ { echo 'run prodash-run --no-color --fps 1000 -- sh full'; cat <<'.'; } | on-terminal 40 8
  > until 3/10
  > tell go
  > until full
  > tell go
  > screen
  > tell go
  > until also
  > until 4/10
  > screen
  > tell go
  > ended
  > screen
  > .
  full
  one
  abc
   build meanwhile
   build also
  
   build 4/10 files [=======>------------]
  status 0
  one
  abc
   build meanwhile
   build also

A message that waits is there at the end.

  $ cat >waits <<'.'
  > . ./job
  > echo one; next; printf 'abc\033['; say info @a - last
  > .
  $ { echo 'run prodash-run --no-color -- sh waits'; cat <<'.'; } | on-terminal 40 8
  > until 3/10
  > tell go
  > ended
  > screen
  > .
  status 0
  one
  abc[
   build last

Below a line that reaches the last column, or may by its tabs, there are no rows, and a message goes in
below it.

  $ cat >wide <<'.'
  > . ./job
  > next; printf '\t\t\t\tlastcols'; next; echo; next
  > printf '%050d' 0; next; say info @a - told; next; echo; next
  > .
  $ cat >widths <<'.'
  > until 3/10
  > tell go
  > until lastcols
  > gone 3/10
  > tell go
  > until 3/10
  > tell go
  > until 0000
  > gone 3/10
  > tell go
  > until told
  > tell go
  > until 3/10
  > screen
  > tell go
  > ended
  > .
  $ { echo 'run prodash-run --no-color -- sh wide'; cat widths; } | on-terminal 40 10
                                  lastcols
  0000000000000000000000000000000000000000
  0000000000
   build told
  
  
   build 3/10 files [=====>--------------]
  status 0
  $ { echo 'run prodash-run --no-color --pty -- sh wide'; cat widths; } | on-terminal 40 10
                                  lastcols
  0000000000000000000000000000000000000000
  0000000000
   build told
  0000000000000000000000000000000000000000
  0000000000
   build 3/10 files [=====>--------------]
  status 0

What moves the cursor up has no rows below it until its line ends.

  $ cat >moves <<'.'
  > . ./job
  > echo one; echo two; next; printf '\033[2Anew'; next; printf '\r\033[2B'; echo three; next
  > .
  $ { echo 'run prodash-run --no-color -- sh moves'; cat <<'.'; } | on-terminal 40 8
  > until two
  > until 3/10
  > tell go
  > until new
  > gone 3/10
  > screen
  > tell go
  > until three
  > until 3/10
  > screen
  > tell go
  > ended
  > .
  new
  two
  new
  two
  three
  
   build 3/10 files [=====>--------------]
  status 0

More rows than there is room for are cut, and lines above them go up.

  $ cat >crowded <<'.'
  > . ./job
  > for it in 1 2 3 4 5 6 7; do say add 0 task $it; echo line $it; done; next
  > .
  $ { echo 'run prodash-run --no-color -- sh crowded'; cat <<'.'; } | on-terminal 40 6
  > until more
  > until line 7
  > screen
  > all
  > tell go
  > ended
  > all
  > .
  line 7
  
   build 3/10 files [=====>--------------]
   task 1
   \xe2\x80\xa6 and 6 more (esc)
  line 1
  line 2
  line 3
  line 4
  line 5
  line 6
  line 7
  
   build 3/10 files [=====>--------------]
   task 1
   \xe2\x80\xa6 and 6 more (esc)
  status 0
  line 1
  line 2
  line 3
  line 4
  line 5
  line 6
  line 7

Rows that are gone leave no room behind.

  $ cat >shrinks <<'.'
  > . ./job
  > for it in x y z; do echo line $it; say add @$it 0 task $it; done; next
  > for it in x y z; do say drop @$it; done; next; echo line d; next
  > .
  $ { echo 'run prodash-run --no-color -- sh shrinks'; cat <<'.'; } | on-terminal 40 7
  > until task z
  > tell go
  > gone task
  > tell go
  > until line d
  > screen
  > tell go
  > ended
  > .
  line z
  line d
  
   build 3/10 files [=====>--------------]
  status 0

Those that don't fit in the window, as it is said to have more rows, are not drawn.

  $ { echo 'run prodash-run --no-color --rows 20 -- sh crowded'; cat <<'.'; } | on-terminal 40 6
  > until line 7
  > tell go
  > ended
  > all
  > .
  status 0
  line 1
  line 2
  line 3
  line 4
  line 5
  line 6
  line 7

Nothing is left of rows that what is typed has moved below.

  $ cat >typed <<'.'
  > . ./job
  > printf 'go on? '; read answer; say set @a 4; next
  > .
  $ { echo 'run prodash-run --no-color -- sh typed'; cat <<'.'; } | on-terminal 40 8
  > until go on?
  > until 3/10
  > keys yes\n
  > until 4/10
  > screen
  > tell go
  > ended
  > .
  go on? yes
  
   build 4/10 files [=======>------------]
  status 0

Nor of rows on which a key was echoed, as ^C, where standard input is not the terminal.

  $ cat >pressed <<'.'
  > . ./job
  > trap '' INT; echo one; next; say set @a 4; next
  > .
  $ { echo 'run prodash-run --no-color -- sh pressed </dev/null'; cat <<'.'; } | on-terminal 40 8
  > until one
  > until 3/10
  > keys \x03
  > until ^C
  > tell go
  > until 4/10
  > screen
  > tell go
  > ended
  > screen
  > .
  one
   build 4/10 files [=======>------------]
  status 0
  one

A message has the terminal's own style.

  $ cat >told <<'.'
  > . ./job
  > printf '\033[31mred\n'; next; say info @a - told; next
  > .
  $ { echo 'run prodash-run --no-color -- sh told'; cat <<'.'; } | on-terminal 40 8
  > until red
  > tell go
  > until told
  > style told
  > tell go
  > ended
  > .
  plain
  status 0

A window of one or two rows has none.

  $ { echo 'run prodash-run --no-color -- sh crowded'; cat <<'.'; } | on-terminal 40 2
  > until line 7
  > screen
  > tell go
  > ended
  > all
  > .
  line 7
  status 0
  line 1
  line 2
  line 3
  line 4
  line 5
  line 6
  line 7
