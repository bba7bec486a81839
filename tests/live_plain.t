prodash-live: plain lines
=========================

`timeless` leaves out what depends on time: how much has passed, to the second, and how long an item
took, to a tenth of one. `until_told` keeps the input of a command open until a text is in the file
`told`.

  $ unset COLUMNS LINES NO_COLOR
  $ timeless() { sed 's/^\[00:[0-5][0-9]\]/[..]/; s/ [0-9]\.[0-9]s$/ T/; s/ [0-9]*s left/ T left/'; }
  $ until_told() {
  >   text=$1; shift
  >   { cat; until grep -qs "$text" told; do sleep 0.02; done; } | "$@" 2>told
  > }

Off a terminal each item has a line when it is added, and one when it is dropped or reaches its
maximum. It is named by the items above it and itself. All lines are in the order of the input, and
messages among them.

  $ cat >script <<'END'
  > add @build 0 build
  > add @app @build app
  > init @app 4 files
  > set @app 3
  > info @app - linking
  > inc @app 1
  > inc @app 1
  > drop @app
  > add @deploy 0 deploy
  > init @deploy 10
  > set @deploy 4
  > print half of it
  > drop @deploy
  > add @count @build count
  > init @count - files
  > set @count 7
  > bad
  > drop @count
  > done @build - all of it
  > drop @build
  > END
  $ prodash-live --plain 30 <script 2>told
  [2]
  $ timeless <told
  [..] build started
  [..] build/app started
   app linking
  [..] build/app 4/4 files 100%, done in T
  [..] deploy started
  half of it
  [..] deploy 4/10 40%, stopped after T
  [..] build/count started
   \xe2\x9c\x97 input line 17: unknown command "bad", in: bad (esc)
  [..] build/count 7 files, ended after T
   \xe2\x9c\x93 build all of it (esc)
  [..] build ended after T

A message is written before the next line is awaited, however long the seconds are.

  $ printf 'add 0 app\ninfo 1 0 linking\n' | until_told linking prodash-live --plain 86400
  $ timeless <told
  [..] app started
   app linking
  [..] app ended after T

Without the option, or with 0, messages alone are written, as before. On a terminal it has no effect.

  $ prodash-live <script
   app linking
  half of it
   \xe2\x9c\x97 input line 17: unknown command "bad", in: bad (esc)
   \xe2\x9c\x93 build all of it (esc)
  [2]
  $ prodash-live --plain=0 --stdout <script 2>errors | head -n 1
   app linking
  $ printf 'add @a 0 a\ndrop @a\n' | prodash-live --plain 1 --terminal always 2>&1 | grep -c started
  0
  [1]

After each so many seconds those that have changed have a line, with what remains as far as it is
known. One that hasn't changed has none.

  $ cat >script <<'END'
  > add @app 0 app
  > init @app 4
  > add @same 0 same
  > add @idle @same idle
  > init @idle 10
  > set @app 3
  > END
  $ until_told 3/4 prodash-live --plain 1 <script
  $ timeless <told
  [..] app started
  [..] same started
  [..] same/idle started
  [..] app 3/4 75%, T left
  [..] same/idle 0/10 0%
  [..] app 3/4 75%, stopped after T
  [..] same ended after T
  [..] same/idle 0/10 0%, stopped after T
  $ grep -c '^\[00:00\] .* left$' told
  0
  [1]

A message is written before more input is awaited.

  $ printf 'add @a 0 a\ninfo @a - hello\n' | until_told hello prodash-live --plain 30

At the end of the input each item that is left has a line. A name has no control character, and 40
steps without a message are no silence.

  $ { printf 'add @a 0 in\033[31mred\ninit @a 40 steps\n'; yes 'inc @a 1' | head -n 40; } |
  >   prodash-live --plain 30 2>&1 | timeless
  [..] in\xef\xbf\xbd[31mred started (esc)
  [..] in\xef\xbf\xbd[31mred 40/40 steps 100%, done in T (esc)

An item whose word is given to another ends with it. After `droproot` there are no messages.

  $ printf 'add @a 0 one\nadd @a 0 two\ninfo @a - hello\ndroproot\ninfo @a - gone\n' |
  >   prodash-live --plain 30 --replace-words 2>&1 | timeless
  [..] one started
  [..] one ended after T
  [..] two started
   two hello

A renamed item has its new name in its own lines and in those of the items below it, whether they
were added before or after. They keep it once it is dropped. The summary has it too.

  $ cat >script <<'END'
  > add @build 0 build
  > add @app @build app
  > add @part @app part
  > init @part 10 items
  > set @part 3
  > name @build make
  > set @part 10
  > drop @build
  > drop @part
  > drop @app
  > add @tests 0 tests
  > name @tests checks
  > add @unit @tests unit
  > name @unit units
  > drop @tests
  > drop @unit
  > END
  $ prodash-live --plain 30 --summary <script 2>&1 | timeless
  [..] build started
  [..] build/app started
  [..] build/app/part started
  [..] make/app/part 10/10 items 100%, done in T
  [..] make ended after T
  [..] make/app ended after T
  [..] tests started
  [..] checks/unit started
  [..] checks ended after T
  [..] checks/units ended after T
   \xe2\x9c\x93 make in T (esc)
   \xe2\x9c\x93 make/app in T (esc)
     \xe2\x9c\x93 checks in T (esc)
   \xe2\x9c\x93 checks/units in T (esc)

The numbers of the option are those of a day.

  $ prodash-live --plain 86401
  error: invalid value '86401' for '--plain', which takes a number from 0 to 86400
  
  For more information, try '--help'.
  [2]
