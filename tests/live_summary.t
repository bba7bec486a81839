prodash-live: the summary
=========================

`timeless` leaves out how long an item took.

  $ unset COLUMNS LINES NO_COLOR
  $ timeless() { sed 's/ [0-9]\.[0-9]s$/ T/'; }

At the end a message says how each item of the first two levels has come out, in the order of the
tree: one that has reached its maximum has finished, and so has one without a maximum that was
dropped. One without a maximum that is still there has no sign.

  $ cat >script <<'END'
  > add @build 0 build
  > add @deploy 0 deploy
  > init @deploy 10 files
  > set @deploy 4
  > add @app @build app
  > init @app 4
  > set @app 4
  > add @deep @app deep
  > init @deep 9
  > add @lib @build lib
  > init @lib 3
  > set @lib 1
  > drop @lib
  > drop @build
  > info @app - a message
  > add @open 0 open
  > END
  $ prodash-live --summary <script 2>&1 | timeless
   app a message
   \xe2\x9c\x93 build in T (esc)
   \xe2\x9c\x93 build/app 4/4 in T (esc)
   \xe2\x9c\x97 build/lib stopped at 1/3 after T (esc)
      \xe2\x9c\x97 deploy stopped at 4/10 files after T (esc)
          open in T
  $ LC_ALL=C prodash-live --summary <script 2>&1 | timeless | tail -n 2
      ! deploy stopped at 4/10 files after T
          open in T
  $ prodash-live --summary --no-summary <script
   app a message

An item that is below its maximum is a failure only if an option says so.

  $ prodash-live --fail-unfinished <script
   app a message
   \xe2\x9c\x97 input ended, unfinished: build/lib 1/3, deploy 4/10 files (esc)
  [3]
  $ printf 'add @a 0 a\ninit @a 4\nset @a 4\nadd @b 0 b\ndrop @b\n' |
  >   prodash-live --fail-unfinished
  $ { cat script; echo bad; } | prodash-live --fail-unfinished 2>&1 | tail -n 1
   \xe2\x9c\x97 input ended, unfinished: build/lib 1/3, deploy 4/10 files (esc)
  $ { cat script; echo bad; } | prodash-live --fail-unfinished 2>errors
  [2]

With plain lines it follows them.

  $ printf 'add @a 0 a\ninit @a 4\nset @a 4\n' | prodash-live --plain 30 --summary 2>&1 | timeless
  [00:00] a started
  [00:00] a 4/4 100%, done in T
   \xe2\x9c\x93 a 4/4 in T (esc)

Of those that have finished a thousand are said.

  $ seq 1500 | sed 's/.*/add @a 0 a&\ndrop @a/' | prodash-live --summary 2>said
  $ wc -l <said
  1001
  $ tail -n 1 said | sed 's/^ *//'
  \xe2\x9c\x93  and 500 more (esc)
