prodash-live: what the environment says
=======================================

`on_terminal` runs a command on a terminal.

  $ unset COLUMNS LINES NO_COLOR CLICOLOR CLICOLOR_FORCE FORCE_COLOR LANG LC_CTYPE
  $ on_terminal() {
  >   python3 -c 'import pty, sys; pty.spawn(["sh", "-c", sys.argv[1]])' "$1" </dev/null
  > }
  $ printf 'add 0 task\ninfo 1 0 a\ndone 1 0 b\nfail 1 0 c\n' >said

Terminals
---------

Frames erase the rows of a terminal, unless `TERM` is not set or is `dumb`. Then messages alone are
written, as where the output is no terminal. `--terminal always` writes frames all the same.

  $ on_terminal 'NO_COLOR=1 exec prodash-live <said' | grep -c '\[1A task a'
  1
  $ on_terminal 'TERM=dumb exec prodash-live <said'
   task a\r (esc)
   \xe2\x9c\x93 task b\r (esc)
   \xe2\x9c\x97 task c\r (esc)
  $ on_terminal 'unset TERM; exec prodash-live --terminal auto <said' | sed -n 1p
   task a\r (esc)
  $ on_terminal 'TERM=dumb NO_COLOR=1 exec prodash-live --terminal always <said' | grep -c '\[1A task a'
  1

Colours
-------

`CLICOLOR_FORCE` and `FORCE_COLOR` enable colours off a terminal too. `NO_COLOR` and `--no-color`
disable them whatever these say, and `CLICOLOR=0` unless one of these says otherwise.

  $ CLICOLOR_FORCE=1 prodash-live --stdout <said | sed -n 1p
   \x1b[2mtask\x1b[0m \x1b[1;37ma\x1b[0m (esc)
  $ FORCE_COLOR=true CLICOLOR=0 prodash-live --stdout <said | sed -n 1p
   \x1b[2mtask\x1b[0m \x1b[1;37ma\x1b[0m (esc)
  $ CLICOLOR_FORCE=0 FORCE_COLOR=false prodash-live --stdout <said | sed -n 1p
   task a
  $ NO_COLOR=1 CLICOLOR_FORCE=1 prodash-live --stdout <said | sed -n 1p
   task a
  $ CLICOLOR_FORCE=1 prodash-live --stdout --no-color <said | sed -n 1p
   task a
  $ on_terminal 'CLICOLOR=0 exec prodash-live <said' | grep -c '\[1A task a'
  1

Characters
----------

Signs and dots are in ASCII unless the locale is one of UTF-8: the first of `LC_ALL`, `LC_CTYPE` and
`LANG` that is set and not empty.

  $ LC_ALL=C prodash-live --stdout <said
   task a
   + task b
   ! task c
  $ LC_ALL= LC_CTYPE=de_DE.utf8@euro LANG=C prodash-live --stdout <said | tail -n 1
   \xe2\x9c\x97 task c (esc)
  $ LC_ALL= LC_CTYPE= LANG=de_DE.ISO-8859-1 prodash-live --stdout <said | tail -n 1
   ! task c
  $ env -u LC_ALL prodash-live --stdout <said | tail -n 1
   ! task c
  $ printf 'add 0 a\nadd 0 b\nadd 0 c\nadd 0 d\n' >four
  $ { cat four; until grep -qs more frames; do sleep 0.02; done; } \
  >   | LC_ALL=C prodash-live --terminal always --no-color --rows 3 2>frames
  $ grep more frames | tail -n 1 | tr '\033' E
  E[2K ... and 3 more
