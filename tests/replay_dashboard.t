prodash-replay: a dashboard
===========================

Its bytes on 5 columns and 3 rows, which have room for the border and the title alone: it enters the
alternate screen, hides the cursor and turns wrapping off, writes the first frame whole, and then
what differs. At the end it leaves that screen.

  $ prodash-replay dashboard 5 3 >frames <<END
  > title ab
  > tick 0
  > title b
  > END
  $ tr '\033' E <frames | sed 's/[┌┐└┘]/./g; s/─/-/g; s/│/|/g'
  E[?1049hE[?25lE[?7lE[0mE[2JE[1;1HE[0m.E[0;1mabE[0m-.E[2;1H|E[2;5H|E[3;1H.---.E[1;2HE[0;1mbE[0m-E[0mE[2JE[?1049lE[?7hE[?25h (no-eol)

Nothing is drawn without a line that draws, nor while rows are hidden.

  $ printf 'add 0 task\nhold 1\nkey x\n' | prodash-replay dashboard 40 10

`dashboard` writes the rows of its last frame, with its lines and bars in ASCII. Tasks have a tree if
there is room for one, and a label over a bar, or a label alone. The newest message is the first.

  $ cat >job <<END
  > add 0 build
  > init 1 10 items
  > set 1 4
  > add 1 core
  > init 2 - steps
  > set 2 7
  > add 1 docs
  > init 3 8 -
  > set 3 8
  > add 0 deploy
  > info 2 1000000000 compiled in 2 s
  > done 3 3723000000000 written
  > fail 4 4000000000000 no route to host
  > blocked 2
  > tick 5000000000
  > END
  $ dashboard 76 12 <job
  .Progress Dashboard- 'q' or CTRL+c to quit    2 running +   1 blocked +   ~.
  + build                  + 4/10 items########5                             |
  | + core                 | + 8 steps [replay]                              |
  | . docs                 | . 8/8###########################################|
  + deploy                 + deploy                                          |
  |                                                                          |
  |                                                                          |
  |                                                                          |
  |                                                                          |
  |Messages---------------------------------------------------- x = `| o = ~ |
  |01:06:40|fail|deploy> no route to host                                    |
  .~ 0 skipped and 2 more--------------------------- V = D|v = J|A = U|^ = K .

The next frame has a tree as wide as its rows, here with all messages.

  $ { cat job; echo 'key ~'; } | dashboard 76 12
  .Progress Dashboard- 'q' or CTRL+c to quit    2 running +   1 blocked +   ~.
  + build   + 4/10 items##############5                                      |
  | + core  | + 8 steps [replay]                                             |
  | . docs  | . 8/8##########################################################|
  + deploy  + deploy                                                         |
  |                                                                          |
  |                                                                          |
  |Messages---------------------------------------------------- x = `| o = ~ |
  |01:06:40|fail|deploy> no route to host                                    |
  |01:02:03|done|docs  > written                                             |
  |00:00:01|info|core  > compiled in 2 s                                     |
  .--------------------------------------------------------------------------.

Keys scroll, hide and maximize. Offsets go no further than the last task and message.

  $ { cat job; printf 'key %s\n' d '`'; } | dashboard 40 5
  .Progress Dashboard- 'q' or CTRL+c to ~.
  || . 8/8###############################|
  |+ deploy                              |
  | ~2 skipped anV = d|v = j|A = u|^ = k |
  .--------------------------------------.
  $ { cat job; printf 'key %s\n' '~' J J; } | dashboard 76 7
  .Progress Dashboard- 'q' or CTRL+c to quit    2 running +   1 blocked +   ~.
  |########################| ~0 skipped and 4 more   V = d|v = j|A = u|^ = k |
  |Messages---------------------------------------------------- x = `| o = ~ |
  |01:06:40|fail|deploy> no route to host                                    |
  |01:02:03|done|docs  > written                                             |
  |00:00:01|info|core  > compiled in 2 s                                     |
  .--------------------------------------------------------------------------.

Information is beside the tasks. It is hidden, maximized, and gone.

  $ printf 'info_title %s\ninfo_text %s\n' Keys 'q quits' Host 'build1 is very slow today' >notes
  $ cat job notes | dashboard 70 11
  .Progress Dashboard- 'q' or CTRL+c to quit   ~.Informat x = [ | o = {
  |+ 4/10 items######5                          |Keys -----------------
  || + 8 steps [replay]                         |
  || . 8/8######################################| q quits
  |+ deploy                                     |
  |                                             |Host -----------------
  |                                             |
  |                                             | build1 is very slow ~
  |Messages----------------------- x = `| o = ~ |
  |no route to host                             |
  .~ 0 skipped and 2 mo V = D|v = J|A = U|^ = K .-----------------------
  $ { cat job notes; echo 'key {'; } | dashboard 44 11
  .Progress Dashbo.Information- x = [ | o = {
  |+ 4/10 items   |Keys ---------------------
  || + 8 steps [r~|
  || . 8/8########| q quits
  |+ deploy       |
  |               |Host ---------------------
  |               |
  |               | build1 is very slow today
  |M x = `| o = ~ |
  |no route to ho~|
   V = D|v = J|A =~---------------------------
  $ { cat job notes; echo 'key ['; } | dashboard 44 4
  .Progress Dashboard- 'q' or CTRL+c to quit~.
  |+ 4/10 items#####3                        |
  | ~0 skipped and 3 V = d|v = j|A = u|^ = k |
  .------------------------------------------.
  $ { cat job notes; echo 'info_clear'; } | dashboard 44 4
  .Progress Dashboard- 'q' or CTRL+c to quit~.
  |+ 4/10 items#####3                        |
  | ~0 skipped and 3 V = d|v = j|A = u|^ = k |
  .------------------------------------------.

A title, a part of the terminal, and another size of it. What is outside of the part is blank.

  $ { cat job; echo 'title 日本 Release'; echo 'window 4 1 30 4'; } | dashboard 40 6
  
      .\xe6\x97\xa5\xe6\x9c\xac Release- 'q' or CTRL+c~. (esc)
      |+ 4/10 items                |
      | ~0 V = d|v = j|A = u|^ = k |
      .----------------------------.
  $ { cat job; echo 'resize 6 20 4'; echo 'key j'; } | dashboard 76 14
  .Progress Dashboard.
  || + 8 steps [repl~|
  |V = d|v = j|A = u||
  .------------------.
  $ { cat job; echo 'resize 6 3 3'; echo 'tick 7'; } | dashboard 76 14
  .P.
  | |
  .-.
  $ { cat job; printf 'resize 6 3 3\nresize 7 30 4\n'; } | dashboard 76 14
  .Progress Dashboard- 'q' or ~.
  |+ 4/10 items                |
  | ~0 V = d|v = j|A = u|^ = k |
  .----------------------------.

Requests to interrupt wait while they are deferred. The interval is in the headline if it is more
than a second, with the moment of the frame.

  $ printf 'interrupt deferred\ntick 3000000000\n' >waits
  $ dashboard 74 4 <waits
  .Progress Dashboard- cannot interrupt current operation    0 running +  ~.
  |                                                                        |
  |                                                                        |
  .------------------------------------------------------------------------.
  $ { cat waits; echo 'key q'; } | dashboard 74 4
  .Progress Dashboard- interrupt requested - please wait    0 running +   ~.
  |                                                                        |
  |                                                                        |
  .------------------------------------------------------------------------.
  $ { cat waits; echo 'key q'; } | dashboard 110 4 --interval 1500
  .Progress Dashboard- interrupt requested - please wait  Every 1s > 1970-01-01T00:00:03   0 running +   0 blo~.
  |                                                                                                            |
  |                                                                                                            |
  .------------------------------------------------------------------------------------------------------------.

The dashboard is closed by such a request, by `quit`, and by the first frame without a root. No
later line draws.

  $ bytes_of() { printf "add 0 a\ntick 1\n$1\ntitle b\n" | prodash-replay dashboard 60 4 | wc -c; }
  $ for it in 'key q' 'key esc' 'key ctrl-c' 'key ctrl-[' 'quit 5' droproot \
  >     'interrupt deferred\nkey q' 'interrupt deferred\nkey q\ninterrupt instantly'; do
  >     printf '%s: %s\n' "$it" $(bytes_of "$it")
  > done
  key q: 407
  key esc: 407
  key ctrl-c: 407
  key ctrl-[: 407
  quit 5: 407
  droproot: 407
  interrupt deferred\nkey q: 668
  interrupt deferred\nkey q\ninterrupt instantly: 563

Lines that are none, and arguments that are wrong.

  $ for it in 'key ab' 'key ' key 'key ctrl-' 'key ctrl-ab' 'key Esc' 'window 1 2 3' \
  >     'window 1 2 3 65536' 'window 1 2 3 -4' 'interrupt now' 'title' 'info_title' 'info_clear ' \
  >     'info text' 'release q' 'init 1 3 files'; do
  >     echo "$it" | prodash-replay dashboard 40 10 >>written
  > done
  line 1: not an event
  line 1: not an event
  line 1: not an event
  line 1: not an event
  line 1: not an event
  line 1: not an event
  line 1: not an event
  line 1: not an event
  line 1: not an event
  line 1: not an event
  line 1: not an event
  line 1: not an event
  line 1: not an event
  line 1: not an event
  line 1: not an event
  line 1: not an event
  [2]
  $ echo 'init 1 3 files' | prodash-replay dashboard 40 10 --any-unit
  $ prodash-replay dashboard 40 10 --defensive <job >>written
  usage: prodash-replay bytes|page|dashboard COLUMNS ROWS
  [2]
  $ prodash-replay dashboard 40 10 --interval <job >>written
  usage: prodash-replay bytes|page|dashboard COLUMNS ROWS
  [2]
  $ prodash-replay dashboard 40 10 --interval 0 <job >>written
  usage: prodash-replay bytes|page|dashboard COLUMNS ROWS
  [2]
  $ prodash-replay bytes 40 10 --interval 100 <job >>written
  usage: prodash-replay bytes|page|dashboard COLUMNS ROWS
  [2]
  $ echo 'key q' | prodash-replay bytes 40 10 >>written
  line 1: not an event
  [2]
  $ cat written
