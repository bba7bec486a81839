prodash-replay: faults
======================

`refused` replays lines that are refused. What the program reports is on standard error. Standard
output goes to a file, which stays empty.

  $ refused() { printf "$1" | prodash-replay "${2-bytes}" 40 "${3-20}" >>written; }

A tab in a name is no sign on a page.

  $ refused 'add 0 \t\ntick 0\n' page 4
  byte 1: not a sign
  [1]

Lines that are no events.

  $ refused 'add 0 task\nfoo\nset 1 3\n' page 4
  line 2: not an event
  [2]
  $ refused 'info 1 0\n'
  line 1: not an event
  [2]
  $ refused 'info 1 one\n'
  line 1: not an event
  [2]
  $ refused 'droproot 1\n'
  line 1: not an event
  [2]
  $ refused 'droproot \n'
  line 1: not an event
  [2]
  $ refused 'quit\n'
  line 1: not an event
  [2]
  $ refused 'quit 1 2\n'
  line 1: not an event
  [2]
  $ refused 'drop 1 2\n'
  line 1: not an event
  [2]
  $ refused 'add 0 task\nfoo\n'
  line 2: not an event
  [2]
  $ refused 'add 0 task\ninit 1 10 -\nset 1 3\ntick 0\n\n'
  line 5: not an event
  [2]
  $ refused '\n'
  line 1: not an event
  [2]
  $ refused 'set 1 18446744073709551616\n'
  line 1: not an event
  [2]
  $ refused 'set 1 000000000000000000003\n'
  line 1: not an event
  [2]
  $ refused 'set  1 3\n'
  line 1: not an event
  [2]
  $ refused 'set 1 +3\n'
  line 1: not an event
  [2]
  $ refused 'tick 1 \n'
  line 1: not an event
  [2]
  $ refused 'add 0\n'
  line 1: not an event
  [2]
  $ refused 'init 1 10 byte\n'
  line 1: not an event
  [2]
  $ refused 'add 0 \377\n'
  line 1: not an event
  [2]
  $ refused 'name 1\n'
  line 1: not an event
  [2]
  $ refused 'name a b\n'
  line 1: not an event
  [2]
  $ refused 'max 1\n'
  line 1: not an event
  [2]
  $ refused 'max 1 ten\n'
  line 1: not an event
  [2]
  $ refused 'max 1 10 -\n'
  line 1: not an event
  [2]
  $ refused 'inc 1\n'
  line 1: not an event
  [2]
  $ refused 'inc 1 -\n'
  line 1: not an event
  [2]
  $ refused 'inc 1 -3\n'
  line 1: not an event
  [2]
  $ refused 'blocked\n'
  line 1: not an event
  [2]
  $ refused 'halted 1 \n'
  line 1: not an event
  [2]
  $ refused 'running 1 2\n'
  line 1: not an event
  [2]

Arguments other than a command and two dimensions. They are checked before the input is read.

  $ cat >one_task <<END
  > add 0 task
  > init 1 10 -
  > set 1 3
  > tick 0
  > END
  $ prodash-replay <one_task >>written
  usage: prodash-replay bytes|page|dashboard COLUMNS ROWS
  [2]
  $ prodash-replay bytes 40 <one_task >>written
  usage: prodash-replay bytes|page|dashboard COLUMNS ROWS
  [2]
  $ prodash-replay bytes 0 4 <one_task >>written
  usage: prodash-replay bytes|page|dashboard COLUMNS ROWS
  [2]
  $ prodash-replay page 40 65536 <one_task >>written
  usage: prodash-replay bytes|page|dashboard COLUMNS ROWS
  [2]
  $ prodash-replay rows 40 4 <one_task >>written
  usage: prodash-replay bytes|page|dashboard COLUMNS ROWS
  [2]
  $ prodash-replay bytes 40 20 4 <. >>written
  usage: prodash-replay bytes|page|dashboard COLUMNS ROWS
  [2]
  $ prodash-replay "$(printf '\377')" 40 4 <one_task >>written
  usage: prodash-replay bytes|page|dashboard COLUMNS ROWS
  [2]

A folder can't be read as input.

  $ prodash-replay bytes 40 20 <. >>written
  input is broken
  [1]

None of these commands has written to standard output.

  $ cat written

An output that can't be written.

  $ prodash-replay bytes 40 20 <one_task >/dev/full
  output is broken
  [1]

`--help` anywhere among the words prints the help, and `--version` the version.

  $ prodash-replay bytes 0 --wrong --help
  Replays event lines from standard input, and writes the frames that they draw
  
  Usage: prodash-replay bytes|page|dashboard COLUMNS ROWS [OPTIONS]
  
  Arguments:
    bytes          write the bytes of all frames
    page           write the rows that the frames leave on a page
    dashboard      write the bytes of all frames of a dashboard, which fills the terminal
    COLUMNS        columns of the terminal, 1 to 65535
    ROWS           rows of the terminal, 1 to 65535
  
  Options:
    --any-unit  take units of any name, as recordings of prodash-live have
    --help      print help
    --version   print version
  
  Options of bytes and page:
    --defensive       erase the rows that frames write on, as prodash-live does
    --colored         write colours
    --times           rows with the times of their tasks, as prodash-live draws them
    --prefer-running  with --defensive, the rows of running tasks first where not all fit
  
  Options of dashboard:
    --interval <MILLISECONDS>  how often a frame is drawn, which the headline says if that is less
                               than once a second, 1 to 65535 [default: 100]
  $ prodash-replay --help | head -n 1
  Replays event lines from standard input, and writes the frames that they draw
  $ prodash-replay page --version
  prodash-replay 0.1.0 (port of prodash 31.0.1)
