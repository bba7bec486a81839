prodash-live: options
=====================

An option's value is the next word, or follows `=`. If an option is repeated, the last value counts.

  $ unset COLUMNS LINES NO_COLOR
  $ until_shown() {
  >   text=$1; shift
  >   { cat; until grep -qs "$text" frames; do sleep 0.02; done; } | "$@"
  > }
  $ printf 'add 0 task\ninit 1 10\nset 1 3\n' >one_task
  $ until_shown 3/10 prodash-live --no-times --no-color --terminal=never --terminal always --fps=1000 \
  >   --columns 9 --columns=40 --rows 20 <one_task 2>frames
  $ grep -q 'task 3/10 \[=======>-------------------\]' frames
  $ prodash-live --terminal always --terminal never <one_task
  $ until_shown 3/10 prodash-live --no-times --no-color --terminal always --bar-columns=20 <one_task 2>frames
  $ grep -q 'task 3/10 \[====>------------\]' frames
  $ until_shown 3/10 prodash-live --no-times --no-color --terminal always --bar-columns 0 <one_task 2>frames
  $ grep 'task 3/10' frames | tail -n 1 | sed 's/.*\[2K//'
   task 3/10

The version, the help, and what is refused.

  $ prodash-live --version
  prodash-live 0.1.0 (port of prodash 31.0.1)
  $ prodash-live --help
  Shows progress on a terminal from the event lines of standard input
  
  Usage: prodash-live [OPTIONS]
  
  Options:
        --columns <N>           columns of the terminal [default: $COLUMNS, or 80]
        --rows <N>              rows of the terminal [default: $LINES, or 20]
        --bar-columns <N>       columns of a bar at most, 0 to 65535 [default: 40]
        --fps <N>               frames in a second, 1 to 1000 [default: 6]
        --delay <MILLISECONDS>  time until rows are drawn, up to a day [default: 0]
        --no-color              no colours, as with $NO_COLOR
        --timestamps            messages with their time of day, in UTC
        --no-times              rows without the times of their tasks
        --no-prefer-running     the first rows where not all fit, not those of running tasks first
        --throughput            no effect: units that end in /s have their throughput
        --stdout                draw on standard output, not on standard error
        --strict                end at the first line that is faulty
        --replace-words         a word of one item may be given to another, which drops the first
        --terminal <WHEN>       whether the output is a terminal: auto, always or never
                                [default: auto]; if not, messages alone are written
        --plain <SECONDS>       off a terminal, a line when an item begins or ends, and after every
                                so many seconds one for each that has changed, up to a day; 0 for
                                none [default: 0]
        --summary               at the end, how each item of the first two levels has come out
        --no-summary            no such messages [default]
        --fail-unfinished       status 3 if one of these ended below its maximum, and a message of it
        --dashboard             fill the terminal with a dashboard, which is scrolled by keys;
                                its key ? shows them
        --leave-on-interrupt    with --dashboard: q, Esc and Ctrl-C leave the dashboard at once, and
                                messages are written from then on
        --record <FILE>         record the run, for prodash-replay
        --marks                 a NUL once the options are right, and one behind each frame
    -h, --help                  print help
    -V, --version               print version
  $ prodash-live --help >/dev/full
  output is broken
  [1]
  $ prodash-live --version >/dev/full
  output is broken
  [1]
  $ prodash-live --rows 0 --strict=yes script --help | sed -n 1p
  Shows progress on a terminal from the event lines of standard input
  $ prodash-live --rows 0
  error: invalid value '0' for '--rows', which takes a number from 1 to 65535
  
  For more information, try '--help'.
  [2]
  $ prodash-live --columns=65536
  error: invalid value '65536' for '--columns', which takes a number from 1 to 65535
  
  For more information, try '--help'.
  [2]
  $ prodash-live --bar-columns many
  error: invalid value 'many' for '--bar-columns', which takes a number from 0 to 65535
  
  For more information, try '--help'.
  [2]
  $ prodash-live --bar-columns 65536
  error: invalid value '65536' for '--bar-columns', which takes a number from 0 to 65535
  
  For more information, try '--help'.
  [2]
  $ prodash-live --fps 1001
  error: invalid value '1001' for '--fps', which takes a number from 1 to 1000
  
  For more information, try '--help'.
  [2]
  $ prodash-live --fps=0
  error: invalid value '0' for '--fps', which takes a number from 1 to 1000
  
  For more information, try '--help'.
  [2]
  $ prodash-live --delay 86400001
  error: invalid value '86400001' for '--delay', which takes a number from 0 to 86400000
  
  For more information, try '--help'.
  [2]
  $ prodash-live --delay -5
  error: invalid value '-5' for '--delay', which takes a number from 0 to 86400000
  
  For more information, try '--help'.
  [2]
  $ prodash-live --terminal sometimes
  error: invalid value 'sometimes' for '--terminal', which takes auto, always or never
  
  For more information, try '--help'.
  [2]
  $ prodash-live --record --strict
  error: no value for '--record', which takes the path of a file
  
  For more information, try '--help'.
  [2]
  $ prodash-live --strict --fps
  error: no value for '--fps', which takes a number from 1 to 1000
  
  For more information, try '--help'.
  [2]
  $ prodash-live --strict=yes
  error: unexpected value 'yes' for '--strict', which takes none
  
  For more information, try '--help'.
  [2]
  $ prodash-live --color
  error: unexpected argument '--color'
  
  For more information, try '--help'.
  [2]
  $ prodash-live script
  error: unexpected argument 'script': the lines are read from standard input
  
  For more information, try '--help'.
  [2]
  $ prodash-live "$(printf '\377')"
  an argument is not UTF-8
  [2]
