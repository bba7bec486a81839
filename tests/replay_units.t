prodash-replay: units
=====================

A task on a terminal with no columns to spare for a bar. `in_unit` takes the columns, and the task's
bound, unit and step.

  $ in_unit() {
  >   columns=$1
  >   shift
  >   printf 'add 0 t\ninit 1 %s %s\nset 1 %s\ntick 0\n' "$@" | prodash-replay bytes $columns 20
  > }
  $ in_unit 9 100 - 29
   t 29/100
  \x1b[1A (no-eol) (esc)
  $ in_unit 15 100 items 29
   t 29/100 items
  \x1b[1A (no-eol) (esc)
  $ in_unit 21 100 items% 29
   t 29/100 items [29%]
  \x1b[1A (no-eol) (esc)
  $ in_unit 21 100 %items 29
   t [29%] 29/100 items
  \x1b[1A (no-eol) (esc)
  $ in_unit 11 - items/s 29
   t 29 items
  \x1b[1A (no-eol) (esc)
  $ in_unit 18 100 steps 29
   t 30 of 100 steps
  \x1b[1A (no-eol) (esc)
  $ in_unit 9 - bytes 1999
   t 1.9kB 
  \x1b[1A (no-eol) (esc)
  $ in_unit 8 - duration 61
   t 1m1s 
  \x1b[1A (no-eol) (esc)
  $ in_unit 16 - objects 2540000
   t 2.54M objects
  \x1b[1A (no-eol) (esc)

With fewer columns the line is cut.

  $ in_unit 12 100 steps 29
   t 30 of 100
  \x1b[1A (no-eol) (esc)

A unit that isn't in the list is read only with `--any-unit`.

  $ printf 'add 0 a\ninit 1 3 files%%\nset 1 2\ntick 0\n' >files
  $ prodash-replay page 40 2 <files
  line 2: not an event
  [2]
  $ prodash-replay page 40 2 --any-unit <files
   a 2/3 files [66%] [============>------]
  
