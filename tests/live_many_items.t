prodash-live: many items
========================

`until_shown` keeps the input of a command open until a text is in the file `frames`.

  $ until_shown() {
  >   text=$1; shift
  >   { cat; until grep -qs "$text" frames; do sleep 0.02; done; } | "$@"
  > }

Of 200,000 items that are added to one item and dropped, one after another, none takes the row of an
item that stays. The items that stay have names of one length, since a frame aligns its bars with
those of the frame before it.

  $ {
  >   printf 'add @task 0 task\nadd @first @task first\ninit @first 3 -\n'
  >   yes 'add @part @task part
  > drop @part' | head -n 400000
  >   printf 'add @final @task final\ninit @final 3 -\nset @final 2\n'
  > } | until_shown 2/3 prodash-live --no-times --no-color --columns 40 --terminal always 2>frames
  $ tail -n 7 frames | head -n 3 | sed 's/.*\[2K//; s/ *$//'
   task
    first 0/3 [>-------------------------]
    final 2/3 [================>---------]

The name of a unit is kept once, however often it is given: 100,000 units with the same name of 1000
bytes fit in less memory than as many copies take.

  $ unit=$(printf '%01000d' 0)
  $ {
  >   echo 'add @task 0 task'
  >   yes "init @task 3 $unit" | head -n 100000
  > } | (ulimit -v 80000; MALLOC_ARENA_MAX=1 exec prodash-live --strict)

Of more rows than the window has, those of running tasks are drawn before those that wait and those
that have finished, in the order of the tree. When a task finishes, its row makes room for another.

  $ {
  >   for n in 1 2 3 4 5 6; do printf "add @$n 0 t$n\ninit @$n 3 -\n"; done
  >   printf 'set @1 3\nset @3 1\nset @5 1\n'
  > } >six
  $ until_shown 't5 1/3' prodash-live --no-times --no-color --columns 20 --rows 5 \
  >   --terminal always <six 2>frames
  $ grep -ao 't[0-9] [0-9]/3\|and . more' frames | tail -n 4
  t2 0/3
  t3 1/3
  t5 1/3
  and 3 more
  $ rm frames
  $ {
  >   cat six; until grep -qs 't5 1/3' frames; do sleep 0.02; done
  >   printf 'set @3 3\nset @4 1\n'
  > } | until_shown 't4 1/3' prodash-live --no-times --no-color --columns 20 --rows 5 \
  >   --terminal always 2>frames
  $ grep -ao 't[0-9] [0-9]/3\|and . more' frames | tail -n 4
  t2 0/3
  t4 1/3
  t5 1/3
  and 3 more

With `--no-prefer-running` the first rows are drawn.

  $ rm frames
  $ until_shown 't3 1/3' prodash-live --no-prefer-running --no-times --no-color --columns 20 \
  >   --rows 5 --terminal always <six 2>frames
  $ grep -ao 't[0-9] [0-9]/3\|and . more' frames | tail -n 4
  t1 3/3
  t2 0/3
  t3 1/3
  and 3 more
