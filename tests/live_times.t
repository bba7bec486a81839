prodash-live: times
===================

`until_shown` keeps the input of a command open until a text is in the file `frames`. `no_digits`
leaves out how many seconds a row says, which depend on time.

  $ unset COLUMNS LINES NO_COLOR
  $ until_shown() {
  >   text=$1; shift
  >   { cat; until grep -qs "$text" frames; do sleep 0.02; done; } | "$@"
  > }
  $ no_digits() { sed 's/[0-9][0-9]*s/Ns/g' | uniq; }
  $ printf 'add 0 task\ninit 1 10 -\nset 1 3\nblocked 1\n' >one_task

A row with progress says how long its task has run, and is drawn again while it runs, also if
nothing else of it changes.

  $ until_shown '3/10 2s' prodash-live --no-color --terminal always <one_task 2>frames
  $ grep -ao 'task 3/10 [012]s' frames | uniq
  task 3/10 0s
  task 3/10 1s
  task 3/10 2s

With `--no-times` it says nothing of that.

  $ until_shown 3/10 prodash-live --no-color --terminal always --no-times <one_task 2>frames
  $ grep -ao 'task 3/10 .' frames | uniq
  task 3/10 [

A running task that has done steps says how long the rest takes, and one that has come to its end
how long it took. A task without a bound says how long it has run, and one that was only added
nothing.

  $ {
  >   {
  >     printf 'add 0 group\nadd 1 task\ninit 2 10 -\nadd 1 count\ninit 3 - files\n'
  >     until grep -qs '0/10' frames; do sleep 0.02; done
  >     printf 'set 2 3\nset 3 7\n'
  >     until grep -qs left frames; do sleep 0.02; done
  >     echo 'set 2 10'
  >     until grep -qs ' in ' frames; do sleep 0.02; done
  >   } | prodash-live --no-color --terminal always
  > } 2>frames
  $ grep -ao 'task *3/10 [0-9].* left' frames | sed 's/  */ /' | no_digits
  task 3/10 Ns, Ns left
  $ grep -ao 'task *10/10 in [0-9]*s' frames | sed 's/  */ /' | no_digits
  task 10/10 in Ns
  $ grep -ao 'count *7 files [0-9]*s' frames | sed 's/  */ /' | no_digits
  count 7 files Ns
  $ grep -a group frames | grep -ac '[0-9]s'
  0
  [1]

After ten seconds without a step it says so, and the throughput has fallen to 0.

  $ {
  >   {
  >     printf 'add 0 task\ninit 1 - files/s\n'
  >     for step in $(seq 30); do echo "set 1 $step"; sleep 0.1; done
  >     until grep -qs 'no step' frames; do sleep 0.1; done
  >   } | prodash-live --no-color --terminal always
  > } 2>frames
  $ grep -ao 'task 30 files .*no step for [0-9]*s' frames | no_digits
  task 30 files |0/s| Ns, no step for Ns
