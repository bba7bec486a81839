calls that are refused memory
=============================

dev/fail-each refuses each allocation of all workloads of `prodash-bench`. Here are two of them
whose calls tell nobody that they were refused: a line of a log, and the report of a dropped task.
`refuse` refuses the first allocation, then the second, and so on until none is, and shows how the
runs ended.

  $ build-failures .
  $ refuse() {
  >   number=0
  >   until [ "$number" -gt 0 ] && [ ! -s refused ]; do
  >     number=$((number + 1))
  >     env REFUSED=$number MARK=9 LD_PRELOAD=./failures.so \
  >       prodash-bench refusals "$1" 9>refused 2>&1
  >   done
  > }

A line that is refused memory is left out, and the next one is whole. No other line is due before
it.

  $ refuse logs | sort -u
  0 refused
  1 refused
  no memory

So is the report of a task. A renderer draws the size that was asked for last.

  $ refuse renders | sort -u
  0 refused
  1 refused
  no memory

Nothing is refused at the end.

  $ prodash-bench refusals logs
  0 refused
  $ prodash-bench refusals renders
  0 refused
