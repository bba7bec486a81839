prodash-examples: audit and batch
=================================

The receipts of all calls agree with the journal, which has a line for each call.

  $ prodash-examples audit >journal 2>shown
  $ tail -n 1 shown
  160 receipts agree
  $ wc -l <journal | tr -d ' '
  160

The order of the lines and the handles differ from run to run. The number of lines of each kind
doesn't.

  $ sed 's/ .*//' journal | sort | uniq -c | sed 's/^ *//'
  16 add
  8 done
  8 drop
  120 inc
  8 init

The tree that the lines rebuild has all jobs at their last step, and a message of each part.

  $ { cat journal; echo 'tick 1'; } | prodash-replay page 40 20 >page
  $ grep -c '^ part is done$' page
  8
  $ grep 15/15 page | sort
   build 15/15 [========================>]
   check 15/15 [========================>]
   clean 15/15 [========================>]
   fetch 15/15 [========================>]
   index 15/15 [========================>]
   merge 15/15 [========================>]
   parse 15/15 [========================>]
   write 15/15 [========================>]

They are the last rows that a view showed of the tree while it was recorded, in the same order, and
so are the messages that were drawn.

  $ grep 15/15 page | sed 's/^ //; s/ \[.*//' >rows
  $ grep 15/15 shown | cmp - rows
  $ grep -c '^ part is done$' shown
  8

A recorded terminal has the rows as the renderer drew them, in frames that erase each row before
they write it. Those of the last frame are the rows that the journal of the same run leads to.

  $ python3 -c 'import pty, sys; pty.spawn(["sh", "-c", sys.argv[1]])' >frames </dev/null \
  >     'NO_COLOR=1 COLUMNS=40 LINES=30 exec prodash-examples audit >journal'
  $ tr -d '\r' <frames | sed -n 's/^.\[2K\( .* \[.*\)/\1/p' | tail -n 8 >drawn
  $ { cat journal; echo 'tick 1'; } | prodash-replay page 40 30 | grep '\[' | cmp - drawn
  $ wc -l <drawn | tr -d ' '
  8

On a terminal the tree is drawn while the threads work. The job `build` is done first, and `write`
last. What is left then are the messages, and below them the last rows.

  $ on-terminal 40 30 <<'END' >window
  > run env COLUMNS=40 LINES=30 NO_COLOR=1 prodash-examples audit check
  > until build 15/15 [
  > ended
  > screen
  > END
  $ head -n 1 window
  status 0
  $ grep -c '^ part is done$' window
  8
  $ grep -c '^[a-z]* 15/15$' window
  8
  $ grep -c '\[' window
  0
  [1]
  $ grep agree window
  160 receipts agree

Without the journal.

  $ prodash-examples audit check 2>&1 | tail -n 1
  160 receipts agree

Arguments other than this word.

  $ prodash-examples audit all
  usage: prodash-examples audit [check]
  [2]
  $ prodash-examples audit check check
  usage: prodash-examples audit [check]
  [2]

An output that can't be written.

  $ prodash-examples audit 2>shown >/dev/full
  [1]
  $ tail -n 1 shown
  output is broken

The batch runner sends a message for each job, and one at the end. Each job has a call for each of
its files, and four more. The row above all has three, and the row of each thread two.

  $ prodash-examples batch 3 2>messages
  83 receipts agree
  $ sed 's/^ *//' messages | sort
  batch all jobs are done
  job 1 is done
  job 2 is done
  job 3 is done
  $ prodash-examples batch
  usage: prodash-examples batch JOBS
  [2]
  $ prodash-examples batch many
  usage: prodash-examples batch JOBS
  [2]

  $ prodash-examples batch 1 2>messages >/dev/full
  [1]
  $ tail -n 1 messages
  output is broken

On a terminal the jobs have rows below those of their threads. At the end the messages are left and
no row, also where the terminal is narrower than the renderer is told.

  $ on-terminal 40 30 <<'END' >window
  > run env -u COLUMNS -u LINES NO_COLOR=1 prodash-examples batch 12
  > until first
  > until job 1
  > ended
  > screen
  > END
  $ head -n 1 window
  status 0
  $ sed 's/^ *//' window | sed '1d; /^$/d' | LC_ALL=C sort
  359 receipts agree
  batch all jobs are done
  job 1 is done
  job 10 is done
  job 11 is done
  job 12 is done
  job 2 is done
  job 3 is done
  job 4 is done
  job 5 is done
  job 6 is done
  job 7 is done
  job 8 is done
  job 9 is done
