prodash-replay: pages
=====================

The rows that frames leave on a page of 40 columns and 4 rows.

  $ cat >one_task <<END
  > add 0 task
  > init 1 10 -
  > set 1 3
  > tick 0
  > END
  $ cat >each_line <<END
  > add 0 a
  > add 0 b
  > add 1 c
  > init 1 10 -
  > init 2 5 -
  > name 1 task
  > max 1 20
  > max 2 -
  > set 1 18446744073709551615
  > inc 1 4
  > inc 2 2
  > blocked 1
  > halted 2
  > running 1
  > info 1 0 one
  > done 3 0 two
  > fail 2 0 three
  > tick 0
  > drop 3
  > hold 1
  > droproot
  > tick 2
  > quit 3
  > END
  $ prodash-replay page 40 4 <each_line
   task one
      c two
      b three
  
  
  
  
  $ prodash-replay page 40 4 <one_task
   task 3/10 [=======>-------------------]
  
  
  
  $ printf 'add 0 a\nadd 0 b\ntick 0\ndrop 1\ntick 1\n' | prodash-replay page 40 4
   b
  
  
  

A message takes the place of the row, and the closing frame erases the row below it.

  $ { cat one_task; printf 'info 1 0 one\nset 1 4\ntick 1\nquit 2\n'; } | prodash-replay page 40 4
   task one
  
  
  

Nothing is written after a closing frame, and nothing for a message of the root.

  $ prodash-replay page 40 4 <<END
  > add 0 a
  > tick 0
  > info 0 0 one
  > droproot
  > hold 1
  > tick 2
  > quit 3
  > END
  
  
  
  

Rows
====

A row is written without its trailing blanks, and otherwise whole: it may end in a dash.

  $ row() { printf 'add 0 %s\ntick 0\n' "$1" | prodash-replay page "${2-10}" 1; }
  $ row a-
   a-
  
  $ row '- '
   -
  
  $ row '--- -'
   --- -
  
  $ row ' '
  
  

The last line of an input counts, with or without its line feed.

  $ printf 'add 0 a\ntick 0' | prodash-replay page 10 1
   a
  
  $ printf 'add 0 a\ntick 0\n' | prodash-replay page 10 1
   a
  
