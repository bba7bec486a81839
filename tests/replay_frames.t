prodash-replay: frames
======================

A task on 40 columns and 20 rows. The frame is its row, and then the cursor goes up to it.

  $ cat >one_task <<END
  > add 0 task
  > init 1 10 -
  > set 1 3
  > tick 0
  > END
  $ prodash-replay bytes 40 20 <one_task
   task 3/10 [=======>-------------------]
  \x1b[1A (no-eol) (esc)

The last line may lack its line feed.

  $ printf 'add 0 task\ninit 1 10 -\nset 1 3\ntick 0' | prodash-replay bytes 40 20
   task 3/10 [=======>-------------------]
  \x1b[1A (no-eol) (esc)

Nothing is drawn while rows are hidden, nor without events.

  $ prodash-replay bytes 40 20 <<END
  > add 0 task
  > init 1 10 -
  > set 1 3
  > hold 0
  > END
  $ prodash-replay bytes 40 20 </dev/null

A handle that was never made prints nothing.

  $ echo 'set 1 3' | prodash-replay bytes 40 20

Twenty digits, and an empty name.

  $ printf 'add 0 \ninit 1 10 -\nset 1 00000000000000000003\ntick 0\n' | prodash-replay bytes 40 20
    3/10 [=========>---------------------]
  \x1b[1A (no-eol) (esc)
  $ printf 'add 0 \nset 1 00000000000000000003\ntick 0\n' | prodash-replay bytes 40 20
   
  \x1b[1A (no-eol) (esc)

Messages. The rows are hidden, and the closing frame erases the line below the messages.

  $ printf 'add 0 task\ndone 1 0 one\nfail 1 1 \nhold 2\nquit 3\n' | prodash-replay bytes 40 20
   task one
   task 
  \x1b[2K\r (no-eol) (esc)

Every kind of line: messages, rows, and the closing frame.

  $ cat >each_line <<END
  > add 0 a
  > add 0 b
  > add 1 c
  > init 1 10 -
  > init 2 5 -
  > name 1 task
  > max 1 20
  > max 2 -
  > set 1 18446744073709551615
  > inc 1 4
  > inc 2 2
  > blocked 1
  > halted 2
  > running 1
  > info 1 0 one
  > done 3 0 two
  > fail 2 0 three
  > tick 0
  > drop 3
  > hold 1
  > droproot
  > tick 2
  > quit 3
  > END
  $ prodash-replay bytes 40 20 <each_line
   task one
      c two
      b three
   task 3/20 [===>-----------------------]
    c
   b 2 [  ===   ===   ===   ===   ===   =]
  \x1b[3A                                         (esc)
     
                                          
  \x1b[3A\x1b[2K\r (no-eol) (esc)

Handles that no item has.

  $ prodash-replay bytes 40 20 <<END
  > name 0 a
  > max 1 3
  > inc 1 3
  > blocked 1
  > halted 0
  > running 7
  > END

A resize draws the rows again, on 30 columns.

  $ { cat one_task; echo 'resize 1 30 4'; } | prodash-replay bytes 40 20
   task 3/10 [=======>-------------------]
  \x1b[1A task 3/10 [====>------------]           (esc)
  \x1b[1A (no-eol) (esc)

Throughput is measured: five steps of 400 milliseconds, and the rate of the last 1.2 seconds.

  $ prodash-replay bytes 40 20 >frames <<END
  > add 0 t
  > init 1 100 items/s
  > tick 0
  > set 1 10
  > tick 400000000
  > set 1 20
  > tick 800000000
  > set 1 30
  > tick 1200000000
  > set 1 50
  > tick 1600000000
  > END
  $ tail -n 2 frames
  \x1b[1A t 50/100 items |33/s| [=======>-------] (esc)
  \x1b[1A (no-eol) (esc)

An input of a thousand frames, which comes in pieces of seven bytes. The rows are those of the last.

  $ {
  >   printf 'add 0 task\ninit 1 1000 -\n'
  >   i=0
  >   while [ $i -lt 1000 ]; do i=$((i + 1)); echo "inc 1 1"; echo "tick $i"; done
  > } >thousand
  $ dd bs=7 <thousand 2>/dev/null | prodash-replay page 40 4
   task 1000/1000 [=====================>]
  
  
  

Options
=======

Defensive frames draw the rows that fit, and a line that says how many are hidden. Below a message,
the row is erased and drawn again.

  $ printf 'add 0 a\nadd 0 b\nadd 0 c\nadd 0 d\nadd 0 e\ntick 0\n' >five
  $ prodash-replay page 40 4 --defensive <five
   a
   b
   \xe2\x80\xa6 and 3 more (esc)
  

With `--prefer-running` the rows of running tasks are drawn first, then those above them, and in the
order of the tree: `b` has finished, `c` waits, and `d` and `f` run.

  $ {
  >   printf 'add 0 a\nadd 1 b\nadd 1 c\nadd 1 d\nadd 1 e\nadd 1 f\n'
  >   for n in 2 3 4 5 6; do echo "init $n 3 -"; done
  >   printf 'set 2 3\nset 4 1\nset 6 2\ntick 0\n'
  > } >six
  $ prodash-replay page 20 5 --defensive <six
   a
    b 3/3 [=========>]
    c 0/3 [>---------]
   \xe2\x80\xa6 and 3 more (esc)
  
  $ prodash-replay page 20 5 --defensive --prefer-running <six
   a
    d 1/3 [===>------]
    f 2/3 [======>---]
   \xe2\x80\xa6 and 3 more (esc)
  
  $ prodash-replay page 20 4 --defensive --prefer-running <six
    d 1/3 [===>------]
    f 2/3 [======>---]
   \xe2\x80\xa6 and 4 more (esc)
  

Frames that erase no rows draw all.

  $ prodash-replay page 20 5 --prefer-running <six | grep -c /3
  5

On a window of two rows there is only the line that says how many are hidden.

  $ prodash-replay bytes 40 2 --defensive <five | tr '\033' E
  \rE[?7lE[2K \xe2\x80\xa6 and 5 more (esc)
  E[JE[1AE[?7h (no-eol)
  $ printf 'add 0 a\ntick 0\ninfo 1 1 one\ntick 1\nquit 2\n' | prodash-replay bytes 40 4 --defensive | tr '\r\033' RE
  RE[?7lE[2K a
  E[JE[1AE[?7hRE[?7lE[2K a one
  E[2K a
  E[JE[1AE[?7hRE[?7lE[2K
  E[JE[1AE[?7h (no-eol)

In colour. Both options may be given, in any order. A page shows no styles.

  $ printf 'add 0 a\ntick 0\n' | prodash-replay bytes 40 4 --colored | tr '\033' E
   E[1;37maE[0m
  E[1A (no-eol)
  $ printf 'add 0 a\ntick 0\n' | prodash-replay bytes 40 4 --colored --defensive | tr '\r\033' RE
  RE[?7lE[2K E[1;37maE[0m
  E[JE[1AE[?7h (no-eol)
  $ printf 'add 0 a\ntick 0\n' | prodash-replay page 40 2 --defensive --colored
   a
  

Defensive frames write U+FFFD in place of each control character of a name or a message. Others
write each byte as it is.

  $ printf 'add 0 \033[2J\ttab\ntick 0\ninfo 1 1 \007bell\ntick 1\n' >controls
  $ prodash-replay bytes 40 4 --defensive <controls | tr '\r\033' RE
  RE[?7lE[2K \xef\xbf\xbd[2J\xef\xbf\xbdtab (esc)
  E[JE[1AE[?7hRE[?7lE[2K \xef\xbf\xbd[2J\xef\xbf\xbdtab \xef\xbf\xbdbell (esc)
  E[2K \xef\xbf\xbd[2J\xef\xbf\xbdtab (esc)
  E[JE[1AE[?7h (no-eol)
  $ prodash-replay bytes 40 4 <controls | tr '\033\t\007' ETB
   E[2JTtab
  E[1A E[2JTtab Bbell
