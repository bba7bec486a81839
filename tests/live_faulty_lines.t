prodash-live: faulty lines
==========================

Each of these lines is wrong in one way. `told` prints what is reported, without its origin. The
status of prodash-live is 2.

  $ unset COLUMNS LINES NO_COLOR
  $ told() { prodash-live --stdout >output; echo "status $?"; sed 's/^.*input //' output; }
  $ told <<'END'
  > foo 1
  > foo
  >  drop 1
  > tick 0
  > hold 0
  > resize 0 40 4
  > quit
  > droproot 1
  > add @ 0 a
  > add @
  > set a 3
  > drop @
  > blocked
  > info 0 now a
  > fail 0
  > set 1 3 4
  > inc 1 -
  > set 1 18446744073709551616
  > set 1
  > max 1 ten
  > init 1
  > init 1 ten files
  > init 1 10 a%b
  > init 1 10 %files%
  > init 1 10 files/m
  > init 1 10 %
  > init 1 10 
  > init 1 10 two words
  > size 0 4
  > size 40 65536
  > size 40
  > add 0
  > name 1
  > info 0 -
  > set 9 3
  > drop @a
  > set 1 +3
  > inc @a 1
  > info 1 5
  > print
  > END
  status 2
  line 1: unknown command "foo", in: foo 1
  line 2: unknown command "foo", in: foo
  line 3: unknown command "", in:  drop 1
  line 4: "tick" isn't allowed here: prodash-live draws the frames, in: tick 0
  line 5: "hold" isn't allowed here: prodash-live draws the frames, in: hold 0
  line 6: "resize" isn't allowed here: prodash-live draws the frames, in: resize 0 40 4
  line 7: "quit" isn't allowed here: prodash-live draws the frames, in: quit
  line 8: unexpected "1" after droproot, in: droproot 1
  line 9: "@" needs a word after it, as in @file, in: add @ 0 a
  line 10: "@" needs a word after it, as in @file, in: add @
  line 11: "a" is no item (its number, or @ and its word), in: set a 3
  line 12: "@" is no item (its number, or @ and its word), in: drop @
  line 13: the item is missing (its number, or @ and its word), in: blocked
  line 14: 0 is the root, not an item, in: info 0 now a
  line 15: the text is missing, in: fail 0
  line 16: "3 4" is no number (0 to 18446744073709551615), in: set 1 3 4
  line 17: "-" is no number (0 to 18446744073709551615), in: inc 1 -
  line 18: "18446744073709551616" is no number (0 to 18446744073709551615), in: set 1 18446744073709551616
  line 19: the number is missing (0 to 18446744073709551615), in: set 1
  line 20: "ten" is no maximum (a number, or - for none), in: max 1 ten
  line 21: the maximum is missing (a number, or - for none), in: init 1
  line 22: "ten" is no maximum (a number, or - for none), in: init 1 ten files
  line 23: "a%b" is no unit (a name as files, files% or files/s, or - for none), in: init 1 10 a%b
  line 24: "%files%" is no unit (a name as files, files% or files/s, or - for none), in: init 1 10 %files%
  line 25: "files/m" is no unit (a name as files, files% or files/s, or - for none), in: init 1 10 files/m
  line 26: "%" is no unit (a name as files, files% or files/s, or - for none), in: init 1 10 %
  line 27: "" is no unit (a name as files, files% or files/s, or - for none), in: init 1 10 
  line 28: "two words" is no unit (a name as files, files% or files/s, or - for none), in: init 1 10 two words
  line 29: "0" is no number of columns (1 to 65535), in: size 0 4
  line 30: "65536" is no number of rows (1 to 65535), in: size 40 65536
  line 31: the number of rows is missing (1 to 65535), in: size 40
  line 32: the name is missing, in: add 0
  line 33: the name is missing, in: name 1
  line 34: the text is missing, in: info 0 -
  line 35: no item 9, in: set 9 3
  line 36: no item @a, in: drop @a
  line 37: "+3" is no number (0 to 18446744073709551615), in: set 1 +3
  line 38: no item @a, in: inc @a 1
  line 39: the text is missing, in: info 1 5
  line 40: the text is missing, in: print

An item below one at the sixth level would take its parent's place. It isn't added, and gets no
handle.

  $ told <<'END'
  > add @a 0 a
  > add @b @a b
  > add @c @b c
  > add @d @c d
  > add @e @d e
  > add @f @e f
  > add 6 g
  > add @g @f g
  > add @g @e g
  > info @f - one
  > info 7 - two
  > set 99 3
  > END
  status 2
  line 7: no item can be below @f, which is on the last of six levels, in: add 6 g
  line 8: no item can be below @f, which is on the last of six levels, in: add @g @f g
         f one
         g two
  line 12: no item 99, in: set 99 3

What isn't UTF-8 is U+FFFD in a faulty line, too. A line that is too long, and one that is cut off.

  $ { printf 'set @\377 1\n'; head -c 65537 /dev/zero | tr '\0' a; printf '\nset 1 10'; } | told
  status 2
  line 1: no item @\xef\xbf\xbd, in: set @\xef\xbf\xbd 1 (esc)
  line 2: the line is longer than 65536 bytes, in: aaaaaaaaaaaaaaaaaaaaaaaaaaaaaaaaaaaaaaaaaaaaaaaaaaaaaaaaaaaa
  line 3: the line is cut off: it has no line feed, in: set 1 10

At most 60 characters of a line or a word are shown, and no unsafe characters.

  $ sixty=$(printf '%060d' 0)
  $ printf "$sixty\n${sixty}1\n${sixty}1 a\nset 1 ${sixty}1\n" | told | tr 0 .
  status 2
  line 1: unknown command "............................................................", in: ............................................................
  line 2: unknown command "............................................................", in: ............................................................
  line 3: unknown command "............................................................", in: ............................................................
  line 4: "............................................................" is no number (. to 18446744.737.9551615), in: set 1 ......................................................
  $ printf 'a\033b\tc\177d\302\233e\303\251\n' | told
  status 2
  line 1: unknown command "a\xef\xbf\xbdb\xef\xbf\xbdc\xef\xbf\xbdd\xef\xbf\xbde\xc3\xa9", in: a\xef\xbf\xbdb\xef\xbf\xbdc\xef\xbf\xbdd\xef\xbf\xbde\xc3\xa9 (esc)

With `--strict` the first faulty line is reported in the same words.

  $ printf 'add @a 0 a\ninit @a 10 a b\nfoo\n' | prodash-live --strict
  line 2: "a b" is no unit (a name as files, files% or files/s, or - for none), in: init @a 10 a b
  [2]
  $ printf 'a\033b\302\233\n' | prodash-live --strict
  line 1: unknown command "a\xef\xbf\xbdb\xef\xbf\xbd", in: a\xef\xbf\xbdb\xef\xbf\xbd (esc)
  [2]
  $ printf 'a\342\200\256b\n' | prodash-live --strict
  line 1: unknown command "a\xef\xbf\xbdb", in: a\xef\xbf\xbdb (esc)
  [2]

It ends the program: a line that is no event, one with an invalid handle, and one that is cut off.
The rows are erased.

  $ strict() { printf "$1" | prodash-live --strict --stdout --terminal always >frames; }
  $ strict 'add @a 0 a\nset a 1\nset @b 1\n'
  line 2: "a" is no item (its number, or @ and its word), in: set a 1
  [2]
  $ strict 'add @a 0 a\nset @b 1\nset a 1\n'
  line 2: no item @b, in: set @b 1
  [2]
  $ strict 'add @a 0 a\nset @a 1'
  line 2: the line is cut off: it has no line feed, in: set @a 1
  [2]
  $ tail -c 20 frames | grep -o '\[J'
  [J

Failures
========

A faulty line is reported as a failure, in red, and sets the status.

  $ echo bad | prodash-live --terminal always 2>frames
  [2]
  $ grep -o ' .\[2minput.*' frames
   \x1b[2minput\x1b[0m \x1b[1;31mline 1: unknown command "bad", in: bad\x1b[0m (esc)

So does a last line without a line feed, which isn't applied.

  $ printf 'add 0 a\ninfo 1 0 b' | prodash-live
   \xe2\x9c\x97 input line 2: the line is cut off: it has no line feed, in: info 1 0 b (esc)
  [2]

A line that is longer than 65536 bytes doesn't affect the lines after it.

  $ {
  >   printf 'add 0 '
  >   head -c 65531 /dev/zero | tr '\0' a
  >   printf '\nadd 0 a\ninfo 1 - one\n'
  > } | prodash-live
   \xe2\x9c\x97 input line 1: the line is longer than 65536 bytes, in: add 0 aaaaaaaaaaaaaaaaaaaaaaaaaaaaaaaaaaaaaaaaaaaaaaaaaaaaaa (esc)
         a one
  [2]
