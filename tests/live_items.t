prodash-live: items
===================

`until_shown` keeps the input of a command open until a text is in the file `frames`. `last_rows`
shows the rows drawn last before the closing frame.

  $ until_shown() {
  >   text=$1; shift
  >   { cat; until grep -qs "$text" frames; do sleep 0.02; done; } | "$@"
  > }
  $ last_rows() { tail -n $((2 * $1 + 1)) frames | head -n "$1" | sed 's/.*\[2K//'; }

A child of an item whose handle is above 1, a child of that child, and a second item of a word, which
isn't added.

  $ until_shown last prodash-live --terminal always --no-color 2>frames <<END
  > add 0 a
  > add 0 b
  > add 2 c
  > add 3 d
  > add @e 0 first
  > add @e 0 second
  > add 0 last
  > END
  [2]
  $ last_rows 6 | sed 's/ *$//'
   a
   b
    c
     d
   first
   last

Such a line is faulty, and changes nothing: the next item gets its number.

  $ printf 'add @a 0 a\nadd @a 9 b\nadd 0 c\ninfo 2 one\ninfo @a two\n' | prodash-live --stdout
   \xe2\x9c\x97 input line 2: @a is the word of another item (drop it, or use --replace-words), in: add @a 9 b (esc)
         c one
         a two
  [2]
  $ printf 'add @a 0 a\nadd @a 0 b\n' | prodash-live --strict
  line 2: @a is the word of another item (drop it, or use --replace-words), in: add @a 0 b
  [2]

With `--replace-words` the second item takes the place of the first.

  $ printf 'add @e 0 first\nadd @e 0 second\nadd 0 last\n' |
  >   until_shown last prodash-live --replace-words --terminal always --no-color 2>frames
  $ last_rows 2 | sed 's/ *$//'
   second
   last

The word of a dropped item may be used again.

  $ printf 'add @a 0 a\ndrop @a\nadd @a 0 a\n' | prodash-live --strict

The root can be dropped once, and then takes no more children.

  $ printf 'add 0 a\ndroproot\n' | prodash-live
  $ printf 'add 0 a\ndroproot\ndroproot\n' | prodash-live
  [2]
  $ printf 'droproot\nadd 0 a\n' | prodash-live --strict
  line 2: the root was already dropped, in: add 0 a
  [2]
  $ printf 'droproot\ndroproot\n' | prodash-live --strict
  line 2: the root was already dropped, in: droproot
  [2]
