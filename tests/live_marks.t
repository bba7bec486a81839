prodash-live: marks
===================

A program that passes frames on finds their ends by `--marks`: a NUL, which no frame has, behind each
frame. The first one comes before all frames, once the options are right.

  $ prodash-live --marks --terminal always </dev/null
  \x00\r\x1b[?7l\x1b[J\x1b[?7h\x00\r\x1b[?7l\x1b[J\x1b[?7h\x00 (no-eol) (esc)
  $ printf 'add @a 0 alpha\ninfo @a 0 one\n' | prodash-live --marks --stdout
  \x00 alpha one (esc)
  \x00 (no-eol) (esc)

What isn't part of a frame has no mark behind it.

  $ printf 'foo\n' | prodash-live --marks --strict
  \x00line 1: unknown command "foo", in: foo (esc)
  [2]
  $ prodash-live --marks --rows 0 </dev/null 2>&1 | sed -n 1p
  error: invalid value '0' for '--rows', which takes a number from 1 to 65535
  $ prodash-live --marks --record nowhere/file </dev/null
  cannot write nowhere/file: No such file or directory (os error 2)
  [1]

An output that doesn't take a mark is broken.

  $ prodash-live --marks --stdout </dev/null >/dev/full
  cannot write to standard output: No space left on device (os error 28)
  [1]
