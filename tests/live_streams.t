prodash-live: streams
=====================

An empty input gets a frame without rows and the closing frame.

  $ prodash-live --terminal always </dev/null
  \x1b[?2026h\r\x1b[?7l\x1b[J\x1b[?7h\x1b[?2026l\x1b[?2026h\r\x1b[?7l\x1b[J\x1b[?7h\x1b[?2026l (no-eol) (esc)

An input that can't be read, and an output that can't be written.

  $ prodash-live <.
  cannot read standard input: Is a directory (os error 21)
  [1]
  $ echo 'add @a 0 a' | prodash-live --stdout --terminal always >/dev/full
  cannot write to standard output: No space left on device (os error 28)
  [1]
  $ printf 'add @a 0 a\ninfo @a 0 one\n' | prodash-live --stdout >/dev/full
  cannot write to standard output: No space left on device (os error 28)
  [1]

Once the output is broken, no more of the input is read, whatever its lines ask for.

  $ endless() { echo 'add 0 a'; yes "$1"; }
  $ endless 'set 1 3' | timeout 60 prodash-live --stdout --terminal always >/dev/full
  cannot write to standard output: No space left on device (os error 28)
  [1]
  $ endless 'running 1' | timeout 60 prodash-live --stdout --terminal always >/dev/full
  cannot write to standard output: No space left on device (os error 28)
  [1]
