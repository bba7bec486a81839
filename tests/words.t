prodash-words
=============

The words of all files are counted once. Each file has a message, and so has the job.

  $ printf 'one two\nthree\n' >first
  $ printf 'four' >second
  $ : >empty
  $ prodash-words first second empty 2>messages
  4 words
  $ sed 's/^ *//' messages | sort
  empty 0 words
  first 3 words
  second 1 words
  words 4 words

There are more files than threads, and one of them has many lines.

  $ seq 100000 >numbers
  $ prodash-words first numbers second empty first numbers 2>messages
  200007 words
  $ sed 's/^ *//' messages | grep -c '^numbers 100000 words$'
  2

No file, a file that isn't there, and an output that can't be written.

  $ prodash-words
  Error: no file is named
  [1]
  $ prodash-words missing
  Error: missing
  
  Caused by:
      No such file or directory (os error 2)
  [1]
  $ prodash-words first 2>messages >/dev/full
  [1]
  $ tail -n 1 messages
  Error: No space left on device (os error 28)
