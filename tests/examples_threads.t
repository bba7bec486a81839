prodash-examples: threads
=========================

Off a terminal each message is a line.

  $ unset COLUMNS LINES NO_COLOR
  $ prodash-examples threads 2>messages
  $ sed 's/^ *//' messages | sort
  compress is done
  fetch is done
  index is done
  job is done
  verify is done

On a terminal there are rows, with the size and the colours that the environment asks for.

  $ on_terminal() {
  >     python3 -c 'import pty, sys; pty.spawn(["sh", "-c", sys.argv[1]])' "$1" </dev/null
  > }
  $ on_terminal 'COLUMNS=30 NO_COLOR=1 exec prodash-examples threads' >frames
  $ grep -o 'job 0/4 .*-]' frames | head -n 1
  job 0/4 [>------------------]
  $ on_terminal 'exec prodash-examples threads' >frames
  $ grep -o '.\[1;36mjob' frames | head -n 1
  \x1b[1;36mjob (esc)

Each part takes twenty steps of a twentieth of a second, and the job a step for each part. That they
are done is told as a success, which is green.

  $ began=$(date +%s%N)
  $ on_terminal 'exec prodash-examples threads' >frames
  $ [ $((($(date +%s%N) - began) / 1000000)) -ge 1000 ]
  $ grep -c '\[1;32mis done' frames
  5
  $ on_terminal 'NO_COLOR=1 exec prodash-examples threads' >frames
  $ grep -q '[a-z] *[0-9]*/20 \[' frames
  $ grep -o 'job *4/4' frames | tr -s ' ' | head -n 1
  job 4/4

What counts is whether standard error is a terminal, not standard output.

  $ on_terminal 'exec prodash-examples threads 2>messages' >frames
  $ wc -c <frames | tr -d ' '
  0
  $ sed 's/^ *//' messages | sort | head -n 1
  compress is done
