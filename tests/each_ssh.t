prodash each -S: commands on other hosts
========================================

Here `ssh` is a script: a host is a folder, and a shell in it that has none of the environment.

  $ export HOSTS=$PWD
  $ export SETSID=$(command -v setsid)
  $ mkdir fake one two bare bare/bin
  $ cat >fake/ssh <<'.'
  > #!/bin/sh
  > # the last two words are the host and what its shell runs
  > while [ $# -gt 2 ]; do shift; done
  > away() { echo "ssh: connect to host $1 port 22: Connection refused" >&2; exit 255; }
  > case $1 in
  >     away) away "$1" ;;
  >     # once, behind the first command
  >     sometimes) ! rm sometimes/away1 2>/dev/null || away "$1" ;;
  >     asks) echo "$1: Permission denied (publickey,password)." >&2; exit 255 ;;
  >     nologin) echo 'This account is currently not available.'; exit 1 ;;
  >     silent) exit 255 ;;
  > esac
  > cd "$HOSTS/$1" || exit
  > path=/usr/bin:/bin
  > [ ! -d bin ] || path=$PWD/bin
  > echo $$ >shell
  > exec env -i HOST="$1" PATH="$path" "$SETSID" sh -c "$2"
  > .
  $ chmod +x fake/ssh
  $ path=$PATH
  $ export PATH=$PWD/fake:$PATH

The commands run there, each line on a host that has room.

  $ printf '1\n2\n' >lines
  $ prodash each -S one,two sh -c 'echo "$1 on $HOST in ${PWD##*/}"; echo "$1 failed" >&2' x <lines 2>told | sort
  1 on one in one
  2 on two in two
  $ sort told
  1 failed
  2 failed
  $ seq 20 >numbers
  $ prodash each -S one,3/two -P 2 echo <numbers | sort -n | cmp - numbers
  $ prodash each --sshlogin two -P 0 echo <numbers | sort -n | cmp - numbers
  $ printf '# both\n  one # slow\n\n2/two\n' >hosts
  $ prodash each --sshloginfile hosts echo <numbers | sort -n | cmp - numbers
  $ prodash each --sshlogin=one -S two sh -c 'echo $HOST' x <lines | sort
  one
  two

`:` is this machine.

  $ prodash each -S one,: sh -c 'echo "$1 ${HOST-here}"' x <lines | sort
  1 one
  2 here

A line is an argument, whatever is in it, and a command has an empty input.

  $ printf "it's\n\$HOST  \"a\\\\\n\n-x\n{}\n" | prodash each -S one echo got
  got it's
  got $HOST  "a\
  got 
  got -x
  got {}
  $ printf 'a\nb\0c\0' | prodash each -0 -S one sh -c 'cat; printf "<%s>\n" "$1"' x
  <a
  b>
  <c>
  $ printf '%0131000d\n' 1 | prodash each -S one sh -c 'echo ${#1}' x
  131000

What commands write comes in whole lines, whatever is in them.

  $ seq 40000 >many
  $ prodash each -S one,two sh -c 'seq $1 2 40000' x <lines | sort -n | cmp - many
  $ head -c 300000 /dev/urandom >one/bytes
  $ echo bytes | prodash each -S one cat | cmp - one/bytes
  $ printf '\036' >>one/bytes
  $ echo bytes | prodash each -S one sh -c 'cat "$1" >&2' x 2>&1 | cmp - one/bytes

How a command fails, and when the rest isn't begun, is as without hosts.

  $ for it in 'exit 0' 'exit 3' 'exit 255' 'exit 137' 'kill -9 $$' 'kill -15 $$'; do
  >     prodash each -S one -n "$it" sh -c "$it" <lines
  >     echo "$?"
  > done
  0
   \xe2\x9c\x97 exit 3 exited with status 3 on one: 1 (esc)
   \xe2\x9c\x97 exit 3 exited with status 3 on one: 2 (esc)
  123
   \xe2\x9c\x97 exit 255 exited with status 255 on one: 1 (esc)
  124
   \xe2\x9c\x97 exit 137 exited with status 137 on one: 1 (esc)
   \xe2\x9c\x97 exit 137 exited with status 137 on one: 2 (esc)
  123
   \xe2\x9c\x97 kill -9 $$ killed by signal 9 on one: 1 (esc)
  125
   \xe2\x9c\x97 kill -15 $$ killed by signal 15 on one: 1 (esc)
  125
  $ printf 'a\nb\0c\n' | prodash each -S one echo
  a
  prodash each: a line has a NUL; with -0 it ends a line
  [1]

A command has a descriptor for event lines. Its words are its own, its numbers too, and an item of
the top is below its row. What it hasn't dropped is dropped at its end.

  $ cat >job <<'.'
  > echo 'add @a 0 part' >&$PRODASH_FD
  > echo "info @a - of $HOST" >&$PRODASH_FD
  > printf 'add @b @a below\r\ndrop @a\nadd 0 third\ninfo 3 - by number\n' >&$PRODASH_FD
  > printf 'info @b - the end is missing' >&$PRODASH_FD
  > .
  $ cp job one
  $ cp job two
  $ echo job | prodash each -S one,two --record=events -- sh
   part of one
   third by number
   below the end is missing
  $ grep -e ^add -e ^drop events
  add 0 sh
  add 1 one: job
  add 2 part
  add 3 below
  drop 3
  add 2 third
  drop 5
  drop 4
  drop 2
  drop 1

Text that looks like a line is none, and a line tears no text.

  $ cat >one/job <<'.'
  > echo 'add @a 0 part' >&2
  > printf 'half a ' >&2
  > echo 'print printed' >&$PRODASH_FD
  > echo 'inc @none 1' >&$PRODASH_FD
  > echo 'line' >&2
  > .
  $ echo job | prodash each -S one sh 2>&1 | sed 's/@each[-0-9]*/@ROW/g' | sort
   \xe2\x9c\x97 input line 5: no item @ROW/@none, in: inc @ROW/@none 1 (esc)
  add @a 0 part
  half a line
  printed

A host needs nothing but sh.

  $ ln -s "$(command -v sh)" bare/bin/sh
  $ echo 'echo "add @a 0 part" >&$PRODASH_FD; echo "done @a $1" >&$PRODASH_FD' >bare/job
  $ echo word | prodash each -S bare sh job
   \xe2\x9c\x93 part word (esc)

One that doesn't have the program has no command.

  $ prodash each -S bare,one expr 1 + <lines 2>told | sort
  2
  3
  $ cat told
   \xe2\x9c\x97 expr cannot run on bare: expr: not found (esc)

A process that the command leaves behind is neither waited for nor ended, if its output is
elsewhere.

  $ mkfifo two/late
  $ cat >two/job <<'.'
  > { read _ <late; echo 'print late' >&$PRODASH_FD; echo 'print later' >&$PRODASH_FD; : >lives; } >/dev/null 2>&1 &
  > .
  $ echo job | prodash each -S two sh
  $ echo >two/late
  $ until [ -e two/lives ]; do sleep 0.05; done

A host that can't be reached has no command, and its lines go to others. Where ssh would ask, it
fails.

  $ prodash each -S away,one echo got <lines 2>told
  got 2
  got 1
  $ cat told
   \xe2\x9c\x97 echo cannot run on away: ssh: connect to host away port 22: Connection refused (esc)
  $ prodash each -S asks,nologin,silent,one echo got <lines 2>&1 | sort
   \xe2\x9c\x97 echo cannot run on asks: asks: Permission denied (publickey,password); ssh asks nothing here: the host has to be known, and a key be enough (esc)
   \xe2\x9c\x97 echo cannot run on nologin: This account is currently not available. (esc)
   \xe2\x9c\x97 echo cannot run on silent: ssh has ended with status 255 (esc)
  got 1
  got 2
  $ prodash each -S away echo got <lines 2>told
  [1]
  $ sort told
   \xe2\x9c\x97 echo cannot run on away: ssh: connect to host away port 22: Connection refused (esc)
  prodash each: no host is left: 2 of 2 lines were not run

One that was reached before is tried again after two seconds.

  $ mkdir sometimes
  $ prodash each -S sometimes sh -c ': >away$1; echo "$1 on $HOST"' x <lines
  1 on sometimes
   sh cannot run on sometimes, trying again: ssh: connect to host sometimes port 22: Connection refused
  2 on sometimes

A command whose connection ends before it does has failed, and is ended there.

  $ mkfifo one/never
  $ echo 'trap ": >hung-up; exit" HUP; kill -9 $(cat shell); read _ 2>&- <never' >one/job
  $ echo 'echo end of $HOST' >two/job
  $ printf 'job\njob\n' >jobs
  $ prodash each -S one,two sh <jobs 2>told
  end of two
  [123]
  $ cat told
   \xe2\x9c\x97 sh lost the connection to one: job (esc)
  $ until [ -e one/hung-up ]; do sleep 0.05; done

On a terminal the rows of each command are below its own. Ctrl-C ends the commands on all hosts, and
leaves no row.

  $ export TERM=xterm
  $ unset COLUMNS LINES NO_COLOR
  $ mkfifo one/go two/go
  $ cat >one/job <<'.'
  > trap ': >over; exit' HUP
  > echo "add @a 0 part of $HOST" >&$PRODASH_FD
  > echo 'init @a 4 files' >&$PRODASH_FD
  > echo 'inc @a 2' >&$PRODASH_FD
  > read _ 2>&- <go
  > echo "end of $HOST"
  > .
  $ cp one/job two
  $ on-terminal 60 8 <<'.'
  > run prodash each -S one,two --no-color --no-times -- sh <jobs
  > until part of one 2/4
  > until part of two 2/4
  > tell one/go
  > until end of one
  > gone one: job
  > screen
  > keys \x03
  > ended
  > screen
  > modes
  > file two/over
  > .
  end of one
   sh                  1/2 [================>----------------]
    two: job
     part of two 2/4 files [================>----------------]
  signal SIGINT
  end of one
  same modes

A signal for `prodash each` alone ends them, too.

  $ rm two/over
  $ on-terminal 60 8 <<'.'
  > run prodash each -S two --no-color -- sh <jobs
  > until 2/4
  > one TERM
  > ended
  > file two/over
  > .
  signal SIGTERM

Words that are wrong, and ssh that isn't there.

  $ prodash each -S one -x 2>&1 | head -n 1
  prodash each: no command
  $ prodash each -S 2>&1 | head -n 1
  prodash each: -S takes hosts, as build1,build2, not ''
  $ prodash each -S one,,two echo 2>&1 | head -n 1
  prodash each: -S takes hosts, as build1,build2, not ''
  $ prodash each --sshlogin=-oProxyCommand=x echo 2>&1 | head -n 1
  prodash each: --sshlogin takes hosts, as build1,build2, not '-oProxyCommand=x'
  $ prodash each --sshloginfile nothing echo 2>&1 | head -n 1
  prodash each: --sshloginfile nothing: No such file or directory
  $ prodash each --sshloginfile /dev/null echo 2>&1 | head -n 1
  prodash each: --sshloginfile /dev/null: no host in it
  $ echo 'one two' >hosts
  $ prodash each --sshloginfile hosts echo 2>&1 | head -n 1
  prodash each: --sshloginfile hosts: 'one two' is no host
  $ python=$(python3 -c 'import sys; print(sys.executable)')
  $ PATH=nowhere "$python" -I -S "$(command -v prodash)" each -S one echo <lines
  prodash each: ssh: No such file or directory
  prodash each: ssh runs the commands on other hosts, and is part of OpenSSH
  [127]
