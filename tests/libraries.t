prodash.sh and prodash.py: libraries for scripts
================================================

They write event lines. Here the lines go to a file, in which each word is replaced by its number.

  $ cat >number.py <<'.'
  > import re, sys
  > seen = {}
  > def number(found):
  >     return seen.setdefault(found[0], f"@{len(seen) + 1}")
  > for line in sys.stdin:
  >     print(end=re.sub("@[0-9a-f]{16}", number, line))
  > .
  $ lines() { rm -f it; PRODASH_FD=3 "$@" 3>it && python3 number.py <it; }
  $ export PYTHONPATH="$(prodash --lib python)" PYTHONDONTWRITEBYTECODE=1

A shell script.

  $ cat >job.sh <<'.'
  > set -eu
  > . "$(prodash --lib sh)"
  > IFS=,
  > all=$(prodash_task compress 3 files)
  > prodash_step "$all"
  > prodash_step "$all" 2
  > prodash_set "$all" 1
  > part=$(prodash_child "$all" "a part" - bytes/s)
  > prodash_say half  of 'it  \n%s'
  > prodash_done "$part"
  > prodash_done "$all" '3 files'
  > lost=$(prodash_task lost)
  > prodash_fail "$lost"
  > prodash_fail "$lost" "it is lost"
  > .
  $ lines sh job.sh
  add @1 0 compress
  init @1 3 files
  inc @1 1
  inc @1 2
  set @1 1
  add @2 @1 a part
  init @2 - bytes/s
  add @3 0 job.sh
  info @3 - half of it  \n%s
  drop @3
  drop @2
  done @1 - 3 files
  drop @1
  add @4 0 lost
  fail @4 - failed
  drop @4
  fail @4 - it is lost
  drop @4

It writes the same in each shell.

  $ for shell in dash bash 'bash --posix' 'busybox sh' mksh ksh yash; do
  >     ! command -v ${shell%% *} >/dev/null || lines $shell job.sh | cksum
  > done | sort -u | wc -l
  1

A Python script.

  $ cat >job.py <<'.'
  > from prodash import Task, pass_fds, say, track
  > for it in track(["a", "b"], "compress", unit="files"):
  >     pass
  > for it in track(iter("abc"), "search"):
  >     if it == "b":
  >         break
  > with Task("download", total=3, unit="files") as task:
  >     task.step()
  >     task.set(2)
  >     task.say("one")
  >     with task.child("a part", unit="bytes/s") as part:
  >         part.step(5)
  >         part.done("whole")
  >         part.step()
  >     for it in track([1], "parts", parent=task):
  >         pass
  > say("half of it")
  > for error in ValueError("it is lost"), KeyError(), KeyboardInterrupt("no"):
  >     try:
  >         with Task("lost"):
  >             raise error
  >     except BaseException as raised:
  >         assert raised is error
  > assert pass_fds() in [(), (3,)]
  > .
  $ lines python3 job.py
  add @1 0 compress
  init @1 2 files
  inc @1 1
  inc @1 1
  drop @1
  add @2 0 search
  inc @2 1
  drop @2
  add @3 0 download
  init @3 3 files
  inc @3 1
  set @3 2
  info @3 - one
  add @4 @3 a part
  init @4 - bytes/s
  inc @4 5
  done @4 - whole
  drop @4
  add @5 @3 parts
  init @5 1 -
  inc @5 1
  drop @5
  drop @3
  add @6 0 job.py
  info @6 - half of it
  drop @6
  add @7 0 lost
  fail @7 - it is lost
  drop @7
  add @8 0 lost
  fail @8 - KeyError
  drop @8
  add @9 0 lost
  drop @9

A name stays one line, without control characters. One that is too long is cut, between two of its
characters.

  $ cat >names.sh <<'.'
  > . "$(prodash --lib sh)"
  > prodash_task "$(printf 'a\nb\tc\033[2J\r')" >/dev/null
  > prodash_task "$(printf '%0975d\303\251 more\n%01000d' 0 0)" >/dev/null
  > .
  $ cat >names.py <<'.'
  > from prodash import Task
  > Task("a\nb\tc\033[2J\r")
  > Task("0" * 975 + "\N{LATIN SMALL LETTER E WITH ACUTE} more")
  > Task("\udcff")
  > .
  $ lines sh names.sh >long; head -n 1 long
  add @1 0 a b c [2J 
  $ tail -n 1 it | wc -c
  1000
  $ tail -n 1 long | tr -d 0
  add @2  
  $ lines python3 names.py >long; head -n 1 long; tail -n 1 long
  add @1 0 a b c [2J 
  add @3 0 ?
  $ sed -n 2p it | wc -c
  1002

Nothing is written, said or raised without a descriptor, or with one that is closed or stale.

  $ for job in 'sh job.sh' 'python3 job.py'; do
  >     $job; echo $?
  >     PRODASH_FD= $job; echo $?
  >     PRODASH_FD=x $job; echo $?
  >     PRODASH_FD=3 $job; echo $?
  >     PRODASH_FD=3 PRODASH_FD_ID=1:1 $job 3>>stale; echo $?
  >     PRODASH_FD=3 $job 3>/dev/full; echo $?
  > done | sort -u
  0
  $ wc -c <stale
  0

Nor if the descriptor is closed later, and is then that of another file, or if nobody reads there
any more.

  $ cat >late.py <<'.'
  > import os
  > reads, writes = os.pipe()
  > found = os.fstat(writes)
  > os.environ.update(PRODASH_FD=str(writes), PRODASH_FD_ID=f"{found.st_dev}:{found.st_ino}")
  > from prodash import Task, pass_fds
  > with Task("one") as task:
  >     print(os.read(reads, 4096)[:4], pass_fds() == (writes,))
  >     kept = os.dup(writes)
  >     os.dup2(os.open("other", os.O_WRONLY | os.O_CREAT), writes)
  >     task.step()
  >     print(pass_fds())
  >     os.dup2(kept, writes)
  >     task.step(2)
  >     print(os.read(reads, 4096)[:3])
  >     os.close(reads)
  >     task.step()
  > print(pass_fds())
  > .
  $ python3 late.py
  b'add ' True
  ()
  b'inc'
  ()
  $ wc -c <other
  0

A pipe that is full and doesn't block, since another process of the job has set that.

  $ cat >full.py <<'.'
  > import os, select, threading
  > reads, writes = os.pipe()
  > os.set_blocking(writes, False)
  > os.environ["PRODASH_FD"] = str(writes)
  > from prodash import Task
  > task = Task("many")
  > def read():
  >     with open(reads) as it:
  >         print([line[21:] for line in it if line.startswith("inc")])
  > reader = threading.Thread(target=read)
  > def waits(poll=select.poll):
  >     reader.start()
  >     return poll()
  > select.poll = waits
  > try:
  >     while True:
  >         os.write(writes, b"# full\n")
  > except BlockingIOError:
  >     task.step(2)
  > os.close(writes)
  > reader.join()
  > .
  $ python3 full.py
  [' 2\n']

Four processes of one script, and eight threads of one: each line is whole, and each word is of
one task.

  $ cat >many.sh <<'.'
  > . "$(prodash --lib sh)"
  > for job in 1 2 3 4; do
  >     for n in $(seq 25); do
  >         task=$(prodash_task "job $job" 10 files)
  >         prodash_step "$task"
  >         prodash_done "$task" "$n is done"
  >     done &
  > done
  > wait
  > .
  $ cat >many.py <<'.'
  > import os, threading
  > from prodash import Task
  > def work(job):
  >     for n in range(1, 26):
  >         with Task(f"job {job % 4 + 1}", total=10, unit="files") as task:
  >             task.step()
  >             task.done(f"{n} is done")
  > threads = [threading.Thread(target=work, args=[job]) for job in range(8)]
  > for it in threads:
  >     it.start()
  > for it in threads:
  >     it.join()
  > .
  $ for job in 'sh many.sh' 'python3 many.py'; do
  >     PRODASH_FD=3 $job 3>>many
  >     cut -d ' ' -f 2 many | sort -u | wc -l
  >     sed -E 's/@[0-9a-f]{16}/@/; s/job [1-4]/job/; s/[0-9]+ is/N is/' many | sort | uniq -c
  >     rm many
  > done | sed 's/^ *//'
  100
  100 add @ 0 job
  100 done @ - N is done
  100 drop @
  100 inc @ 1
  100 init @ 10 files
  200
  200 add @ 0 job
  200 done @ - N is done
  200 drop @
  200 inc @ 1
  200 init @ 10 files

Below `prodash run`, where a child of Python needs the descriptor. Rows are aligned with those of the
frame before, whichever that was.

  $ export TERM=xterm
  $ unset COLUMNS LINES NO_COLOR
  $ mkfifo go
  $ cat >rows.sh <<'.'
  > . "$(prodash --lib sh)"
  > all=$(prodash_task compress 3 files)
  > for n in 1 2; do
  >     part=$(prodash_child "$all" "part $n" 10)
  >     prodash_step "$part" $n
  > done
  > python3 rows.py
  > prodash_say half of it
  > prodash_step "$all"
  > read _ <go
  > prodash_fail "$all" "no more"
  > .
  $ cat >rows.py <<'.'
  > import subprocess
  > from prodash import pass_fds, say, track
  > for it in track("abc", "letters"):
  >     if it == "b":
  >         words = ["sh", "-c", '. "$(prodash --lib sh)"; prodash_say "$1"', "child"]
  >         subprocess.run([*words, "lost"])
  >         subprocess.run([*words, "here"], pass_fds=pass_fds())
  > .
  $ on-terminal 60 8 <<'.' | sed 's/\([^ ]\)  */\1 /g'
  > run prodash-run --no-color -- sh rows.sh
  > until compress 1/3
  > screen
  > tell go
  > ended
  > screen
  > .
   child here
   rows.sh half of it
  
   compress 1/3 files [============>------------------------]
    part 1 1/10 [===>---------------------------------]
    part 2 2/10 [=======>-----------------------------]
  status 0
   child here
   rows.sh half of it
   \xe2\x9c\x97 compress no more (esc)
