prodash run: the end
====================

`on-terminal` plays steps on a terminal, and `prodash-run` is `prodash run`. The job waits for lines
of a named pipe, `go`.

  $ export TERM=xterm
  $ unset COLUMNS LINES NO_COLOR
  $ mkfifo go
  $ run() {
  >   for kind in -- '--no-pty --' '--pty --'; do
  >     { echo "run prodash-run --no-color $kind $1"; echo "${2:-ended}"; } | on-terminal 40 8
  >   done
  > }

The status is that of the job, also if a signal has ended it.

  $ run true
  status 0
  status 0
  status 0
  $ run 'sh -c "exit 7"'
  status 7
  status 7
  status 7
  $ run 'sh -c "kill -TERM \$\$"'
  signal SIGTERM
  signal SIGTERM
  signal SIGTERM
  $ run 'sh -c "kill -SEGV \$\$"'
  signal SIGSEGV
  signal SIGSEGV
  signal SIGSEGV
  $ run nothing 'ended
  > screen'
  status 127
  prodash run: nothing: No such file or di
  rectory
  status 127
  prodash run: nothing: No such file or di
  rectory
  status 127
  prodash run: nothing: No such file or di
  rectory
  $ run /dev/null 'ended
  > screen'
  status 126
  prodash run: /dev/null: Permission denie
  d
  status 126
  prodash run: /dev/null: Permission denie
  d
  status 126
  prodash run: /dev/null: Permission denie
  d
  $ prodash-run nothing
  prodash run: nothing: No such file or directory
  [127]
  $ prodash-run -- sh -c 'kill -9 $$'
  Killed
  [137]

Without a command nothing begins.

  $ prodash-run
  prodash run: no command
  
  Usage: prodash run [OPTIONS] [--] COMMAND [WORD ..]
  [2]
  $ prodash-run --no-color
  prodash run: no command
  
  Usage: prodash run [OPTIONS] [--] COMMAND [WORD ..]
  [2]
  $ prodash-run --no-color --columns 40
  prodash run: no command
  
  Usage: prodash run [OPTIONS] [--] COMMAND [WORD ..]
  [2]
  $ prodash-run --no-color --
  prodash run: no command
  
  Usage: prodash run [OPTIONS] [--] COMMAND [WORD ..]
  [2]

The `--` may be left out, also behind options and their values.

  $ prodash-run sh -c 'exit 3'
  [3]
  $ prodash-run --no-color --columns 40 --rows=20 sh -c 'exit 3'
  [3]
  $ prodash live --help | sed -n 's/.* \(--[a-z-]*\) <.*/\1/p' | while read -r option; do
  >     prodash-run "$option" 7 sh -c 'exit 3' >said 2>&1
  >     echo "$option $?"
  > done
  --columns 3
  --rows 3
  --bar-columns 3
  --fps 3
  --delay 3
  --terminal 2
  --plain 3
  --record 3

What is left on the terminal is what the job wrote. A line that isn't whole is not ended.

  $ cat >job <<'.'
  > echo "add @a 0 build" >&$PRODASH_FD
  > echo "info @a - begins" >&$PRODASH_FD
  > printf 'one\ntwo'
  > .
  $ run 'sh job' 'ended
  > screen'
  status 0
  one
  two
   build begins
  status 0
  one
  two
   build begins
  status 0
  one
   build begins
  two

A child in the background that goes on is not waited for, and not ended. What it writes is passed
on.

  $ cat >leaves <<'.'
  > exec 3<>go
  > (read _ <&3; echo "from the child"; echo "add @b 0 b" >&$PRODASH_FD; echo alive >file) &
  > echo "from the job"
  > .
  $ until_alive='ended
  > tell go
  > until from the child
  > screen'
  $ { echo 'run prodash-run -- sh leaves'; echo "$until_alive"; } | on-terminal 40 8
  status 0
  from the job
  from the child
  $ until grep -qs alive file; do :; done; rm file
  $ { echo 'run prodash-run --pty -- sh leaves'; echo "$until_alive"; } | on-terminal 40 8
  status 0
  from the job
  from the child
  $ until grep -qs alive file; do :; done; rm file
  $ { echo 'run prodash-run --no-pty -- sh leaves'; echo "$until_alive"; } | on-terminal 40 8
  status 0
  from the job
  from the child
  $ until grep -qs alive file; do :; done; rm file

That is so at once, and not only when those that write on are left.

  $ cat >quiet.py <<'.'
  > import os, sys
  > sys.dont_write_bytecode = True
  > sys.path.insert(0, os.path.realpath(sys.argv[1] + "/../../lib"))
  > import run
  > run.STUCK = 50
  > run.main("prodash-live", sys.argv[2:])
  > .
  $ scripts=$(dirname "$(readlink -f "$(command -v prodash-run)")")
  $ { echo "run python3 quiet.py $scripts sh leaves"; echo "$until_alive"; } | on-terminal 40 8
  status 0
  from the job
  from the child
  $ until grep -qs alive file; do :; done; rm file

Nor is it ended by a Ctrl-C for what runs after the job.

  $ mkfifo never
  $ cat >after <<'.'
  > prodash-run -- sh leaves; echo "the job has ended"; read _ <never
  > .
  $ { echo 'run sh after'; cat <<'.'; } | on-terminal 40 8
  > until the job has ended
  > keys \x03
  > ended
  > tell go
  > until from the child
  > file file
  > .
  signal SIGINT
  $ until grep -qs alive file; do :; done; rm file

One that writes without a pause is not waited for either, nor one that writes now and then.

  $ cat >endless <<'.'
  > yes '#' >&$PRODASH_FD & echo $! >pid
  > .
  $ cat >slow <<'.'
  > while printf x; do sleep 0.02; done & echo $! >pid
  > .
  $ for job in endless slow; do
  >   for kind in -- '--no-pty --' '--pty --'; do
  >     { echo "run prodash-run --no-color $kind sh $job"; echo ended; } | on-terminal 80 8
  >     kill $(cat pid)
  >   done
  > done
  status 0
  status 0
  status 0
  status 0
  status 0
  status 0

Each signal reaches the job exactly once, whether it is sent to its group or to `prodash run` alone.
`counts` counts them until SIGUSR2. Between two of a kind for the group is one for `prodash run`: two
that wait at a time would be one.

  $ cat >counts <<'.'
  > import signal
  > names = ("INT", "TERM", "HUP", "QUIT", "USR1", "USR2")
  > numbers = [getattr(signal, f"SIG{it}") for it in names]
  > signal.pthread_sigmask(signal.SIG_BLOCK, numbers)
  > print("ready", flush=True)
  > got, count = None, 0
  > while got != "SIGUSR2":
  >     got, count = signal.sigwait(numbers).name, count + 1
  >     print(count, got, flush=True)
  > .
  $ cat >signals <<'.'
  > until ready
  > one INT
  > until 1 SIGINT
  > signal INT
  > until 2 SIGINT
  > one TERM
  > until 3 SIGTERM
  > keys \x03
  > until 4 SIGINT
  > signal TERM
  > until 5 SIGTERM
  > one HUP
  > until 6 SIGHUP
  > signal HUP
  > until 7 SIGHUP
  > one USR1
  > until 8 SIGUSR1
  > signal QUIT
  > until 9 SIGQUIT
  > one USR2
  > ended
  > .
  $ for kind in -- '--no-pty --' '--pty --'; do
  >   { echo "run prodash-run $kind python3 counts"; cat signals; } | on-terminal 40 12
  > done
  status 0
  status 0
  status 0

One for `prodash run` alone reaches the job soon.

  $ cat >alone <<'.'
  > import os, signal, time
  > signal.pthread_sigmask(signal.SIG_BLOCK, [signal.SIGUSR1])
  > def took():
  >     begun = time.monotonic()
  >     os.kill(os.getppid(), signal.SIGUSR1)
  >     signal.sigwait([signal.SIGUSR1])
  >     return time.monotonic() - begun
  > print("soon" if min(took() for _ in range(9)) < 1 else "late")
  > .
  $ prodash-run --plain=0 --no-summary -- python3 alone
  soon

Two for the group stay two, also if the process that watches the signals of the group gets them at a
time, which are one then.

  $ { echo 'run prodash-run python3 counts'; cat <<'.'; } | on-terminal 40 12
  > until ready
  > kill STOP .*prodash-run
  > signal INT
  > until 1 SIGINT
  > signal INT
  > until 2 SIGINT
  > kill CONT .*prodash-run
  > one USR1
  > until 3 SIGUSR1
  > one USR2
  > ended
  > screen
  > .
  status 0
  ready
  1 SIGINT
  2 SIGINT
  3 SIGUSR1
  4 SIGUSR2

So they do if that process is killed: another takes its place.

  $ { echo 'run prodash-run python3 counts'; cat <<'.'; } | on-terminal 40 12
  > until ready
  > kill KILL .*prodash-run
  > one USR1
  > until 1 SIGUSR1
  > signal INT
  > until 2 SIGINT
  > one USR2
  > ended
  > screen
  > .
  status 0
  ready
  1 SIGUSR1
  2 SIGINT
  3 SIGUSR2

No signal is ignored or blocked in the job.

  $ cat >ignored <<'.'
  > exec sed -nE 's/^(SigBlk|SigIgn).*(.{7})$/\1 \2/p' /proc/self/status
  > .
  $ run 'sh ignored' 'ended
  > screen'
  status 0
  SigBlk 0000000
  SigIgn 0000000
  status 0
  SigBlk 0000000
  SigIgn 0000000
  status 0
  SigBlk 0000000
  SigIgn 0000000

One that ends the job ends `prodash run` also if it is blocked there, and never dumps its memory.

  $ cat >blocked.py <<'.'
  > import os, resource, signal, subprocess, sys
  > signal.pthread_sigmask(signal.SIG_BLOCK, [signal.SIGQUIT])
  > most = resource.getrlimit(resource.RLIMIT_CORE)[1]
  > resource.setrlimit(resource.RLIMIT_CORE, (most, most))
  > ends = "import os, resource, signal as s; resource.setrlimit(resource.RLIMIT_CORE, (0, 0)); "
  > ends += "s.pthread_sigmask(s.SIG_UNBLOCK, [s.SIGQUIT]); os.kill(os.getpid(), s.SIGQUIT)"
  > pid = os.spawnlp(os.P_NOWAIT, "prodash-run", "prodash-run", sys.executable, "-c", ends)
  > status = os.waitpid(pid, 0)[1]
  > print(os.WTERMSIG(status), os.WCOREDUMP(status))
  > .
  $ python3 blocked.py
  3 False

What is ignored from the start stays so, as below `nohup`.

  $ cat >ignores <<'.'
  > trap '' HUP; exec prodash-run -- sh -c 'echo ready; read _ <go; exit 3'
  > .
  $ { echo 'run sh ignores'; cat <<'.'; } | on-terminal 40 12
  > until ready
  > signal HUP
  > one HUP
  > tell go
  > ended
  > .
  status 3

If the process that leads the session of the job's own terminal is killed, the job is hung up.

  $ { echo 'run prodash-run --pty -- sh -c "echo ready; read _ <go"'; cat <<'.'; } | on-terminal 40 8
  > until ready
  > kill KILL .*prodash-run
  > ended
  > .
  signal SIGHUP

A signal at the start ends the job, or `prodash run` before there is one.

  $ cat >early.py <<'.'
  > import shutil, subprocess, sys, time
  > found, run = set(), [sys.executable, "-I", "-S", shutil.which("prodash-run"), *sys.argv[1:]]
  > for k in range(80):
  >     begun = subprocess.Popen([*run, "sleep", "60"])
  >     time.sleep(k * 0.0007)
  >     begun.terminate()
  >     found.add(begun.wait())
  > print(found)
  > .
  $ python3 early.py --terminal always --
  {-15}
  $ early() { printf 'run python3 early.py %s\nended\nscreen\n' "$1" | on-terminal 40 12; }
  $ early --
  status 0
  {-15}
  $ early '--no-pty --'
  status 0
  {-15}
  $ early '--pty --'
  status 0
  {-15}

After `kill -9` of `prodash run` the display ends, though its frames wait to be read: nobody could
read them any more.

  $ cat >killed <<'.'
  > trap '' HUP
  > display=$(pgrep -f '^prodash-live' -P $RUN)
  > echo "add @a 0 a" >&$PRODASH_FD
  > kill -STOP $display
  > yes "info @a - x" | head -n 15000 >&$PRODASH_FD
  > kill -KILL $RUN
  > kill -CONT $display
  > while ps -o stat= -p $display | grep -q '^[^Z]'; do :; done
  > echo >gone
  > .
  $ cat >starts <<'.'
  > RUN=$$ exec prodash-run $KIND sh killed
  > .
  $ for kind in -- '--pty --'; do
  >   { echo "run env KIND='$kind' sh starts"; printf 'ended\nfile gone\n'; } | on-terminal 40 8
  >   rm gone
  > done
  signal SIGKILL
  signal SIGKILL
