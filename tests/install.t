bin/install: installed programs
===============================

Here bin/install is `install-prodash`, and `$HOW` says whether it proves. What it installs runs from
a folder that was moved, with only Python on the path.

  $ install-prodash $HOW prefix 2>&1 | sed -E 's/[0-9.]+ s/N s/; s/: .*bin/: ..bin/'
  install: installed below prefix in N s
  install: ..bin isn't on the PATH
  $ find prefix -type f -not -name '*.pyc' | sort
  prefix/bin/prodash
  prefix/bin/prodash-live
  prefix/bin/prodash-replay
  prefix/lib/prodash/command.py
  prefix/lib/prodash/display.py
  prefix/lib/prodash/each.py
  prefix/lib/prodash/hosts.py
  prefix/lib/prodash/job.py
  prefix/lib/prodash/keys.py
  prefix/lib/prodash/live.py
  prefix/lib/prodash/pipe.py
  prefix/lib/prodash/play.py
  prefix/lib/prodash/prodash-live
  prefix/lib/prodash/prodash-pipe
  prefix/lib/prodash/programs.py
  prefix/lib/prodash/recording.py
  prefix/lib/prodash/relay.py
  prefix/lib/prodash/remote.py
  prefix/lib/prodash/run.py
  prefix/lib/prodash/screen.py
  prefix/lib/prodash/session.py
  prefix/share/bash-completion/completions/prodash
  prefix/share/bash-completion/completions/prodash-live
  prefix/share/bash-completion/completions/prodash-replay
  prefix/share/fish/vendor_completions.d/prodash.fish
  prefix/share/man/man1/prodash-live.1
  prefix/share/man/man1/prodash-replay.1
  prefix/share/man/man1/prodash.1
  prefix/share/prodash/prodash.py
  prefix/share/prodash/prodash.sh
  prefix/share/zsh/site-functions/_prodash
  $ mv prefix moved
  $ alone() { env -i PATH="$(dirname "$(command -v python3)"):/usr/bin:/bin" "$@"; }
  $ printf 'add @a 0 alpha\ninfo @a 0 one\n' | alone moved/bin/prodash-live --stdout
   alpha one
  $ printf 'add 0 task\ninit 1 10 -\nset 1 3\ntick 0\n' | alone moved/bin/prodash-replay page 40 2
   task 3/10 [=======>-------------------]
  
  $ [ "$HOW" ] && how=proved || how='without proofs'
  $ for it in prodash-live prodash; do
  >     alone moved/bin/$it --version | sed -E "s/[0-9a-f]{40}(, with changes)?, $how/../"
  > done
  prodash-live 0.1.0 (port of prodash 31.0.1)
  built from commit ..
  prodash-live 0.1.0 (port of prodash 31.0.1)
  built from commit ..

  $ alone moved/bin/prodash run --plain=0 --no-summary sh -c '
  >     echo add 0 alpha >&$PRODASH_FD; echo info 1 - one >&$PRODASH_FD'
   alpha one
  $ echo one | alone moved/bin/prodash each echo got
  got one
  $ echo one | alone moved/bin/prodash each -S : echo got
  got one
  $ printf 'add @a 0 alpha\ninfo @a 0 two\n' | alone moved/bin/prodash live --stdout
   alpha two
  $ echo passed | alone moved/bin/prodash pipe
  passed
  $ alone moved/bin/prodash help | head -n 1
  Progress on the terminal, for a job, a script or a recording
  $ alone moved/bin/prodash picture
  prodash: no command picture: run, each, pipe, live, replay or help
  [2]

A script finds the libraries, and the shells their completions.

  $ cat >job.sh <<'.'
  > . "$(prodash --lib sh)"
  > task=$(prodash_task shell)
  > PYTHONPATH=$(prodash --lib python) python3 -B -c 'import prodash; prodash.say("one")'
  > prodash_done "$task" two
  > .
  $ alone sh -c 'PATH=$PWD/moved/bin:$PATH; prodash run --plain=0 --no-summary sh job.sh'
   -c one
   \xe2\x9c\x93 shell two (esc)
  $ alone moved/bin/prodash --lib
  prodash --lib: no language: sh or python
  [2]
  $ alone moved/bin/prodash --lib ruby
  prodash --lib: no library for ruby: sh or python
  [2]
  $ cat >complete.bash <<'.'
  > . moved/share/bash-completion/completions/prodash
  > compopt() { COMPREPLY=("by $*"); }
  > for words in "prodash r" "prodash run --pt" "prodash run --strict --term" \
  >     "prodash run --pty -- seq" "prodash run seq" "prodash run --pty seq" \
  >     "prodash run --fps 30 seq" "prodash run --fps = 30 seq" "prodash run --terminal n" \
  >     "prodash live --term" "prodash live --terminal n" "prodash live --terminal = n" \
  >     "prodash live --record x" "prodash replay p" "prodash replay page 80 24 --d" \
  >     "prodash --lib p" "prodash-live --marks --str" "prodash-replay p" \
  >     "prodash-replay page 80 24 --d" "prodash-replay d"; do
  >     COMP_WORDS=($words) COMP_CWORD=$(wc -w <<<"$words") && ((COMP_CWORD--))
  >     _prodash "${COMP_WORDS[0]}"
  >     echo "$words: $(printf '%s\n' "${COMPREPLY[@]}" | sort -u | xargs)"
  > done
  > .
  $ alone bash -c 'PATH=$PWD/moved/bin:$PATH; . ./complete.bash'
  prodash r: replay run
  prodash run --pt: --pty
  prodash run --strict --term: --terminal
  prodash run --pty -- seq: seq
  prodash run seq: seq
  prodash run --pty seq: seq
  prodash run --fps 30 seq: seq
  prodash run --fps = 30 seq: seq
  prodash run --terminal n: never
  prodash live --term: --terminal
  prodash live --terminal n: never
  prodash live --terminal = n: never
  prodash live --record x: by -o default
  prodash replay p: page
  prodash replay page 80 24 --d: --defensive
  prodash --lib p: python
  prodash-live --marks --str: --strict
  prodash-replay p: page
  prodash-replay page 80 24 --d: --defensive
  prodash-replay d: dashboard
  $ cat >complete.fish <<'.'
  > source moved/share/fish/vendor_completions.d/prodash.fish
  > for words in "prodash r" "prodash run --pt" "prodash run --pty -- seq" "prodash run seq" \
  >     "prodash run --pty --fps 30 seq" "prodash run seq --equal-w" "prodash live --terminal n" \
  >     "prodash replay p" "prodash --lib p" "prodash-live --str"
  >     echo $words: (complete -C $words | string replace -r '\t.*' '' | sort -u)
  > end
  > .
  $ cat >wanted <<'.'
  > prodash r: replay run
  > prodash run --pt: --pty
  > prodash run --pty -- seq: seq
  > prodash run seq: seq
  > prodash run --pty --fps 30 seq: seq
  > prodash run seq --equal-w: --equal-width
  > prodash live --terminal n: never
  > prodash replay p: page
  > prodash --lib p: python
  > prodash-live --str: --strict
  > .
  $ complete_fish() { alone sh -c 'PATH=$PWD/moved/bin:$PATH HOME=$PWD fish complete.fish'; }
  $ ! command -v fish >/dev/null || complete_fish | diff wanted -

A program is replaced while it is running.

  $ mkfifo lines
  $ alone moved/bin/prodash-live --stdout <lines >output &
  $ exec 3>lines
  $ printf 'add @a 0 alpha\ninfo @a 0 one\n' >&3
  $ until grep -qs one output; do sleep 0.01; done
  $ install-prodash $HOW moved 2>said
  $ exec 3>&-
  $ wait $!
  $ cat output
   alpha one

A folder that can't be created.

  $ touch file
  $ install-prodash $HOW file/it
  install: file/it: Not a directory
  [1]
