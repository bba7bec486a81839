prodash-live: refused allocations
=================================

The first allocation is refused, then the second, and so on until none is. Each time `prodash-live`
either ends with an error, after a closing frame if its renderer was running, or the renderer does
without what it was refused, draws the row, and erases it in the closing frame. While rows are
hidden, the closing frame is the first with any bytes.

The last size comes after the task, and a frame of that size needs more memory than the one before.
If it is refused memory it is drawn later, so that there is always a row of 3000 columns.

  $ build-failures .
  $ begin=$(printf '\033[?2026h\r\033[?7l') end=$(printf '\033[?7h\033[?2026l')
  $ without_rows=$begin$(printf '\033[J')$end
  $ row_erased=$begin$(printf '\033[2K\n\033[J\033[1A')$end
  $ wide=m$(printf '%02983d' 0 | tr 0 -)$(printf '\033[0m]')
  $ run() {
  >   printf 'add 0 task\ninit 1 10\nsize 3000 20\n' | timeout 60 env REFUSED=$number MARK=9 \
  >     LD_PRELOAD=./failures.so prodash-live --terminal always --bar-columns 3000 --delay "$1" \
  >     2>written 9>refused
  > }
  $ refuse_each() {
  >   number=0
  >   until [ "$number" -gt 0 ] && [ ! -s refused ]; do
  >     number=$((number + 1)) status=0
  >     run "$1" || status=$?
  >     case "delay $1, status $status: $(cat written)" in
  >     "delay 0, status 0: "*"$wide"*"$row_erased" | "delay $hidden, status 0: $without_rows") ;;
  >     *"status 1: "*"${without_rows}no memory" | *"status 1: no memory") ;;
  >     *"status 1: no thread" | *"status 2: error: out of memory") ;;
  >     *) echo "allocation $number: status $status" && cat written && break ;;
  >     esac
  >   done
  >   [ "$number" -gt 10 ] || echo "$((number - 1)) allocations were refused"
  > }
  $ hidden=86400000
  $ refuse_each 0
  $ refuse_each $hidden

A dashboard leaves the terminal, whatever it is refused, and then writes the message.

  $ enter=$(printf '\033[?1049h') leave=$(printf '\033[?1049l\033[?7h\033[?25h')
  $ printf '\0key ?\nadd 0 task\ninit 1 10\ninfo_text one\ntitle two\n\0size 21 7\ninfo 1 three\n\0key q\n' \
  >   >lines
  $ run() {
  >   timeout 60 env REFUSED=$number MARK=9 LD_PRELOAD=./failures.so prodash-live --dashboard --no-color \
  >     --columns 20 --rows 6 --fps 1000 --terminal always <lines 2>written 9>refused
  > }
  $ refuse_from() {
  >   number=$1
  >   until [ "$number" -gt "$2" ]; do
  >     number=$((number + 1)) status=0
  >     run || status=$?
  >     case "status $status: $(cat written)" in
  >     "status 0: $enter"*"$leave task three") ;;
  >     "status 1: $enter"*"$leave"*"no memory" | "status 1: no memory" | "status 1: no thread") ;;
  >     "status 2: error: out of memory") ;;
  >     *) echo "allocation $number: status $status" && cat written && break ;;
  >     esac
  >     [ -s refused ] || break
  >   done
  > }
  $ refuse_from 0 150
  $ refuse_from 150 300
  $ refuse_from 300 450
  $ refuse_from 450 5000
  $ [ -s refused ]
  [1]
