examples/many_hosts.sh: jobs on several hosts
=============================================

Here examples/many_hosts.sh is `many-hosts`, and `reach` runs a job on this machine, whatever the
host.

  $ printf '#!/bin/sh\nexec sh -c "$2"\n' >reach
  $ chmod +x reach
  $ REACH=./reach many-hosts one two >lines
  $ grep -v -e ^init -e ^set lines | sort
  add @one 0 one
  add @one-copy @one copy
  add @two 0 two
  add @two-copy @two copy
  done @one-copy - copied
  done @two-copy - copied
  drop @one
  drop @one-copy
  drop @two
  drop @two-copy

No line is faulty, and each host has sent its message.

  $ prodash-live --stdout --strict <lines
   \xe2\x9c\x93 copy copied (esc)
   \xe2\x9c\x93 copy copied (esc)
