#!/bin/sh
# Runs a job on several hosts, which write to one pipe:
# examples/many_hosts.sh HOST.. | bin/prodash-live
# `$REACH HOST SCRIPT` runs a script on a host; REACH is `ssh` by default.
job='echo "add @copy 0 copy"
echo "init @copy 20 items"
for step in 1 2 3 4 5 6 7 8 9 10 11 12 13 14 15 16 17 18 19 20; do
    echo "set @copy $step"
    sleep 0.1
done
echo "done @copy - copied"
echo "drop @copy"'

# Adds an item for a host, and moves the host's items below it. Their words get the host's name.
below() {
    echo "add @$1 0 $1"
    sed -u "s/^\([a-z]* \)@/\1@$1-/; s/^\(add [^ ]* \)@/\1@$1-/; s/^\(add [^ ]* \)0 /\1@$1 /"
    echo "drop @$1"
}

for host; do
    ${REACH-ssh} "$host" "$job" | below "$host" &
done
wait
