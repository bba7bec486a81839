#!/bin/sh
# Four jobs at the same time, which write to one pipe: examples/four_jobs.sh | bin/prodash-live
job() {
    echo "add @$1 0 $1"
    echo "init @$1 $2 items"
    step=0
    while [ $step -lt "$2" ]; do
        echo "set @$1 $step"
        step=$((step + 1))
        sleep 0.05
    done
    echo "done @$1 - $2 steps"
    echo "drop @$1"
}
job fetch 40 &
job unpack 60 &
job build 80 &
job check 20 &
wait
