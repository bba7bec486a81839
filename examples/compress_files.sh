#!/bin/sh
# Compresses files, with the library for sh: prodash run examples/compress_files.sh FILE..
. "$(prodash --lib sh)"

all=$(prodash_task compress $# files)
for file; do
    if gzip -k "$file"; then
        prodash_step "$all"
    else
        prodash_say "$file is left out"
    fi
done
prodash_done "$all" "$# files"
