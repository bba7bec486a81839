#!/bin/sh
# Hashes files. Each file has an item, which sends the beginning of the hash as its message:
# examples/hash_files.sh FILE.. | bin/prodash-live
echo "add @all 0 files"
echo "init @all $# items"
for file; do
    echo "add @file @all ${file##*/}"
    hash=$(sha256sum <"$file" | cut -c 1-16)
    echo "done @file - $hash"
    echo "drop @file"
    echo "inc @all 1"
done
