#!/bin/sh
# reading.sh EMULATOR PLUGIN PROGRAM LOADS [JOB]: the instructions of reading each load in the folder LOADS that loads.py wrote.
# PROGRAM is rust-reading or rattle-reading: what `PROGRAM load FILE` executes is taken from what `PROGRAM JOB FILE` does; JOB is read unless it is given.
set -eu
[ $# -eq 4 ] || [ $# -eq 5 ] || { echo "usage: reading.sh EMULATOR PLUGIN PROGRAM LOADS [JOB]" >&2; exit 2; }
here=$(cd "$(dirname "$0")" && pwd)
total() { counted=$("$here/count.sh" "$@") && echo "$counted" | sed -n 's/^total //p'; }
for shape in modules records; do
    for size in 16k 64k 256k 1m; do
        file=$4/$shape-$size
        loading=$(total "$1" "$2" "$3" load "$file")
        both=$(total "$1" "$2" "$3" "${5:-read}" "$file")
        echo "$shape-$size $(wc -c <"$file") bytes $((both - loading)) instructions"
    done
done
