#!/bin/sh
# collecting.sh EMULATOR PLUGIN PROGRAM LOADS LESS MORE SHAPE..: the instructions of collecting the loads of these shapes in the folder LOADS that
# worst.py wrote. PROGRAM is rust-collecting (LESS load, MORE pick) or rattle-collecting (LESS once, MORE pick): what `PROGRAM LESS FILE` executes
# is taken from what `PROGRAM MORE FILE` does. A run that fails, or takes longer than ten minutes, is said to have no answer.
set -eu
[ $# -ge 7 ] || { echo "usage: collecting.sh EMULATOR PLUGIN PROGRAM LOADS LESS MORE SHAPE.." >&2; exit 2; }
here=$(cd "$(dirname "$0")" && pwd)
emulator=$1 plugin=$2 program=$3 loads=$4 less=$5 more=$6
shift 6
total() { counted=$(timeout 600 "$here/count.sh" "$emulator" "$plugin" "$program" "$@") && echo "$counted" | sed -n 's/^total //p'; }
for shape; do
    for size in 128k 512k 1m; do
        file=$loads/$shape-$size
        if before=$(total "$less" "$file") && both=$(total "$more" "$file"); then
            echo "$shape-$size $(wc -c <"$file") bytes $((both - before)) instructions"
        else
            echo "$shape-$size $(wc -c <"$file") bytes no answer"
        fi
    done
done
