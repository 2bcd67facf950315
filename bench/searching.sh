#!/bin/sh
# searching.sh EMULATOR PLUGIN PROGRAM LOADS LESS MORE [LOAD..]: the instructions of searching the images of the loads in the folder LOADS that searchloads.py wrote,
# all of them unless some are named. PROGRAM is rust-searching (LESS make, MORE find) or rattle-searching (LESS once, MORE find or mega): what `PROGRAM LESS` executes is
# taken from what `PROGRAM MORE` does. Behind the number stands what was found. A run that fails, or takes longer than 20 minutes, is said to have no answer.
set -eu
[ $# -ge 6 ] || { echo "usage: searching.sh EMULATOR PLUGIN PROGRAM LOADS LESS MORE [LOAD..]" >&2; exit 2; }
here=$(cd "$(dirname "$0")" && pwd)
emulator=$1 plugin=$2 program=$3 loads=$4 less=$5 more=$6
shift 6
[ $# -gt 0 ] || set -- $(cd "$loads" && ls)
for load; do
    folder=$loads/$load
    read -r depth minimum <"$folder/asked"
    total() { counted=$(timeout 1200 "$here/count.sh" "$emulator" "$plugin" "$program" "$1" "$depth" "$minimum" "$folder/image" "$folder/library") && echo "$counted" | sed -n 's/^total //p'; }
    if before=$(total "$less") && both=$(total "$more"); then
        echo "$load $((both - before)) instructions, $("$emulator" "$program" show "$depth" "$minimum" "$folder/image" "$folder/library")"
    else
        echo "$load no answer"
    fi
done
