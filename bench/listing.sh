#!/bin/sh
# listing.sh EMULATOR PLUGIN PROGRAM LOADS SKIP LESS MORE [LOAD..]: the instructions of listing what is found in the loads in the folder LOADS that listloads.py wrote, all
# of them unless some are named. SKIP is none or the skip amount. PROGRAM is rust-listing or rattle-listing: what `PROGRAM LESS` executes is taken from what `PROGRAM MORE`
# does, find from list for the list, list from text for its printed form. Behind the number stands what was found and listed. A run that fails, or takes longer than
# 20 minutes, is said to have no answer.
set -eu
[ $# -ge 7 ] || { echo "usage: listing.sh EMULATOR PLUGIN PROGRAM LOADS SKIP LESS MORE [LOAD..]" >&2; exit 2; }
here=$(cd "$(dirname "$0")" && pwd)
emulator=$1 plugin=$2 program=$3 loads=$4 skip=$5 less=$6 more=$7
shift 7
[ $# -gt 0 ] || set -- $(cd "$loads" && ls)
for load; do
    folder=$loads/$load
    read -r depth minimum <"$folder/asked"
    total() { counted=$(timeout 1200 "$here/count.sh" "$emulator" "$plugin" "$program" "$1" "$depth" "$minimum" "$skip" "$folder/image" "$folder/library") && echo "$counted" | sed -n 's/^total //p'; }
    if before=$(total "$less") && both=$(total "$more"); then
        echo "$load $((both - before)) instructions, $("$emulator" "$program" show "$depth" "$minimum" "$skip" "$folder/image" "$folder/library")"
    else
        echo "$load no answer"
    fi
done
