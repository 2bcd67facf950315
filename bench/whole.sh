#!/bin/sh
# whole.sh EMULATOR PLUGIN RUST PORT LOADS [LOAD..]: the instructions of whole runs, from the bytes of an image and a library to the list, on the loads in the folder LOADS
# that wholeloads.py wrote, all of them unless some are named. RUST is rust-whole, PORT is rattle-whole: of each, what `load` executes is taken from what `find` does.
# The port is lent exactly as many rows as it takes; `show` tells. Prints a line of a table for each load: its name, the bytes of image and library, the segments,
# symbols placed, names noted, lines, the Rust's instructions, the port's, and how many times as many the Rust executes. Where the two do not find as much, that is
# said behind the line. A run that fails, or takes longer than 20 minutes, is said to have no answer.
set -eu
[ $# -ge 5 ] || { echo "usage: whole.sh EMULATOR PLUGIN RUST PORT LOADS [LOAD..]" >&2; exit 2; }
here=$(cd "$(dirname "$0")" && pwd)
emulator=$1 plugin=$2 rust=$3 port=$4 loads=$5
shift 5
[ $# -gt 0 ] || set -- $(cd "$loads" && ls)
total() { counted=$(timeout 1200 "$here/count.sh" "$emulator" "$plugin" "$@" 2>/dev/null) && echo "$counted" | sed -n 's/^total //p'; }
# more PROGRAM WORDS..: what `find` executes more than `load`, or nothing where there is no answer
more() {
    program=$1
    shift
    if before=$(total "$program" load "$@") && both=$(total "$program" find "$@"); then echo $((both - before)); fi
}
ratio() { if [ -n "$1" ] && [ -n "$2" ]; then awk "BEGIN { printf \"%.2f\", $1 / $2 }"; fi; }
echo "| load | image | library | segments | placed | noted | lines | Rust | port | times |"
echo "|---|---|---|---|---|---|---|---|---|---|"
for load; do
    folder=$loads/$load
    read -r depth minimum <"$folder/asked"
    words="$depth $minimum none $folder/image $folder/library"
    # shellcheck disable=SC2086
    {
        lent=$("$emulator" "$port" show $words) || lent=
        said=$("$emulator" "$rust" show $words 2>/dev/null) || said=
        theirs=$(more "$rust" $words)
        ours=$([ -z "$lent" ] || more "$port" $words $lent)
    }
    found=$(echo "$lent" | awk '{ print $5 " placed, " $6 " noted, " $7 " lines" }')
    [ -z "$said" ] || [ "$said" = "$found" ] && differ= || differ=" the Rust: $said"
    echo "$lent" | awk -v load="$load" -v image="$(wc -c <"$folder/image")" -v library="$(wc -c <"$folder/library")" -v theirs="${theirs:-no answer}" \
        -v ours="${ours:-no answer}" -v times="$(ratio "$theirs" "$ours")" -v differ="$differ" \
        '{ print "| " load " | " image " | " library " | " $1 " | " $5 " | " $6 " | " $7 " | " theirs " | " ours " | " times " |" differ }'
done
