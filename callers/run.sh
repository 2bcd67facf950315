#!/bin/sh
# run.sh OUT: builds the static libraries and the examples, for x86-64, runs them on the files of examples/ and on one that is refused, and compares what they
# print with what `./sillmarble list`, `hex`, `unhex`, `walk` and `banks` print. Left: OUT/example-c, OUT/example-rs, OUT/hex-c, OUT/walk-c, OUT/banks-c. The last line is 'N passed, 0 failed', and then the status is 0.
# README.md names what has to be installed.
set -eu
[ $# -eq 1 ] || { echo "usage: run.sh OUT" >&2; exit 2; }
root=$(cd "$(dirname "$0")/.." && pwd)
mkdir -p "$1"
out=$(cd "$1" && pwd)
cd "$root"
for each in libfind_c hex_c routine_c banks_c; do
    (cd "crates/$each" && rt lib) >"$out/staticlib.log" 2>&1 || { cat "$out/staticlib.log"; exit 1; }
done
library=$root/crates/libfind_c/out/liblibfind_c.a
hex=$root/crates/hex_c/out/libhex_c.a
walk=$root/crates/routine_c/out/libroutine_c.a
banks=$root/crates/banks_c/out/libbanks_c.a

cc -O2 -std=c99 -Wall -Wextra -o "$out/example-c" callers/example.c "$library"
cc -O2 -std=c99 -Wall -Wextra -o "$out/hex-c" callers/hex.c "$hex"
cc -O2 -std=c99 -Wall -Wextra -o "$out/walk-c" callers/walk.c "$walk"
cc -O2 -std=c99 -Wall -Wextra -o "$out/banks-c" callers/banks.c "$banks" "$library"
rustc -O --edition 2021 -o "$out/example-rs" -L "native=$(dirname "$library")" -l static=libfind_c callers/example.rs

# once more than needed, so that building a program is not taken for its words
./sillmarble list examples/aid.img examples/routines.lib >"$out/was" 2>"$out/was.err" || :
./sillmarble banks examples/aid.img examples/routines.lib >"$out/was" 2>"$out/was.err" || :
./sillmarble walk examples/aid.img 0 >"$out/was" 2>"$out/was.err" || :
./sillmarble hex examples/aid.img >"$out/was" 2>"$out/was.err" || :

passed=0 failed=0
# The examples and the program have to do with 6 MiB of stack.
ulimit -S -s 6144
# Runs an example and the listing program on the same files: status and standard output must be the same, and the refusal's number.
try() { # EXAMPLE IMAGE LIBRARY RULES EDITION DEPTH
    was=0 got=0
    ./sillmarble list "$2" "$3" --rules "$4" --edition "$5" --depth "$6" >"$out/was" 2>"$out/was.err" || was=$?
    "$out/$1" "$2" "$3" "$4" "$5" "$6" >"$out/got" 2>"$out/got.err" || got=$?
    if [ "$was" -eq "$got" ] && cmp -s "$out/was" "$out/got" && [ "$(sed 's/:.*//' "$out/was.err")" = "$(cat "$out/got.err")" ]; then
        passed=$((passed + 1))
    else
        failed=$((failed + 1))
        echo "failed: $* (status $got and $was)"
    fi
}

# The same of the example for HEX: a job of it, the command that does that, and a file.
try_hex() { # JOB COMMAND FILE
    was=0 got=0
    ./sillmarble "$2" "$3" >"$out/was" 2>"$out/was.err" || was=$?
    "$out/hex-c" "$1" "$3" >"$out/got" 2>"$out/got.err" || got=$?
    if [ "$was" -eq "$got" ] && cmp -s "$out/was" "$out/got" && [ "$(sed 's/:.*//' "$out/was.err")" = "$(cat "$out/got.err")" ]; then
        passed=$((passed + 1))
    else
        failed=$((failed + 1))
        echo "failed: hex-c $1 $3 (status $got and $was)"
    fi
}

# The same of the example for walks, without the bytes and forms, which it does not print.
try_walk() { # IMAGE ADDRESS STRETCHES..
    was=0 got=0 at=$1 start=$2
    shift 2
    "$out/walk-c" "$at" "$start" "$@" >"$out/got" 2>"$out/got.err" || got=$?
    for stretch; do
        shift
        set -- "$@" --withhold "$stretch"
    done
    ./sillmarble walk "$at" "$start" "$@" >"$out/was" 2>"$out/was.err" || was=$?
    sed -e 1d -e '/^0x/s/^\(0x....\).\{36\}/\1 /' -e '/^0x/s/^\(0x....\)    .*/\1/' "$out/was" >"$out/was.short"
    if [ "$was" -eq "$got" ] && cmp -s "$out/was.short" "$out/got" && [ "$(sed 's/:.*//' "$out/was.err")" = "$(cat "$out/got.err")" ]; then
        passed=$((passed + 1))
    else
        failed=$((failed + 1))
        echo "failed: walk-c $at $start $* (status $got and $was)"
    fi
}

# The same of the example for boards.
try_banks() { # IMAGE STRETCHES..
    was=0 got=0 at=$1
    shift
    "$out/banks-c" "$at" examples/routines.lib "$@" >"$out/got" 2>"$out/got.err" || got=$?
    for stretch; do
        shift
        set -- "$@" --withhold "$stretch"
    done
    ./sillmarble banks "$at" examples/routines.lib "$@" >"$out/was" 2>"$out/was.err" || was=$?
    if [ "$was" -eq "$got" ] && cmp -s "$out/was" "$out/got" && [ "$(sed 's/:.*//' "$out/was.err")" = "$(cat "$out/got.err")" ]; then
        passed=$((passed + 1))
    else
        failed=$((failed + 1))
        echo "failed: banks-c $at $* (status $got and $was)"
    fi
}

# a board whose common part and second bank have the routines, its first bank none; with the common part withheld, with the second bank too; refusals 4 and 18
{ cat examples/aid.img; head -c 22528 /dev/zero; } >"$out/part"
{ cat "$out/part"; head -c 32768 /dev/zero; cat "$out/part"; } >"$out/board"
try_banks "$out/board"
try_banks "$out/board" 0:32768
try_banks "$out/board" 0:32768 0x10000:32768
try_banks "$out/board" 98304:1
try_banks examples/aid.img
./sillmarble list examples/aid.img examples/routines.lib >"$out/was"
# the first routine of the list, with nothing withheld, with its start and with another byte; a start past the end: refusal 19
start=$(sed -n '2s/ .*//p' "$out/was")
try_walk examples/aid.img "$start"
try_walk examples/aid.img "$start" "$start:1"
try_walk examples/aid.img "$start" "$((start + 4)):1" 0:0
try_walk examples/aid.img 70000
./sillmarble hex examples/aid.img >"$out/aid.hex"
try_hex export hex examples/aid.img
try_hex import unhex "$out/aid.hex"
# an image is no text: refusal 20
try_hex import unhex examples/aid.img
# a byte behind the library's last record: edition 2 refuses it with 15
cp examples/routines.lib "$out/over.lib"
printf '\032' >>"$out/over.lib"
for example in example-c example-rs; do
    for edition in 1 2 3; do
        for rules in found documented; do
            try "$example" examples/aid.img examples/routines.lib "$rules" "$edition" 1
            # an image is no library: refusal 5, or 14 by edition 2
            try "$example" examples/aid.img examples/aid.img "$rules" "$edition" 1
        done
        try "$example" examples/aid.img "$out/over.lib" documented "$edition" 1
    done
    # the other depths; 5 is refused with 17
    for depth in 0 2 4 5; do
        try "$example" examples/aid.img examples/routines.lib documented 1 "$depth"
    done
done
"$out/example-c" examples/aid.img examples/routines.lib documented 1 1
printf '%s passed, %s failed\n' "$passed" "$failed"
[ "$failed" -eq 0 ]
