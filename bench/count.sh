#!/bin/sh
# count.sh EMULATOR PLUGIN PROGRAM ARGS..: the instructions that one run of an x86-64 program executes, start and end included.
# EMULATOR is Debian's qemu-x86_64, PLUGIN the library made of insn.c; with ",symbols=N" behind it the N symbols that
# execute the most are listed too. Prints the plugin's lines; what the program prints is dropped. The status is the program's.
set -eu
[ $# -ge 3 ] || { echo "usage: count.sh EMULATOR PLUGIN PROGRAM ARGS.." >&2; exit 2; }
emulator=$1 plugin=$2
shift 2
# The emulator counts an instruction for each byte of a `rep stosb`, where a processor counts one for all: so the C library is told to
# fill and copy memory by vectors, in whichever program is counted.
GLIBC_TUNABLES=glibc.cpu.x86_rep_stosb_threshold=1000000000:glibc.cpu.x86_rep_movsb_threshold=1000000000
export GLIBC_TUNABLES
counts=$(mktemp)
trap 'rm -f "$counts"' EXIT
status=0
"$emulator" -plugin "$plugin" -d plugin -D "$counts" "$@" >/dev/null || status=$?
cat "$counts"
exit "$status"
