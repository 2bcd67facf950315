#!/bin/sh
# try-list.sh: runs `./sillmarble list` on every outcome that it has, and holds status, standard output and standard error against what they must be.
# The last line is 'N passed, 0 failed', and then the status is 0. Another program than ./sillmarble is tried by SILLMARBLE=PATH. Needs python3.
set -eu
# The program has to do with 6 MiB of stack, three quarters of what it usually has.
ulimit -S -s 6144
root=$(cd "$(dirname "$0")/.." && pwd)
program=${SILLMARBLE:-$root/sillmarble}
work=$(mktemp -d)
trap 'rm -rf "$work"' EXIT
python3 "$root/tools/try_list_files.py" "$work"
cd "$work"
: >nothing
passed=0 failed=0

count() { # WHETHER LABEL
    if [ "$1" -eq 0 ]; then
        passed=$((passed + 1))
    else
        failed=$((failed + 1))
        printf 'failed: %s\n' "$2"
    fi
}

# Tries one command: its status, the file that standard output is equal to, and what is on standard error, one line or nothing.
try() { # STATUS FILE WORDS ARGUMENTS
    status=$1 file=$2 words=$3
    shift 3
    got=0
    "$program" "$@" >out 2>err || got=$?
    [ -z "$words" ] || words="$words
"
    printf '%s' "$words" >words
    if [ "$got" -eq "$status" ] && cmp -s out "$file" && cmp -s err words; then
        count 0 ""
    else
        count 1 "sillmarble $* (status $got, standard error: $(cat err))"
    fi
}

printed() { file=$1; shift; try 0 "$file.list" '' list "$@"; } # LIST ARGUMENTS
refused() { words=$1; shift; try 1 nothing "refused $words" list "$@"; } # WORDS ARGUMENTS
wrong() { words=$1; shift; try 2 nothing "usage: $words (--help tells all)" list "$@"; } # WORDS ARGUMENTS

# once more than needed, so that building it first is not taken for words of the program
"$program" list aid.img routines.lib >out 2>err || :

printed documented aid.img routines.lib
printed documented aid.img routines.lib --rules documented
printed found aid.img routines.lib --rules found
printed found --rules found aid.img routines.lib
printed found aid.img --rules found routines.lib
printed documented aid.img routines.lib --edition 1
printed documented aid.img routines.lib --edition 2
printed found --edition 0x2 aid.img --rules found routines.lib
printed documented aid.img sum.lib
printed documented aid.img over.lib
printed full full.img half.lib --edition 1
printed printed printed.img printed.lib
printed printed printed.img printed.lib --edition 2
printed printed printed.img printed.lib --rules found --min-fn-length 3
printed heading printed.img printed.lib --min-fn-length 4
printed heading printed.img printed.lib --min-fn-length 0xfF
printed heading one.img short.lib
printed short one.img short.lib --min-fn-length 0x1
printed both three.img both.lib
printed both three.img both.lib --skip-multiple 2
printed heading three.img both.lib --skip-multiple 1
printed heading call.img unmet.lib --min-fn-length 1
printed unmet call.img unmet.lib --min-fn-length 1 --no-check
printed heading call.img unmet.lib --min-fn-length 1 --depth 1
printed unmet call.img unmet.lib --min-fn-length 1 --depth 0
for depth in 0 1 2 3 4; do
    printed "steps-$depth" steps.img steps.lib --depth "$depth"
    printed "steps-$depth" steps.img --depth "0x$depth" steps.lib --rules found --edition 2
    printed documented aid.img routines.lib --depth "$depth"
done
printed steps-0 --no-check steps.img steps.lib
printed steps-1 steps.img steps.lib
# a greater depth can add lines: the f of three bytes goes, and a like-named one of one byte is seen
for depth in 0 1; do printed chain chain.img chain.lib --rules found --min-fn-length 1 --depth "$depth"; done
for depth in 2 3 4; do printed chain-deep chain.img chain.lib --rules found --min-fn-length 1 --depth "$depth"; done
printed chain chain.img chain.lib --rules found --min-fn-length 1
printed chain chain.img chain.lib --rules found --min-fn-length 1 --no-check
printed back back.img back.lib --min-fn-length 1
printed back-found back.img back.lib --min-fn-length 1 --rules found
printed full full.img full.lib
printed heading empty.img routines.lib
printed many many.img many.lib
printed withheld-table aid.img routines.lib --withhold 0x1204:8
printed withheld-table other.img routines.lib --withhold 4612:0x8
printed withheld-table other.img routines.lib
printed withheld-add aid.img routines.lib --withhold 0x788:1
printed documented aid.img routines.lib --withhold 10240:0
printed documented aid.img routines.lib --withhold 0:0x100
printed withheld-both aid.img routines.lib --withhold 0x1204:8 --withhold 0x788:1
printed withheld-both --withhold 0x788:1 aid.img --withhold 0x1204:8 routines.lib
printed withheld-table aid.img routines.lib --withhold 0x1200:6 --withhold 0x1204:8
printed withheld-table aid.img routines.lib --withhold 0x1204:8 --withhold 0x1204:8
printed documented aid.img routines.lib --withhold 0:0x100 --withhold 10240:0

refused '(2): image too long (more than 65536 bytes)' long.img routines.lib
refused '(2): image too long (more than 65536 bytes)' long.img long.lib --withhold 70000:1
refused '(3): library too long (more than 65536 bytes)' aid.img long.lib
refused '(3): library too long (more than 65536 bytes)' aid.img long.lib --withhold 70000:1
past="(4): withheld start + length passes the image's end"
refused "$past" aid.img routines.lib --withhold 10240:1
refused "$past" aid.img none.lib --withhold 10241:0
refused "$past" aid.img routines.lib --withhold 1:0xffffffffffffffff
refused "$past" aid.img routines.lib --withhold 18446744073709551615:18446744073709551615
refused "$past" aid.img routines.lib --withhold 0:1 --withhold 10240:1
refused "$past" aid.img routines.lib --withhold 10240:1 --withhold 0:1
fifteen=
for start in 0 1 2 3 4 5 6 7 8 9 10 11 12 13 14; do fifteen="$fifteen --withhold $start:1"; done
# shellcheck disable=SC2086 # the words of several options
several() {
    printed withheld-table aid.img routines.lib $fifteen --withhold 0x1204:8
    refused "$past" aid.img routines.lib $fifteen --withhold 10240:1
    many='(16): more than 16 stretches are withheld'
    refused "$many" aid.img routines.lib $fifteen --withhold 0x1204:8 --withhold 0:0
    refused "$many" aid.img routines.lib $fifteen $fifteen
    refused "$many" aid.img none.lib $fifteen --withhold 10240:1 --withhold 0:1
    refused "$many" aid.img none.lib $fifteen --withhold 0:1 --withhold 10240:1
    refused '(2): image too long (more than 65536 bytes)' long.img routines.lib $fifteen $fifteen
    refused '(3): library too long (more than 65536 bytes)' aid.img long.lib $fifteen $fifteen
    wrong "what is withheld is START:LENGTH, and not '17'" aid.img routines.lib $fifteen --withhold 0:1 --withhold 17
    wrong "what is withheld is START:LENGTH, and not '31'" aid.img routines.lib $fifteen $fifteen --withhold 31 --withhold 32
}
several
closing='(5): no first module can be read, or a 2Ch library lacks its 28h, 26h, 2Ah records in that order after its modules'
refused "$closing" aid.img none.lib
refused "$closing" aid.img unclosed.lib
refused "$closing" aid.img aid.img
refused "(6): the body (length - 1 bytes) of a record expected here passes the file's end" aid.img cut.lib
refused '(7): a record expected here has length 0' aid.img zero.lib
refused "(8): a whole module's header and end names differ" aid.img named.lib
lent="9362 segments, 9362 references, 10922 symbols, 131072 pattern bytes, 8192 symbols placed, 8192 names noted, 12288 lines"
refused "(9): a stage's definition yields more rows or pattern bytes than were lent for it: image and library need more than the program lends, which is $lent" aid.img rows.lib
refused '(10): a fixup kind above 7, block not 3' aid.img kind.lib
refused '(11): a fixup block above 3' aid.img block.lib
refused '(12): content end passes the size of the kept segment it goes to' aid.img past.lib
refused '(13): a block-1 fixup names a code segment and no kept segment has its id' aid.img kept.lib
sum="(14): a record's bytes do not sum to 0 (--edition 1 does not look at sums)"
refused "$sum" aid.img sum.lib --edition 2
refused "$sum" aid.img aid.img --edition 2
over="(15): bytes are left over behind a record's entries, or behind the file's last record (--edition 1 passes them over)"
refused "$over" aid.img over.lib --edition 2
refused "$over" full.img half.lib --edition 2
refused "$over" full.img full.lib --edition 2
refused "$over" aid.img left.lib --edition 2
refused "(8): a whole module's header and end names differ" aid.img left.lib
refused "(8): a whole module's header and end names differ" aid.img named.lib --edition 2
refused '(7): a record expected here has length 0' aid.img zero.lib --edition 2
refused "(6): the body (length - 1 bytes) of a record expected here passes the file's end" aid.img cut.lib --edition 2
refused "$closing" aid.img unclosed.lib --edition 2
refused "$past" aid.img sum.lib --edition 2 --withhold 10240:1
for value in 0 3 0xffffffffffffffff; do
    refused '(30): edition not 1 or 2' aid.img routines.lib --edition "$value"
done
refused '(30): edition not 1 or 2' long.img long.lib --edition 0
refused '(30): edition not 1 or 2' aid.img long.lib --edition 3
refused '(30): edition not 1 or 2' aid.img none.lib --edition 3 --withhold 10240:1
deep='(17): references are checked to depth 4 at most'
for value in 5 0x5 256 4294967296 18446744073709551615; do
    refused "$deep" aid.img routines.lib --depth "$value"
done
refused "$deep" long.img long.lib --depth 5
refused "$deep" aid.img long.lib --edition 2 --depth 5
# shellcheck disable=SC2086 # the words of several options
refused "$deep" aid.img none.lib --depth 5 $fifteen --withhold 10240:1 --withhold 0:1
refused "$deep" aid.img none.lib --depth 5 --withhold 10240:1
refused '(30): edition not 1 or 2' long.img long.lib --depth 5 --edition 3
refused '(2): image too long (more than 65536 bytes)' long.img long.lib --depth 4
refused '(3): library too long (more than 65536 bytes)' aid.img long.lib --depth 4
refused '(2): image too long (more than 65536 bytes)' long.img long.lib --edition 2
refused '(3): library too long (more than 65536 bytes)' aid.img long.lib --edition 2

wrong 'an image and a library are to be named'
wrong 'a library is to be named behind the image' aid.img
wrong "only an image and a library are taken, and there is also 'third'" aid.img routines.lib third
wrong "there is no option '--check'" aid.img routines.lib --check
wrong "there is no option '-n'" aid.img routines.lib -n
wrong "there is no option '-'" - routines.lib
for option in --min-fn-length --skip-multiple --rules --edition --depth --withhold; do
    wrong "the option '$option' lacks its value" aid.img routines.lib "$option"
done
wrong "the option '--no-check' is given twice" --no-check aid.img routines.lib --no-check
wrong "the option '--rules' is given twice" aid.img routines.lib --rules found --rules documented
wrong "the option '--edition' is given twice" aid.img routines.lib --edition 1 --edition 2
wrong "the option '--depth' is given twice" aid.img routines.lib --depth 1 --depth 1
wrong "the option '--depth' is given twice" aid.img routines.lib --depth 5 --no-check --depth x
one='--no-check is --depth 0, and only one of the two is taken'
wrong "$one" aid.img routines.lib --no-check --depth 0
wrong "$one" --depth 0 aid.img routines.lib --no-check
wrong "$one" aid.img routines.lib --no-check --depth x --min-fn-length x
wrong "$one" aid.img routines.lib --depth 5 --no-check
wrong 'a library is to be named behind the image' aid.img --depth 1 --no-check
wrong "the option '--min-fn-length' is given twice" aid.img routines.lib --min-fn-length 3 --min-fn-length 4
wrong "the option '--skip-multiple' is given twice" aid.img routines.lib --skip-multiple 3 --skip-multiple 4
number='a number is decimal, or hexadecimal behind 0x, and not'
for value in '' x 3x 0x 0xg -1 ' 3' 0X10; do
    wrong "$number '$value'" aid.img routines.lib --min-fn-length "$value"
    wrong "$number '$value'" aid.img routines.lib --skip-multiple "$value"
    wrong "$number '$value'" aid.img routines.lib --depth "$value" --min-fn-length y
    wrong "$number '$value:1'" aid.img routines.lib --withhold "$value:1"
    wrong "$number '1:$value'" aid.img routines.lib --withhold "1:$value"
done
wrong "$number '1:2:3'" aid.img routines.lib --withhold 1:2:3
wrong "$number 'two'" aid.img routines.lib --edition two
wrong "$number ''" aid.img routines.lib --edition '' --depth x --min-fn-length x
wrong "the rules are found or documented, and not 'old'" aid.img routines.lib --edition x --rules old
large='a number is at most 18446744073709551615, and not'
for value in 18446744073709551616 0x10000000000000000 99999999999999999999999; do
    wrong "$large '$value'" aid.img routines.lib --min-fn-length "$value"
    wrong "$large '$value'" aid.img routines.lib --skip-multiple "$value"
    wrong "$large '$value'" aid.img routines.lib --depth "$value"
    wrong "$large '0:$value'" aid.img routines.lib --withhold "0:$value"
done
wrong "$large '18446744073709551616'" aid.img routines.lib --edition 18446744073709551616
printed documented aid.img routines.lib --skip-multiple 18446744073709551615
printed documented aid.img routines.lib --skip-multiple 0xFFFFffffFFFFffff
wrong "what is withheld is START:LENGTH, and not '5'" aid.img routines.lib --withhold 5
wrong "the rules are found or documented, and not 'Found'" aid.img routines.lib --rules Found
wrong "the rules are found or documented, and not '0'" aid.img routines.lib --rules 0
wrong 'an argument is longer than 4096 bytes: number 2' aid.img "$(printf '%5000s' x)"

try 2 nothing 'unreadable: absent.img: No such file or directory' list absent.img routines.lib
try 2 nothing 'unreadable: absent.lib: No such file or directory' list aid.img absent.lib
try 2 nothing 'unreadable: .: Is a directory' list . routines.lib
try 2 nothing 'unreadable: .: Is a directory' list aid.img .
try 2 nothing "sillmarble: a command is to be given: ./sillmarble help tells them"
try 2 nothing "sillmarble: there is no command 'lists': ./sillmarble help tells them" lists

# standard output that cannot be written
got=0
"$program" list aid.img routines.lib >/dev/full 2>err || got=$?
[ "$got" -eq 2 ] && [ "$(cat err)" = 'unwritten: standard output: No space left on device' ] && was=0 || was=1
count $was 'a list that cannot be written'

# help names each option and each command
"$program" list aid.img --help --rules >out 2>err && was=0 || was=1
for word in --rules --edition --depth --no-check --min-fn-length --skip-multiple --withhold --help 'refused (N)' 'usage:'; do
    grep -q -e "$word" out || was=1
done
[ ! -s err ] || was=1
count $was 'list --help'
"$program" help >out 2>err && grep -q 'list IMAGE LIBRARY' out && [ ! -s err ] && was=0 || was=1
count $was 'help'

# no kit: a path that has the usual tools and no rt
mkdir bin
for tool in sh dirname basename readlink cat find head; do ln -s "$(command -v $tool)" "bin/$tool"; done
got=0
PATH=$work/bin "$program" list aid.img routines.lib >out 2>err || got=$?
[ "$got" -eq 2 ] && [ ! -s out ] && grep -q 'there is no rt on the path' err && was=0 || was=1
count $was 'without rt on the path'

# a kit that does not prove, and something else that is called rt
for tool in mkdir mv; do ln -s "$(command -v $tool)" "bin/$tool"; done
unbuilt() { # WORDS LABEL, and the script on standard input
    cat >bin/rt
    chmod +x bin/rt
    got=0
    PATH=$work/bin "$program" list aid.img routines.lib >out 2>err || got=$?
    [ "$got" -eq 2 ] && [ ! -s out ] && [ "$(tail -n 1 err)" = "sillmarble: $1" ] && was=0 || was=1
    count $was "$2"
}
unbuilt "list was not built: 'rt run' in crates/list says why" 'with a kit that does not prove' <<'EOF'
#!/bin/sh
[ "$1" != version ] || { echo another; exit 0; }
echo 'rt: list NOT PROVED'
exit 1
EOF
unbuilt "'rt version' fails: is that the Rattle kit's rt?" 'with another rt' <<'EOF'
#!/bin/sh
exit 1
EOF

# a reader that goes away ends it quietly
"$program" list many.img many.lib 2>err | head -n 1 >out
[ ! -s err ] && [ "$(cat out)" = 'Address | Name                 | Description' ] && was=0 || was=1
count $was 'a reader that goes away'

# the example's files are what examples/make.py makes, here and where the gate has them
cmp -s aid.img "$root/examples/aid.img" && cmp -s routines.lib "$root/examples/routines.lib" && was=0 || was=1
cmp -s aid.img "$root/crates/list/data/aid.img" && cmp -s routines.lib "$root/crates/list/data/routines.lib" || was=1
cmp -s documented.list "$root/crates/list/stdout" || was=1
count $was "the example's files"

printf '%s passed, %s failed\n' "$passed" "$failed"
[ "$failed" -eq 0 ]
