# What the script sillmarble, in the repository's root, says of its commands: `usage`, and COMMAND_help for each. It stands here and not in the programs, so that
# reading it needs none to be built.

usage() {
    cat <<'EOF'
sillmarble: where the routines and tables of a library stand in the image of an 8051 part

  ./sillmarble list IMAGE LIBRARY [options]   print the list
  ./sillmarble banks IMAGE LIBRARY [options]  print the list of each bank of a board with switched banks
  ./sillmarble walk IMAGE ADDRESS [options]   print the instructions of a routine, one after another
  ./sillmarble hex IMAGE                      write the image as Intel HEX text to standard output
  ./sillmarble unhex TEXT                     write the image of an Intel HEX text to standard output
  ./sillmarble COMMAND --help                 all of a command: options, what is printed, the refusals in short
  ./sillmarble help                           print this

The first use proves and builds the program, which takes some minutes, and so does the first one after the sources changed; the Rattle kit (rt) has to be
on the path. Status 0: done. 1: refused; standard error has one line with the refusal's number and its words. 2: wrong usage, a file that cannot be read,
or a program that could not be built; standard error says which.
EOF
}

# What `list` and `banks` have in common: their options, which the programs take apart, what a line says, and the refusals.
listing_options() {
    cat <<'EOF'
  --rules documented       AJMP and ACALL keep the top three bits of their targets, a target has 16 bits as the
                           program counter has, and a symbol of an absolute content stands at its own address
                           (this is the default)
  --rules found            as at51 has it: those bits count as 0, a target has 64 bits, the content's start is added
  --edition 1              read the library without a look at checksums and at bytes that are left over (this is
                           the default)
  --edition 2              refuse it if the bytes of a record do not sum to 0, checksum included, or if bytes are
                           left over behind a record's entries or behind the file's last record
  --depth N                to what depth references are checked, 0 to 4 (1): at 1 a match counts only if all of its
                           references lead into the image, and those to segments where these stand; at 2 to 4 what
                           stands there has to hold so too, at a depth less by one; at 0 every match counts
  --no-check               the same as --depth 0: list a match even if something that it refers to is not where it
                           says
  --min-fn-length N        so many bytes of a pattern must be fixed, in whole or in part, for a match to count
                           by itself (3)
  --skip-multiple N        leave out addresses that have more than N names (none is left out)
  --withhold START:LENGTH  these bytes of the image have no influence on what is printed (nothing is withheld);
                           given once for each stretch, up to 16 times
EOF
}

listing_lines() {
    cat <<'EOF'
A name in (parentheses) is only referred to there. A name in [brackets] stands there, but something that it
refers to by name does not stand where it should. Names of the C51 runtime have a description.
EOF
}

listing_refusals() {
    cat <<'EOF'
   4         a stretch that is withheld passes the image's end
   5 to 8    the library cannot be read: no module or not its closing records, a record past the file's end,
             a record of length 0, a module whose header and end have different names
   9         image and library need more memory than the program lends
   10 to 13  the library cannot be used: an unknown kind or block of a fixup, a content past its segment's end,
             a fixup to a segment that is not kept
   14, 15    edition 2 does not read the library: the bytes of a record do not sum to 0, bytes are left over
   16        more than 16 stretches are withheld
   17        the depth is above 4
   30        the edition is not 1 or 2

'usage: ...', 'unreadable: ...' (a file) or 'unwritten: ...' (the list) and status 2 otherwise.
EOF
}

list_help() {
    cat <<'EOF'
./sillmarble list IMAGE LIBRARY [options]

Lists where the routines and tables of LIBRARY, an OMF-51 file, stand in IMAGE, the code of an 8051 part.
Each file has at most 65,536 bytes. Options stand anywhere, each at most once, but for --withhold.

EOF
    listing_options
    cat <<'EOF'
  --hex                    IMAGE is Intel HEX text: it is made into an image first, as unhex does, and refused with
                           its numbers (./sillmarble unhex --help)
  --help                   print this

N, START and LENGTH are decimal, or hexadecimal behind 0x. A file whose name begins with - is written ./-NAME.

Printed on standard output: a heading, and a line for each name, by address:

  Address | Name                 | Description
  0x0001    ?C?LADD                long (32-bit) addition

EOF
    listing_lines
    cat <<'EOF'

On standard error nothing, and status 0, if that was printed. 'refused (N): ...' and status 1, if N is

   2, 3      image, library: longer than 65,536 bytes
EOF
    listing_refusals
}

banks_help() {
    cat <<'EOF'
./sillmarble banks IMAGE LIBRARY [options]

Lists where the routines and tables of LIBRARY, an OMF-51 file of at most 65,536 bytes, stand on a board with
switched banks. IMAGE is the board's code: the common part of 32,768 bytes, and behind it 1 to 16 banks of 32,768
bytes each. Banks are counted from 0. While a bank is switched in, the part sees the common part at 0000h to 7FFFh
and the bank at 8000h to FFFFh. That view is searched for each bank, as list searches an image.
Options stand anywhere, each at most once, but for --withhold.

EOF
    listing_options
    cat <<'EOF'
  --help                   print this

N, START and LENGTH are decimal, or hexadecimal behind 0x. START is counted from the beginning of the file, and not
an address: bank 0 begins at 0x8000, bank 1 at 0x10000. Intel HEX ends at FFFFh, so that its text can give one bank
at most; unhex makes an image of it. A file whose name begins with - is written ./-NAME.

Printed on standard output: for each bank its number, a heading, and a line for each name, by the address in the
view; between two banks an empty line:

  Bank 0
  Address | Name                 | Description
  0x0140    apply_gain
  0x8200    ?C?IMUL                int (16-bit) multiply

  Bank 1
  Address | Name                 | Description
  0x0140   [apply_gain]
  0x8200   (?C?IMUL)               int (16-bit) multiply

What stands in the common part is listed with each bank. It may differ from bank to bank where it refers to one.
EOF
    listing_lines
    cat <<'EOF'

On standard error nothing, and status 0, if that was printed. 'refused (N): ...' and status 1, if N is

   18        the image is not a common part and 1 to 16 banks: 32,768 bytes times 2 to 17
   3         the library is longer than 65,536 bytes
EOF
    listing_refusals
}

walk_help() {
    cat <<'EOF'
./sillmarble walk IMAGE ADDRESS [options]

Prints the instructions of IMAGE, the code of an 8051 part of at most 65,536 bytes, from ADDRESS on, in the order in
which they stand: through the first return (RET or RETI), or 256 of them. Jumps are shown and not followed.

  --withhold START:LENGTH  these bytes of the image have no influence on what is printed (nothing is withheld);
                           given once for each stretch, up to 16 times
  --hex                    IMAGE is Intel HEX text: it is made into an image first, as unhex does, and refused with
                           its numbers (./sillmarble unhex --help)
  --help                   print this

ADDRESS, START and LENGTH are decimal, or hexadecimal behind 0x. ADDRESS is one of a list, or any other of the image.
A file whose name begins with - is written ./-NAME.

Printed on standard output: a heading, a line for each instruction, and why no more are shown:

  Address | Bytes     | Instruction       | Target
  0x0140    12 02 00    LCALL addr16        call 0x0200
  0x0143    22          RET
  stops: return

The instruction is written as the manual of the part has it, with names for the bytes behind the opcode. A target is
the address that a call or a jump leads to, also past the image's end. It stops

  return                      behind a return
  limit of 256 instructions   behind the 256th
  reserved opcode A5          before the byte A5, which is no instruction: data, most likely
  the image's end             before an instruction of which bytes are missing
  withheld bytes              before an instruction that has withheld bytes

On standard error nothing, and status 0, if that was printed. 'refused (N): ...' and status 1, if N is

   2         IMAGE is longer than 65,536 bytes
   4         a stretch that is withheld passes the image's end
   16        more than 16 stretches are withheld
   19        ADDRESS is at or past the image's end

'usage: ...', 'unreadable: ...' (the file) or 'unwritten: ...' (the lines) and status 2 otherwise.
EOF
}

hex_help() {
    cat <<'EOF'
./sillmarble hex IMAGE

Writes IMAGE, at most 65,536 bytes, as Intel HEX text to standard output: data records of 16 bytes from address 0
on, of which the last may be shorter, and the end record, in upper case, each line with LF. Every byte is written,
FFh too.

On standard error nothing, and status 0, if that was written. 'refused (2): ...' and status 1, if IMAGE is longer.
'usage: ...', 'unreadable: ...' (the file) or 'unwritten: ...' (the text) and status 2 otherwise.
EOF
}

unhex_help() {
    cat <<'EOF'
./sillmarble unhex TEXT

Writes the image of TEXT, Intel HEX of at most 1,048,576 bytes, to standard output. Data records (type 00) may come
in any order, up to address FFFFh, with letters in either case; lines end with LF or CR LF, the last may lack its
ending. What stands behind the line of the end record (type 01) is not looked at, and its address is ignored. The
image starts at address 0 and ends behind the highest byte that is given; a byte that is never given is FFh.

On standard error nothing, and status 0, if that was written. 'refused (N): ...' and status 1, if N is

   2         TEXT is longer than 1,048,576 bytes
   20 to 24  for the first record that is bad: bad text (an end record with data too), a wrong sum, a type other
             than 00 and 01, data past FFFFh, a byte given twice
   25        there is no end record

'usage: ...', 'unreadable: ...' (the file) or 'unwritten: ...' (the image) and status 2 otherwise.
EOF
}
