/* libfind.h: what the static library of the crate libfind_c exports. Each function is proved to end, to touch no memory but what it is handed, and to give what
   crates/exported/specs/Exported.antt defines, for all inputs.

   A list that is lent is a pointer to its first element and then its length, in elements and not in bytes. Lists that are written must overlap nothing else
   that is handed over. An empty list may have any pointer but NULL. sillmarble_find takes less than 4 MiB of stack: the 8 MiB that a program usually has are
   enough, the 2 MiB that a further thread often has are not. */
#ifndef SILLMARBLE_LIBFIND_H
#define SILLMARBLE_LIBFIND_H

#include <stdbool.h>
#include <stddef.h>
#include <stdint.h>

/* How many numbers a row of each list has. */
enum {
    SILLMARBLE_SEGMENT = 8,
    SILLMARBLE_REFERENCE = 6,
    SILLMARBLE_SYMBOL = 3,
    SILLMARBLE_PLACED = 8,
    SILLMARBLE_NOTED = 6,
    SILLMARBLE_LINE = 4
};

/* What the seven counts are, in their order. */
enum {
    SILLMARBLE_SEGMENTS,
    SILLMARBLE_REFERENCES,
    SILLMARBLE_SYMBOLS,
    SILLMARBLE_PATTERN_BYTES,
    SILLMARBLE_PLACED_SYMBOLS,
    SILLMARBLE_NOTED_NAMES,
    SILLMARBLE_LINES,
    SILLMARBLE_COUNTS
};

/* Lists where the names of a library stand in an image.

   Returns 0 if that was done, and otherwise the number of the refusal:
     1  rule set not 0 or 1                        2  image longer than 65,536 bytes         3  library longer than 1,048,576 bytes
     4  a withheld stretch passes the image's end    5  no first module can be read, or a 2Ch library lacks its closing records
     6  a record's body passes the file's end      7  a record has length 0                  8  a module's header and end have different names
     9  more rows or pattern bytes than were lent 10  a fixup kind above 7                  11  a fixup block above 3
    12  a content passes its segment's end        13  a fixup to a segment that is not kept
    14  a record's bytes do not sum to 0          15  bytes are left over behind a record's entries, or behind the file's last record
    16  more than 16 stretches are withheld      17  depth above 4                         30  edition not 1 or 2
   The first that applies is given: 1, 30, 17, 2, 3, 16, 4; of 5 to 8, 14 and 15 the first that is met in the file; then 9 to 13.
   Refusals 9 to 13 set all lent lists to zero, all others leave them as they were. On 0 each list begins with its rows, and the rest of it is zero.

   image, library       the bytes of both files
   rules                1: as documented, where AJMP and ACALL keep the top three bits of their targets, a target has 16 bits and a symbol of an absolute content
                        stands at its own address; no line has an address above FFFFh. 0: as at51 has it
   edition              how the library is read. 1: checksums and bytes that are left over are not looked at. 2: all bytes of a record, its checksum included, sum
                        to 0 modulo 256, entries use up the body of their record, and the last record the file; else 14 or 15. What edition 2 reads, edition 1
                        reads to the same modules
   depth                to what depth references are checked, 0 to 4. 0: every match counts. 1: a match counts only if every reference of it leads into the image, and
                        to a match of the segment, if it refers to one. 2 to 4: the match there has to hold so too, at a depth less by one. What holds at a depth
                        holds at every smaller one; a list may still have lines at a greater depth that it lacks at a smaller one
   minimum              so many bytes of a pattern must be fixed, in whole or in part, for a match to count by itself
   skips, amount        whether addresses with more than `amount` names are left out; if not, `amount` has no influence
   withheld             stretches of the image that have no influence on anything that comes out: pairs of numbers, a start and a length each, up to 16
                        pairs. They may overlap or be empty; none withholds nothing. More than 32 numbers are refused with 16, an odd number of them with 4
   counts               seven numbers: how many rows, and pattern bytes, there are; all zero with every refusal. If fewer than seven are lent, none is written;
                        those behind the seventh stay as they were
   segments, references, symbols, bytes, masks
                        for the segments of the library: rows of 8, 6 and 3 numbers, and pattern bytes with as many masks
   placed, noted        for what was found: symbols that are placed, rows of 8, and names that are referred to, rows of 6
   lines                for the list, rows of 4, by address: the address, the grade, and the place and the length of the name in the library.
                        Grade 3: it stands there, is referred to there, and what it refers to by name stands where it should. 2: the same, but not referred to.
                        1: something that it refers to by name does not stand where it should. 0: it is only referred to there */
uint8_t sillmarble_find(const uint8_t *image, size_t in_image, const uint8_t *library, size_t in_library, uint64_t rules, uint64_t edition, uint64_t depth,
                        size_t minimum, bool skips, size_t amount, const uint64_t *withheld, size_t in_withheld, uint64_t *counts, size_t in_counts,
                        uint64_t *segments, size_t in_segments, uint64_t *references, size_t in_references, uint64_t *symbols, size_t in_symbols,
                        uint8_t *bytes, size_t in_bytes, uint8_t *masks, size_t in_masks, uint64_t *placed, size_t in_placed, uint64_t *noted,
                        size_t in_noted, uint64_t *lines, size_t in_lines);

/* Prints the heading and the first n lines into `out`, in at51's layout, each with its line end and with no 0 behind the last. `library` is the one that the
   lines were made of. Returns how many bytes that are; 0 if `out` is too short, which then stays as it was. */
size_t sillmarble_print(const uint8_t *library, size_t in_library, const uint64_t *lines, size_t in_lines, size_t n, uint8_t *out, size_t in_out);

/* The heading alone (45 bytes), and line number i alone, from 0 on (368 bytes at most): to print a list of any length through a small buffer. */
size_t sillmarble_print_heading(uint8_t *out, size_t in_out);
size_t sillmarble_print_line(const uint8_t *library, size_t in_library, const uint64_t *lines, size_t in_lines, size_t i, uint8_t *out, size_t in_out);

/* Puts the description of a name into `out`. Returns how many bytes that are; 0 if the name has none, and SIZE_MAX if `out` is too short, which in both
   cases stays as it was. 88 bytes are always enough. */
size_t sillmarble_describe(const uint8_t *name, size_t in_name, uint8_t *out, size_t in_out);

/* How many numbers or bytes a row of a list has: 0 segments, 1 references, 2 symbols, 3 bytes, 4 masks, 5 placed, 6 noted, 7 lines; 0 for any other. */
size_t sillmarble_row_width(size_t list);

#endif
