/* banks.h: what the static library of the crate banks_c exports: the lists of a board with switched banks. It is proved to end, to touch no memory but what it is
   handed, and to give what crates/banks_c/specs/Exported.antt defines, for all inputs. libfind.h says how lists are lent, what their rows are, and has the functions
   that print lines. It takes less than 4 MiB of stack. */
#ifndef SILLMARBLE_BANKS_H
#define SILLMARBLE_BANKS_H

#include "libfind.h"

/* A board has 32 KiB of common code and 1 to 16 banks of 32 KiB. */
enum { SILLMARBLE_BANK = 32768, SILLMARBLE_MOST_BANKS = 16 };

/* Lists where the names of a library stand in each view of a board's file: in 0000h to 7FFFh the common part, in 8000h to FFFFh the bank, as one image of 65,536
   bytes. The file has the common part and then the banks, which count from 0; it is in_file / 32,768 - 1 of them. The library is collected once.

   Returns 0, or the number of the refusal, as sillmarble_find does, but for 18 in the place of 2: the file is not 32,768 bytes and 1 to 16 times as many.
   Refusals 9 to 13 set all lent lists to zero, all others leave them as they were.

   file                 the bytes of the board's file
   withheld             stretches of the file, by its offsets: what a view shows of them has no influence on it. 4 is for one that passes the file's end
   counts               seven numbers: as of sillmarble_find, placed symbols and noted names of the last bank, lines of all banks together
   each                 16 numbers: how many lines each bank has, 0 for a bank that there is not, and all 0 with every refusal. If fewer than 16 are lent, none is
                        written; those behind the sixteenth stay as they were
   placed, noted        lent for one bank at a time, so that they have to be enough for the greatest; they are left with the rows of the last bank
   lines                for the lists of all banks together: that of bank 0, that of bank 1 and so on, one behind another; their addresses are those of the view
   all others           as of sillmarble_find */
uint8_t sillmarble_find_banks(const uint8_t *file, size_t in_file, const uint8_t *library, size_t in_library, uint64_t rules, uint64_t edition, uint64_t depth,
                              size_t minimum, bool skips, size_t amount, const uint64_t *withheld, size_t in_withheld, uint64_t *counts, size_t in_counts,
                              uint64_t *each, size_t in_each, uint64_t *segments, size_t in_segments, uint64_t *references, size_t in_references,
                              uint64_t *symbols, size_t in_symbols, uint8_t *bytes, size_t in_bytes, uint8_t *masks, size_t in_masks, uint64_t *placed,
                              size_t in_placed, uint64_t *noted, size_t in_noted, uint64_t *lines, size_t in_lines);

#endif
