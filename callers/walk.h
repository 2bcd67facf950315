/* walk.h: what the static library of the crate routine_c exports: a walk over the instructions of an image, from an address on. It is proved to end, to touch no
   memory but what it is handed, and to give what crates/routine_c/specs/Exported.antt defines, for all inputs.

   A list that is lent is a pointer to its first element and then its length, in elements and not in bytes. Lists that are written must overlap nothing else
   that is handed over. An empty list may have any pointer but NULL. It takes less than 4 KiB of stack. */
#ifndef SILLMARBLE_WALK_H
#define SILLMARBLE_WALK_H

#include <stddef.h>
#include <stdint.h>

/* Shows the instructions of `image` from the address `start` on, one after another, through the first return (RET or RETI) or 256 of them. Jumps are shown and
   not followed. `withheld` has a start and a length for each stretch of the image whose bytes have no influence: more than
   32 numbers are refused with 16, an odd number of them with 4.

   `rows` gets three numbers an instruction: its address; 1 for a call, 2 for a jump, else 0; and the address that the call or jump leads to, else 0. JMP @A+DPTR
   names no address and has 0, 0. Behind the rows come zeros. 768 numbers are always enough.

   `counts` gets two numbers: how many instructions are shown, and why no more are:
     0  behind a return            1  behind 256 instructions        2  before A5h, which is no instruction
     3  before an instruction that passes the image's end            4  before one that has withheld bytes
   Both are 0 with a refusal. Of numbers that are not lent none is written.

   Returns 0, or the number of the refusal:
     2  the image is longer than 65,536 bytes         16  more than 16 stretches          4  a stretch passes the image's end
    19  `start` is at or past the image's end          9  `rows` is too short; then all of it is set to zero
   in this order; all but 9 leave `rows` as it was. */
uint8_t sillmarble_walk(const uint8_t *image, size_t in_image, size_t start, const uint64_t *withheld, size_t in_withheld,
                        uint64_t *counts, size_t in_counts, uint64_t *rows, size_t in_rows);

#endif
