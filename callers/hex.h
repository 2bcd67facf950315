/* hex.h: what the static library of the crate hex_c exports: Intel HEX text into an image, and an image into text. Each function is proved to end, to touch no
   memory but what it is handed, and to give what crates/hex_c/specs/Exported.antt defines, for all inputs.

   A list that is lent is a pointer to its first element and then its length, in elements and not in bytes. Lists that are written must overlap nothing else
   that is handed over. An empty list may have any pointer but NULL. sillmarble_hex_import takes less than 256 KiB of stack.

   Both return 0 if it was done, and otherwise the number of the refusal, which leaves `out` as it was. On 0 `out` begins with the result, and what stood behind
   it stays. `counts` is one number: how many bytes the result has; 0 with every refusal. If no number is lent, none is written. */
#ifndef SILLMARBLE_HEX_H
#define SILLMARBLE_HEX_H

#include <stddef.h>
#include <stdint.h>

/* Makes the image of a HEX text: it starts at address 0 and ends behind the highest byte that is given; a byte that is never given is FFh. 65,536 bytes of
   `out` are always enough. For the first record that is bad, by the smallest number:
    20  bad text, or an end record with data      21  a wrong sum             22  a type other than 00 and 01
    23  data past FFFFh                           24  a byte given twice
   then 25, no end record; then 9, the image does not fit `out`. */
uint8_t sillmarble_hex_import(const uint8_t *text, size_t in_text, uint8_t *out, size_t in_out, uint64_t *counts, size_t in_counts);

/* Makes HEX text of an image: records of 16 bytes from address 0 on and the end record, in upper case, each line with LF. 180,236 bytes of `out` are always
   enough. 2: the image is longer than 65,536 bytes; then 9: the text does not fit `out`. */
uint8_t sillmarble_hex_export(const uint8_t *image, size_t in_image, uint8_t *out, size_t in_out, uint64_t *counts, size_t in_counts);

#endif
