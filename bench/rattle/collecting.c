/* rattle-collecting WHAT FILE: the port's collection of a library's segments, so that its instructions can be counted.
     once   the file's bytes are loaded, read as a library, and its segments collected into much lent memory
     pick   the same, and then once more into exactly as much as they take, or into the same where they are refused
     show   as once, and the number, the counts, and with a refusal what it left in lent memory are printed
   What `pick` executes more than `once` is one reading and collecting: on 0 the lent memory has no rest that would have to be set to zero.
   The words are equally long and told apart by a letter, as in main.c.
   It links a static library with
     #[no_mangle] pub extern "C" fn count_collecting(library: &[u8], counts: &mut [u64], segments: &mut [u64], references: &mut [u64],
         symbols: &mut [u64], bytes: &mut [u8], masks: &mut [u8]) -> u8
   A lent slice is a pointer and a length. */
#include "loaded.h"
#include <string.h>

/* Rows of 8, 6 and 3 numbers, and pattern bytes: more than any of the loads takes, but for those that are refused. */
enum { SEGMENTS = 1 << 17, REFERENCES = 160000, SYMBOLS = 160000, PATTERN = 1 << 21, BEFORE = 0xa5 };

uint8_t count_collecting(const uint8_t *library, size_t length, uint64_t *counts, size_t four, uint64_t *segments, size_t in_segments,
                         uint64_t *references, size_t in_references, uint64_t *symbols, size_t in_symbols, uint8_t *bytes, size_t in_bytes,
                         uint8_t *masks, size_t in_masks);

static uint64_t segments[8 * SEGMENTS], references[6 * REFERENCES], symbols[3 * SYMBOLS];
static uint8_t bytes[PATTERN], masks[PATTERN];

/* Collects into lists of as many rows, and leaves the counts in their place. */
static int collected(const uint8_t *library, size_t length, uint64_t counts[4])
{
    return count_collecting(library, length, counts, 4, segments, 8 * counts[0], references, 6 * counts[1], symbols, 3 * counts[2],
                            bytes, counts[3], masks, counts[3]);
}

static void fill(int byte)
{
    memset(segments, byte, sizeof segments);
    memset(references, byte, sizeof references);
    memset(symbols, byte, sizeof symbols);
    memset(bytes, byte, sizeof bytes);
    memset(masks, byte, sizeof masks);
}

static int is_all(const void *list, size_t size, uint8_t byte)
{
    const uint8_t *each = list;
    return each[0] == byte && memcmp(each, each + 1, size - 1) == 0;
}

static int full_of(uint8_t byte)
{
    return is_all(segments, sizeof segments, byte) && is_all(references, sizeof references, byte) &&
           is_all(symbols, sizeof symbols, byte) && is_all(bytes, sizeof bytes, byte) && is_all(masks, sizeof masks, byte);
}

static void show(int number, const uint64_t counts[4])
{
    if (number != 0)
        printf("refusal %d, lent memory %s\n", number, full_of(0) ? "set to zero" : full_of(BEFORE) ? "as it was" : "neither as it was nor zero");
    else
        printf("%llu segments, %llu references, %llu symbols, %llu pattern bytes\n", (unsigned long long)counts[0],
               (unsigned long long)counts[1], (unsigned long long)counts[2], (unsigned long long)counts[3]);
}

int main(int count, char **words)
{
    size_t length = 0;
    uint8_t *library = count == 3 ? loaded(words[2], &length) : NULL;
    if (!library) {
        fputs("usage: rattle-collecting once|pick|show FILE\n", stderr);
        return 2;
    }
    char job = words[1][0];
    uint64_t counts[4] = {SEGMENTS, REFERENCES, SYMBOLS, PATTERN};
    if (job == 's')
        fill(BEFORE);
    volatile int number = collected(library, length, counts);
    if (job == 's')
        show(number, counts);
    if (job == 'p')
        number = collected(library, length, counts);
    return 0;
}
