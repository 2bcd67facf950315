/* rattle-searching WHAT DEPTH MINIMUM IMAGE LIBRARY: the port's search of an image for a library's segments, so that its instructions can be counted;
   DEPTH is 0 to 4.
     once   both files are loaded, the library read, its segments collected, and the image searched for them, into much lent memory
     find   the same, and then the image is searched once more, with exactly as many rows lent as it takes
     mega   the same, but the second time 1 MiB is lent for the rows of placed symbols and 1 MiB for those of noted names
     show   as once, and the number and the counts are printed
   What `find` or `mega` executes more than `once` is one search; a second one leaves as much as the first. The words are equally long and told apart by
   a letter, as in main.c.
   It links a static library with count_collecting (collecting.c) and
     #[no_mangle] pub extern "C" fn count_searching(image: &[u8], depth: u64, minimum: usize, library: &[u8], n: usize, counts: &mut [u64],
         segments: &mut [u64], references: &mut [u64], symbols: &mut [u64], bytes: &mut [u8], masks: &mut [u8], placed: &mut [u64],
         noted: &mut [u64], positions: &mut [u32], goals: &mut [u32]) -> u8
   which asks for heads of zeros, so that these are set to zero before each search, and counted with it. A lent slice is a pointer and a length. */
#include "loaded.h"
#include <string.h>

/* Rows of 8, 6 and 3 numbers, and pattern bytes; rows of 8 and 6 numbers that are found: more than any of the loads takes. */
enum { SEGMENTS = 1 << 13, REFERENCES = 1 << 15, SYMBOLS = 1 << 15, PATTERN = 1 << 20, PLACED = 21 << 16, NOTED = 21 << 16, MEGA = 1 << 17, HEADS = 1 << 17 };

uint8_t count_collecting(const uint8_t *library, size_t length, uint64_t *counts, size_t four, uint64_t *segments, size_t in_segments,
                         uint64_t *references, size_t in_references, uint64_t *symbols, size_t in_symbols, uint8_t *bytes, size_t in_bytes,
                         uint8_t *masks, size_t in_masks);

uint8_t count_searching(const uint8_t *image, size_t in_image, uint64_t depth, size_t minimum, const uint8_t *library, size_t length, size_t n,
                        uint64_t *counts, size_t two, uint64_t *segments, size_t in_segments, uint64_t *references, size_t in_references,
                        uint64_t *symbols, size_t in_symbols, uint8_t *bytes, size_t in_bytes, uint8_t *masks, size_t in_masks,
                        uint64_t *placed, size_t in_placed, uint64_t *noted, size_t in_noted, uint32_t *positions, size_t in_positions,
                        uint32_t *goals, size_t in_goals);

static uint64_t segments[8 * SEGMENTS], references[6 * REFERENCES], symbols[3 * SYMBOLS], placed[8 * PLACED], noted[6 * NOTED];
static uint32_t positions[HEADS], goals[HEADS];
static uint8_t bytes[PATTERN], masks[PATTERN];

struct job {
    const uint8_t *image, *library;
    size_t in_image, length, minimum;
    uint64_t depth, stored[4], found[2];
};

static int collected(struct job *j)
{
    return count_collecting(j->library, j->length, j->stored, 4, segments, 8 * SEGMENTS, references, 6 * REFERENCES, symbols, 3 * SYMBOLS, bytes,
                            PATTERN, masks, PATTERN);
}

/* The collection's lists are lent as far as they are filled. */
static int searched(struct job *j, size_t in_placed, size_t in_noted)
{
    memset(positions, 0, sizeof positions);
    memset(goals, 0, sizeof goals);
    return count_searching(j->image, j->in_image, j->depth, j->minimum, j->library, j->length, j->stored[0], j->found, 2, segments,
                           8 * j->stored[0], references, 6 * j->stored[1], symbols, 3 * j->stored[2], bytes, j->stored[3], masks, j->stored[3],
                           placed, in_placed, noted, in_noted, positions, HEADS, goals, HEADS);
}

int main(int count, char **words)
{
    struct job j = {0};
    if (count == 6) {
        j.depth = (uint64_t)(words[2][0] - '0');
        j.minimum = strtoul(words[3], NULL, 10);
        j.image = loaded(words[4], &j.in_image);
        j.library = loaded(words[5], &j.length);
    }
    if (!j.image || !j.library) {
        fputs("usage: rattle-searching once|find|mega|show DEPTH MINIMUM IMAGE LIBRARY\n", stderr);
        return 2;
    }
    char job = words[1][0];
    int number = collected(&j);
    if (number == 0)
        number = searched(&j, 8 * PLACED, 6 * NOTED);
    if (number == 0 && job == 'f')
        number = searched(&j, 8 * j.found[0], 6 * j.found[1]);
    if (number == 0 && job == 'm')
        number = searched(&j, MEGA, MEGA);
    if (job == 's' && number == 0)
        printf("%llu placed, %llu noted\n", (unsigned long long)j.found[0], (unsigned long long)j.found[1]);
    return number;
}
