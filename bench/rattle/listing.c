/* rattle-listing WHAT DEPTH MINIMUM SKIP IMAGE LIBRARY: the port's list of what a search found, so that its instructions can be counted; DEPTH is 0 to 4, SKIP is
   none or the skip amount.
     find   both files are loaded, the library read, its segments collected, and the image searched for them, into much lent memory
     list   the same, and then what was found is listed, with exactly as many rows lent as it takes
     text   the same, and the list is printed into a buffer of exactly its length
     show   as list, and the counts are printed
   What `list` executes more than `find` is one listing, and what `text` executes more than `list` one printing: how many lines there are and how long the
   printed form is must be known before, so each program lists and prints once first, whatever it is asked, into much lent memory.
   It links a static library with count_collecting (collecting.c), count_searching (searching.c) and
     #[no_mangle] pub extern "C" fn count_listing(image: &[u8], skips: bool, amount: usize, library: &[u8], n: usize, counts: &mut [u64], segments: &[u64],
         references: &[u64], placed: &[u64], positions: &[u32], noted: &[u64], goals: &[u32], names: usize, lines: &mut [u64]) -> u8
   which lists the rows that a search for n segments left, with its heads and so many noted names, as found and with nothing withheld; 0 leaves how many lines
   there are in `counts`, 9 says that they are more than were lent; and
     #[no_mangle] pub extern "C" fn count_printing(library: &[u8], lines: &[u64], n: usize, out: &mut [u8]) -> usize
   which prints n lines and returns how many bytes were written, 0 without room for them.
   A lent slice is a pointer and a length. */
#include "loaded.h"
#include <stdbool.h>
#include <string.h>

/* Rows of 8, 6 and 3 numbers, and pattern bytes; rows of 8 and 6 numbers that are found; rows of 4 that are listed, and their printed form: more than any of
   the loads takes. */
enum { SEGMENTS = 1 << 13, REFERENCES = 1 << 17, SYMBOLS = 1 << 17, PATTERN = 1 << 20, PLACED = 1 << 17, NOTED = 1 << 17, LINES = 1 << 18, TEXT = 1 << 24, HEADS = 1 << 17 };

uint8_t count_collecting(const uint8_t *library, size_t length, uint64_t *counts, size_t four, uint64_t *segments, size_t in_segments,
                         uint64_t *references, size_t in_references, uint64_t *symbols, size_t in_symbols, uint8_t *bytes, size_t in_bytes,
                         uint8_t *masks, size_t in_masks);

uint8_t count_searching(const uint8_t *image, size_t in_image, uint64_t depth, size_t minimum, const uint8_t *library, size_t length, size_t n,
                        uint64_t *counts, size_t two, uint64_t *segments, size_t in_segments, uint64_t *references, size_t in_references,
                        uint64_t *symbols, size_t in_symbols, uint8_t *bytes, size_t in_bytes, uint8_t *masks, size_t in_masks,
                        uint64_t *placed, size_t in_placed, uint64_t *noted, size_t in_noted, uint32_t *positions, size_t in_positions,
                        uint32_t *goals, size_t in_goals);

uint8_t count_listing(const uint8_t *image, size_t in_image, bool skips, size_t amount, const uint8_t *library, size_t length, size_t n, uint64_t *counts,
                      size_t one, const uint64_t *segments, size_t in_segments, const uint64_t *references, size_t in_references,
                      const uint64_t *placed, size_t in_placed, const uint32_t *positions, size_t in_positions, const uint64_t *noted, size_t in_noted,
                      const uint32_t *goals, size_t in_goals, size_t names, uint64_t *lines, size_t in_lines);

size_t count_printing(const uint8_t *library, size_t length, const uint64_t *lines, size_t in_lines, size_t n, uint8_t *out, size_t in_out);

static uint64_t segments[8 * SEGMENTS], references[6 * REFERENCES], symbols[3 * SYMBOLS], placed[8 * PLACED], noted[6 * NOTED], lines[4 * LINES];
static uint32_t positions[HEADS], goals[HEADS];
static uint8_t bytes[PATTERN], masks[PATTERN], text[TEXT];

struct job {
    const uint8_t *image, *library;
    size_t in_image, length, minimum, amount;
    bool skips;
    uint64_t depth, stored[4], found[2], listed[1];
};

static int collected(struct job *j)
{
    return count_collecting(j->library, j->length, j->stored, 4, segments, 8 * SEGMENTS, references, 6 * REFERENCES, symbols, 3 * SYMBOLS, bytes,
                            PATTERN, masks, PATTERN);
}

/* The collection's lists are lent as far as they are filled. */
static int searched(struct job *j)
{
    return count_searching(j->image, j->in_image, j->depth, j->minimum, j->library, j->length, j->stored[0], j->found, 2, segments,
                           8 * j->stored[0], references, 6 * j->stored[1], symbols, 3 * j->stored[2], bytes, j->stored[3], masks, j->stored[3],
                           placed, 8 * PLACED, noted, 6 * NOTED, positions, HEADS, goals, HEADS);
}

static int listed(struct job *j, size_t in_lines)
{
    return count_listing(j->image, j->in_image, j->skips, j->amount, j->library, j->length, j->stored[0], j->listed, 1, segments, 8 * j->stored[0],
                         references, 6 * j->stored[1], placed, 8 * j->found[0], positions, HEADS, noted, 6 * j->found[1], goals, HEADS, j->found[1],
                         lines, in_lines);
}

static size_t printed(struct job *j, size_t room)
{
    return count_printing(j->library, j->length, lines, 4 * j->listed[0], j->listed[0], text, room);
}

int main(int count, char **words)
{
    struct job j = {0};
    if (count == 7) {
        j.depth = (uint64_t)(words[2][0] - '0');
        j.minimum = strtoul(words[3], NULL, 10);
        j.skips = strcmp(words[4], "none") != 0;
        j.amount = strtoul(words[4], NULL, 10);
        j.image = loaded(words[5], &j.in_image);
        j.library = loaded(words[6], &j.length);
    }
    if (!j.image || !j.library) {
        fputs("usage: rattle-listing find|list|text|show DEPTH MINIMUM SKIP IMAGE LIBRARY\n", stderr);
        return 2;
    }
    char job = words[1][0];
    int number = collected(&j);
    if (number == 0)
        number = searched(&j);
    if (number == 0)
        number = listed(&j, 4 * LINES);
    size_t room = number == 0 ? printed(&j, TEXT) : 0;
    if (number == 0 && (job == 'l' || job == 't'))
        number = listed(&j, 4 * j.listed[0]);
    if (number == 0 && job == 't')
        printed(&j, room);
    if (number == 0 && job == 's')
        printf("%llu placed, %llu noted, %llu lines\n", (unsigned long long)j.found[0], (unsigned long long)j.found[1], (unsigned long long)j.listed[0]);
    return number;
}
