/* example IMAGE LIBRARY found|documented EDITION DEPTH: prints where the names of the library stand in the image, as `sillmarble list` does with nothing else
   said. Status 0: printed. 1: refused, and standard error has the number. 2: wrong usage, or a file that cannot be read. */
#include "libfind.h"
#include <stdio.h>
#include <stdlib.h>
#include <string.h>

/* A byte more than is accepted, so that a longer file is refused by its length. */
enum { IMAGE = 65536 + 1, LIBRARY = 1048576 + 1 };
/* How many rows are lent, and how much room for the text. */
enum { SEGMENTS = 20000, REFERENCES = 40000, SYMBOLS = 20000, PATTERN = 1 << 20, PLACED = 20000, NOTED = 20000, LINES = 40000, TEXT = 1 << 24 };

static uint8_t image[IMAGE], library[LIBRARY], bytes[PATTERN], masks[PATTERN], text[TEXT];
static uint64_t segments[SEGMENTS * SILLMARBLE_SEGMENT], references[REFERENCES * SILLMARBLE_REFERENCE], symbols[SYMBOLS * SILLMARBLE_SYMBOL];
static uint64_t placed[PLACED * SILLMARBLE_PLACED], noted[NOTED * SILLMARBLE_NOTED], lines[LINES * SILLMARBLE_LINE];

/* No stretch is withheld. */
static const uint64_t nothing[2];

/* How many elements a list has. */
#define COUNT(list) (sizeof(list) / sizeof *(list))

/* How many bytes of the file are in the room; SIZE_MAX if it cannot be read. */
static size_t loaded(const char *path, uint8_t *room, size_t size)
{
    FILE *file = fopen(path, "rb");
    if (!file)
        return SIZE_MAX;
    size_t n = fread(room, 1, size, file);
    int failed = ferror(file);
    fclose(file);
    return failed ? SIZE_MAX : n;
}

int main(int count, char **words)
{
    size_t in_image = count == 6 ? loaded(words[1], image, IMAGE) : SIZE_MAX;
    size_t in_library = count == 6 ? loaded(words[2], library, LIBRARY) : SIZE_MAX;
    if (in_image == SIZE_MAX || in_library == SIZE_MAX) {
        fputs("usage: example IMAGE LIBRARY found|documented EDITION DEPTH\n", stderr);
        return 2;
    }
    uint64_t rules = strcmp(words[3], "found") != 0, edition = strtoull(words[4], NULL, 10), depth = strtoull(words[5], NULL, 10);
    uint64_t counts[SILLMARBLE_COUNTS];
    uint8_t number = sillmarble_find(image, in_image, library, in_library, rules, edition, depth, 3, false, 0, nothing, 0, counts, COUNT(counts),
                                     segments, COUNT(segments), references, COUNT(references), symbols, COUNT(symbols), bytes, COUNT(bytes),
                                     masks, COUNT(masks), placed, COUNT(placed), noted, COUNT(noted), lines, COUNT(lines));
    if (number != 0) {
        fprintf(stderr, "refused (%d)\n", number);
        return 1;
    }
    size_t size = sillmarble_print(library, in_library, lines, COUNT(lines), counts[SILLMARBLE_LINES], text, TEXT);
    return fwrite(text, 1, size, stdout) == size && size != 0 ? 0 : 2;
}
