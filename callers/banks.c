/* banks IMAGE LIBRARY [START:LENGTH..]: prints where the names of the library stand in each bank's view of a board, as `sillmarble banks` does with nothing else
   said. Status 0: printed. 1: refused, and standard error has the number. 2: wrong usage, or a file that cannot be read. */
#include "banks.h"
#include <stdio.h>
#include <stdlib.h>

/* A byte more than is accepted, so that a longer file is refused by its length; how many rows are lent, and how much room for a list's text. */
enum { FILE_SIZE = SILLMARBLE_BANK * (1 + SILLMARBLE_MOST_BANKS) + 1, LIBRARY = 1048576 + 1 };
enum { SEGMENTS = 20000, REFERENCES = 40000, SYMBOLS = 20000, PATTERN = 1 << 20, PLACED = 20000, NOTED = 20000, LINES = 40000, TEXT = 1 << 24 };

static uint8_t image[FILE_SIZE], library[LIBRARY], bytes[PATTERN], masks[PATTERN], text[TEXT];
static uint64_t segments[SEGMENTS * SILLMARBLE_SEGMENT], references[REFERENCES * SILLMARBLE_REFERENCE], symbols[SYMBOLS * SILLMARBLE_SYMBOL];
static uint64_t placed[PLACED * SILLMARBLE_PLACED], noted[NOTED * SILLMARBLE_NOTED], lines[LINES * SILLMARBLE_LINE], withheld[2 * 17];

/* How many elements a list has. */
#define COUNT(list) (sizeof(list) / sizeof *(list))

/* How many bytes of the file are in the room; SIZE_MAX if it cannot be read. */
static size_t loaded(const char *path, uint8_t *room, size_t size)
{
    FILE *file = fopen(path, "rb");
    if (!file)
        return SIZE_MAX;
    size_t n = fread(room, 1, size, file);
    int failed = ferror(file);
    fclose(file);
    return failed ? SIZE_MAX : n;
}

int main(int count, char **words)
{
    int fine = count >= 3 && count <= 3 + 17;
    size_t in_image = fine ? loaded(words[1], image, FILE_SIZE) : SIZE_MAX, in_library = fine ? loaded(words[2], library, LIBRARY) : SIZE_MAX;
    if (in_image == SIZE_MAX || in_library == SIZE_MAX) {
        fputs("usage: banks IMAGE LIBRARY [START:LENGTH..]\n", stderr);
        return 2;
    }
    size_t numbers = 0;
    for (int i = 3; i < count; i++) {
        char *behind;
        withheld[numbers++] = strtoull(words[i], &behind, 0);
        withheld[numbers++] = *behind == ':' ? strtoull(behind + 1, NULL, 0) : 0;
    }
    uint64_t counts[SILLMARBLE_COUNTS], each[SILLMARBLE_MOST_BANKS];
    uint8_t number = sillmarble_find_banks(image, in_image, library, in_library, 1, 1, 1, 3, false, 0, withheld, numbers, counts, COUNT(counts), each, COUNT(each),
                                           segments, COUNT(segments), references, COUNT(references), symbols, COUNT(symbols), bytes, COUNT(bytes),
                                           masks, COUNT(masks), placed, COUNT(placed), noted, COUNT(noted), lines, COUNT(lines));
    if (number != 0) {
        fprintf(stderr, "refused (%d)\n", number);
        return 1;
    }
    size_t line = 0;
    for (size_t bank = 0; bank < in_image / SILLMARBLE_BANK - 1; bank++) {
        size_t at = line * SILLMARBLE_LINE;
        size_t size = sillmarble_print(library, in_library, lines + at, COUNT(lines) - at, each[bank], text, TEXT);
        printf("%sBank %zu\n", bank == 0 ? "" : "\n", bank);
        if (size == 0 || fwrite(text, 1, size, stdout) != size)
            return 2;
        line += each[bank];
    }
    return 0;
}
