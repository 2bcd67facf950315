/* rattle-banks WHAT FILE LIBRARY: the port's run on a board, so that its instructions can be counted; rule set 0, depth 1, minimum 4, nothing withheld. Lent is
   more than any of the loads takes, but for the lines as `show` tells.
     load   both files are loaded, and nothing else is done
     find   the library is also read, its segments collected, and each bank's view searched and listed, once
     show   as find, and the lines of each bank are printed, or the number of a refusal
   The words are equally long and told apart by a letter, as in main.c. It links the static library of the crate banks_c, as any caller does. */
#include "../../callers/banks.h"
#include "loaded.h"

enum { SEGMENTS = 1024, REFERENCES = 4096, SYMBOLS = 4096, PATTERN = 1 << 17, PLACED = 4096, NOTED = 4096, LINES = 12288 };
static uint64_t segments[8 * SEGMENTS], references[6 * REFERENCES], symbols[3 * SYMBOLS], placed[8 * PLACED], noted[6 * NOTED], lines[4 * LINES];
static uint8_t bytes[PATTERN], masks[PATTERN];

int main(int count, char **words)
{
    size_t size = 0, length = 0;
    uint8_t *file = count == 4 ? loaded(words[2], &size) : NULL, *library = count == 4 ? loaded(words[3], &length) : NULL;
    if (!file || !library) {
        fputs("usage: rattle-banks load|find|show FILE LIBRARY\n", stderr);
        return 2;
    }
    if (words[1][0] == 'l')
        return 0;
    static const uint64_t nothing[2];
    uint64_t counts[SILLMARBLE_COUNTS], each[SILLMARBLE_MOST_BANKS];
    int number = sillmarble_find_banks(file, size, library, length, 0, 1, 1, 4, false, 0, nothing, 0, counts, SILLMARBLE_COUNTS, each, SILLMARBLE_MOST_BANKS,
                                       segments, 8 * SEGMENTS, references, 6 * REFERENCES, symbols, 3 * SYMBOLS, bytes, PATTERN, masks, PATTERN, placed,
                                       8 * PLACED, noted, 6 * NOTED, lines, 4 * LINES);
    for (size_t k = 0; words[1][0] == 's' && number == 0 && k < size / SILLMARBLE_BANK - 1; k++)
        printf("%llu ", (unsigned long long)each[k]);
    if (words[1][0] == 's')
        printf("(%d)\n", number);
    return number;
}
