/* rattle-whole WHAT DEPTH MINIMUM SKIP IMAGE LIBRARY [COUNTS]: the port's whole run, so that its instructions can be counted; DEPTH is 0 to 4, with a 2
   behind it the library is read in edition 2, and with sN behind that N stretches of 16 bytes are withheld, scattered over the image; SKIP is none or the skip
   amount. COUNTS are how many rows of segments, references and symbols, pattern bytes, and rows of placed symbols, noted names and lines are lent; without
   them it is more than any of the loads takes.
     load   both files are loaded, and nothing else is done
     find   the library is also read, its segments collected, the image searched for them, and what was found listed, once
     show   as find, and the counts are printed, in the order of COUNTS, or the number of a refusal
   What `find` executes more than `load` is the run without its printing. The words are equally long and told apart by a letter, as in main.c.
   It links the static library of the crate libfind_c, as any caller does. */
#include "../../callers/libfind.h"
#include "loaded.h"
#include <stdbool.h>
#include <string.h>

enum { SEGMENTS, REFERENCES, SYMBOLS, PATTERN, PLACED, NOTED, LINES, COUNTS };
/* What is lent without COUNTS, and at most. */
static const size_t most[COUNTS] = {1 << 17, 1 << 18, 1 << 18, 1 << 21, 21 << 16, 1 << 18, 21 << 16};

static uint64_t segments[8 << 17], references[6 << 18], symbols[3 << 18], placed[8 * (21 << 16)], noted[6 << 18], lines[4 * (21 << 16)];
static uint8_t bytes[1 << 21], masks[1 << 21];

/* What is withheld: pairs of a start and a length. */
static uint64_t withheld[2 * 17];

/* Scatters the stretches that the word of DEPTH asks for, and says how many numbers these are. */
static size_t scattered(const char *word, size_t in_image)
{
    const char *asked = strchr(word, 's');
    size_t n = asked ? strtoul(asked + 1, NULL, 10) : 0;
    for (size_t i = 0; i < n && i < 17; i++) {
        withheld[2 * i] = (i + 1) * in_image / (n + 1);
        withheld[2 * i + 1] = 16;
    }
    return 2 * n;
}

static int found(char **words, const uint8_t *image, size_t in_image, const uint8_t *library, size_t length, const size_t *lent, uint64_t *counts)
{
    return sillmarble_find(image, in_image, library, length, 0, words[2][1] == '2' ? 2 : 1, (uint64_t)(words[2][0] - '0'), strtoul(words[3], NULL, 10), strcmp(words[4], "none") != 0,
                           strtoul(words[4], NULL, 10), withheld, scattered(words[2], in_image), counts, COUNTS, segments, 8 * lent[SEGMENTS], references, 6 * lent[REFERENCES], symbols,
                           3 * lent[SYMBOLS], bytes, lent[PATTERN], masks, lent[PATTERN], placed, 8 * lent[PLACED], noted, 6 * lent[NOTED], lines,
                           4 * lent[LINES]);
}

static void show(int number, const uint64_t *counts)
{
    if (number != 0) {
        printf("refusal %d\n", number);
        return;
    }
    for (int i = 0; i < COUNTS; i++)
        printf("%llu%c", (unsigned long long)counts[i], i + 1 < COUNTS ? ' ' : '\n');
}

int main(int count, char **words)
{
    size_t in_image = 0, length = 0, lent[COUNTS];
    bool asked = count == 7 || count == 7 + COUNTS;
    uint8_t *image = asked ? loaded(words[5], &in_image) : NULL, *library = asked ? loaded(words[6], &length) : NULL;
    if (!image || !library) {
        fputs("usage: rattle-whole load|find|show DEPTH MINIMUM SKIP IMAGE LIBRARY [COUNTS]\n", stderr);
        return 2;
    }
    for (int i = 0; i < COUNTS; i++) {
        lent[i] = count == 7 ? most[i] : strtoul(words[7 + i], NULL, 10);
        if (lent[i] > most[i])
            return 2;
    }
    if (words[1][0] == 'l')
        return 0;
    uint64_t counts[COUNTS] = {0};
    int number = found(words, image, in_image, library, length, lent, counts);
    if (words[1][0] == 's')
        show(number, counts);
    return number;
}
