/* walk IMAGE ADDRESS [START:LENGTH..]: shows the instructions of an image from an address on, as `sillmarble walk` does, but for their bytes and forms: the address,
   and a call or jump with its target; last, why no more are shown. Status 0: shown. 1: refused, and standard error has the number. 2: wrong usage, or a file that
   cannot be read. */
#include "walk.h"
#include <stdio.h>
#include <stdlib.h>

/* A byte more than is accepted, so that a longer file is refused by its length; rows for every walk; and one stretch more than is accepted. */
static uint8_t image[65536 + 1];
static uint64_t rows[256 * 3], withheld[2 * 17];

int main(int count, char **words)
{
    static const char *const why[] = {"return", "limit of 256 instructions", "reserved opcode A5", "the image's end", "withheld bytes"};
    FILE *file = count >= 3 && count <= 3 + 17 ? fopen(words[1], "rb") : NULL;
    if (!file) {
        fputs("usage: walk IMAGE ADDRESS [START:LENGTH..]\n", stderr);
        return 2;
    }
    size_t size = fread(image, 1, sizeof image, file);
    if (ferror(file))
        return 2;
    size_t numbers = 0;
    for (int i = 3; i < count; i++) {
        char *behind;
        withheld[numbers++] = strtoull(words[i], &behind, 0);
        withheld[numbers++] = *behind == ':' ? strtoull(behind + 1, NULL, 0) : 0;
    }
    uint64_t counts[2];
    uint8_t number = sillmarble_walk(image, size, strtoull(words[2], NULL, 0), withheld, numbers, counts, 2, rows, 768);
    if (number != 0) {
        fprintf(stderr, "refused (%d)\n", number);
        return 1;
    }
    for (uint64_t i = 0; i < counts[0]; i++) {
        const uint64_t *row = rows + 3 * i;
        printf("0x%04X", (unsigned)row[0]);
        if (row[1] != 0)
            printf(" %s 0x%04X", row[1] == 1 ? "call" : "jump", (unsigned)row[2]);
        putchar('\n');
    }
    printf("stops: %s\n", why[counts[1]]);
    return 0;
}
