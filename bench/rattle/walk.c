/* walk IMAGE START TIMES [WITHHELD..]: walks so many times from a start, with pairs of numbers withheld, in rows for 256
   instructions, and prints the number, the steps of one walk and why it stopped. bench/README.md says how it is counted. */
#include "../../callers/walk.h"
#include <stdio.h>
#include <stdlib.h>

int main(int count, char **words)
{
    static uint8_t image[65537];
    static uint64_t rows[768], withheld[64];
    uint64_t counts[2] = {0, 0};
    FILE *file = count >= 4 ? fopen(words[1], "rb") : NULL;
    if (!file)
        return 2;
    size_t size = fread(image, 1, sizeof image, file), start = strtoul(words[2], NULL, 0), numbers = 0;
    for (int i = 4; i < count && numbers < 64; i++)
        withheld[numbers++] = strtoull(words[i], NULL, 0);
    uint8_t number = 0;
    for (long n = strtol(words[3], NULL, 0); n > 0; n--)
        number = sillmarble_walk(image, size, start, withheld, numbers, counts, 2, rows, 768);
    printf("%d %d %d\n", number, (int)counts[0], (int)counts[1]);
    return 0;
}
