/* hex import|export FILE: writes the image of a HEX text, or the HEX text of an image, to standard output, as `sillmarble unhex` and `sillmarble hex` do.
   Status 0: written. 1: refused, and standard error has the number. 2: wrong usage, or a file that cannot be read. */
#include "hex.h"
#include <stdio.h>
#include <string.h>

/* A byte more than is accepted, so that a longer file is refused by its length; and room for every result. */
static uint8_t given[1048576 + 1], made[180236];

int main(int count, char **words)
{
    int imports = count == 3 && strcmp(words[1], "import") == 0;
    FILE *file = count == 3 ? fopen(words[2], "rb") : NULL;
    if (!file) {
        fputs("usage: hex import|export FILE\n", stderr);
        return 2;
    }
    size_t size = fread(given, 1, sizeof given, file);
    if (ferror(file))
        return 2;
    uint64_t length[1];
    uint8_t number = imports ? sillmarble_hex_import(given, size, made, sizeof made, length, 1)
                             : sillmarble_hex_export(given, size, made, sizeof made, length, 1);
    if (number != 0) {
        fprintf(stderr, "refused (%d)\n", number);
        return 1;
    }
    return fwrite(made, 1, length[0], stdout) == length[0] ? 0 : 2;
}
