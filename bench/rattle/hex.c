/* hex import|export|none FILE: one call of the exported function on the file, or none: what it takes is the difference. */
#include "../../callers/hex.h"
#include <stdio.h>
#include <string.h>

static uint8_t given[1 << 20], made[1 << 20];

int main(int count, char **words)
{
    FILE *file = count == 3 ? fopen(words[2], "rb") : NULL;
    if (!file)
        return 2;
    size_t size = fread(given, 1, sizeof given, file);
    uint64_t length[1] = {0};
    int number = 0;
    if (strcmp(words[1], "import") == 0)
        number = sillmarble_hex_import(given, size, made, sizeof made, length, 1);
    if (strcmp(words[1], "export") == 0)
        number = sillmarble_hex_export(given, size, made, sizeof made, length, 1);
    printf("%d %llu\n", number, (unsigned long long)length[0]);
    return number != 0;
}
