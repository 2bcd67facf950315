/* rattle-reading WHAT FILE: one job of the port, so that its instructions can be counted.
     load   the file's bytes are loaded, and nothing else is done
     find   they are also read as a library, once, and its modules are counted
     read   they are read so, and all that the library says is gone over, once
     show   both, and the numbers that came of it are printed
   The words are equally long, so that what runs before main takes as many instructions in each job: where the strings
   lie that a program is started with decides some of them. For the same reason they are told apart by a letter.
   It links a static library with
     #[no_mangle] pub extern "C" fn count_places(library: &[u8]) -> usize
     #[no_mangle] pub extern "C" fn count_reading(library: &[u8]) -> usize
   A lent slice is a pointer and a length. */
#include "loaded.h"

size_t count_places(const uint8_t *library, size_t length);
size_t count_reading(const uint8_t *library, size_t length);

int main(int count, char **words)
{
    size_t length = 0;
    uint8_t *library = count == 3 ? loaded(words[2], &length) : NULL;
    if (!library) {
        fputs("usage: rattle-reading load|find|read|show FILE\n", stderr);
        return 2;
    }
    char job = words[1][0];
    volatile size_t modules = 0, said = 0;
    if (job == 'f' || job == 's')
        modules = count_places(library, length);
    if (job == 'r' || job == 's')
        said = count_reading(library, length);
    if (job == 's')
        printf("%zu modules, sum %zu\n", modules, said);
    return 0;
}
