/* Prints the public symbols of a program database: their addresses in the image, and their names.
 *
 * cc publics.c $(pkg-config --cflags --libs pdb_container)
 * ./a.out FILE
 */
#include "publics.h"

static void print(int is_there, uint32_t address, const char *name, int length) {
    if (is_there) printf("0x%x %.*s\n", (unsigned)address, length, name);
    else printf("- %.*s\n", length, name);
}

int main(int count, char **words) {
    if (count != 2) return fputs("usage: publics FILE\n", stderr), 2;
    pdb_file file = {0};
    open_file(words[1], &file);
    each_public(&file, print);
    close_file(&file);
    return 0;
}
