/* Prints a class as a structure, with the offset of each member, and the bytes that no member takes.
 *
 * cc structure.c $(pkg-config --cflags --libs pdb_container) && ./a.out FILE CLASS */
#include <inttypes.h>
#include <string.h>

#include "database.h"

/* Prints the declaration of a name. */
static void print_text(pdb_types *types, uint32_t index, const char *name) {
    size_t length = 0;
    pdb_type_text(types, index, name, strlen(name), NULL, 0, &length);
    char *text = room_for(length + 1, 1);
    pdb_type_text(types, index, name, strlen(name), text, length + 1, &length);
    check(&types->handle);
    fputs(text, stdout);
    free(text);
}

static void print_row(pdb_types *types, const pdb_layout_row *row, const char *name) {
    static const char *pointers[] = {"", "vbptr", "vfptr"};
    if (row->kind > PDB_LAYOUT_MEMBER && row->extent == PDB_EXTENT_UNKNOWN) return;
    fputs(row->kind == PDB_LAYOUT_BASE ? "    // " : "    ", stdout);
    if (row->kind <= PDB_LAYOUT_MEMBER)
        print_text(types, row->type_index, row->kind == PDB_LAYOUT_MEMBER ? name : pointers[row->kind]);
    else if (row->extent == PDB_EXTENT_BYTES) printf("// %" PRIu64 " bytes", row->size);
    else printf("// %u bits", (unsigned)row->bits);
    printf("%s // 0x%" PRIx64 "\n", row->kind > PDB_LAYOUT_BASE && row->kind <= PDB_LAYOUT_MEMBER ? ";" : "", row->offset);
}

int main(int count, char **words) {
    if (count != 3) return fputs("usage: structure FILE CLASS\n", stderr), 2;
    pdb_file file = {0};
    open_file(words[1], &file);
    pdb_types types = {0};
    pdb_types_open(&file, PDB_TYPES, &types);
    check(&types.handle);
    uint32_t index = 0;
    uint64_t class_size = 0;
    size_t found = 0, rows = 0, size = 0;
    if (pdb_types_named(&types, words[2], strlen(words[2]), &index, 1, &found) != PDB_TOO_SMALL) check(&types.handle);
    if (found != 1) fputs("no such class, or several\n", stderr), exit(1);
    pdb_type_size(&types, index, &class_size);
    check(&types.handle);
    if (pdb_type_layout(&types, index, NULL, 0, &rows, NULL, 0, &size) != PDB_TOO_SMALL) check(&types.handle);
    pdb_layout_row *layout = room_for(rows, sizeof *layout);
    char *names = room_for(size, 1);
    pdb_type_layout(&types, index, layout, rows, &rows, names, size, &size);
    check(&types.handle);
    printf("struct %s { // %" PRIu64 " bytes\n", words[2], class_size);
    for (size_t at = 0; at < rows; at++) print_row(&types, &layout[at], names + layout[at].name_offset);
    puts("};");
    pdb_close(&types.handle);
    free(names);
    free(layout);
    close_file(&file);
    return 0;
}
