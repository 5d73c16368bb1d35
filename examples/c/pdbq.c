/* Answers the questions of the program pdbq through the library for C, and prints the same lines. A name is one of the
 * stream that the file names "/names", whatever S is.
 *
 * cc pdbq.c $(pkg-config --cflags --libs pdb_container)
 * ./a.out FILE stream N | type S I | id S I | name S O | ranges S A B | fields S I
 */
#include <inttypes.h>
#include <string.h>

#include "database.h"

static void print_stream(pdb_file *file, uint32_t number) {
    size_t length = 0;
    uint8_t *stream = stream_of(file, number, &length);
    for (size_t i = 0; i < length; i++) printf(i % 32 == 31 || i + 1 == length ? "%02x\n" : "%02x", stream[i]);
    free(stream);
}

/* Prints the name of the type or the id of an index, behind the kind of its record. */
static void print_record(pdb_types *types, uint32_t index) {
    uint8_t record[1 << 16] = {0xff, 0xff}; /* the kind that pdbq prints of a type without a record */
    size_t length = 0;
    if (pdb_type_record(types, index, record, sizeof record, &length) != PDB_NONE) check(&types->handle);
    char name[1 << 16] = "-";
    if (pdb_type_name(types, index, name, sizeof name, &length) != PDB_NONE) check(&types->handle);
    printf("0x%" PRIx32 " 0x%04x %s\n", index, (unsigned)(record[0] | record[1] << 8), name);
}

static void print_fields(pdb_types *types, uint32_t index) {
    size_t count = 0, size = 0;
    if (pdb_type_fields(types, index, 1, NULL, 0, &count, NULL, 0, &size) != PDB_TOO_SMALL) check(&types->handle);
    pdb_field *fields = room_for(count, sizeof *fields);
    char *names = room_for(size, 1);
    pdb_type_fields(types, index, 1, fields, count, &count, names, size, &size);
    check(&types->handle);
    for (size_t i = 0; i < count; i++) { /* pdbq prints no names of methods that are not overloaded */
        int has_name = fields[i].has_name && fields[i].info.row.shape != PDB_METHOD;
        puts(has_name ? names + fields[i].name_offset : "-");
    }
    free(fields);
    free(names);
}

/* Prints what a call says of a type or an id of a table. */
static void print_of_table(pdb_file *file, uint32_t number, uint32_t index, void (*print)(pdb_types *, uint32_t)) {
    pdb_types types = {0};
    pdb_types_open(file, number, &types);
    check(&types.handle);
    print(&types, index);
    pdb_close(&types.handle);
}

static void print_name(pdb_file *file, uint32_t offset) {
    pdb_names names = {0};
    size_t length = 0;
    pdb_names_open(file, &names);
    check(&names.handle);
    if (pdb_names_get(&names, offset, NULL, 0, &length) != PDB_TOO_SMALL) check(&names.handle);
    char *name = room_for(length + 1, 1);
    pdb_names_get(&names, offset, name, length + 1, &length);
    check(&names.handle);
    puts(name);
    free(name);
    pdb_close(&names.handle);
}

static void print_ranges(pdb_file *file, uint32_t number, uint32_t start, uint32_t end) {
    pdb_omap omap = {0};
    size_t length = 0;
    pdb_omap_open(file, number, &omap);
    check(&omap.handle);
    if (pdb_omap_ranges(&omap, start, end, NULL, 0, &length) != PDB_TOO_SMALL) check(&omap.handle);
    pdb_span *spans = room_for(length, sizeof *spans);
    pdb_omap_ranges(&omap, start, end, spans, length, &length);
    check(&omap.handle);
    for (size_t i = 0; i < length; i++) printf("0x%" PRIx32 "..0x%" PRIx32 "\n", spans[i].start, spans[i].end);
    free(spans);
    pdb_close(&omap.handle);
}

static uint32_t number_of(const char *word) { return (uint32_t)strtoul(word, NULL, 0); }

int main(int count, char **words) {
    if (count < 4) return fputs("usage: pdbq-c FILE stream N | type S I | id S I | name S O | ranges S A B | fields S I\n", stderr), 2;
    const char *verb = words[2];
    uint32_t stream = number_of(words[3]), a = count > 4 ? number_of(words[4]) : 0, b = count > 5 ? number_of(words[5]) : 0;
    pdb_file file = {0};
    open_file(words[1], &file);
    if (!strcmp(verb, "stream")) print_stream(&file, stream);
    else if (!strcmp(verb, "type") || !strcmp(verb, "id")) print_of_table(&file, stream, a, print_record);
    else if (!strcmp(verb, "fields")) print_of_table(&file, stream, a, print_fields);
    else if (!strcmp(verb, "name")) print_name(&file, a);
    else if (!strcmp(verb, "ranges")) print_ranges(&file, stream, a, b);
    else fail((pdb_fault){PDB_NONE, 0, 0});
    close_file(&file);
    return 0;
}
