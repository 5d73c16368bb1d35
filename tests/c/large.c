// Asks for the length of a large stream, by its number and by its name, and then for all of it, and says how much time of
// the processor each takes: to ask takes a small part of it. Or finds each type of the file.
//
// usage: large ask FILE | large find FILE    The types, in stream 2, are named /large.
#include <fcntl.h>
#include <pdb_container.h>
#include <stdio.h>
#include <stdlib.h>
#include <sys/mman.h>
#include <sys/stat.h>
#include <time.h>
#include <unistd.h>

enum { ASKED = 10 };

static pdb_file file;
static pdb_types types;

static void expect(int is_well, const char *what) {
    if (!is_well) fprintf(stderr, "%s\n", what), exit(1);
}

typedef uint32_t call(uint8_t *room, size_t room_length, size_t *length);

static uint32_t by_number(uint8_t *room, size_t room_length, size_t *length) { return pdb_file_stream(&file, PDB_TYPES, SIZE_MAX, room, room_length, length); }
static uint32_t by_name(uint8_t *room, size_t room_length, size_t *length) { return pdb_file_named_stream(&file, "/large", 6, room, room_length, length); }

static double seconds(void) {
    struct timespec now;
    clock_gettime(CLOCK_PROCESS_CPUTIME_ID, &now);
    return (double)now.tv_sec + (double)now.tv_nsec / 1e9;
}

static void ask(const char *name, call *asked) {
    size_t length = 0;
    double begun = seconds();
    for (int i = 0; i < ASKED; i++) expect(asked(NULL, 0, &length) == PDB_TOO_SMALL && length, name);
    double asking = (seconds() - begun) / ASKED;
    uint8_t *room = malloc(length);
    expect(room != NULL, "no memory");
    begun = seconds();
    expect(asked(room, length, &length) == PDB_OK, name);
    double filling = seconds() - begun;
    free(room);
    printf("%s: %.2f ms asked, %.2f ms filled\n", name, asking * 1e3, filling * 1e3);
    expect(asking <= filling / 20, "to ask takes too much");
}

static void find_all(void) {
    pdb_index_range range;
    pdb_found_record found;
    expect(pdb_types_open(&file, PDB_TYPES, &types) == PDB_OK && pdb_types_range(&types, &range) == PDB_OK, "no table");
    for (uint32_t index = range.first; index < range.end; index++)
        expect(pdb_types_find(&types, &index, 1, &found, 1, NULL) == PDB_OK && found.fault.status == PDB_OK, "not found");
    printf("%u found\n", range.end - range.first);
    pdb_close(&types.handle);
}

int main(int count, char **words) {
    struct stat about;
    int opened = count == 3 ? open(words[2], O_RDONLY) : -1;
    expect(opened >= 0 && !fstat(opened, &about), "usage: large ask|find FILE");
    const uint8_t *bytes = mmap(NULL, (size_t)about.st_size, PROT_READ, MAP_PRIVATE, opened, 0);
    expect(bytes != MAP_FAILED && pdb_file_open(bytes, (size_t)about.st_size, &file) == PDB_OK, "no file");
    if (*words[1] == 'a') ask("stream", by_number), ask("named stream", by_name);
    else find_all();
    pdb_file_close(&file);
    return close(opened);
}
