// Passes open handles of each kind round among threads, each of which walks a table, looks up types, names, addresses and
// frames, and gives the handles on, or closes and opens them. Each file has the same bytes. What the threads read has to
// be what one thread reads.
//
// usage: threads FILE
#include <pdb_container.h>
#include <pthread.h>
#include <stdio.h>
#include <stdlib.h>

enum { THREADS = 4, TURNS = 50, FILES = 2, ROOM = 1 << 20 };

static uint8_t bytes[ROOM];
static size_t bytes_length;
static struct {
    pthread_mutex_t lock;
    pdb_file file;
    pdb_names names;
    pdb_omap omap;
    pdb_address_map map;
    pdb_frames frames;
    pdb_types types;
} files[FILES] = {{.lock = PTHREAD_MUTEX_INITIALIZER}, {.lock = PTHREAD_MUTEX_INITIALIZER}};
static uint64_t wanted;

static void expect(int is_well, const char *what) {
    if (!is_well) fprintf(stderr, "%s\n", what), exit(1);
}

static void open_file(int n) {
    expect(pdb_file_open(bytes, bytes_length, &files[n].file) == PDB_OK, "not opened");
    expect(pdb_types_open(&files[n].file, PDB_TYPES, &files[n].types) == PDB_OK, "no table");
    pdb_roles roles;
    expect(pdb_file_roles(&files[n].file, &roles) == PDB_OK, "no roles");
    expect(pdb_omap_open(&files[n].file, roles.omap_to_src, &files[n].omap) == PDB_OK, "no OMAP table");
    expect(pdb_address_map_open(&files[n].file, &files[n].map) == PDB_OK, "no address map");
    expect(pdb_names_open(&files[n].file, &files[n].names) == PDB_OK, "no names");
    expect(pdb_frames_open(&files[n].file, &files[n].frames) == PDB_OK, "no frames");
}

static void close_file(int n) {
    pdb_file_close(&files[n].file);
    pdb_handle *others[] = {&files[n].types.handle, &files[n].names.handle, &files[n].omap.handle, &files[n].map.handle, &files[n].frames.handle};
    for (size_t i = 0; i < sizeof others / sizeof *others; i++) pdb_close(others[i]);
}

// The sum of what handles say of some addresses.
static uint64_t read_addresses(int n) {
    pdb_translation translation = {0};
    pdb_frame frame = {0};
    uint32_t target = 0;
    uint64_t sum = 0;
    for (uint32_t address = 0x1000; address < 0x1190; address += 7) {
        uint32_t status = pdb_omap_lookup(&files[n].omap, address, &target);
        expect(status == PDB_OK || status == PDB_UNMAPPED, "no target");
        expect(pdb_translate(&files[n].map, PDB_RVA, 0, address, &translation) == PDB_OK, "no translation");
        status = pdb_frames_at(&files[n].frames, address, &frame);
        expect(status == PDB_OK || status == PDB_NONE, "no frame");
        sum = sum * 31 + target + translation.internal_rva + frame.code_start;
    }
    return sum;
}

// The sum of what the records of a table say, walked from its first item on, of the size of a type, of a name, and of
// what is said of addresses.
static uint64_t read_all(int n) {
    pdb_types *types = &files[n].types;
    pdb_type rows[16];
    char name[100];
    size_t count = 16, length = 0;
    uint64_t sum = 0, size = 0;
    uint32_t index = 0;
    expect(pdb_types_rewind(types) == PDB_OK, "not set back");
    while (count == 16) {
        pdb_types_read(types, rows, 16, &count);
        for (size_t i = 0; i < count; i++) sum = sum * 31 + rows[i].info.row.number + rows[i].position.offset;
    }
    expect(types->handle.fault.status == PDB_END, "another fault");
    expect(pdb_types_named(types, "Point", 5, &index, 1, &length) == PDB_OK && length == 1, "not found");
    expect(pdb_type_size(types, index, &size) == PDB_OK && size, "no size");
    expect(pdb_names_get(&files[n].names, 2, name, sizeof name, &length) == PDB_OK && length, "no name");
    return sum + size + length + read_addresses(n);
}

static void *turns(void *unused) {
    for (int turn = 0; turn < TURNS; turn++) {
        int n = turn % FILES;
        pthread_mutex_lock(&files[n].lock);
        expect(read_all(n) == wanted, "another answer");
        // Closed and opened again, by whichever thread it is.
        if (turn % 7 == 6) close_file(n), open_file(n);
        pthread_mutex_unlock(&files[n].lock);
    }
    return unused;
}

int main(int count, char **words) {
    FILE *in = fopen(count == 2 ? words[1] : "", "rb");
    if (!in) return 2;
    bytes_length = fread(bytes, 1, ROOM, in);
    fclose(in);
    for (int n = 0; n < FILES; n++) open_file(n);
    wanted = read_all(0);
    pthread_t threads[THREADS];
    for (int n = 0; n < THREADS; n++) expect(!pthread_create(&threads[n], NULL, turns, NULL), "no thread");
    for (int n = 0; n < THREADS; n++) pthread_join(threads[n], NULL);
    for (int n = 0; n < FILES; n++) close_file(n);
    printf("%d turns\n", THREADS * TURNS);
    return 0;
}
