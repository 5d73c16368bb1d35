/* The public symbols of a program database: the records of symbols are read here, and the library moves their places
 * to addresses. */
#include "database.h"

enum { DEBUG_INFORMATION = 3, RECORDS_AT = 20, S_PUB32 = 0x110e, NAME_AT = 14 };

static uint32_t number_at(const uint8_t *at, int count) {
    return count ? at[0] | number_at(at + 1, count - 1) << 8 : 0;
}

/* Shows each public symbol: whether it is in the image, its address there, and its name with its length. */
static void each_public(pdb_file *file, void (*show)(int is_there, uint32_t address, const char *name, int length)) {
    size_t debug_length, stream_length;
    uint8_t *debug = stream_of(file, DEBUG_INFORMATION, &debug_length);
    if (debug_length < RECORDS_AT + 2) fail((pdb_fault){PDB_UNEXPECTED_EOF, 0, 0});
    uint8_t *stream = stream_of(file, number_at(debug + RECORDS_AT, 2), &stream_length);
    pdb_address_map map = {0};
    pdb_address_map_open(file, &map);
    check(&map.handle);
    for (size_t at = 0, end; at + 4 <= stream_length; at = end) {
        const uint8_t *record = stream + at;
        end = at + 2 + number_at(record, 2);
        if (end > stream_length) fail((pdb_fault){PDB_UNEXPECTED_EOF, 0, 0});
        if (number_at(record + 2, 2) != S_PUB32 || end - at < NAME_AT) continue;
        pdb_translation to = {0};
        uint16_t section = (uint16_t)number_at(record + 12, 2);
        pdb_translate(&map, PDB_INTERNAL_SECTION_OFFSET, section, number_at(record + 8, 4), &to);
        check(&map.handle);
        size_t length = 0;
        while (at + NAME_AT + length < end && record[NAME_AT + length]) length++;
        show((int)to.has_rva, to.rva, (const char *)record + NAME_AT, (int)length);
    }
    pdb_close(&map.handle);
    free(stream);
    free(debug);
}
