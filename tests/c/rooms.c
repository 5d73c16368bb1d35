// Asks each call that is asked twice, first for a length and then for the answer, with arrays of 0, n - 1, n and n + 1
// items, each of which ends where memory ends: the length is exact, exactly enough room is enough, nothing is written
// without it, and nothing past the answer. A text takes one byte more than its length, for the NUL. A length may be null.
// Each is asked of a handle that holds something else too, and of one that is closed.
//
// usage: rooms FILE    FILE is examples/sample.pdb. Prints how many answers were asked for.
#include <pdb_container.h>
#include <stdio.h>
#include <stdlib.h>
#include <string.h>

#include "guarded.h"

enum { FILLED = 0xa5 };

static uint8_t *bytes;
static size_t bytes_length;
static pdb_file file;
static pdb_roles roles;
static pdb_omap omap;
static pdb_address_map map;
static pdb_frames frames;
static pdb_types types;
static pdb_names string_table;
static pdb_identity identity;
static uint32_t asked_index;
static const uint32_t offsets[] = {0, UINT32_MAX, 1}, indexes[] = {0x1000, 0x74, UINT32_MAX, 0x1001};

// A call into one array, or into two: of rows, and of their names. `room` has a size of its items.
typedef uint32_t call(void *room, size_t room_length, size_t *length, char *names, size_t names_length, size_t *size);

#define CALL(name, kind, words)                                                                                                                               \
    static uint32_t name(void *room, size_t room_length, size_t *length, char *names, size_t names_length, size_t *size) {                                    \
        (void)names, (void)names_length, (void)size;                                                                                                          \
        kind *items = room;                                                                                                                                   \
        return words;                                                                                                                                         \
    }

CALL(fault_text, char, pdb_fault_text(&(pdb_fault){PDB_TYPE_NOT_FOUND, 7, 0}, items, room_length, length))
CALL(key, char, pdb_key(&identity, PDB_KEY_GUID, items, room_length, length))
CALL(validate, pdb_finding, pdb_validate(bytes, bytes_length - 1024, 0, items, room_length, length))
CALL(file_stream, uint8_t, pdb_file_stream(&file, PDB_TYPES, SIZE_MAX, items, room_length, length))
CALL(limited_stream, uint8_t, pdb_file_stream(&file, PDB_TYPES, 100, items, room_length, length))
CALL(named_stream, uint8_t, pdb_file_named_stream(&file, "/names", 6, items, room_length, length))
CALL(stream_names, pdb_named_stream, pdb_file_stream_names(&file, items, room_length, length, names, names_length, size))
CALL(omap_records, pdb_omap_record, pdb_omap_records(&omap, items, room_length, length))
CALL(omap_ranges, pdb_span, pdb_omap_ranges(&omap, 0x1000, 0x1190, items, room_length, length))
CALL(sections, pdb_section, pdb_file_sections(&file, roles.section_headers, items, room_length, length))
CALL(loaded_ranges, pdb_span, pdb_address_ranges(&map, PDB_INTERNAL_RVA, 0x1000, 0x1190, items, room_length, length))
CALL(internal_ranges, pdb_span, pdb_address_ranges(&map, PDB_RVA, 0x1000, 0x1190, items, room_length, length))
CALL(frames_list, pdb_frame, pdb_frames_list(&frames, items, room_length, length))
CALL(names_get, char, pdb_names_get(&string_table, 2, items, room_length, length))
CALL(empty_name, char, pdb_names_get(&string_table, 0, items, room_length, length))
CALL(names_places, pdb_name, pdb_names_places(&string_table, offsets, 3, items, room_length, length))
CALL(types_find, pdb_found_record, pdb_types_find(&types, indexes, 4, items, room_length, length))
CALL(types_named, uint32_t, pdb_types_named(&types, "Point", 5, items, room_length, length))
CALL(type_record, uint8_t, pdb_type_record(&types, asked_index, items, room_length, length))
CALL(type_name, char, pdb_type_name(&types, asked_index, items, room_length, length))
CALL(unique_name, char, pdb_type_unique_name(&types, asked_index, items, room_length, length))
CALL(numbers, uint32_t, pdb_type_numbers(&types, asked_index, items, room_length, length))
CALL(methods, pdb_type_info, pdb_type_methods(&types, asked_index, items, room_length, length))
CALL(type_fields, pdb_field, pdb_type_fields(&types, asked_index, 1, items, room_length, length, names, names_length, size))
CALL(type_text, char, pdb_type_text(&types, asked_index, "it", 2, items, room_length, length))
CALL(layout, pdb_layout_row, pdb_type_layout(&types, asked_index, items, room_length, length, names, names_length, size))

static void fail(const char *name, const char *what) {
    fprintf(stderr, "%s: %s\n", name, what);
    exit(1);
}

static int is_filled(const uint8_t *room, size_t size) {
    for (size_t i = 0; i < size; i++)
        if (room[i] != FILLED) return 0;
    return 1;
}

// A call by its name, the size of an item, and whether these are the bytes of a text.
typedef struct question {
    const char *name;
    call *asked;
    size_t item;
    int is_text;
} question;

// An answer: how many items it has, how many bytes its names have, and both.
typedef struct answer {
    size_t length, size;
    const uint8_t *items, *names;
} answer;

static int are_same(const question *it, const uint8_t *room, const uint8_t *names, const answer *wanted) {
    // The last four bytes of these two rows are padding.
    size_t compared = it->item - (it->asked == stream_names || it->asked == type_fields ? 4 : 0);
    for (size_t i = 0; i < wanted->length; i++)
        if (memcmp(room + i * it->item, wanted->items + i * it->item, compared)) return 0;
    return !wanted->size || !memcmp(names, wanted->names, wanted->size);
}

// Asks with enough room and no places for the lengths.
static void ask_without_lengths(const question *it, const answer *wanted) {
    size_t items = wanted->length + (size_t)it->is_text;
    uint8_t *room = guarded(items * it->item, FILLED), *names = guarded(wanted->size, FILLED);
    if (it->asked(room, items, NULL, (char *)names, wanted->size, NULL) != PDB_OK) fail(it->name, "a null length");
    if (!are_same(it, room, names, wanted)) fail(it->name, "another answer without lengths");
    if (items && it->asked(NULL, 0, NULL, NULL, 0, NULL) != PDB_TOO_SMALL) fail(it->name, "no room and a null length");
    unguarded(room, items * it->item);
    unguarded(names, wanted->size);
}

// Asks a handle that doesn't hold what the call is about.
static void ask_in_vain(const question *it) {
    uint8_t *room = guarded(64 * it->item, FILLED), *names = guarded(64, FILLED);
    size_t length = 7777, size = 7777;
    if (it->asked(room, 64, &length, (char *)names, 64, &size) != PDB_NOT_OPEN || length) fail(it->name, "not refused");
    if (it->asked(room, 64, NULL, (char *)names, 64, NULL) != PDB_NOT_OPEN) fail(it->name, "not refused without lengths");
    if (!is_filled(room, 64 * it->item) || !is_filled(names, 64)) fail(it->name, "written, though refused");
    unguarded(room, 64 * it->item);
    unguarded(names, 64);
}

// Asks with arrays of so many items and bytes of an answer that is known.
static void ask(const question *it, size_t room_length, size_t names_length, answer wanted) {
    uint8_t *room = guarded(room_length * it->item, FILLED), *names = guarded(names_length, FILLED);
    size_t length = 7777, size = wanted.size ? 7777 : 0, items = wanted.length + (size_t)it->is_text;
    uint32_t status = it->asked(room, room_length, &length, (char *)names, names_length, &size);
    int is_enough = room_length >= items && names_length >= wanted.size;
    if (length != wanted.length || size != wanted.size) fail(it->name, "a length that is not exact");
    if (status != (is_enough ? PDB_OK : PDB_TOO_SMALL)) fail(it->name, "a status that is not that of the room");
    size_t written = is_enough ? items * it->item : 0, written_names = is_enough ? size : 0;
    if (room && !is_filled(room + written, room_length * it->item - written)) fail(it->name, "more is written than the answer");
    if (names && !is_filled(names + written_names, names_length - written_names)) fail(it->name, "more is written than the names");
    if (is_enough && !are_same(it, room, names, &wanted)) fail(it->name, "another answer");
    if (is_enough && it->is_text && strlen((char *)room) != length) fail(it->name, "no NUL at the end");
    if (written_names && names[size - 1]) fail(it->name, "no NUL at the end of the names");
    unguarded(room, room_length * it->item);
    unguarded(names, names_length);
}

static size_t asked_for;

// Asks for an answer, if there is one, and returns whether there is.
static int is_answered(const question *it) {
    answer wanted = {0};
    if (it->asked(NULL, 0, &wanted.length, NULL, 0, &wanted.size) != PDB_TOO_SMALL) return 0;
    size_t items = wanted.length + (size_t)it->is_text, least = items ? items - 1 : 0, least_size = wanted.size ? wanted.size - 1 : 0;
    uint8_t *room = guarded(items * it->item, 0), *names = guarded(wanted.size, 0);
    if (it->asked(room, items, &wanted.length, (char *)names, wanted.size, &wanted.size) != PDB_OK) fail(it->name, "exactly enough room");
    wanted.items = room, wanted.names = names;
    size_t rooms[] = {0, least, items, items + 1}, sizes[] = {0, least_size, wanted.size, wanted.size + 1};
    for (size_t i = 0; i < 4; i++)
        for (size_t n = 0; n < (wanted.size ? 4 : 1); n++) ask(it, rooms[i], sizes[n], wanted);
    ask_without_lengths(it, &wanted);
    unguarded(room, items * it->item);
    unguarded(names, wanted.size);
    asked_for++;
    return 1;
}

// Those without a handle, of a file, and of what is opened from one.
static const question of_bytes[] = {
    {"pdb_fault_text", fault_text, 1, 1},
    {"pdb_key", key, 1, 1},
    {"pdb_validate", validate, sizeof(pdb_finding), 0},
};
static const question of_file[] = {
    {"pdb_file_stream", file_stream, 1, 0},
    {"pdb_file_stream with a limit", limited_stream, 1, 0},
    {"pdb_file_named_stream", named_stream, 1, 0},
    {"pdb_file_stream_names", stream_names, sizeof(pdb_named_stream), 0},
    {"pdb_omap_records", omap_records, sizeof(pdb_omap_record), 0},
    {"pdb_omap_ranges", omap_ranges, sizeof(pdb_span), 0},
    {"pdb_file_sections", sections, sizeof(pdb_section), 0},
    {"pdb_address_ranges in the loaded image", loaded_ranges, sizeof(pdb_span), 0},
    {"pdb_address_ranges in the original image", internal_ranges, sizeof(pdb_span), 0},
    {"pdb_frames_list", frames_list, sizeof(pdb_frame), 0},
    {"pdb_names_get", names_get, 1, 1},
    {"pdb_names_get of an empty name", empty_name, 1, 1},
    {"pdb_names_places", names_places, sizeof(pdb_name), 0},
};
// Of a record, and first those that ids have too.
static const question of_record[] = {
    {"pdb_types_find", types_find, sizeof(pdb_found_record), 0},
    {"pdb_type_record", type_record, 1, 0},
    {"pdb_type_name", type_name, 1, 1},
    {"pdb_type_numbers", numbers, sizeof(uint32_t), 0},
    {"pdb_types_named", types_named, sizeof(uint32_t), 0},
    {"pdb_type_unique_name", unique_name, 1, 1},
    {"pdb_type_methods", methods, sizeof(pdb_type_info), 0},
    {"pdb_type_fields", type_fields, sizeof(pdb_field), 0},
    {"pdb_type_text", type_text, 1, 1},
    {"pdb_type_layout", layout, sizeof(pdb_layout_row), 0},
};
enum { OF_BYTES = 3, OF_FILE = sizeof of_file / sizeof *of_file, OF_RECORD = sizeof of_record / sizeof *of_record, OF_ID = 4 };

// The first calls on each record of a table that have an answer, and whether each had one.
static void ask_records(uint32_t number, size_t count) {
    int answered[OF_RECORD] = {0};
    pdb_type it;
    size_t got;
    if (pdb_types_open(&file, number, &types)) fail("table", "not opened");
    while (pdb_types_read(&types, &it, 1, &got) == PDB_OK) {
        asked_index = it.position.index;
        for (size_t i = 0; i < count; i++) answered[i] |= is_answered(&of_record[i]);
    }
    for (size_t i = 0; i < count; i++)
        if (!answered[i]) fail(of_record[i].name, "no answer");
    pdb_close(&types.handle);
}

// What has no answer of its own to be asked for: a walk, and questions that write one thing.
static void ask_others_in_vain(void) {
    pdb_type type;
    pdb_type_info info;
    pdb_index_range range;
    pdb_translation translation;
    pdb_frame frame;
    uint32_t number;
    uint64_t size;
    size_t written = 7777;
    uint32_t statuses[] = {
        pdb_types_read(&types, &type, 1, NULL),          pdb_types_read(&types, &type, 1, &written),
        pdb_types_range(&types, &range),                 pdb_types_rewind(&types),
        pdb_type_parse(&types, 0x1000, &info),           pdb_type_definition(&types, 0x1000, &number),
        pdb_type_size(&types, 0x1000, &size),            pdb_omap_is_sorted(&omap, &number),
        pdb_omap_lookup(&omap, 0x1000, &number),         pdb_frames_at(&frames, 0x1000, &frame),
        pdb_translate(&map, PDB_RVA, 0, 0, &translation)};
    for (size_t i = 0; i < sizeof statuses / sizeof *statuses; i++)
        if (statuses[i] != PDB_NOT_OPEN) fail("a call on a handle", "not refused");
    if (written) fail("pdb_types_read", "records, though refused");
}

// All that is asked of handles, of others than those that the calls are about.
static void ask_all_in_vain(void) {
    for (size_t i = 0; i < OF_FILE; i++) ask_in_vain(&of_file[i]);
    for (size_t i = 0; i < OF_RECORD; i++) ask_in_vain(&of_record[i]);
    ask_others_in_vain();
}

// Each handle in turn in the place of all others: the compiler refuses that, but for a cast, and so do the calls.
static void exchange_handles(void) {
    pdb_handle *all[] = {&file.handle, &omap.handle, &map.handle, &frames.handle, &string_table.handle, &types.handle}, held[6];
    for (size_t i = 0; i < 6; i++) held[i] = *all[i];
    for (size_t by = 1; by < 6; by++) {
        for (size_t i = 0; i < 6; i++) *all[i] = held[(i + by) % 6];
        ask_all_in_vain();
        for (size_t i = 0; i < 6; i++) held[(i + by) % 6] = *all[i];
    }
    for (size_t i = 0; i < 6; i++) *all[i] = held[i];
}

// Arrays of nothing, which may be null.
static void ask_with_nothing(void) {
    size_t length = 7777;
    if (pdb_validate(NULL, 0, 0, NULL, 0, &length) != PDB_TOO_SMALL || !length) fail("pdb_validate", "no bytes");
    if (pdb_format_of(NULL, 0) != PDB_FORMAT_UNKNOWN) fail("pdb_format_of", "no bytes");
    if (pdb_types_named(&types, NULL, 0, NULL, 0, &length) != PDB_OK || length) fail("pdb_types_named", "no name");
    if (pdb_file_named_stream(&file, NULL, 0, NULL, 0, &length) != PDB_STREAM_NAME_NOT_FOUND) fail("pdb_file_named_stream", "no name");
    if (pdb_types_find(&types, NULL, 0, NULL, 0, &length) != PDB_OK || length) fail("pdb_types_find", "no index");
    if (pdb_names_places(&string_table, NULL, 0, NULL, 0, &length) != PDB_OK || length) fail("pdb_names_places", "no offset");
    if (pdb_types_read(&types, NULL, 0, NULL) != PDB_OK) fail("pdb_types_read", "no room");
}

int main(int count, char **words) {
    FILE *in = fopen(count == 2 ? words[1] : "", "rb");
    if (!in || fseek(in, 0, SEEK_END)) return 2;
    bytes_length = (size_t)ftell(in);
    rewind(in);
    bytes = guarded(bytes_length, 0);
    if (fread(bytes, 1, bytes_length, in) != bytes_length) return 2;
    fclose(in);
    if (pdb_file_open(bytes, bytes_length, &file) || pdb_file_identity(&file, &identity) || pdb_file_roles(&file, &roles)) fail("file", "not opened");
    if (pdb_omap_open(&file, roles.omap_to_src, &omap) || pdb_address_map_open(&file, &map)) fail("addresses", "not opened");
    if (pdb_frames_open(&file, &frames) || pdb_names_open(&file, &string_table)) fail("frames or names", "not opened");
    for (size_t i = 0; i < OF_BYTES; i++)
        if (!is_answered(&of_bytes[i])) fail(of_bytes[i].name, "no answer");
    for (size_t i = 0; i < OF_FILE; i++)
        if (!is_answered(&of_file[i])) fail(of_file[i].name, "no answer");
    ask_records(PDB_TYPES, OF_RECORD);
    ask_records(PDB_IDS, OF_ID);
    if (pdb_types_open(&file, PDB_TYPES, &types)) fail("table", "not opened");
    ask_with_nothing();
    exchange_handles();
    pdb_close(&types.handle);
    printf("%zu answers\n", asked_for);
    pdb_close(&omap.handle);
    pdb_close(&map.handle);
    pdb_close(&frames.handle);
    pdb_close(&string_table.handle);
    pdb_file_close(&file);
    ask_all_in_vain();
    unguarded(bytes, bytes_length);
    return 0;
}
