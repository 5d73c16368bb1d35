// Gives every call of the library the bytes of a fuzzer, which end where memory ends, as the arrays do.
//
// The first byte says what the others are: 0 a file, 1 a stream, around which a file is made, and any other the record of a
// type or of an id, around which a table is made too; four bits of that byte are those of an index that is asked for.
//
// An input, which is below a megabyte, may take 500 ms of a processor, and is asked about no further record after 100 ms: so
// no call may take long. What the longest input took is told at the end.
//
// clang -fsanitize=fuzzer,address,undefined fuzz.c guard.c, and the library as guard.c says
#include <pdb_container.h>
#include <stdio.h>
#include <stdlib.h>
#include <string.h>
#include <time.h>

#include "guarded.h"
#include "made.h"

enum { MOST = 1 << 20, ROWS = 64, ROOM = ROWS * 128, STREAMS = 64, RECORDS = 256, HEADER = 56, ENOUGH_MS = 100, MOST_MS = 500 };

static uint8_t *input, *room, *names;
static size_t length, size, longest;
static double longest_ms;
static clock_t began;

static uint8_t *end_of(uint8_t *block, size_t most, size_t used) { return used ? block + most - used : NULL; }

// The arrays: of `count` items, of bytes, and of the bytes of a text, each up to the end of its block.
#define ITEMS(kind, count) (kind *)end_of(room, ROOM, (count) * sizeof(kind)), (count)
#define BYTES(count) end_of(names, ROOM, count), (count)
#define TEXT(count) (char *)BYTES(count)

static double spent_ms(void) { return 1000.0 * (double)(clock() - began) / CLOCKS_PER_SEC; }

// That a fault has a text.
static void has_text(const pdb_fault *fault) {
    char text[256];
    size_t written = 0;
    if (pdb_fault_text(fault, text, sizeof text, &written) != PDB_OK || strlen(text) != written) abort();
}

// That a call left its status in the handle, if it has one, as a fault that has a text.
static uint32_t told(const pdb_handle *handle, uint32_t status) {
    pdb_fault fault = handle ? handle->fault : (pdb_fault){status, 0, 0};
    if (status != fault.status) abort();
    has_text(&fault);
    return status;
}

static void ask_index(pdb_types *types, uint32_t index) {
    pdb_type_info info = {{0}};
    uint32_t definition;
    uint64_t bytes;
    const pdb_handle *it = &types->handle;
    if (told(it, pdb_type_parse(types, index, &info)) == PDB_OK && info.row.shape == PDB_PRIMITIVE && !pdb_primitive_name(index & 0xff)) abort();
    pdb_enumerator_typed(&info, index);
    told(it, pdb_type_record(types, index, BYTES(80), &length));
    told(it, pdb_type_name(types, index, TEXT(40), &length));
    told(it, pdb_type_unique_name(types, index, TEXT(40), &length));
    told(it, pdb_type_numbers(types, index, ITEMS(uint32_t, 2), &length));
    told(it, pdb_type_numbers(types, index, ITEMS(uint32_t, ROWS), &length));
    told(it, pdb_type_methods(types, index, ITEMS(pdb_type_info, 3), &length));
    told(it, pdb_type_fields(types, index, 1, ITEMS(pdb_field, ROWS), &length, TEXT(ROOM), &size));
    told(it, pdb_type_definition(types, index, &definition));
    told(it, pdb_type_size(types, index, &bytes));
    told(it, pdb_type_text(types, index, "it", 2, TEXT(200), &length));
    told(it, pdb_type_layout(types, index, ITEMS(pdb_layout_row, ROWS), &length, TEXT(ROOM), &size));
}

static void ask_types(pdb_file *file, uint32_t number, uint32_t index) {
    pdb_types types = {0};
    pdb_type row = {.info = {{0}}};
    pdb_index_range range = {0, 0};
    const pdb_handle *it = &types.handle;
    if (told(it, pdb_types_open(file, number, &types)) == PDB_OK) {
        told(it, pdb_types_range(&types, &range));
        uint32_t some[] = {range.first, 0x74, range.first + (range.end - range.first) / 3, range.end - 1, UINT32_MAX};
        told(it, pdb_types_find(&types, some, 5, ITEMS(pdb_found_record, 5), &length));
        told(it, pdb_types_named(&types, "Point", 5, ITEMS(uint32_t, ROWS), &length));
        for (size_t n = 0; n < RECORDS && spent_ms() < ENOUGH_MS && told(it, pdb_types_read(&types, &row, 1, &length)) == PDB_OK; n++) {
            has_text(&row.fault);
            ask_index(&types, row.position.index);
        }
        ask_index(&types, index);
        told(it, pdb_types_rewind(&types));
        told(it, pdb_types_read(&types, ITEMS(pdb_type, ROWS), &length));
    }
    pdb_close(&types.handle);
}

static void ask_names(pdb_file *file) {
    pdb_names table = {0};
    uint32_t offset = 0;
    const pdb_handle *it = &table.handle;
    if (told(it, pdb_names_open(file, &table)) == PDB_OK) {
        told(it, pdb_names_places(&table, (uint32_t[]){0, 7, UINT32_MAX}, 3, ITEMS(pdb_name, 3), &length));
        uint32_t status = PDB_OK;
        for (size_t n = 0; n < RECORDS && (status == PDB_OK || status == PDB_TOO_SMALL); n++, offset += (uint32_t)length + 1) {
            status = told(it, pdb_names_get(&table, offset, TEXT(100), &length));
            if (status == PDB_OK && strlen((char *)names + ROOM - 100) != length) abort();
        }
    }
    pdb_close(&table.handle);
}

static void ask_omap(pdb_file *file, uint32_t number) {
    pdb_omap omap = {0};
    uint32_t is_sorted, target;
    const pdb_handle *it = &omap.handle;
    if (told(it, pdb_omap_open(file, number, &omap)) == PDB_OK) {
        told(it, pdb_omap_records(&omap, ITEMS(pdb_omap_record, ROWS), &length));
        told(it, pdb_omap_is_sorted(&omap, &is_sorted));
        told(it, pdb_omap_lookup(&omap, 0x1234, &target));
        told(it, pdb_omap_ranges(&omap, 0x1000, 0x3000, ITEMS(pdb_span, ROWS), &length));
    }
    pdb_close(&omap.handle);
}

static void ask_addresses(pdb_file *file) {
    pdb_address_map map = {0};
    pdb_translation to = {0};
    const pdb_handle *it = &map.handle;
    if (told(it, pdb_address_map_open(file, &map)) == PDB_OK)
        for (uint32_t n = 0; n < 32; n++) {
            told(it, pdb_translate(&map, n % 5, (uint16_t)(n / 5), 0x0ff0 * n, &to));
            told(it, pdb_address_ranges(&map, PDB_INTERNAL_RVA, 0x100 * n, 0x200 * n, ITEMS(pdb_span, 3), &length));
            told(it, pdb_address_ranges(&map, n % 5, 0x100 * n, 0x200 * n, ITEMS(pdb_span, ROWS), &length));
        }
    pdb_close(&map.handle);
}

static void ask_frames(pdb_file *file) {
    pdb_frames frames = {0};
    pdb_frame frame = {0};
    const pdb_handle *it = &frames.handle;
    if (told(it, pdb_frames_open(file, &frames)) == PDB_OK) {
        told(it, pdb_frames_at(&frames, 0x1020, &frame));
        told(it, pdb_frames_list(&frames, ITEMS(pdb_frame, ROWS), &length));
    }
    pdb_close(&frames.handle);
}

static void ask_file(const uint8_t *bytes, size_t bytes_length, uint32_t index) {
    static uint8_t *stream;
    if (!stream) stream = guarded(1 << 17, 0);
    pdb_file file = {0};
    pdb_identity identity = {0};
    pdb_roles roles = {0};
    pdb_sizes sizes = {0, 0};
    uint32_t stream_size;
    const pdb_handle *it = &file.handle;
    if (pdb_format_of(bytes, bytes_length) > PDB_FORMAT_IMAGE) abort();
    told(NULL, pdb_validate(bytes, bytes_length, 1, ITEMS(pdb_finding, 16), &length));
    if (told(it, pdb_file_open(bytes, bytes_length, &file)) != PDB_OK) return;
    if (told(it, pdb_file_identity(&file, &identity)) == PDB_OK)
        for (uint32_t form = 0; form < 4; form++) told(NULL, pdb_key(&identity, form, TEXT(40), &length));
    told(it, pdb_file_roles(&file, &roles));
    told(it, pdb_file_stream_names(&file, ITEMS(pdb_named_stream, ROWS), &length, TEXT(ROOM), &size));
    told(it, pdb_file_sizes(&file, &sizes));
    for (uint32_t number = 0; number <= sizes.stream_count && number < STREAMS; number++) {
        told(it, pdb_file_stream_size(&file, number, &stream_size));
        size_t got = 0;
        if (told(it, pdb_file_stream(&file, number, 1 << 17, NULL, 0, &got)) == PDB_TOO_SMALL)
            told(it, pdb_file_stream(&file, number, 1 << 17, stream + (1 << 17) - got, got, &got));
        told(it, pdb_file_sections(&file, number, ITEMS(pdb_section, ROWS), &length));
        ask_omap(&file, number);
    }
    ask_types(&file, PDB_TYPES, index);
    ask_types(&file, PDB_IDS, index);
    told(it, pdb_file_named_stream(&file, "/names", 6, BYTES(100), &length));
    ask_names(&file);
    ask_addresses(&file);
    ask_frames(&file);
    pdb_file_close(&file);
}

static void tell_longest(void) { fprintf(stderr, "longest: %.1f ms, for %zu bytes\n", longest_ms, longest); }

static void ask_in_time(const uint8_t *bytes, size_t bytes_length, uint32_t index) {
    began = clock();
    ask_file(bytes, bytes_length, index);
    double ms = spent_ms();
    if (ms > longest_ms) longest_ms = ms, longest = bytes_length;
    if (ms > MOST_MS) tell_longest(), abort();
}

int LLVMFuzzerTestOneInput(const uint8_t *data, size_t data_size) {
    static const uint32_t header[HEADER / 4] = {20040203, HEADER, 0x1000, 0x1001};
    if (!input) {
        atexit(tell_longest);
        input = guarded(MOST, 0);
        room = guarded(ROOM, 0);
        names = guarded(ROOM, 0);
    }
    if (!data_size || data_size > MOST - MADE_FRONT - HEADER) return 0;
    // What is in front: a file's pages, and the header of a table with the length of its record.
    size_t rest = data_size - 1, front = data[0] ? MADE_FRONT : 0, stream = data[0] > 1 ? HEADER + 2 : 0, whole = front + stream + rest;
    uint8_t *at = end_of(input, MOST, whole);
    if (front) make_front(at, stream + rest);
    if (stream) {
        memcpy(at + front, header, HEADER);
        at[front + HEADER] = (uint8_t)rest;
        at[front + HEADER + 1] = (uint8_t)(rest >> 8);
    }
    if (rest) memcpy(at + front + stream, data + 1, rest);
    ask_in_time(at, whole, (uint32_t)(data[0] << 4));
    return 0;
}
