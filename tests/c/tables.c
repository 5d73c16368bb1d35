// Checks what the library says of an open table of types against a reading of its stream by the rules of the format, the
// calls on one record against the walk along the table, and where handles leave a fault, may be and may be closed.
//
// tables FILE    FILE has a table of types. Prints how many records and fields were compared.
//                Where memory is refused, it says so on standard error and gives 1; where a call answers wrongly,
//                it tells the line of this file and gives 2.
#include <pdb_container.h>
#include <stddef.h>
#include <stdio.h>
#include <stdlib.h>
#include <string.h>

enum { MOST = 0xffff, LIST = 0x1203, ROW_SIZE = offsetof(pdb_row, extra) + sizeof(uint32_t), HEADER = 56 };

static uint8_t *bytes, *stream, record[MOST];
static size_t stream_length, count;
static uint32_t *positions;
static pdb_file file;
static pdb_types table;
static uint32_t first_index, maximum_index;
static pdb_fault stop; // why there are no more items

// The fields of a list, and their names.
typedef struct list {
    pdb_field *fields;
    char *names;
    size_t count, size;
} list;

static list fields, rest;

static void end(int status) {
    pdb_close(&table.handle);
    pdb_file_close(&file);
    free(bytes);
    free(stream);
    free(positions);
    free(fields.fields);
    free(fields.names);
    free(rest.fields);
    free(rest.names);
    exit(status);
}

static void expect(int is_well, int line) {
    if (is_well) return;
    fprintf(stderr, "line %d\n", line);
    end(2);
}
#define EXPECT(test) expect(test, __LINE__)

static void lacks(void) {
    fputs("OutOfMemory\n", stderr);
    end(1);
}

static int same_fault(pdb_fault one, pdb_fault other) { return !memcmp(&one, &other, sizeof one); }

// The status of a call on a handle, which had memory, and left the fault there.
static uint32_t had(const pdb_handle *handle, uint32_t status) {
    EXPECT(status == handle->fault.status);
    if (status == PDB_OUT_OF_MEMORY) lacks();
    return status;
}

static void *room_for(size_t items, size_t size) {
    void *room = calloc(items ? items : 1, size);
    if (!room) lacks();
    return room;
}

static void open_file(const char *path) {
    FILE *in = fopen(path, "rb");
    EXPECT(in && !fseek(in, 0, SEEK_END));
    size_t size = (size_t)ftell(in);
    rewind(in);
    bytes = calloc(size, 1);
    size_t got = bytes ? fread(bytes, 1, size, in) : 0;
    fclose(in);
    if (!bytes) lacks();
    EXPECT(got == size && had(&file.handle, pdb_file_open(bytes, size, &file)) == PDB_OK);
    had(&file.handle, pdb_file_stream(&file, PDB_TYPES, SIZE_MAX, NULL, 0, &stream_length));
    stream = room_for(stream_length, 1);
    EXPECT(had(&file.handle, pdb_file_stream(&file, PDB_TYPES, SIZE_MAX, stream, stream_length, &stream_length)) == PDB_OK);
}

static size_t length_at(size_t n) { return stream[positions[n]] | stream[positions[n] + 1] << 8; }

static uint32_t number_at(size_t at) { return stream[at] | stream[at + 1] << 8 | stream[at + 2] << 16 | (uint32_t)stream[at + 3] << 24; }

// Why the header can't be read, or PDB_OK; a stream without bytes is an empty table.
static pdb_fault header_fault(void) {
    enum { IMPOSSIBLY_SMALL = 10, UNREASONABLY_LARGE, MINIMUM, MAXIMUM };
    if (!stream_length) return (pdb_fault){PDB_OK, 0, 0};
    if (stream_length < HEADER) return (pdb_fault){PDB_UNEXPECTED_EOF, 0, 0};
    uint32_t size = number_at(4);
    first_index = number_at(8);
    maximum_index = number_at(12);
    if (size < HEADER) return (pdb_fault){PDB_INVALID_TYPE_INFORMATION_HEADER, IMPOSSIBLY_SMALL, 0};
    if (size > 1024) return (pdb_fault){PDB_INVALID_TYPE_INFORMATION_HEADER, UNREASONABLY_LARGE, 0};
    if (size > stream_length) return (pdb_fault){PDB_UNEXPECTED_EOF, 0, 0};
    if (first_index < 4096) return (pdb_fault){PDB_INVALID_TYPE_INFORMATION_HEADER, MINIMUM, 0};
    if (maximum_index < first_index) return (pdb_fault){PDB_INVALID_TYPE_INFORMATION_HEADER, MAXIMUM, 0};
    return (pdb_fault){PDB_OK, 0, 0};
}

// The positions of all items: two bytes give the length of each.
static void place_items(void) {
    size_t at = stream_length ? number_at(4) : 0;
    positions = room_for(stream_length / 4 + 1, sizeof *positions);
    for (; at < stream_length; at += 2 + length_at(count), count++) {
        positions[count] = (uint32_t)at;
        if (stream_length - at < 2) stop.status = PDB_UNEXPECTED_EOF;
        else if (length_at(count) < 2) stop.status = PDB_TYPE_TOO_SHORT;
        else if (stream_length - at - 2 < length_at(count)) stop.status = PDB_UNEXPECTED_EOF;
        if (stop.status) return;
    }
}

static int is_open(void) {
    pdb_fault of_file = file.handle.fault;
    had(&table.handle, pdb_types_open(&file, PDB_TYPES, &table));
    EXPECT(same_fault(table.handle.fault, header_fault()) && same_fault(file.handle.fault, of_file));
    if (table.handle.fault.status) EXPECT(!table.handle.held && !table.handle.kind);
    else place_items();
    return !table.handle.fault.status;
}

static void check_range(void) {
    pdb_index_range range = {7, 7};
    EXPECT(had(&table.handle, pdb_types_range(&table, &range)) == PDB_OK && range.first == first_index && range.end == maximum_index);
}

// Why the record of an index isn't found, or PDB_OK.
static pdb_fault wanted_fault(uint32_t index) {
    if (index < first_index) return (pdb_fault){PDB_NONE, 0, 0};
    if (index >= maximum_index) return (pdb_fault){PDB_TYPE_NOT_FOUND, index, 0};
    if (index - first_index >= count) return stop.status ? stop : (pdb_fault){PDB_UNEXPECTED_EOF, 0, 0};
    return (pdb_fault){PDB_OK, 0, 0};
}

// The place of the record of an index: its bytes, and what it says, or why there is none.
static void check_found(const pdb_found_record *found, uint32_t index) {
    pdb_fault wanted = wanted_fault(index);
    pdb_record position = {index, 0, 0};
    size_t length = 7;
    if (found->fault.status == PDB_OUT_OF_MEMORY) lacks();
    if (!wanted.status) position.offset = positions[index - first_index] + 2, position.length = (uint32_t)length_at(index - first_index);
    EXPECT(same_fault(found->fault, wanted) && !memcmp(&found->position, &position, sizeof position));
    if (wanted.status == PDB_NONE) return;
    had(&table.handle, pdb_type_record(&table, index, record, MOST, &length));
    EXPECT(same_fault(table.handle.fault, wanted) && length == position.length && !memcmp(record, stream + position.offset, length));
}

// Finds some indexes in one call, and each in one of its own.
static void check_finds(const uint32_t *indexes, size_t indexes_length) {
    pdb_found_record found[2000], one[1];
    size_t got = 7;
    EXPECT(had(&table.handle, pdb_types_find(&table, indexes, indexes_length, found, indexes_length - 1, &got)) == PDB_TOO_SMALL && got == indexes_length);
    EXPECT(had(&table.handle, pdb_types_find(&table, indexes, indexes_length, found, 2000, &got)) == PDB_OK && got == indexes_length);
    for (size_t n = 0; n < indexes_length; n++) {
        check_found(&found[n], indexes[n]);
        EXPECT(had(&table.handle, pdb_types_find(&table, &indexes[n], 1, one, 1, &got)) == PDB_OK && got == 1);
        EXPECT(same_fault(one->fault, found[n].fault) && !memcmp(&one->position, &found[n].position, sizeof one->position));
    }
}

// Finds in an order that jumps to and fro, and the indexes around both ends.
static void check_all_finds(void) {
    uint32_t indexes[2000];
    size_t steps = count < 2000 ? count : 2000;
    for (size_t n = 0; n < steps; n++) indexes[n] = first_index + (uint32_t)(n * 7919 % count);
    uint32_t some[] = {0, 0x74, first_index - 1, first_index, first_index + (uint32_t)count, maximum_index - 1, maximum_index, 0xffffffff};
    if (steps) check_finds(indexes, steps);
    check_finds(some, sizeof some / sizeof *some);
}

// The walk gives the place of each record, and the row or the fault that a call on the record gives; and then, again and
// again, the fault at which it stops. A search in between does not move it.
static void check_walk(size_t room, pdb_type *types) {
    pdb_fault last = stop.status ? stop : (pdb_fault){PDB_END, 0, 0};
    size_t got = room;
    for (size_t n = 0, ends = 0; ends < 2; n += got) {
        memset(types, 0xa5, (room + 1) * sizeof *types);
        had(&table.handle, pdb_types_read(&table, types, room, &got));
        EXPECT(got == (count - n < room ? count - n : room));
        EXPECT(same_fault(table.handle.fault, got == room ? (pdb_fault){PDB_OK, 0, 0} : last));
        for (size_t i = 0; i < sizeof *types; i++) EXPECT(((uint8_t *)(types + got))[i] == 0xa5);
        for (size_t i = 0; i < got; i++) {
            uint32_t index = first_index + (uint32_t)(n + i);
            pdb_record position = {index, positions[n + i] + 2, (uint32_t)length_at(n + i)};
            pdb_type_info info = {{0}};
            EXPECT(!memcmp(&types[i].position, &position, sizeof position));
            if (types[i].fault.status == PDB_OUT_OF_MEMORY) lacks();
            had(&table.handle, pdb_type_parse(&table, index, &info));
            if (index < maximum_index) EXPECT(same_fault(types[i].fault, table.handle.fault) && !memcmp(&types[i].info, &info, ROW_SIZE));
        }
        ends += got < room;
    }
    EXPECT(had(&table.handle, pdb_types_rewind(&table)) == PDB_OK);
}

static void check_walks(void) {
    static const size_t rooms[] = {1, 3, 64};
    pdb_type types[65];
    size_t got = 7;
    EXPECT(had(&table.handle, pdb_types_read(&table, types, 0, &got)) == PDB_OK && !got);
    for (size_t i = 0; i < sizeof rooms / sizeof *rooms; i++) check_walk(rooms[i], types);
}

// Whether a list of fields goes on in another, whose index is set; and why there is no list of an index, or PDB_OK.
static int goes_on(uint32_t *index, pdb_fault *fault) {
    pdb_type_info info = {{0}};
    *fault = wanted_fault(*index);
    if (fault->status == PDB_NONE) *fault = (pdb_fault){PDB_UNIMPLEMENTED_TYPE_KIND, 0xffff, 0};
    if (fault->status) return 0;
    size_t at = positions[*index - first_index] + 2;
    uint32_t kind = stream[at] | stream[at + 1] << 8;
    if (kind != LIST) return *fault = (pdb_fault){PDB_UNIMPLEMENTED_TYPE_KIND, kind, 0}, 0;
    if (had(&table.handle, pdb_type_parse(&table, *index, &info))) return *fault = table.handle.fault, 0;
    if (!(info.row.has & PDB_HAS_CONTINUATION)) return 0;
    if (info.field_list.continuation >= *index) return *fault = (pdb_fault){PDB_UNIMPLEMENTED_FEATURE, 9, 0}, 0;
    *index = info.field_list.continuation;
    return 1;
}

static pdb_fault list_fault(uint32_t index) {
    pdb_fault fault;
    while (goes_on(&index, &fault));
    return fault;
}

// The fields of a list and of those in which it goes on. Each name stands behind the one before it, with a NUL.
static int is_list(uint32_t index, list *it) {
    free(it->fields);
    free(it->names);
    *it = (list){0};
    uint32_t status = had(&table.handle, pdb_type_fields(&table, index, 1, NULL, 0, &it->count, NULL, 0, &it->size));
    pdb_fault wanted = list_fault(index);
    if (wanted.status) return EXPECT(status == wanted.status && !it->count && !it->size), 0;
    EXPECT(status == (it->count ? PDB_TOO_SMALL : PDB_OK));
    it->fields = room_for(it->count, sizeof *it->fields);
    it->names = room_for(it->size, 1);
    size_t fields_count = 7, size = 7, at = 0;
    EXPECT(had(&table.handle, pdb_type_fields(&table, index, 1, it->fields, it->count, &fields_count, it->names, it->size, &size)) == PDB_OK);
    for (size_t i = 0; i < it->count; at += it->fields[i++].name_length + 1)
        EXPECT(it->fields[i].name_offset == at && at < size && strlen(it->names + at) == it->fields[i].name_length);
    EXPECT(fields_count == it->count && size == it->size && at == size);
    return 1;
}

// The last fields of a list are those of the list in which it goes on.
static size_t check_fields(uint32_t index) {
    pdb_fault fault;
    if (!is_list(index, &fields)) return 0;
    if (!goes_on(&index, &fault)) return fields.count;
    EXPECT(is_list(index, &rest) && rest.count <= fields.count && rest.size <= fields.size);
    for (size_t i = 0; i < rest.count; i++) {
        pdb_field *it = &fields.fields[fields.count - rest.count + i], *other = &rest.fields[i];
        EXPECT(!memcmp(&it->info, &other->info, ROW_SIZE) && it->has_name == other->has_name);
    }
    EXPECT(!memcmp(fields.names + fields.size - rest.size, rest.names, rest.size));
    return fields.count;
}

static void check_closed(pdb_types *closed) {
    pdb_index_range range = {7, 7};
    size_t length = 7, size = 7;
    pdb_field none[1];
    pdb_found_record found = {.position = {7, 7, 7}};
    pdb_type type = {.position = {7, 7, 7}};
    EXPECT(had(&closed->handle, pdb_types_range(closed, &range)) == PDB_NOT_OPEN && range.end == 7);
    EXPECT(had(&closed->handle, pdb_types_find(closed, &first_index, 1, &found, 1, &length)) == PDB_NOT_OPEN && !length && found.position.index == 7);
    EXPECT(had(&closed->handle, pdb_types_rewind(closed)) == PDB_NOT_OPEN);
    length = 7;
    EXPECT(had(&closed->handle, pdb_types_read(closed, &type, 1, &length)) == PDB_NOT_OPEN && !length && type.position.length == 7);
    length = 7;
    EXPECT(had(&closed->handle, pdb_type_fields(closed, 0x1000, 1, none, 1, &length, (char *)record, MOST, &size)) == PDB_NOT_OPEN && !length && !size);
}

// Handles that were moved are as they were, also when the table keeps its definitions; where they were is nothing.
static void check_moved(void) {
    struct {
        pdb_file file;
        pdb_types table;
    } *moved = room_for(1, sizeof *moved);
    pdb_index_range range = {7, 7};
    uint64_t size = 7, size_then = 7;
    uint32_t length = 7, status = had(&table.handle, pdb_type_size(&table, 0x74, &size));
    memcpy(&moved->file, &file, sizeof file);
    memcpy(&moved->table, &table, sizeof table);
    memset(&file, 0, sizeof file);
    memset(&table, 0, sizeof table);
    int is_well = pdb_types_range(&table, &range) == PDB_NOT_OPEN && pdb_file_stream_size(&file, PDB_TYPES, &length) == PDB_NOT_OPEN;
    is_well = is_well && pdb_types_range(&moved->table, &range) == PDB_OK && range.end == maximum_index;
    is_well = is_well && pdb_type_size(&moved->table, 0x74, &size_then) == status && size_then == size;
    is_well = is_well && pdb_file_stream_size(&moved->file, PDB_TYPES, &length) == PDB_OK && length == stream_length;
    memcpy(&file, &moved->file, sizeof file);
    memcpy(&table, &moved->table, sizeof table);
    free(moved);
    had(&table.handle, table.handle.fault.status);
    EXPECT(is_well);
}

static void check_misuse(void) {
    pdb_types closed = {0};
    EXPECT(had(&table.handle, pdb_types_open(&file, PDB_TYPES, &table)) == PDB_ALREADY_OPEN && table.handle.held);
    EXPECT(had(&file.handle, pdb_file_open(bytes, 0, &file)) == PDB_ALREADY_OPEN && file.handle.held);
    // The compiler refuses a handle of another kind; so does the call.
    pdb_names names = {table.handle};
    size_t length = 7;
    EXPECT(had(&names.handle, pdb_names_get(&names, 0, (char *)record, MOST, &length)) == PDB_NOT_OPEN && !length);
    table.handle = names.handle;
    names.handle = closed.handle;
    pdb_name place = {7, 7};
    length = 7;
    EXPECT(had(&names.handle, pdb_names_places(&names, &(uint32_t){0}, 1, &place, 1, &length)) == PDB_NOT_OPEN && !length && place.length == 7);
    check_closed(&closed);
    // What was opened from a file stays when that is closed.
    pdb_file_close(&file);
    EXPECT(!file.handle.held && !file.bytes && !file.length);
    EXPECT(had(&closed.handle, pdb_types_open(&file, PDB_TYPES, &closed)) == PDB_NOT_OPEN);
    check_range();
    pdb_close(&table.handle);
    pdb_close(&table.handle);
    check_closed(&table);
    pdb_close(NULL);
    pdb_file_close(NULL);
}

int main(int words, char **word) {
    EXPECT(words == 2);
    open_file(word[1]);
    size_t listed = 0;
    if (is_open()) {
        check_range();
        check_all_finds();
        check_walks();
        check_moved();
        for (size_t n = 0; n < count; n++) listed += check_fields(first_index + (uint32_t)n);
        check_misuse();
    }
    printf("%zu records, %zu fields\n", count, listed);
    end(0);
}
