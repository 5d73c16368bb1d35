// Asks the library for C all that the example pdbq.c doesn't ask, of one program database, and prints each
// answer on a line: the file's streams, what identifies it, its sections, its addresses and ranges of them, its frames
// and names, lists of types in stream 2, their definitions, sizes, texts and layouts, ids, and the status, the numbers and
// the text of each call that is refused.
//
// usage: calls FILE
#include <inttypes.h>
#include <pdb_container.h>
#include <stdio.h>
#include <stdlib.h>
#include <string.h>

#include "made.h"

enum { ROOM = 4096, FIRST = 0x800, LAST = 0x5000, STEP = 0x80 };

static uint8_t *file, stream[ROOM];
static char text[ROOM];
static size_t file_length, length;
static pdb_file opened;

// The fault of a call, which a call on a handle left there. Ends the program without memory.
static pdb_fault fault_of(const pdb_handle *handle, uint32_t status) {
    pdb_fault fault = handle ? handle->fault : (pdb_fault){status, 0, 0};
    if (status != fault.status) printf("status %" PRIu32 " and fault %" PRIu32 "\n", status, fault.status), exit(3);
    if (status == PDB_OUT_OF_MEMORY) fprintf(stderr, "OutOfMemory\n"), exit(1);
    return fault;
}

// Ends the program where a call has another status than these.
static uint32_t allowed(const pdb_handle *handle, uint32_t status, uint32_t also) {
    fault_of(handle, status);
    if (status != PDB_OK && status != also) fprintf(stderr, "status %" PRIu32 "\n", status), exit(1);
    return status;
}

// A text of this length, at whose end there is a NUL.
static const char *whole(const char *it, size_t it_length) {
    if (strlen(it) != it_length) printf("no NUL at %zu\n", it_length), exit(3);
    return it;
}

static void print_bytes(const char *front, const uint8_t *bytes, size_t count) {
    printf("%s", front);
    for (size_t i = 0; i < count; i++) printf("%02x", bytes[i]);
    printf("\n");
}

static void read_file(const char *path) {
    FILE *in = fopen(path, "rb");
    file = malloc(1 << 20);
    if (!in || !file) fprintf(stderr, "OutOfMemory\n"), exit(1);
    file_length = fread(file, 1, 1 << 20, in);
    fclose(in);
}

static void ask_streams(void) {
    pdb_sizes sizes = {7, 7};
    uint32_t size = 7;
    allowed(&opened.handle, pdb_file_sizes(&opened, &sizes), PDB_NOT_OPEN);
    printf("closed %" PRIu32 " %" PRIu32 "\n", opened.handle.fault.status, sizes.page_size);
    allowed(&opened.handle, pdb_file_open(file, file_length, &opened), PDB_OK);
    allowed(&opened.handle, pdb_file_open(NULL, 0, &opened), PDB_ALREADY_OPEN);
    printf("again %" PRIu32 "\n", opened.handle.fault.status);
    allowed(&opened.handle, pdb_file_sizes(&opened, &sizes), PDB_OK);
    printf("pages %" PRIu32 " streams %" PRIu32 "\n", sizes.page_size, sizes.stream_count);
    for (uint32_t number = 0; number <= sizes.stream_count; number++) {
        if (allowed(&opened.handle, pdb_file_stream_size(&opened, number, &size), PDB_STREAM_NOT_FOUND)) {
            printf("stream %" PRIu32 " absent %" PRIu32 "\n", number, opened.handle.fault.first);
            continue;
        }
        printf("stream %" PRIu32 " size %" PRIu32, number, size);
        allowed(&opened.handle, pdb_file_stream(&opened, number, SIZE_MAX, NULL, 0, &length), PDB_TOO_SMALL);
        printf(" needs %zu", length);
        memset(stream, 0xaa, ROOM);
        allowed(&opened.handle, pdb_file_stream(&opened, number, 40, stream, ROOM, &length), PDB_OK);
        print_bytes(" begins ", stream, length);
        if (stream[length] != 0xaa) printf("written past the end\n");
    }
}

static void ask_roles(pdb_roles *roles) {
    pdb_named_stream rows[64];
    size_t count = 0;
    allowed(&opened.handle, pdb_file_stream_names(&opened, NULL, 0, &count, NULL, 0, &length), PDB_TOO_SMALL);
    printf("named %zu %zu\n", count, length);
    allowed(&opened.handle, pdb_file_stream_names(&opened, rows, 64, &count, text, ROOM, &length), PDB_OK);
    for (size_t i = 0; i < count; i++)
        printf("named %" PRIu32 " %s\n", rows[i].number, whole(text + rows[i].name_offset, rows[i].name_length));
    allowed(&opened.handle, pdb_file_roles(&opened, roles), PDB_OK);
    printf("roles %u %u %u %u %u\n", roles->fpo, roles->omap_to_src, roles->omap_from_src, roles->section_headers, roles->original_section_headers);
}

static void ask_identity(void) {
    pdb_identity said = {0};
    allowed(&opened.handle, pdb_file_identity(&opened, &said), PDB_OK);
    printf("identity %" PRIu32 " %" PRIu32 " %" PRIu32 " %" PRIu32 " %" PRIu32 " %" PRIu32, said.version, said.signature, said.age, said.information_age,
           said.has_debug_header, said.debug_age);
    printf(" %u %u %" PRIu32 " %" PRIu32, said.machine, said.flags, said.has_features, said.features);
    print_bytes(" guid ", said.guid, 16);
    for (uint32_t form = PDB_KEY_UPPER; form <= PDB_KEY_GUID; form++) {
        allowed(NULL, pdb_key(&said, form, NULL, 0, &length), PDB_TOO_SMALL);
        printf("key %" PRIu32 " needs %zu", form, length);
        allowed(NULL, pdb_key(&said, form, text, ROOM, &length), PDB_OK);
        printf(" is %s\n", whole(text, length));
    }
    uint32_t status = allowed(NULL, pdb_key(&said, PDB_KEY_GUID + 1, text, ROOM, &length), PDB_NONE);
    printf("key of no form %" PRIu32 " %zu\n", status, length);
    static const char *const begin[] = {"Microsoft C/C++ program database 2.00\r\n\x1aJG\0", "BSJB", "MSCF", "MZ", ""};
    printf("format %" PRIu32, pdb_format_of(file, file_length));
    printf(" %" PRIu32, pdb_format_of((const uint8_t *)begin[0], 44));
    for (int i = 1; i < 5; i++) printf(" %" PRIu32, pdb_format_of((const uint8_t *)begin[i], strlen(begin[i])));
    printf("\n");
}

static void ask_sections(uint32_t number) {
    pdb_section sections[16];
    allowed(&opened.handle, pdb_file_sections(&opened, number, sections, 16, &length), PDB_OK);
    for (size_t i = 0; i < length; i++)
        printf("section %.8s 0x%" PRIx32 " 0x%" PRIx32 " 0x%" PRIx32 " 0x%" PRIx32 "\n", (char *)sections[i].name, sections[i].virtual_size,
               sections[i].virtual_address, sections[i].size_of_raw_data, sections[i].characteristics);
}

static void print_address(const char *front, uint32_t asked, uint32_t is_there, uint32_t address) {
    if (!is_there) printf("%s 0x%" PRIx32 " nowhere\n", front, asked);
    else printf("%s 0x%" PRIx32 " 0x%" PRIx32 "\n", front, asked, address);
}

static void print_place(const char *front, uint32_t asked, uint32_t is_there, pdb_section_offset place) {
    if (!is_there) printf("%s 0x%" PRIx32 " nowhere\n", front, asked);
    else printf("%s 0x%" PRIx32 " %" PRIu32 ":0x%" PRIx32 "\n", front, asked, place.section, place.offset);
}

static void print_ranges(const char *front, uint32_t asked, const pdb_span *spans) {
    printf("%s 0x%" PRIx32, front, asked);
    for (size_t n = 0; n < length; n++) printf(" 0x%" PRIx32 "..0x%" PRIx32, spans[n].start, spans[n].end);
    printf("\n");
}

static pdb_translation translated(pdb_address_map *map, uint32_t form, uint32_t section, uint32_t offset) {
    pdb_translation to = {0};
    allowed(&map->handle, pdb_translate(map, form, (uint16_t)section, offset, &to), PDB_OK);
    return to;
}

static void ask_addresses(void) {
    pdb_address_map map = {0};
    pdb_span spans[64];
    allowed(&map.handle, pdb_translate(&map, PDB_RVA, 0, 0, &(pdb_translation){0}), PDB_NOT_OPEN);
    allowed(&map.handle, pdb_address_map_open(&opened, &map), PDB_OK);
    allowed(&map.handle, pdb_translate(&map, PDB_INTERNAL_SECTION_OFFSET + 1, 0, 0, &(pdb_translation){0}), PDB_NONE);
    printf("address of no form %" PRIu32 "\n", map.handle.fault.status);
    for (uint32_t form = PDB_SECTION_OFFSET; form < 5; form += form == PDB_SECTION_OFFSET ? 2 : 1)
        printf("ranges of form %" PRIu32 " %" PRIu32 "\n", form, pdb_address_ranges(&map, form, FIRST, LAST, spans, 64, &length));
    for (uint32_t asked = FIRST; asked < LAST; asked += STEP) {
        uint32_t section = asked / STEP % 4;
        pdb_translation loaded = translated(&map, PDB_RVA, section, asked), internal = translated(&map, PDB_INTERNAL_RVA, section, asked);
        pdb_translation place = translated(&map, PDB_SECTION_OFFSET, section, asked);
        pdb_translation internal_place = translated(&map, PDB_INTERNAL_SECTION_OFFSET, section, asked);
        print_address("own0", asked, loaded.has_rva, loaded.rva);
        print_address("own1", asked, internal.has_internal_rva, internal.internal_rva);
        print_place("own2", asked, place.has_section_offset, place.section_offset);
        print_place("own3", asked, internal_place.has_internal_section_offset, internal_place.internal_section_offset);
        print_address("address0", asked, loaded.has_internal_rva, loaded.internal_rva);
        print_address("address1", asked, internal.has_rva, internal.rva);
        print_place("place0", asked, loaded.has_section_offset, loaded.section_offset);
        print_address("from0", asked, place.has_rva, place.rva);
        print_place("place1", asked, loaded.has_internal_section_offset, loaded.internal_section_offset);
        print_address("from1", asked, place.has_internal_rva, place.internal_rva);
        print_place("place2", asked, internal.has_section_offset, internal.section_offset);
        print_address("from2", asked, internal_place.has_internal_rva, internal_place.internal_rva);
        print_place("place3", asked, internal.has_internal_section_offset, internal.internal_section_offset);
        print_address("from3", asked, internal_place.has_rva, internal_place.rva);
        print_place("across0", asked, place.has_internal_section_offset, place.internal_section_offset);
        allowed(&map.handle, pdb_address_ranges(&map, PDB_INTERNAL_RVA, asked, asked + 0x300, spans, 64, &length), PDB_OK);
        print_ranges("ranges0", asked, spans);
        print_place("across1", asked, internal_place.has_section_offset, internal_place.section_offset);
        allowed(&map.handle, pdb_address_ranges(&map, PDB_RVA, asked, asked + 0x300, spans, 64, &length), PDB_OK);
        print_ranges("ranges1", asked, spans);
    }
    pdb_close(&map.handle);
}

// Opens a file of one stream, over bytes that stay until the next one is made.
static pdb_file *made(const void *bytes, size_t bytes_length) {
    static uint8_t room[MADE_FRONT + ROOM];
    static pdb_file it;
    pdb_file_close(&it);
    make_front(room, bytes_length);
    if (bytes_length) memcpy(room + MADE_FRONT, bytes, bytes_length);
    allowed(&it.handle, pdb_file_open(room, MADE_FRONT + bytes_length, &it), PDB_OK);
    return &it;
}

// The records of an OMAP table, their order, and an address below all of them.
static void ask_omap(uint32_t number) {
    pdb_omap omap = {0};
    pdb_omap_record records[64];
    uint32_t is_sorted = 7, target = 7;
    allowed(&omap.handle, pdb_omap_open(&opened, number, &omap), PDB_OK);
    allowed(&omap.handle, pdb_omap_records(&omap, records, 64, &length), PDB_OK);
    for (size_t i = 0; i < length; i++) printf("omap 0x%" PRIx32 " 0x%" PRIx32 "\n", records[i].source, records[i].target);
    allowed(&omap.handle, pdb_omap_is_sorted(&omap, &is_sorted), PDB_OK);
    allowed(&omap.handle, pdb_omap_lookup(&omap, 0, &target), PDB_UNMAPPED);
    printf("omap sorted %" PRIu32 " unmapped %" PRIu32 " %" PRIu32 "\n", is_sorted, omap.handle.fault.status, target);
    pdb_close(&omap.handle);
    allowed(&omap.handle, pdb_omap_open(made("\2\0\0\0\0\0\0\0\1\0\0\0\0\0\0", 16), PDB_TYPES, &omap), PDB_OK);
    allowed(&omap.handle, pdb_omap_is_sorted(&omap, &is_sorted), PDB_OK);
    printf("omap sorted %" PRIu32 "\n", is_sorted);
    pdb_close(&omap.handle);
}

static void ask_frames(void) {
    pdb_frames frames = {0};
    pdb_frame frame = {0}, all[64];
    allowed(&frames.handle, pdb_frames_open(&opened, &frames), PDB_OK);
    for (uint32_t asked = FIRST; asked < LAST; asked += STEP) {
        if (allowed(&frames.handle, pdb_frames_at(&frames, asked, &frame), PDB_NONE)) printf("frame 0x%" PRIx32 " nowhere\n", asked);
        else printf("frame 0x%" PRIx32 " 0x%" PRIx32 " %" PRIu32 " %" PRIu32 " %" PRIu32 " %" PRIu32 "\n", asked, frame.code_start, frame.code_size,
                    frame.locals_size, frame.params_size, frame.kind);
    }
    allowed(&frames.handle, pdb_frames_list(&frames, all, 64, &length), PDB_OK);
    for (size_t i = 0; i < length; i++) printf("listed 0x%" PRIx32 " %" PRIu32 " %" PRIu32 "\n", all[i].code_start, all[i].code_size, all[i].kind);
    pdb_close(&frames.handle);
}

// Each name begins right after the NUL of the one before it. All of them are found in one call too.
static void ask_names(void) {
    pdb_names names = {0};
    pdb_name found[64];
    uint32_t offset = 0, offsets[64];
    size_t count = 0;
    allowed(&names.handle, pdb_names_open(&opened, &names), PDB_OK);
    for (; !allowed(&names.handle, pdb_names_get(&names, offset, text, ROOM, &length), PDB_UNEXPECTED_EOF); offset += (uint32_t)length + 1) {
        printf("name %" PRIu32 " %s\n", offset, whole(text, length));
        offsets[count++] = offset;
    }
    offsets[count++] = offset;
    allowed(&names.handle, pdb_names_places(&names, offsets, count, found, 64, &length), PDB_OK);
    for (size_t i = 0; i < length; i++)
        printf("found %" PRIu32 " %zu %zu\n", offsets[i], found[i].offset, found[i].length);
    pdb_close(&names.handle);
    allowed(&opened.handle, pdb_file_named_stream(&opened, "/names", 6, stream, ROOM, &length), PDB_OK);
    printf("names of %zu bytes\n", length);
}

static void ask_types(pdb_types *types) {
    static const uint32_t primitives[] = {0x74, 0x674, 0x103, 0x874, 0x80};
    pdb_type it;
    size_t count = 0;
    uint32_t numbers[64];
    pdb_type_info info, infos[64];
    while (!allowed(&types->handle, pdb_types_read(types, &it, 1, &count), PDB_END)) {
        uint32_t index = it.position.index;
        if (!allowed(&types->handle, pdb_type_unique_name(types, index, text, ROOM, &length), PDB_NONE))
            printf("unique 0x%" PRIx32 " %s\n", index, whole(text, length));
        if (!allowed(&types->handle, pdb_type_numbers(types, index, numbers, 64, &length), PDB_NONE))
            for (size_t n = 0; n < length; n++) printf("dimension 0x%" PRIx32 " %" PRIu32 "\n", index, numbers[n]);
        if (!allowed(&types->handle, pdb_type_methods(types, index, infos, 64, &length), PDB_NONE))
            for (size_t n = 0; n < length; n++)
                printf("method 0x%" PRIx32 " %" PRIu32 " 0x%" PRIx32 " 0x%" PRIx32 " %" PRIu32 "\n", index, infos[n].row.shape, infos[n].method.attributes,
                       infos[n].method.method_type, infos[n].row.has & PDB_HAS_VTABLE_OFFSET ? infos[n].method.vtable_offset : UINT32_MAX);
    }
    for (size_t i = 0; i < sizeof primitives / sizeof *primitives; i++) {
        uint32_t index = primitives[i];
        if (allowed(&types->handle, pdb_type_parse(types, index, &info), PDB_TYPE_NOT_FOUND))
            printf("primitive 0x%" PRIx32 " status %" PRIu32 "\n", index, types->handle.fault.status);
        else if (info.row.shape == PDB_PRIMITIVE)
            printf("primitive 0x%" PRIx32 " %s %" PRIu32 "\n", index, pdb_primitive_name(index & 0xff), index >> 8);
    }
}

// A record, and how many bytes it has.
typedef struct record {
    const char *bytes;
    size_t size;
} record;

#define RECORD(bytes) (record){bytes, sizeof(bytes) - 1}

// Opens a table of one record, with the index 0x1000, as types or as ids.
static pdb_types *table_of(uint32_t number, record it) {
    static pdb_types types;
    static const uint32_t header[14] = {20040203, sizeof header, 0x1000, 0x1001};
    memcpy(stream, header, sizeof header);
    stream[sizeof header] = (uint8_t)it.size;
    stream[sizeof header + 1] = 0;
    memcpy(stream + sizeof header + 2, it.bytes, it.size);
    pdb_close(&types.handle);
    allowed(&types.handle, pdb_types_open(made(stream, sizeof header + 2 + it.size), number, &types), PDB_OK);
    return &types;
}

static pdb_type_info parsed(uint32_t number, record it) {
    pdb_type_info info = {{0}};
    pdb_types *types = table_of(number, it);
    allowed(&types->handle, pdb_type_parse(types, 0x1000, &info), PDB_OK);
    return info;
}

static void print_value(pdb_type_info info) {
    if (info.enumerate.is_signed) printf("%" PRId64 "\n", (int64_t)info.enumerate.value);
    else printf("%" PRIu64 "\n", info.enumerate.value);
}

// A value of each width: its prefix, its bytes, and what it is.
static void ask_enumerates(void) {
    static const record records[] = {
        {"\2\x15\3\0\x39\x30" "A", 8}, {"\2\x15\3\0\1\x80\xfe\xff" "A", 10}, {"\2\x15\3\0\2\x80\xfe\xff" "A", 10},
        {"\2\x15\3\0\3\x80\xfe\xff\xff\xff" "A", 12}, {"\2\x15\3\0\4\x80\xfe\xff\xff\xff" "A", 12},
        {"\2\x15\3\0\x09\x80\xfe\xff\xff\xff\xff\xff\xff\xff", 15}, {"\2\x15\3\0\x0a\x80\xfe\xff\xff\xff\xff\xff\xff\xff", 15},
    };
    for (size_t i = 0; i < sizeof records / sizeof *records; i++) {
        pdb_type_info info = parsed(PDB_TYPES, records[i]);
        printf("enumerate %" PRIu32 " ", info.enumerate.width);
        print_value(info);
    }
    // 0x80 as an LF_CHAR, of a signed and an unsigned type of one byte, of one of eight bytes, and of no primitive type.
    static const uint32_t under[] = {0x68, 0x69, 0x23, 0x1000};
    for (size_t i = 0; i < sizeof under / sizeof *under; i++) {
        pdb_type_info info = parsed(PDB_TYPES, RECORD("\2\x15\3\0\0\x80\x80" "A\0"));
        pdb_enumerator_typed(&info, under[i]);
        printf("enumerator of 0x%" PRIx32 " ", under[i]);
        print_value(info);
    }
}

// An id of each shape: its numbers, its name if it has one, and its list if it has one.
static void ask_ids(void) {
    static const record records[] = {
        {"\1\x16\0\0\0\0\2\x10\0\0f", 12}, {"\2\x16\5\x10\0\0\6\x10\0\0g", 12}, {"\3\x16\2\0\1\x10\0\0\2\x10\0", 12},
        {"\4\x16\1\0\0\0\7\x10\0", 10}, {"\5\x16\x08\x10\0\0text", 11}, {"\6\x16\x09\x10\0\0\x0a\x10\0\0\x0b\0\0", 14},
        {"\7\x16\x09\x10\0\0\x0a\0\0\0\x0b\0\0\0\x0c", 16},
    };
    uint32_t list[4];
    for (size_t i = 0; i < sizeof records / sizeof *records; i++) {
        pdb_row row = parsed(PDB_IDS, records[i]).row;
        printf("id %" PRIu32 " %" PRIu32 " 0x%" PRIx32 " 0x%" PRIx32 " 0x%" PRIx32 " 0x%" PRIx32, row.shape, row.has, row.type_index, row.second_index,
               row.third_index, row.list_index);
        printf(" %" PRIu64 " %" PRIu32, row.number, row.extra);
        pdb_types *ids = table_of(PDB_IDS, records[i]);
        if (!allowed(&ids->handle, pdb_type_name(ids, 0x1000, text, ROOM, &length), PDB_NONE)) printf(" named %s", whole(text, length));
        if (!allowed(&ids->handle, pdb_type_numbers(ids, 0x1000, list, 4, &length), PDB_NONE))
            for (size_t n = 0; n < length; n++) printf(" 0x%" PRIx32, list[n]);
        printf("\n");
    }
}

static void print_layout(pdb_types *types, uint32_t index) {
    pdb_layout_row rows[16];
    size_t count = 0;
    if (allowed(&types->handle, pdb_type_layout(types, index, rows, 16, &count, text, ROOM, &length), PDB_NONE)) {
        printf("layout 0x%" PRIx32 " nowhere\n", index);
        return;
    }
    for (size_t i = 0; i < count; i++) {
        printf("layout 0x%" PRIx32 " %" PRIu32 " %" PRIu64 " %" PRIu64 " %" PRIu32, index, rows[i].kind, rows[i].offset, rows[i].size, rows[i].extent);
        printf(" %" PRIu32 " %" PRIu32 " 0x%" PRIx32 " 0x%" PRIx32 " %" PRIu32 " %" PRIu32, rows[i].bit, rows[i].bits, rows[i].type_index, rows[i].base_class,
               rows[i].base_position, rows[i].is_direct);
        printf(" %s\n", rows[i].kind == PDB_LAYOUT_MEMBER ? whole(text + rows[i].name_offset, rows[i].name_length) : "");
    }
}

static void ask_definitions(pdb_types *types) {
    static const char *const names[] = {"S", "T", "E", "none", "Q"};
    uint32_t found[8], definition = 0;
    uint64_t size = 0;
    for (size_t i = 0; i < sizeof names / sizeof *names; i++) {
        allowed(&types->handle, pdb_types_named(types, names[i], strlen(names[i]), found, 8, &length), PDB_OK);
        printf("named %s", names[i]);
        for (size_t n = 0; n < length; n++) printf(" 0x%" PRIx32, found[n]);
        printf("\n");
    }
    for (uint32_t index = 0x1000; index < 0x100e; index++) {
        if (allowed(&types->handle, pdb_type_definition(types, index, &definition), PDB_NONE)) printf("definition 0x%" PRIx32 " nowhere\n", index);
        else printf("definition 0x%" PRIx32 " 0x%" PRIx32 "\n", index, definition);
        if (allowed(&types->handle, pdb_type_size(types, index, &size), PDB_NONE)) printf("size 0x%" PRIx32 " nowhere\n", index);
        else printf("size 0x%" PRIx32 " %" PRIu64 "\n", index, size);
        print_layout(types, index);
    }
    static const uint32_t typed[] = {0x74, 0x1001, 0x1007, 0x1009};
    for (size_t i = 0; i < sizeof typed / sizeof *typed; i++) {
        allowed(&types->handle, pdb_type_text(types, typed[i], "it", 2, text, ROOM, &length), PDB_OK);
        printf("text 0x%" PRIx32 " %s\n", typed[i], whole(text, length));
    }
}

// What is wrong in the file, and in its first 4095 bytes.
static void ask_findings(void) {
    pdb_finding found[32];
    for (size_t cut = 0; cut < 2; cut++) {
        allowed(NULL, pdb_validate(file, cut ? 4095 : file_length, 0, found, 32, &length), PDB_OK);
        printf("findings %zu\n", length);
        for (size_t i = 0; i < length; i++) {
            printf("finding %" PRIu32 " %" PRIu32 ":%" PRIu32 " %" PRIu32 ":0x%" PRIx64, found[i].part,
                   found[i].has_stream, found[i].stream, found[i].has_index, found[i].index);
            printf(" %" PRIu32 ":%" PRIu64 " %" PRIu32 ":%" PRIu64, found[i].has_byte, found[i].byte,
                   found[i].has_file_byte, found[i].file_byte);
            printf(" %" PRIu32 " %" PRIu32 "\n", found[i].is_warning, found[i].inconsistency);
        }
    }
}

// How a call ended that is to be refused, whatever it is refused with but for memory, and the text of that.
static void told(const char *what, const pdb_handle *handle, uint32_t status) {
    pdb_fault fault = fault_of(handle, status);
    allowed(NULL, pdb_fault_text(&fault, text, ROOM, &length), PDB_OK);
    printf("told %s %" PRIu32 " %" PRIu32 " %" PRIu32 " %s\n", what, status, fault.first, fault.second, whole(text, length));
}

// Each call on a file that can't be opened.
static void ask_closed(const char *what, const uint8_t *bytes, size_t bytes_length) {
    pdb_file closed = {0};
    pdb_names names = {0};
    pdb_omap omap = {0};
    pdb_address_map map = {0};
    pdb_frames frames = {0};
    pdb_types types = {0};
    pdb_sizes sizes;
    pdb_identity identity;
    pdb_named_stream rows[1];
    pdb_roles roles;
    pdb_section section;
    uint32_t size;
    size_t count = 0;
    char front[64];
#define TOLD(name, handle, status) (snprintf(front, sizeof front, "%s %s", what, name), told(front, handle, status))
    TOLD("open", &closed.handle, pdb_file_open(bytes, bytes_length, &closed));
    TOLD("sizes", &closed.handle, pdb_file_sizes(&closed, &sizes));
    TOLD("stream size", &closed.handle, pdb_file_stream_size(&closed, 1, &size));
    TOLD("stream", &closed.handle, pdb_file_stream(&closed, 1, SIZE_MAX, stream, ROOM, &length));
    TOLD("named stream", &closed.handle, pdb_file_named_stream(&closed, "/names", 6, stream, ROOM, &length));
    TOLD("stream names", &closed.handle, pdb_file_stream_names(&closed, rows, 1, &count, text, ROOM, &length));
    TOLD("roles", &closed.handle, pdb_file_roles(&closed, &roles));
    TOLD("identity", &closed.handle, pdb_file_identity(&closed, &identity));
    TOLD("sections", &closed.handle, pdb_file_sections(&closed, 1, &section, 1, &count));
    TOLD("names", &names.handle, pdb_names_open(&closed, &names));
    TOLD("omap", &omap.handle, pdb_omap_open(&closed, 1, &omap));
    TOLD("addresses", &map.handle, pdb_address_map_open(&closed, &map));
    TOLD("frames", &frames.handle, pdb_frames_open(&closed, &frames));
    TOLD("types", &types.handle, pdb_types_open(&closed, PDB_TYPES, &types));
#undef TOLD
}

// A file that is cut, one with a bad page size, one without the name `/names`, and streams that the good one lacks.
static void ask_refused_files(void) {
    uint8_t page_size = file[33], *name = file;
    pdb_names names = {0};
    pdb_omap omap = {0};
    pdb_types types = {0};
    pdb_section section;
    ask_closed("cut", file, 4095);
    ask_closed("empty", NULL, 0);
    file[33] = 3;
    ask_closed("page size", file, file_length);
    file[33] = page_size;
    while (memcmp(name, "/names", 6)) name++;
    name[2] = 'o';
    told("no named stream", &opened.handle, pdb_file_named_stream(&opened, "/names", 6, stream, ROOM, &length));
    told("no names", &names.handle, pdb_names_open(&opened, &names));
    name[2] = 'a';
    told("name of no stream", &opened.handle, pdb_file_named_stream(&opened, "nothing", 7, stream, ROOM, &length));
    told("no stream", &opened.handle, pdb_file_stream(&opened, 99, SIZE_MAX, stream, ROOM, &length));
    told("no size", &opened.handle, pdb_file_stream_size(&opened, 99, &(uint32_t){0}));
    told("no sections", &opened.handle, pdb_file_sections(&opened, 99, &section, 1, &length));
    told("no omap", &omap.handle, pdb_omap_open(&opened, 99, &omap));
    told("no types", &types.handle, pdb_types_open(&opened, 99, &types));
}

// Streams that are no tables, and offsets of no names.
static void ask_refused_streams(void) {
    static const uint8_t string_table[] = "\xfe\xef\xfe\xef\1\0\0\0\5\0\0\0\0foo", other[12] = {1};
    static const uint8_t header[56] = {0, 0, 0, 0, 55};
    pdb_names names = {0};
    pdb_omap omap = {0};
    pdb_types types = {0};
    pdb_section section;
    told("names", &names.handle, pdb_names_open(made(string_table, 11), &names));
    told("signature", &names.handle, pdb_names_open(made(other, 12), &names));
    told("omap", &omap.handle, pdb_omap_open(made(other, 12), PDB_TYPES, &omap));
    told("table", &types.handle, pdb_types_open(made(header, 55), PDB_TYPES, &types));
    told("header", &types.handle, pdb_types_open(made(header, 56), PDB_TYPES, &types));
    pdb_file *cut = made(file, 39);
    told("sections", &cut->handle, pdb_file_sections(cut, PDB_TYPES, &section, 1, &length));
    allowed(&names.handle, pdb_names_open(made(string_table, 17), &names), PDB_OK);
    told("no name", &names.handle, pdb_names_get(&names, 5, text, ROOM, &length));
    told("no place", &names.handle, pdb_names_get(&names, UINT32_MAX, text, ROOM, &length));
    pdb_close(&names.handle);
}

// Records that are refused.
static void ask_refused_records(void) {
    pdb_types *it;
    pdb_type_info info;
    pdb_field field;
    uint32_t number;
    uint64_t size;
    size_t count = 0;
#define REFUSED(what, number, bytes, status) (it = table_of(number, RECORD(bytes)), told(what, &it->handle, status))
#define PARSED(what, number, bytes) REFUSED(what, number, bytes, pdb_type_parse(it, 0x1000, &info))
#define NAMED(what, number, bytes) REFUSED(what, number, bytes, pdb_type_name(it, 0x1000, text, ROOM, &length))
#define NUMBERS(what, of, bytes) REFUSED(what, of, bytes, pdb_type_numbers(it, 0x1000, &number, 1, &length))
#define FIELDS(what, bytes) REFUSED(what, PDB_TYPES, bytes, pdb_type_fields(it, 0x1000, 1, &field, 1, &count, text, ROOM, &length))
    PARSED("short record", PDB_TYPES, "\2");
    PARSED("kind of row", PDB_TYPES, "\x1d\x15");
    PARSED("pointer", PDB_TYPES, "\2\x10\x74\0\0\0\xac\0\0\0");
    PARSED("prefix", PDB_TYPES, "\x0d\x15\2\1\x1d\x10\0\0\5\x80");
    REFUSED("primitive", PDB_TYPES, "\2\x10", pdb_type_parse(it, 0x874, &info));
    NAMED("cut name", PDB_TYPES, "\x0d\x15\2\1\x1d\x10\0\0\5\0A");
    NUMBERS("false count", PDB_TYPES, "\1\x12\xff\xff\xff\xff\x74\0\0\0");
    NUMBERS("array", PDB_TYPES, "\3\x15\x77\x13\0\0\x23\0\0\0\x40\0\0\xf3");
    REFUSED("cut method", PDB_TYPES, "\6\x12\3", pdb_type_methods(it, 0x1000, &info, 1, &length));
    REFUSED("cut unique name", PDB_TYPES, "\6\x15\1\0\0\2\0\0\0\0\1\0U\0u", pdb_type_unique_name(it, 0x1000, text, ROOM, &length));
    FIELDS("cut field", "\3\x12\2");
    FIELDS("list in a list", "\3\x12\3\x12");
    FIELDS("continuation", "\3\x12\4\x14\0\0\0\x10\0\0");
    PARSED("cut id", PDB_IDS, "\7\x16\0\x10\0\0");
    PARSED("kind of id", PDB_IDS, "\x08\x16");
    NAMED("cut name of an id", PDB_IDS, "\1\x16\0\0\0\0\2\x10\0\0f");
    NUMBERS("false count of ids", PDB_IDS, "\3\x16\xff\xff\1\x10\0\0");
    // A table that doesn't end where its stream does has no definitions, whichever call asks for them, and how often.
    REFUSED("definitions of a cut table", PDB_TYPES, "\2", pdb_types_named(it, "S", 1, &number, 1, &length));
    REFUSED("size in a cut table", PDB_TYPES, "\2", pdb_type_size(it, 0x74, &size));
    told("size in a cut table", &it->handle, pdb_type_size(it, 0x74, &size));
}

// Look-ups in the table of types that are refused.
static void ask_refused_table(pdb_types *types) {
    pdb_found_record found = {0};
    pdb_type_info info;
    pdb_field field;
    pdb_layout_row row;
    uint32_t number;
    uint64_t size = 0;
    size_t count = 0;
    allowed(&types->handle, pdb_types_find(types, &(uint32_t){UINT32_MAX}, 1, &found, 1, &length), PDB_OK);
    printf("not found %" PRIu32 " %" PRIu32 "\n", found.fault.status, found.fault.first);
    told("no type", &types->handle, pdb_type_parse(types, UINT32_MAX, &info));
    told("no record", &types->handle, pdb_type_record(types, UINT32_MAX, stream, ROOM, &length));
    told("record of an integer", &types->handle, pdb_type_record(types, 0x74, stream, ROOM, &length));
    told("fields of an integer", &types->handle, pdb_type_fields(types, 0x74, 1, &field, 1, &count, text, ROOM, &length));
    told("fields of an array", &types->handle, pdb_type_fields(types, 0x1001, 1, &field, 1, &count, text, ROOM, &length));
    told("own fields of an array", &types->handle, pdb_type_fields(types, 0x1001, 0, &field, 1, &count, text, ROOM, &length));
    told("fields of no type", &types->handle, pdb_type_fields(types, 0x2000, 1, &field, 1, &count, text, ROOM, &length));
    told("no definition", &types->handle, pdb_type_definition(types, 0x2000, &number));
    told("size of no type", &types->handle, pdb_type_size(types, 0x2000, &size));
    told("text of no type", &types->handle, pdb_type_text(types, 0x2000, NULL, 0, text, ROOM, &length));
    told("layout of no type", &types->handle, pdb_type_layout(types, 0x2000, &row, 1, &count, text, ROOM, &length));
}

// The text of each fault that a call can leave, and of some that no call leaves.
static void ask_texts(void) {
    static const uint32_t faults[][2] = {
        {0, 0}, {1, 0}, {2, 7}, {3, 7}, {4, 7}, {5, 0}, {6, 1}, {6, 2}, {6, 3}, {7, 1}, {8, 0}, {9, 4}, {9, 5}, {9, 6}, {9, 7}, {9, 8}, {9, 9},
        {9, 14}, {9, 15}, {9, 16}, {9, 17}, {9, 18}, {13, 10}, {13, 11}, {13, 12}, {13, 13}, {14, 0}, {15, 7}, {17, 7}, {20, 7}, {21, 0}, {28, 0},
        {100, 0}, {101, 0}, {102, 0}, {104, 0}, {105, 0}, {106, 0}, {107, 0}, {5, 1}, {7, 0}, {6, 0}, {17, 0x10000}, {29, 0}, {103, 0}, {108, 0},
    };
    for (size_t i = 0; i < sizeof faults / sizeof *faults; i++) {
        pdb_fault fault = {faults[i][0], faults[i][1], 0};
        uint32_t status = allowed(NULL, pdb_fault_text(&fault, text, ROOM, &length), PDB_NO_TEXT);
        printf("text of %" PRIu32 " %" PRIu32 " is %s\n", fault.status, fault.first, status ? "none" : whole(text, length));
    }
}

int main(int count, char **words) {
    if (count != 2) return 2;
    read_file(words[1]);
    if (pdb_version() != PDB_VERSION) return 4;
    pdb_roles roles;
    pdb_types types = {0};
    uint64_t size = 7;
    ask_streams();
    ask_roles(&roles);
    ask_identity();
    ask_sections(roles.section_headers);
    ask_sections(roles.original_section_headers);
    ask_addresses();
    ask_omap(roles.omap_to_src);
    ask_frames();
    ask_names();
    allowed(&types.handle, pdb_types_open(&opened, PDB_TYPES, &types), PDB_OK);
    ask_types(&types);
    ask_enumerates();
    ask_ids();
    ask_definitions(&types);
    ask_findings();
    ask_refused_files();
    ask_refused_streams();
    ask_refused_records();
    ask_refused_table(&types);
    pdb_close(&types.handle);
    told("closed types", &types.handle, pdb_type_size(&types, 0x74, &size));
    ask_texts();
    pdb_file_close(&opened);
    free(file);
    return 0;
}
