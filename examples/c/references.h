/* What a type is where it is used, in Volatility's format ISF. */
#include <inttypes.h>
#include <string.h>

#include "publics.h"

static uint8_t is_met[256]; /* the base types that were met */

/* The size of a type in bytes, 0 if nothing says it. */
static uint64_t size_of(pdb_types *types, uint32_t index) {
    uint64_t size = 0;
    return pdb_type_size(types, index, &size) ? 0 : size;
}

/* The text of a base type. */
static const char *base_name(pdb_types *types, uint32_t index) {
    static char text[64];
    size_t length = 0;
    pdb_type_text(types, index, NULL, 0, text, sizeof text, &length);
    check(&types->handle);
    return text;
}

/* Prints what a type is called: by its index if it has no name in the source. */
static void print_key(pdb_types *types, uint32_t index) {
    static char name[1 << 16];
    size_t length = 0;
    pdb_type_name(types, index, name, sizeof name, &length);
    check(&types->handle);
    if (strstr(name, "<unnamed-")) printf("\"__unnamed_%x\"", (unsigned)index);
    else print_quoted(name, length);
}

static void print_reference(pdb_types *types, uint32_t index) {
    pdb_type_info it = {{0}};
    pdb_type_parse(types, index, &it);
    check(&types->handle);
    uint32_t shape = it.row.shape, inner = shape == PDB_PRIMITIVE ? index & 0xff : it.row.type_index;
    if (shape == PDB_PRIMITIVE && index == inner) {
        is_met[index] = 1;
        printf("{\"kind\":\"base\",\"name\":\"%s\"}", base_name(types, index));
    } else if (shape == PDB_CLASS || shape == PDB_UNION || shape == PDB_ENUMERATION) {
        printf("{\"kind\":\"%s\",\"name\":", shape == PDB_CLASS ? "struct" : shape == PDB_UNION ? "union" : "enum");
        print_key(types, index);
        putchar('}');
    } else if (shape == PDB_PROCEDURE || shape == PDB_MEMBER_FUNCTION) printf("{\"kind\":\"function\"}");
    else {
        /* in a damaged table, types are made of later ones */
        if (inner >= index) fail((pdb_fault){PDB_TYPE_NOT_FOUND, inner, 0});
        uint64_t element = size_of(types, inner), count = size_of(types, index) / (element ? element : 1);
        unsigned at = it.bitfield.position, bits = it.bitfield.length;
        if (shape == PDB_ARRAY) printf("{\"kind\":\"array\",\"count\":%" PRIu64 ",\"subtype\":", count);
        if (shape == PDB_POINTER || shape == PDB_PRIMITIVE) printf("{\"kind\":\"pointer\",\"subtype\":");
        if (shape == PDB_BITFIELD) printf("{\"kind\":\"bitfield\",\"bit_position\":%u,\"bit_length\":%u,\"type\":", at, bits);
        print_reference(types, inner);
        if (shape != PDB_MODIFIER) putchar('}');
    }
}
