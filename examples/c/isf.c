/* Writes the types and the public symbols of a program database as JSON, in Volatility's format ISF.
 *
 * cc isf.c $(pkg-config --cflags --libs pdb_container)
 * ./a.out FILE
 */
#include "definitions.h"

static const char *kind_of(uint32_t index, uint64_t size) {
    static const char *kinds[16] = {"void", "int", "int", "bool", "float", "float", "int", "int"};
    int is_character = index == 0x10 || index == 0x20 || index == 0x70 || index == 0x71 || (index >= 0x7a && index <= 0x7c);
    return !size ? "void" : is_character ? "char" : kinds[index >> 4];
}

static int is_signed(uint32_t index) {
    if (index == 0x68 || index == 8) return 1;
    return (index >= 0x10 && index <= 0x14) || (index >= 0x40 && index <= 0x46) || (index >= 0x70 && index <= 0x78 && !(index & 1));
}

static void print_base_types(pdb_types *types, unsigned address_size) {
    const char *form = ",\n\"%s\":{\"kind\":\"%s\",\"size\":%" PRIu64 ",\"signed\":%s,\"endian\":\"little\"}";
    printf(form + 2, "pointer", "int", (uint64_t)address_size, "false");
    for (uint32_t index = 0; index < sizeof is_met; index++) {
        uint64_t size = size_of(types, index);
        if (is_met[index]) printf(form, base_name(types, index), kind_of(index, size), size, is_signed(index) ? "true" : "false");
    }
}

static const char *before = "";

static void print_symbol(int is_there, uint32_t address, const char *name, int length) {
    if (!is_there) return;
    fputs(before, stdout);
    before = ",\n";
    print_quoted(name, (size_t)length);
    printf(":{\"address\":%u}", (unsigned)address);
}

int main(int count, char **words) {
    if (count != 2) return fputs("usage: isf FILE\n", stderr), 2;
    pdb_file file = {0};
    open_file(words[1], &file);
    pdb_identity identity = {0};
    pdb_file_identity(&file, &identity);
    check(&file.handle);
    pdb_types types = {0};
    pdb_types_open(&file, PDB_TYPES, &types);
    check(&types.handle);
    unsigned version = pdb_version();
    printf("{\"metadata\":{\"format\":\"6.2.0\",\"producer\":{\"name\":\"pdb_container\",\"version\":\"%u.%u.%u\"}},\n",
           version / 10000, version / 100 % 100, version % 100);
    printf("\"user_types\":{"), print_definitions(&types, 0);
    printf("},\n\"enums\":{"), print_definitions(&types, 1);
    printf("},\n\"base_types\":{"), print_base_types(&types, identity.machine == 0x8664 || identity.machine == 0xaa64 ? 8 : 4);
    printf("},\n\"symbols\":{"), each_public(&file, print_symbol);
    puts("}}");
    pdb_close(&types.handle);
    close_file(&file);
    return 0;
}
