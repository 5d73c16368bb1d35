/* The definitions of types in Volatility's format ISF. */
#include "references.h"

/* Prints the members of a class, or the values of an enumeration, as numbers of the type under it. */
static void print_fields(pdb_types *types, uint32_t list, uint32_t underlying_type) {
    size_t count = 0, size = 0;
    if (pdb_type_fields(types, list, 1, NULL, 0, &count, NULL, 0, &size) != PDB_TOO_SMALL) check(&types->handle);
    pdb_field *fields = room_for(count, sizeof *fields);
    char *names = room_for(size, 1);
    pdb_type_fields(types, list, 1, fields, count, &count, names, size, &size);
    check(&types->handle);
    const char *before = "";
    for (size_t at = 0; at < count; at++) {
        pdb_type_info it = fields[at].info;
        if (it.row.shape != PDB_MEMBER && it.row.shape != PDB_ENUMERATE) continue;
        pdb_enumerator_typed(&it, underlying_type);
        fputs(before, stdout);
        before = ",";
        print_quoted(names + fields[at].name_offset, fields[at].name_length);
        if (it.row.shape == PDB_MEMBER) {
            printf(":{\"offset\":%" PRIu64 ",\"type\":", it.member.offset);
            print_reference(types, it.member.field_type);
            putchar('}');
        } else if (it.enumerate.is_signed) printf(":%" PRId64, (int64_t)it.enumerate.value);
        else printf(":%" PRIu64, it.enumerate.value);
    }
    free(names);
    free(fields);
}

/* Prints the enumerations, or the classes and unions. What the table only declares is printed without fields. */
static void print_definitions(pdb_types *types, int is_of_enumerations) {
    pdb_type it;
    size_t count = 0;
    const char *before = "";
    pdb_types_rewind(types);
    while (pdb_types_read(types, &it, 1, &count) == PDB_OK) {
        uint32_t shape = it.info.row.shape, index = it.position.index, definition = index;
        if (it.fault.status || (shape == PDB_ENUMERATION) != is_of_enumerations) continue;
        if (shape != PDB_CLASS && shape != PDB_UNION && shape != PDB_ENUMERATION) continue;
        uint32_t status = pdb_type_definition(types, index, &definition);
        if (status != PDB_NONE) check(&types->handle);
        if (definition != index || (is_of_enumerations && status == PDB_NONE)) continue;
        fputs(before, stdout);
        before = ",\n";
        print_key(types, index);
        printf(":{\"size\":%" PRIu64 ",", size_of(types, index));
        if (is_of_enumerations) {
            uint32_t base = it.info.enumeration.underlying_type & 0xff;
            is_met[base] = 1;
            printf("\"base\":\"%s\",\"constants\":{", base_name(types, base));
        } else printf("\"kind\":\"%s\",\"fields\":{", shape == PDB_CLASS ? "struct" : "union");
        if (it.info.row.list_index)
            print_fields(types, it.info.row.list_index, is_of_enumerations ? it.info.enumeration.underlying_type : 0);
        fputs("}}", stdout);
    }
}
