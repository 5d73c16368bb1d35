// Prints the largest classes of a program database, each with its members.
//
// c++ -std=c++17 classes.cpp $(pkg-config --cflags --libs pdb_container)
// ./a.out FILE
#include <pdb_container.h>

#include <algorithm>
#include <cstdio>
#include <fstream>
#include <iterator>
#include <stdexcept>
#include <string>
#include <vector>

namespace {

constexpr size_t most = 5;

// Throws a fault, in the library's own words.
void expect(bool is_well, const pdb_fault &fault) {
    if (is_well) return;
    char text[200] = "an allocation failed";
    size_t length = 0;
    pdb_fault_text(&fault, text, sizeof text, &length);
    throw std::runtime_error(text);
}

struct Field {
    pdb_type_info info;
    std::string name;
};

// The table of types of a file.
class Types {
  public:
    explicit Types(const std::vector<uint8_t> &bytes) {
        pdb_file file{};
        pdb_file_open(bytes.data(), bytes.size(), &file);
        pdb_types_open(&file, PDB_TYPES, &types);
        pdb_fault fault = file.handle.held ? types.handle.fault : file.handle.fault;
        pdb_file_close(&file);
        expect(types.handle.held, fault);
    }
    ~Types() { pdb_close(&types.handle); }
    Types(const Types &) = delete;
    Types &operator=(const Types &) = delete;

    // Calls with each type, from the first on. A record that can't be read, such as an LF_LABEL, is passed by.
    template <class Call> void walk(Call call) {
        pdb_type rows[64];
        size_t count = std::size(rows);
        check(pdb_types_rewind(&types));
        while (count == std::size(rows)) {
            uint32_t status = pdb_types_read(&types, rows, std::size(rows), &count);
            for (size_t i = 0; i < count; i++) {
                expect(rows[i].fault.status != PDB_OUT_OF_MEMORY, rows[i].fault);
                if (rows[i].fault.status == PDB_OK) call(rows[i]);
            }
            if (status != PDB_END) check(status);
        }
    }

    std::string name(uint32_t index) {
        size_t length = 0;
        uint32_t status = pdb_type_name(&types, index, nullptr, 0, &length);
        std::string name(length, '\0');
        // A string has room for the NUL at its end.
        if (status == PDB_TOO_SMALL) status = pdb_type_name(&types, index, name.data(), length + 1, &length);
        check(status);
        return name;
    }

    // The fields of a list and of those in which it goes on.
    std::vector<Field> fields(uint32_t index) {
        size_t count = 0, size = 0;
        uint32_t status = pdb_type_fields(&types, index, 1, nullptr, 0, &count, nullptr, 0, &size);
        std::vector<pdb_field> rows(count);
        std::vector<char> names(size);
        if (status == PDB_TOO_SMALL) status = pdb_type_fields(&types, index, 1, rows.data(), count, &count, names.data(), size, &size);
        check(status);
        std::vector<Field> all;
        for (auto &row : rows) all.push_back({row.info, names.data() + row.name_offset});
        return all;
    }

  private:
    // Throws the fault of the last call if it ended with a status.
    void check(uint32_t status) { expect(status == PDB_OK, types.handle.fault); }

    pdb_types types{};
};

void print_largest(Types &types) {
    std::vector<pdb_type> classes;
    types.walk([&](const pdb_type &type) {
        if (type.info.row.shape == PDB_CLASS && !(type.info.class_type.properties & PDB_PROPERTY_FORWARD_REFERENCE)) classes.push_back(type);
    });
    std::stable_sort(classes.begin(), classes.end(), [](auto &a, auto &b) { return a.info.class_type.size > b.info.class_type.size; });
    if (classes.size() > most) classes.resize(most);
    for (auto &type : classes) {
        std::printf("%llu %s\n", (unsigned long long)type.info.class_type.size, types.name(type.position.index).c_str());
        if (!(type.info.row.has & PDB_HAS_FIELDS)) continue;
        for (auto &field : types.fields(type.info.class_type.fields))
            if (field.info.row.shape == PDB_MEMBER) std::printf("  +%llu %s\n", (unsigned long long)field.info.member.offset, field.name.c_str());
    }
}

} // namespace

int main(int count, char **words) {
    try {
        std::ifstream in(count > 1 ? words[1] : "", std::ios::binary);
        Types types(std::vector<uint8_t>(std::istreambuf_iterator<char>(in), {}));
        print_largest(types);
        return 0;
    } catch (const std::exception &error) {
        std::fprintf(stderr, "%s\n", error.what());
        return 1;
    }
}
