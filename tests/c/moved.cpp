// Handles of each kind in a vector that grows, and so moves them, and in values that are moved and exchanged: each answers
// as before, and what it was moved from holds nothing. Lengths may be null.
//
// usage: moved FILE    FILE is examples/sample.pdb. Prints how many times it asked.
#include <pdb_container.h>

#include <cstdio>
#include <cstdlib>
#include <fstream>
#include <iterator>
#include <string>
#include <utility>
#include <vector>

static void expect(bool is_well, const char *what) {
    if (!is_well) std::fprintf(stderr, "%s\n", what), std::exit(1);
}

static void close(pdb_file &file) { pdb_file_close(&file); }
template <class Kind> static void close(Kind &it) { pdb_close(&it.handle); }

template <class Kind> struct Owned {
    Kind it{};
    Owned() = default;
    Owned(Owned &&other) noexcept : it(std::exchange(other.it, Kind{})) {}
    Owned &operator=(Owned &&other) noexcept {
        std::swap(it, other.it);
        return *this;
    }
    ~Owned() { close(it); }
};

struct Opened {
    Owned<pdb_file> file;
    Owned<pdb_names> names;
    Owned<pdb_omap> omap;
    Owned<pdb_address_map> map;
    Owned<pdb_frames> frames;
    Owned<pdb_types> types;

    explicit Opened(const std::vector<uint8_t> &bytes) {
        pdb_roles roles{};
        expect(!pdb_file_open(bytes.data(), bytes.size(), &file.it) && !pdb_file_roles(&file.it, &roles), "no file");
        expect(!pdb_names_open(&file.it, &names.it) && !pdb_frames_open(&file.it, &frames.it), "no names or frames");
        expect(!pdb_omap_open(&file.it, roles.omap_to_src, &omap.it) && !pdb_address_map_open(&file.it, &map.it), "no map");
        expect(!pdb_types_open(&file.it, PDB_TYPES, &types.it), "no types");
    }

    // What is asked of each handle, as one text, which is the same each time.
    std::string answers() {
        char name[100] = "", type[100] = "";
        uint32_t size = 0, sorted = 7, index = 0;
        uint64_t bytes = 0;
        pdb_frame frame{};
        pdb_translation translation{};
        expect(!pdb_names_get(&names.it, 2, name, sizeof name, nullptr), "no name");
        expect(!pdb_types_named(&types.it, "Point", 5, &index, 1, NULL) && !pdb_type_size(&types.it, index, &bytes), "no class");
        expect(!pdb_type_name(&types.it, index, type, sizeof type, nullptr), "no name of a class");
        expect(!pdb_file_stream_size(&file.it, PDB_TYPES, &size) && !pdb_omap_is_sorted(&omap.it, &sorted), "no size");
        expect(!pdb_frames_at(&frames.it, 0x1000, &frame) && !pdb_translate(&map.it, PDB_RVA, 0, 0x1000, &translation), "no address");
        std::string text = std::string(name) + " " + type;
        for (uint64_t number : {bytes, uint64_t{size}, uint64_t{sorted}, uint64_t{frame.code_size}, uint64_t{translation.internal_rva}})
            text += " " + std::to_string(number);
        return text;
    }

    bool is_empty() {
        char name[10];
        uint32_t number = 0;
        pdb_index_range range{};
        pdb_frame frame{};
        pdb_translation translation{};
        uint32_t statuses[] = {pdb_names_get(&names.it, 2, name, sizeof name, nullptr), pdb_types_range(&types.it, &range),
                               pdb_file_stream_size(&file.it, PDB_TYPES, &number),      pdb_omap_is_sorted(&omap.it, &number),
                               pdb_frames_at(&frames.it, 0x1000, &frame),               pdb_translate(&map.it, PDB_RVA, 0, 0x1000, &translation)};
        for (uint32_t status : statuses)
            if (status != PDB_NOT_OPEN) return false;
        return true;
    }
};

int main(int count, char **words) {
    std::ifstream in(count == 2 ? words[1] : "", std::ios::binary);
    std::vector<uint8_t> bytes{std::istreambuf_iterator<char>(in), {}};
    std::vector<Opened> all;
    std::string wanted = Opened(bytes).answers();
    int asked = 0;
    for (int n = 0; n < 20; n++) {
        all.emplace_back(bytes);
        for (Opened &it : all) expect(it.answers() == wanted, "another answer of one that was moved"), asked++;
    }
    Opened moved = std::move(all.front());
    expect(moved.answers() == wanted && all.front().is_empty(), "moved into a value");
    std::swap(all.front(), all.back());
    expect(all.front().answers() == wanted && all.back().is_empty(), "exchanged");
    all.pop_back();
    all.erase(all.begin() + 3, all.begin() + 9);
    for (Opened &it : all) expect(it.answers() == wanted, "another answer behind what was erased"), asked++;
    std::printf("%d answers\n", asked);
}
