// The header from C++: a table that owns its buffers, and a few of the worked examples over it.
#include "try.h"
#include <vector>

class Mesh {
public:
    Mesh(std::size_t vertex_room, std::size_t corner_room)
        : words(STRANDOMIR_WORDS(vertex_room, corner_room)), floats(STRANDOMIR_FLOATS(vertex_room)),
          table(strandomir_table_over(words.data(), floats.data(), vertex_room, corner_room)) {}
    Mesh(const Mesh &) = delete; // the table points into this very object
    Mesh &operator=(const Mesh &) = delete;

    strandomir_table *get() { return &table; }

    std::vector<uint32_t> neighbours(uint32_t vertex) const {
        std::vector<uint32_t> list(table.corners + 1);
        list.resize(strandomir_table_ring_vertices(&table, vertex, list.data(), list.size()).written);
        return list;
    }

private:
    std::vector<uint32_t> words;
    std::vector<float> floats;
    strandomir_table table;
};

int main() {
    Mesh b(6, 18);
    expect_number("B", build(b.get(), 4, faces_B, 6, nullptr), STRANDOMIR_DONE);
    expect_table("B", b.get(), "0 1 2 0 2 3", "1-5", "3 1 4 5");

    const auto around = b.neighbours(0);
    expect_text("B, vertex 0: vertices", list_text(around.data(), nullptr, around.size()).text, "3 2 1");

    expect_number("B, flip 0", strandomir_table_edit(b.get(), STRANDOMIR_FLIP_EDGE, 0, 0, 0, 0), STRANDOMIR_BORDER);
    expect_number("B, flip 1", strandomir_table_edit(b.get(), STRANDOMIR_FLIP_EDGE, 1, 0, 0, 0), STRANDOMIR_DONE);
    expect_table("B, flip 1", b.get(), "1 2 3 1 3 0", "1-5", "5 0 1 2");

    uint32_t corner = 5;
    expect_number("opposite of 5", strandomir_table_move_to_opposite(b.get(), &corner).moved, 1);
    expect_number("opposite of 5", corner, 1);
    return verdict("worked.cpp");
}
