// A mesh of any size, from memory, in C++: a sheet of cloth falls on a bar, frame after frame, and the picture is frozen at the first contact. Threads
// take stretches of rows, each with scratch of its own. It prints what examples/c/mesh.c prints.
//
//     c++ -std=c++17 -O2 -Iinclude examples/cpp/mesh.cpp target/library/$(uname -m)/libmakhnodri.a -pthread -o mesh && ./mesh 60 2
#include "makhnodri.h"

#include <array>
#include <cstdio>
#include <cstdlib>
#include <optional>
#include <thread>
#include <tuple>
#include <vector>

constexpr int STEP = 100, FRAMES = 40, FALL = 70;

struct Cloth {
    size_t side;
    std::vector<int32_t> positions;
    std::vector<uint32_t> edges, triangles;

    // a sheet of side x side vertices over a bar, a triangle that stands upright and stays where it is
    explicit Cloth(size_t side) : side(side), positions(6 * (side * side + 3)) {
        for (size_t y = 0; y < side; y++)
            for (size_t x = 0; x < side; x++) {
                const auto v = static_cast<uint32_t>(side * y + x), below = v + static_cast<uint32_t>(side);
                if (x + 1 < side) edges.insert(edges.end(), {v, v + 1});
                if (y + 1 < side) edges.insert(edges.end(), {v, below});
                if (x + 1 == side || y + 1 == side) continue;
                edges.insert(edges.end(), {v + 1, below});
                triangles.insert(triangles.end(), {v, v + 1, below, v + 1, below + 1, below});
            }
        const auto bar = static_cast<uint32_t>(side * side);
        edges.insert(edges.end(), {bar, bar + 1, bar + 1, bar + 2, bar + 2, bar});
        triangles.insert(triangles.end(), {bar, bar + 1, bar + 2});
    }

    // where vertex v stands at the end of a frame; the sheet hangs through in the middle
    std::array<int32_t, 3> place(size_t v, int frame) const {
        const auto x = static_cast<int32_t>(v % side), y = static_cast<int32_t>(v / side), half = static_cast<int32_t>(side) / 2;
        if (v >= side * side)
            return {v == side * side ? -STEP : STEP * static_cast<int32_t>(side) + STEP, STEP * half + 33, v < side * side + 2 ? 5 : -2000};
        const int32_t sag = ((x - half) * (x - half) + (y - half) * (y - half)) * 60 / static_cast<int32_t>(side);
        return {STEP * x, STEP * y, 1000 - FALL * frame + sag};
    }

    void set_frame(int frame) {
        for (size_t v = 0; v < positions.size() / 6; v++)
            for (int axis = 0; axis < 3; axis++) {
                positions[6 * v + axis] = place(v, frame - 1)[axis];
                positions[6 * v + 3 + axis] = place(v, frame)[axis];
            }
    }

    makhnodri_mesh mesh() const {
        makhnodri_mesh mesh = {};
        mesh.positions = positions.data(), mesh.positions_length = positions.size();
        mesh.edges = edges.data(), mesh.edges_length = edges.size();
        mesh.triangles = triangles.data(), mesh.triangles_length = triangles.size();
        return mesh;
    }
};

using Contact = std::array<uint32_t, MAKHNODRI_CONTACT_LENGTH>;

// What a thread works in, kept from frame to frame, and what it found first: the smallest time, on a tie the lowest entry.
struct Part {
    size_t first = 0, end = 0;
    std::vector<uint32_t> places, contacts;
    std::vector<int32_t> boxes;
    std::vector<uint64_t> list;
    std::vector<uint8_t> words;
    uint32_t refusal = 0;
    std::optional<std::tuple<uint64_t, Contact>> found;

    void judge(const makhnodri_mesh &mesh) {
        boxes.resize(makhnodri_near_box_room(&mesh));
        uint64_t count = 0;
        do { // how many near pairs there are is told by 7, and there is room then
            if (count > list.size()) list.resize(count), words.resize(count), contacts.resize(MAKHNODRI_CONTACT_LENGTH * count);
            places.resize(makhnodri_held_place_room(&mesh, list.size()));
            makhnodri_scratch scratch = {nullptr, 0, places.data(), places.size(), boxes.data(), boxes.size()};
            refusal = makhnodri_contact_near_rows(&mesh, &scratch, first, end, list.data(), list.size(), words.data(), words.size(),
                                                  contacts.data(), contacts.size(), &count);
        } while (refusal == MAKHNODRI_NO_ROOM);
        found.reset();
        for (size_t i = 0; !refusal && i < count; i++) {
            const uint32_t *row = contacts.data() + MAKHNODRI_CONTACT_LENGTH * i;
            if (words[i] != MAKHNODRI_HIT || (found && row[1] >= std::get<1>(*found)[1])) continue;
            found = {list[i], Contact{row[0], row[1], row[2], row[3], row[4]}};
        }
    }
};

int main(int words, char **word) {
    const long side = words > 1 ? std::atol(word[1]) : 60, threads = words > 2 ? std::atol(word[2]) : 2;
    if (side < 2 || side > 2600 || threads < 1 || threads > 64) return std::fputs("usage: mesh [SIDE [THREADS]]\n", stderr), 2;
    Cloth cloth(static_cast<size_t>(side));
    std::vector<Part> parts(static_cast<size_t>(threads));
    const makhnodri_mesh mesh = cloth.mesh();
    const size_t rows = makhnodri_row_count(&mesh);
    for (size_t i = 0; i < parts.size(); i++) parts[i].first = rows * i / parts.size(), parts[i].end = rows * (i + 1) / parts.size();
    std::printf("%zu vertices, %zu edges, %zu triangles\n", cloth.positions.size() / 6, cloth.edges.size() / 2, cloth.triangles.size() / 3);
    for (int frame = 1; frame <= FRAMES; frame++) {
        cloth.set_frame(frame);
        std::vector<std::thread> running;
        for (Part &part : parts) running.emplace_back([&] { part.judge(mesh); });
        for (std::thread &thread : running) thread.join();
        const Part *first = nullptr;
        for (const Part &part : parts) {
            if (part.refusal) return std::printf("refused %u: %s\n", part.refusal, makhnodri_refusal_words(part.refusal)), 1;
            if (part.found && (!first || std::get<1>(*part.found)[1] < std::get<1>(*first->found)[1])) first = &part;
        }
        if (!first) continue;
        const auto &[entry, contact] = *first->found;
        std::printf("frame %d, at %.6f of it: %s %u %u, piece %u, shares %.6f %.6f %.6f\n", frame, makhnodri_contact_time(contact.data()),
                    makhnodri_mesh_entry_kind(entry) ? "ee" : "pt", makhnodri_mesh_entry_first(entry), makhnodri_mesh_entry_second(entry),
                    contact[0], makhnodri_contact_share(contact.data(), 0), makhnodri_contact_share(contact.data(), 1),
                    makhnodri_contact_share(contact.data(), 2));
        return 0;
    }
    std::puts("no contact");
}
