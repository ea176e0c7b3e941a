// Finding the pairs of a mesh whose boxes meet: a peer beside the library, on the same boxes, in turns.
#pragma once
#include "clock.hpp"
#include "ours.hpp"
#include <memory>

namespace peers {

// What a peer tells goes here, and is kept where the library keeps it too: two parts that share no vertex, one entry of eight bytes each.
class Found {
  public:
    Found(const Mesh &of, size_t room) : mesh(of), list(room), count(0) {}

    void point_triangle(uint32_t vertex, uint32_t triangle) {
        const auto &corners = mesh.triangles[triangle];
        if (vertex != corners[0] && vertex != corners[1] && vertex != corners[2]) put(makhnodri_mesh_entry(MAKHNODRI_PT, vertex, triangle));
    }

    // in either order
    void edges(uint32_t one, uint32_t other) {
        const auto &a = mesh.edges[one], &b = mesh.edges[other];
        if (a[0] == b[0] || a[0] == b[1] || a[1] == b[0] || a[1] == b[1]) return;
        put(one < other ? makhnodri_mesh_entry(MAKHNODRI_EE, one, other) : makhnodri_mesh_entry(MAKHNODRI_EE, other, one));
    }

    void begin() { count = 0; }
    size_t found() const { return count; }
    std::vector<uint64_t> &entries() { return list; }

  private:
    void put(uint64_t entry) {
        if (count < list.size()) list[count] = entry;
        count++;
    }

    const Mesh &mesh;
    std::vector<uint64_t> list;
    size_t count;
};

// A way to find pairs. It may keep what it likes of the boxes before it is timed, in its own form; trees and orders are made in `find`.
class Finder {
  public:
    virtual ~Finder() {}
    virtual std::string name() const = 0;
    virtual void take(const Boxes &boxes) = 0;
    virtual void find(Found &found) = 0;
};

// Both have the same entries; ours are in rising order.
inline bool same(const std::vector<uint64_t> &ours, Found &found) {
    if (found.found() != ours.size()) return false;
    std::vector<uint64_t> theirs(found.entries().begin(), found.entries().begin() + long(ours.size()));
    std::sort(theirs.begin(), theirs.end());
    return theirs == ours;
}

// Seconds that the list of all rows would take, by a part of them: where it takes very long, it is not asked for.
inline double foreseen(Ours &ours, std::vector<uint64_t> &list) {
    const size_t from = (ours.vertex_rows() + ours.rows()) / 2, part = ours.rows() / 256;
    const auto took = in_turns(1, {[&] { ours.list(from, from, list); }, [&] { ours.list(from, from + part, list); }});
    return took[0] + 256 * (took[1] - took[0]);
}

// Seconds of the library: with orders lent where parts are scattered, where the caller puts all parts in order, and near pairs as the first.
struct Times {
    double lent, ordered, near;
};

// A line for each peer: garment, pairs, peer, ms of the library three ways (a negative one is foreseen, not taken), ms of the peer.
inline void tell(const std::string &garment, size_t pairs, const Finder &finder, const Times &ours, double theirs) {
    std::printf("boxes\t%s\t%zu\t%s\t%.2f\t%.2f\t%.2f\t%.2f\n", garment.c_str(), pairs, finder.name().c_str(), 1e3 * ours.lent, 1e3 * ours.ordered,
                1e3 * ours.near, 1e3 * theirs);
    std::fflush(stdout);
}

inline void beside(const std::string &garment, const Mesh &mesh, std::vector<std::unique_ptr<Finder>> &finders, int rounds) {
    Ours ours(mesh);
    const Boxes boxes = boxes_of(mesh);
    const size_t pairs = count_put_in_order(mesh);
    std::vector<uint64_t> list(pairs), sorted(pairs);
    list_put_in_order(mesh, sorted);
    std::sort(sorted.begin(), sorted.end());
    Found found(mesh, pairs);
    uint64_t near = 0;
    std::vector<Way> ways{[&] { list_put_in_order(mesh, list); }};
    for (auto &finder : finders) {
        finder->take(boxes);
        ways.push_back([&] { found.begin(), finder->find(found); });
        ways.back()();
        if (!same(sorted, found)) give_up(finder->name() + " finds other pairs on " + garment + ": " + std::to_string(found.found()));
    }
    const double long_time = foreseen(ours, list);
    if (long_time < long_enough) {
        ways.push_back([&] { ours.lend_orders(), ours.list(0, ours.rows(), list); });
        ways.push_back([&] { ours.lend_orders(), near = ours.list_near(0, ours.rows(), list); });
    }
    const auto took = in_turns(rounds, ways);
    const bool taken_too = ways.size() > finders.size() + 1;
    const Times own{taken_too ? took[finders.size() + 1] : -long_time, took[0], taken_too ? took[finders.size() + 2] : -long_time};
    for (size_t i = 0; i < finders.size(); i++) tell(garment, pairs, *finders[i], own, took[i + 1]);
    if (taken_too) std::printf("near\t%s\t%llu\n", garment.c_str(), (unsigned long long)near);
}

// usage: PROGRAM ROUNDS (NAME START.obj END.obj)..
inline int boxes_main(int argc, char **argv, std::vector<std::unique_ptr<Finder>> finders) {
    if (argc < 2 || (argc - 2) % 3) give_up("usage: PROGRAM ROUNDS (NAME START.obj END.obj)..");
    for (int i = 2; i + 2 < argc; i += 3) {
        const Mesh mesh = read_mesh(argv[i + 1], argv[i + 2]);
        beside(argv[i], mesh, finders, std::atoi(argv[1]));
        beside(std::string(argv[i]) + ", shuffled", shuffled(mesh, 1), finders, std::atoi(argv[1]));
    }
    return 0;
}

} // namespace peers
