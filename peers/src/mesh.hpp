// A mesh from two OBJ files, on whole numbers; its edges; its parts in random order; the boxes of its parts.
#pragma once
#include "random.hpp"
#include <algorithm>
#include <array>
#include <cmath>
#include <cstdint>
#include <cstdio>
#include <cstdlib>
#include <cstring>
#include <fstream>
#include <map>
#include <sstream>
#include <string>
#include <vector>

namespace peers {

[[noreturn]] inline void give_up(const std::string &why) {
    std::fprintf(stderr, "%s\n", why.c_str());
    std::exit(1);
}

struct Mesh {
    std::vector<std::array<int32_t, 6>> positions; // start x, y, z, end x, y, z
    std::vector<std::array<uint32_t, 2>> edges;
    std::vector<std::array<uint32_t, 3>> triangles;
};

// Of a part over its whole step, both ends included.
struct Box {
    std::array<int32_t, 3> low, high;
};

inline bool meet(const Box &a, const Box &b) {
    return a.low[0] <= b.high[0] && b.low[0] <= a.high[0] && a.low[1] <= b.high[1] && b.low[1] <= a.high[1] && a.low[2] <= b.high[2] &&
           b.low[2] <= a.high[2];
}

inline Box joined(const Box &a, const Box &b) {
    Box out;
    for (int axis = 0; axis < 3; axis++) {
        out.low[axis] = std::min(a.low[axis], b.low[axis]);
        out.high[axis] = std::max(a.high[axis], b.high[axis]);
    }
    return out;
}

struct Boxes {
    std::vector<Box> vertices, edges, triangles;
};

inline Box box_of(const std::array<int32_t, 6> &p) {
    Box out;
    for (int axis = 0; axis < 3; axis++) {
        out.low[axis] = std::min(p[axis], p[axis + 3]);
        out.high[axis] = std::max(p[axis], p[axis + 3]);
    }
    return out;
}

template <size_t N> std::vector<Box> boxes_of(const std::vector<Box> &vertices, const std::vector<std::array<uint32_t, N>> &parts) {
    std::vector<Box> out;
    out.reserve(parts.size());
    for (const auto &part : parts) {
        Box box = vertices[part[0]];
        for (size_t corner = 1; corner < N; corner++) box = joined(box, vertices[part[corner]]);
        out.push_back(box);
    }
    return out;
}

inline Boxes boxes_of(const Mesh &mesh) {
    Boxes out;
    for (const auto &p : mesh.positions) out.vertices.push_back(box_of(p));
    out.edges = boxes_of(out.vertices, mesh.edges);
    out.triangles = boxes_of(out.vertices, mesh.triangles);
    return out;
}

// ---- Files

struct Obj {
    std::vector<std::array<double, 3>> places;
    std::vector<std::array<uint32_t, 3>> triangles;
};

// Lines of v and f, as the repository's maker of garments writes them; a face is cut from its first corner.
inline Obj read_obj(const std::string &name) {
    std::ifstream file(name);
    if (!file) give_up(name + ": it cannot be read");
    Obj out;
    for (std::string line; std::getline(file, line);) {
        std::istringstream words(line);
        std::string kind;
        words >> kind;
        if (kind == "v") {
            std::array<double, 3> place;
            words >> place[0] >> place[1] >> place[2];
            out.places.push_back(place);
        } else if (kind == "f") {
            std::vector<uint32_t> corners;
            for (uint32_t corner; words >> corner;) corners.push_back(corner - 1);
            for (size_t i = 2; i < corners.size(); i++) out.triangles.push_back({corners[0], corners[i - 1], corners[i]});
        }
    }
    return out;
}

// One step for all axes, the least power of two with which every coordinate fits, and one middle.
inline std::vector<std::array<int32_t, 6>> onto_grid(const Obj &start, const Obj &end) {
    const double limit = 524287;
    std::array<double, 3> low, high;
    low.fill(HUGE_VAL), high.fill(-HUGE_VAL);
    for (const Obj *obj : {&start, &end})
        for (const auto &place : obj->places)
            for (int axis = 0; axis < 3; axis++) low[axis] = std::min(low[axis], place[axis]), high[axis] = std::max(high[axis], place[axis]);
    double widest = 0;
    for (int axis = 0; axis < 3; axis++) widest = std::max(widest, high[axis] - low[axis]);
    const double step = std::exp2(std::ceil(std::log2(widest / (2 * limit - 2))));
    std::vector<std::array<int32_t, 6>> out(start.places.size());
    for (size_t vertex = 0; vertex < out.size(); vertex++)
        for (int axis = 0; axis < 3; axis++) {
            const double middle = std::round((low[axis] + high[axis]) / 2 / step);
            out[vertex][axis] = int32_t(std::round(start.places[vertex][axis] / step) - middle);
            out[vertex][axis + 3] = int32_t(std::round(end.places[vertex][axis] / step) - middle);
        }
    return out;
}

// Each side once, in the order in which it first appears, as the program for garments numbers them.
inline std::vector<std::array<uint32_t, 2>> edges_of(const std::vector<std::array<uint32_t, 3>> &triangles) {
    std::vector<std::array<uint32_t, 3>> sides; // lower end, higher end, side
    for (size_t t = 0; t < triangles.size(); t++)
        for (int corner = 0; corner < 3; corner++) {
            const uint32_t a = triangles[t][corner], b = triangles[t][(corner + 1) % 3];
            sides.push_back({std::min(a, b), std::max(a, b), uint32_t(3 * t + corner)});
        }
    std::sort(sides.begin(), sides.end());
    auto same = [](const auto &one, const auto &other) { return one[0] == other[0] && one[1] == other[1]; };
    sides.erase(std::unique(sides.begin(), sides.end(), same), sides.end());
    std::sort(sides.begin(), sides.end(), [](const auto &one, const auto &other) { return one[2] < other[2]; });
    std::vector<std::array<uint32_t, 2>> out;
    for (const auto &side : sides) out.push_back({side[0], side[1]});
    return out;
}

inline Mesh read_mesh(const std::string &start_name, const std::string &end_name) {
    const Obj start = read_obj(start_name), end = read_obj(end_name);
    if (start.places.size() != end.places.size() || start.triangles != end.triangles) give_up(end_name + ": it is not of the same mesh");
    Mesh out;
    out.positions = onto_grid(start, end);
    out.triangles = start.triangles;
    out.edges = edges_of(out.triangles);
    return out;
}

// The same mesh with vertices, edges and triangles numbered at random.
inline Mesh shuffled(const Mesh &mesh, uint64_t seed) {
    Random random(seed);
    const auto vertices = random.shuffled(mesh.positions.size()), edges = random.shuffled(mesh.edges.size());
    const auto triangles = random.shuffled(mesh.triangles.size());
    Mesh out = mesh;
    for (size_t v = 0; v < vertices.size(); v++) out.positions[vertices[v]] = mesh.positions[v];
    for (size_t e = 0; e < edges.size(); e++)
        for (int end = 0; end < 2; end++) out.edges[edges[e]][end] = vertices[mesh.edges[e][end]];
    for (size_t t = 0; t < triangles.size(); t++)
        for (int corner = 0; corner < 3; corner++) out.triangles[triangles[t]][corner] = vertices[mesh.triangles[t][corner]];
    return out;
}

} // namespace peers
