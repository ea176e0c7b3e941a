// A pair alone: start and end of four vertices, the point and the triangle's corners, or the first edge's ends and the second's.
#pragma once
#include <array>
#include <cstddef>
#include <cstdint>
#include <vector>

namespace peers {

using Four = std::array<std::array<int32_t, 6>, 4>;

// as the library numbers kinds
enum Kind { PointTriangle = 0, EdgeEdge = 1 };

inline const char *name_of(Kind kind) { return kind == PointTriangle ? "pt" : "ee"; }

// ---- The pieces of TR-2009-03, for any way to tell the sign of five points in space and time

struct Event {
    std::array<int32_t, 3> place;
    int32_t time;
};

inline Event event(const Four &four, int vertex, int time) {
    const auto &p = four[size_t(vertex)];
    return time ? Event{{p[3], p[4], p[5]}, 1} : Event{{p[0], p[1], p[2]}, 0};
}

enum class Piece { Hit, Miss, Singular };

using Five = std::array<const Event *, 5>;

// The first simplex has `first` of the six corners. Each weight is the signed volume of the other five; all of one sign, and not all 0, is a hit.
template <class Sign> Piece judge_piece(const std::array<Event, 6> &corners, int first, Sign &&sign_of_five) {
    bool negative = false, positive = false;
    for (int left_out = 0; left_out < 6; left_out++) {
        Five others;
        for (int i = 0; i < 5; i++) others[size_t(i)] = &corners[size_t(i < left_out ? i : i + 1)];
        const int sign = sign_of_five(others) * (left_out % 2 ? -1 : 1) * (left_out < first ? 1 : -1);
        negative |= sign < 0, positive |= sign > 0;
        if (negative && positive) return Piece::Miss;
    }
    return negative || positive ? Piece::Hit : Piece::Singular;
}

inline int piece_count(Kind kind) { return kind == PointTriangle ? 3 : 4; }

// corners of the first simplex
inline int first_corners(Kind kind) { return kind == PointTriangle ? 2 : 3; }

inline std::array<Event, 6> piece_of(const Four &four, Kind kind, int piece) {
    auto s = [&](int vertex) { return event(four, vertex, 0); };
    auto e = [&](int vertex) { return event(four, vertex, 1); };
    if (kind == PointTriangle) return {s(0), e(0), s(1), piece < 2 ? s(2) : e(1), piece < 1 ? s(3) : e(2), e(3)};
    return {s(0), piece < 2 ? s(1) : e(0), e(1), s(2), piece % 2 ? e(2) : s(3), e(3)};
}

} // namespace peers
