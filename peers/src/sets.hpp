// Pairs of which there is no doubt what is right: each part only shifts, so that straight motion and the pieces of TR-2009-03 have one answer, and no
// piece is singular. The sets are those of bench/src/errors.rs.
#pragma once
#include "exact.hpp"
#include "random.hpp"
#include <optional>
#include <string>

namespace peers {

enum class Way_to_meet { Anywhere, OnABorder, AHairApart };

struct Set {
    std::string name;
    int64_t reach;
    Way_to_meet how;
};

struct Answered {
    Four four;
    bool meets;
};

using Place = std::array<int64_t, 3>;

inline Place place(Random &random, int64_t reach) {
    Place out;
    for (auto &n : out) n = random.between(-reach, reach);
    return out;
}

inline Place plus(const Place &a, int64_t factor, const Place &b) { return {a[0] + factor * b[0], a[1] + factor * b[1], a[2] + factor * b[2]}; }

// The parts meet exactly on a border of the second, a point on a triangle's side or a point of the first edge on the second's end; every second time
// they are then a step beside it. The second part's vertices begin at `second`.
inline void join_on_a_border(Random &random, std::array<Place, 4> &starts, std::array<Place, 2> &shifts, size_t second, int64_t reach) {
    const int64_t whole = random.between(2, 40), parts = random.between(0, whole);
    const size_t side = second == 1 ? 1 : 0;
    const Place along = place(random, reach / whole);
    starts[side + 1] = plus(starts[side], whole, along);
    const Place on_side = plus(starts[side], parts, along);
    // the motion of the first as seen from the second has a whole place at some of its time
    const int64_t time = random.between(2, 40), moments = random.between(0, time);
    const Place step = place(random, reach / 2 / time);
    shifts[0] = plus(shifts[1], time, step);
    const Place here = second == 1 ? starts[0] : on_side, there = second == 1 ? on_side : starts[2];
    Place by = plus(plus(there, -moments, step), -1, here);
    if (random.below(2)) by[random.below(3)] += random.below(2) ? 1 : -1;
    for (size_t vertex = 0; vertex < second; vertex++) starts[vertex] = plus(starts[vertex], 1, by);
}

// The greatest number that divides both, and factors with which they sum to it.
inline std::array<__int128, 3> common(__int128 a, __int128 b) {
    if (b == 0) return {a, 1, 0};
    const auto [divisor, s, t] = common(b, a % b);
    return {divisor, t, s - a / b * t};
}

// How many whole steps of a and b a vector goes along them, in doubles.
inline std::array<__int128, 2> steps_along(const std::array<__int128, 3> &v, const Place &a, const Place &b) {
    double aa = 0, ab = 0, bb = 0, av = 0, bv = 0;
    for (size_t i = 0; i < 3; i++) {
        const double x = double(a[i]), y = double(b[i]), z = double(v[i]);
        aa += x * x, ab += x * y, bb += y * y, av += x * z, bv += y * z;
    }
    const double whole = aa * bb - ab * ab;
    return {__int128(__builtin_floor((bb * av - ab * bv) / whole)), __int128(__builtin_floor((aa * bv - ab * av) / whole))};
}

// The first part is set where the four points have a volume of a few units, in the middle of the second. No where a part has no extent.
inline bool bring_to_a_hair(Random &random, std::array<Place, 4> &starts, size_t second) {
    const Place a = second == 1 ? plus(starts[2], -1, starts[1]) : plus(starts[1], -1, starts[0]);
    const Place b = second == 1 ? plus(starts[3], -1, starts[1]) : plus(starts[3], -1, starts[2]);
    const std::array<__int128, 3> normal{a[1] * b[2] - a[2] * b[1], a[2] * b[0] - a[0] * b[2], a[0] * b[1] - a[1] * b[0]};
    // a whole vector whose product with the normal is as near to 0 as any is, and not 0: Euclid's way, twice
    const auto [first, s, t] = common(normal[0], normal[1]);
    const auto [both, u, v] = common(first, normal[2]);
    if (both == 0) return false;
    const int64_t units = int64_t(1 + random.below(3)) * (random.below(2) ? 1 : -1);
    std::array<__int128, 3> apart{units * u * s, units * u * t, units * v};
    for (int round = 0; round < 3; round++) {
        const auto [along_a, along_b] = steps_along(apart, a, b);
        for (size_t i = 0; i < 3; i++) apart[i] -= along_a * a[i] + along_b * b[i];
    }
    const Place by{int64_t(apart[0]), int64_t(apart[1]), int64_t(apart[2])};
    if (second == 1) {
        starts[0] = plus(starts[1], 1, by);
    } else {
        const Place shift = plus(plus(plus(starts[0], 1, by), -1, b), -1, starts[2]);
        starts[2] = plus(starts[2], 1, shift), starts[3] = plus(starts[3], 1, shift);
    }
    return true;
}

// Nothing where it does not fit in the range.
inline std::optional<Four> shifting(Random &random, Kind kind, const Set &set) {
    std::array<Place, 4> starts;
    for (auto &start : starts) start = place(random, set.reach);
    std::array<Place, 2> shifts{place(random, set.reach / 2), place(random, set.reach / 2)};
    const size_t second = kind == PointTriangle ? 1 : 2;
    if (set.how == Way_to_meet::OnABorder) join_on_a_border(random, starts, shifts, second, set.reach);
    if (set.how == Way_to_meet::AHairApart) {
        shifts[0] = plus(shifts[1], 1, place(random, 2));
        if (!bring_to_a_hair(random, starts, second)) return {};
    }
    Four out;
    for (size_t vertex = 0; vertex < 4; vertex++)
        for (size_t axis = 0; axis < 3; axis++) {
            const int64_t start = starts[vertex][axis], end = start + shifts[vertex >= second][axis];
            if (std::abs(start) > 524287 || std::abs(end) > 524287) return {};
            out[vertex][axis] = int32_t(start), out[vertex][axis + 3] = int32_t(end);
        }
    return out;
}

inline std::vector<Answered> made(const Set &set, Kind kind, size_t count) {
    Random random(1);
    std::vector<Answered> out;
    while (out.size() < count) {
        const auto four = shifting(random, kind, set);
        if (!four || exact::has_singular_piece(*four, kind)) continue;
        const auto straight = exact::straight(*four, kind);
        if (straight != exact::Straight::Undecided) out.push_back({*four, straight == exact::Straight::Meet});
    }
    return out;
}

inline std::vector<Set> sets() {
    std::vector<Set> out;
    for (const int64_t reach : {1000, 250000}) out.push_back({"anywhere, up to " + std::to_string(reach), reach, Way_to_meet::Anywhere});
    for (const int64_t reach : {20, 1000, 30000, 250000})
        out.push_back({"on a border or a step beside it, up to " + std::to_string(reach), reach, Way_to_meet::OnABorder});
    for (const int64_t reach : {1000, 250000}) out.push_back({"a hair from one plane, up to " + std::to_string(reach), reach, Way_to_meet::AHairApart});
    return out;
}

} // namespace peers
