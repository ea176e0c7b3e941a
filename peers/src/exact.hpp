// Whether two moving parts meet when every vertex goes straight from its start to its end, decided in rational numbers: an independent answer, which
// nothing of the library and nothing of a peer is in.
#pragma once
#include "four.hpp"
#include <gmpxx.h>
#include <utility>
#include <vector>

namespace peers {
namespace exact {

using Number = mpq_class;
using Poly = std::vector<Number>; // lowest power first, the highest not 0; nothing is 0

inline Poly trimmed(Poly p) {
    while (!p.empty() && p.back() == 0) p.pop_back();
    return p;
}

inline Poly plus(const Poly &a, const Poly &b, int factor = 1) {
    Poly out(std::max(a.size(), b.size()));
    for (size_t i = 0; i < a.size(); i++) out[i] += a[i];
    for (size_t i = 0; i < b.size(); i++) out[i] += factor * b[i];
    return trimmed(out);
}

inline Poly minus(const Poly &a, const Poly &b) { return plus(a, b, -1); }

inline Poly times(const Poly &a, const Poly &b) {
    if (a.empty() || b.empty()) return {};
    Poly out(a.size() + b.size() - 1);
    for (size_t i = 0; i < a.size(); i++)
        for (size_t j = 0; j < b.size(); j++) out[i + j] += a[i] * b[j];
    return trimmed(out);
}

inline Poly derivative(const Poly &p) {
    Poly out;
    for (size_t i = 1; i < p.size(); i++) out.push_back(p[i] * Number(long(i)));
    return out;
}

inline Poly remainder(Poly a, const Poly &b) {
    while (a.size() >= b.size()) {
        const Number factor = a.back() / b.back();
        const size_t shift = a.size() - b.size();
        for (size_t i = 0; i + 1 < b.size(); i++) a[shift + i] -= factor * b[i];
        a.pop_back();
        a = trimmed(a);
    }
    return a;
}

inline Number at(const Poly &p, const Number &time) {
    Number out = 0;
    for (size_t i = p.size(); i-- > 0;) out = out * time + p[i];
    return out;
}

// without the root, as often as it is one
inline Poly without(Poly p, const Number &root) {
    while (p.size() > 1 && at(p, root) == 0) {
        Poly out(p.size() - 1);
        Number carried = 0;
        for (size_t i = p.size() - 1; i > 0; i--) carried = carried * root + p[i], out[i - 1] = carried;
        p = out;
    }
    return p;
}

// Tarski's query: over the roots of f between low and high, at which f is not 0, the sum of the signs of g. Where there is one root, its sign there.
inline int query(const Poly &f, const Poly &g, const Number &low, const Number &high) {
    std::vector<Poly> chain{f, remainder(times(derivative(f), g), f)};
    while (!chain.back().empty()) chain.push_back(minus({}, remainder(chain[chain.size() - 2], chain.back())));
    auto changes = [&](const Number &time) {
        int count = 0, last = 0;
        for (const Poly &p : chain) {
            const int sign = sgn(at(p, time));
            if (sign && last && sign != last) count++;
            if (sign) last = sign;
        }
        return count;
    };
    return changes(low) - changes(high);
}

enum class Straight { Meet, Apart, Undecided };

// What is asked at each moment at which four points lie in one plane.
struct Question {
    std::vector<Poly> not_negative; // for the parts to meet there
    Poly not_zero;                  // else the parts lie along one line, and this does not tell
};

template <class Sign> Straight at_root(const Question &asked, Sign &&sign) {
    if (sign(asked.not_zero) == 0) return Straight::Undecided;
    for (const Poly &weight : asked.not_negative)
        if (sign(weight) < 0) return Straight::Apart;
    return Straight::Meet;
}

inline Straight either(Straight a, Straight b) {
    if (a == Straight::Meet || b == Straight::Meet) return Straight::Meet;
    return a == Straight::Undecided || b == Straight::Undecided ? Straight::Undecided : Straight::Apart;
}

// f is not 0 at low nor at high
inline Straight between(const Poly &f, const Question &asked, const Number &low, const Number &high) {
    const int roots = query(f, {1}, low, high);
    if (roots == 0) return Straight::Apart;
    if (roots == 1) return at_root(asked, [&](const Poly &p) { return query(f, p, low, high); });
    const Number middle = (low + high) / 2;
    Straight out = Straight::Apart;
    if (at(f, middle) == 0) out = at_root(asked, [&](const Poly &p) { return sgn(at(p, middle)); });
    const Poly rest = without(f, middle);
    return either(out, either(between(rest, asked, low, middle), between(rest, asked, middle, high)));
}

inline Straight decide(Poly f, const Question &asked) {
    if (f.empty()) return Straight::Undecided; // in one plane all the time
    Straight out = Straight::Apart;
    for (const int time : {0, 1}) {
        if (at(f, time) == 0) out = either(out, at_root(asked, [&](const Poly &p) { return sgn(at(p, time)); }));
        f = without(f, time);
    }
    return either(out, between(f, asked, 0, 1));
}

using Vector = std::array<Poly, 3>;

inline Vector minus(const Vector &a, const Vector &b) { return {minus(a[0], b[0]), minus(a[1], b[1]), minus(a[2], b[2])}; }

inline Vector cross(const Vector &a, const Vector &b) {
    auto part = [&](size_t i, size_t j) { return minus(times(a[i], b[j]), times(a[j], b[i])); };
    return {part(1, 2), part(2, 0), part(0, 1)};
}

inline Poly dot(const Vector &a, const Vector &b) { return plus(plus(times(a[0], b[0]), times(a[1], b[1])), times(a[2], b[2])); }

inline Vector moving(const std::array<int32_t, 6> &p) {
    Vector out;
    for (size_t axis = 0; axis < 3; axis++) out[axis] = trimmed({Number(p[axis]), Number(long(p[axis + 3]) - p[axis])});
    return out;
}

inline Straight point_triangle(const Four &four) {
    const Vector p = moving(four[0]), a = minus(moving(four[1]), p), b = minus(moving(four[2]), p), c = minus(moving(four[3]), p);
    const Vector normal = cross(minus(b, a), minus(c, a));
    return decide(dot(normal, a), {{dot(cross(b, c), normal), dot(cross(c, a), normal), dot(cross(a, b), normal)}, dot(normal, normal)});
}

inline Straight edge_edge(const Four &four) {
    const Vector a = moving(four[0]), c = moving(four[2]);
    const Vector first = minus(moving(four[1]), a), second = minus(moving(four[3]), c), apart = minus(c, a);
    const Vector normal = cross(first, second);
    const Poly whole = dot(normal, normal), along_first = dot(cross(apart, second), normal), along_second = dot(cross(apart, first), normal);
    return decide(dot(normal, apart), {{along_first, minus(whole, along_first), along_second, minus(whole, along_second)}, whole});
}

inline Straight straight(const Four &four, Kind kind) { return kind == PointTriangle ? point_triangle(four) : edge_edge(four); }

// ---- Singular pieces

using Row = std::array<mpz_class, 4>;

// of the first three columns
inline mpz_class three(const Row &a, const Row &b, const Row &c) {
    return a[0] * (b[1] * c[2] - b[2] * c[1]) - a[1] * (b[0] * c[2] - b[2] * c[0]) + a[2] * (b[0] * c[1] - b[1] * c[0]);
}

inline int sign_of_five(const Five &points) {
    std::array<Row, 4> rows;
    for (size_t i = 0; i < 4; i++) {
        for (size_t axis = 0; axis < 3; axis++) rows[i][axis] = long(points[i + 1]->place[axis]) - points[0]->place[axis];
        rows[i][3] = points[i + 1]->time - points[0]->time;
    }
    const mpz_class out = rows[1][3] * three(rows[0], rows[2], rows[3]) - rows[0][3] * three(rows[1], rows[2], rows[3]) +
                          rows[3][3] * three(rows[0], rows[1], rows[2]) - rows[2][3] * three(rows[0], rows[1], rows[3]);
    return sgn(out);
}

inline bool has_singular_piece(const Four &four, Kind kind) {
    for (int piece = 0; piece < piece_count(kind); piece++)
        if (judge_piece(piece_of(four, kind, piece), first_corners(kind), sign_of_five) == Piece::Singular) return true;
    return false;
}

} // namespace exact
} // namespace peers
