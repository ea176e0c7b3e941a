// Judging pairs: a peer beside the library, on the same pairs, in turns; and how often each is wrong where there is no doubt what is right.
#pragma once
#include "clock.hpp"
#include "ours.hpp"
#include "sets.hpp"
#include <memory>

namespace peers {

// A way to judge pairs of four moving points. It takes them in its own form before it is timed.
class Judge {
  public:
    virtual ~Judge() {}
    virtual std::string name() const = 0;
    virtual bool knows(Kind) const { return true; }
    // the units that it is given, as powers of two: one where its answers do not go by them
    virtual std::vector<int> units() const { return {0, -10, -20}; }
    // Coordinates are the whole numbers times the unit, a power of two: so each is a double exactly.
    virtual void take(const std::vector<Four> &fours, Kind kind, double unit) = 0;
    // 1 for each pair that it finds to meet
    virtual void judge(std::vector<uint8_t> &meets) = 0;
};

// The library, asked with a list of one's own: 128 pairs a scene, each with four vertices of its own. Every call checks the scene and each entry.
class OurJudge : public Judge {
  public:
    std::string name() const override { return "the library"; }
    std::vector<int> units() const override { return {0}; }

    void take(const std::vector<Four> &of, Kind asked, double) override {
        kind = asked, fours = of, list.clear(), edges.clear(), triangles.clear();
        for (uint16_t pair = 0; pair < Together; pair++) {
            const uint16_t v = uint16_t(4 * pair);
            for (uint16_t corner : {v + 1, v + 2, v + 3}) triangles.push_back(corner);
            for (uint16_t end : {v + 0, v + 1, v + 2, v + 3}) edges.push_back(end);
            list.push_back(kind == PointTriangle ? makhnodri_entry(MAKHNODRI_PT, v, pair) : makhnodri_entry(MAKHNODRI_EE, 2u * pair, 2u * pair + 1u));
        }
    }

    void judge(std::vector<uint8_t> &meets) override {
        for (size_t at = 0; at < fours.size(); at += Together) {
            const size_t count = std::min(Together, fours.size() - at);
            makhnodri_scene scene = {};
            scene.positions = fours[at][0].data(), scene.positions_length = 24 * count;
            if (kind == EdgeEdge) scene.edges = edges.data(), scene.edges_length = 4 * count;
            if (kind == PointTriangle) scene.triangles = triangles.data(), scene.triangles_length = 3 * count;
            const auto answer = makhnodri_settle_list(&scene, list.data(), count, &meets[at], count);
            if (makhnodri_refusal(answer)) give_up(makhnodri_refusal_words(makhnodri_refusal(answer)));
            for (size_t i = at; i < at + count; i++) meets[i] = meets[i] == MAKHNODRI_HIT || meets[i] == MAKHNODRI_TOUCH;
        }
    }

  private:
    static constexpr size_t Together = 128;
    Kind kind = PointTriangle;
    std::vector<Four> fours;
    std::vector<uint32_t> list;
    std::vector<uint16_t> edges, triangles;
};

// ---- Times

// The listed pairs, or of these the near ones.
enum class Which { Listed, Near };

// Of the pairs of a mesh so many, evenly out of all of one kind.
inline std::vector<Four> pairs_of(const Mesh &mesh, Kind kind, Which which, size_t wanted) {
    Ours ours(mesh);
    const size_t first = kind == PointTriangle ? 0 : ours.vertex_rows(), end = kind == PointTriangle ? ours.vertex_rows() : ours.rows();
    std::vector<uint64_t> list(ours.count(first, end));
    list.resize(which == Which::Near ? ours.list_near(first, end, list) : ours.list(first, end, list));
    std::vector<Four> out;
    for (size_t i = 0; i < std::min(wanted, list.size()); i++) {
        const uint64_t entry = list[i * list.size() / std::min(wanted, list.size())];
        const uint32_t a = makhnodri_mesh_entry_first(entry), b = makhnodri_mesh_entry_second(entry);
        const auto &p = mesh.positions;
        if (kind == PointTriangle) {
            auto corners = mesh.triangles[b];
            std::sort(corners.begin(), corners.end()); // the pieces go by the order of the numbers
            out.push_back({p[a], p[corners[0]], p[corners[1]], p[corners[2]]});
        } else {
            const auto ends = [&](uint32_t edge) { return std::minmax(mesh.edges[edge][0], mesh.edges[edge][1]); };
            out.push_back({p[ends(a).first], p[ends(a).second], p[ends(b).first], p[ends(b).second]});
        }
    }
    return out;
}

// Nanoseconds a pair of the library inside its call over rows: settling all listed pairs of a kind less listing them.
inline double in_rows(const Mesh &mesh, Kind kind, int rounds) {
    Ours ours(mesh);
    const size_t first = kind == PointTriangle ? 0 : ours.vertex_rows(), end = kind == PointTriangle ? ours.vertex_rows() : ours.rows();
    std::vector<uint64_t> list(ours.count(first, end));
    std::vector<uint8_t> words(list.size());
    const auto took = in_turns(rounds, {[&] { ours.list(first, end, list); }, [&] { ours.settle(first, end, list, words); }});
    return 1e9 * (took[1] - took[0]) / double(list.size());
}

using Judges = std::vector<std::unique_ptr<Judge>>;

// A line for each peer: garment, kind, pairs, peer, ns a pair of ours with a list of one's own, of ours in rows, of the peer.
inline void time_beside(const std::string &garment, const Mesh &mesh, Which which, Judges &judges, int rounds) {
    for (const Kind kind : {PointTriangle, EdgeEdge}) {
        const auto fours = pairs_of(mesh, kind, which, 65536);
        std::vector<uint8_t> meets(fours.size());
        OurJudge ours;
        ours.take(fours, kind, 1);
        std::vector<Way> ways{[&] { ours.judge(meets); }};
        std::vector<Judge *> asked;
        for (auto &judge : judges)
            if (judge->knows(kind)) {
                judge->take(fours, kind, 1), asked.push_back(judge.get());
                ways.push_back([&, one = judge.get()] { one->judge(meets); });
            }
        const auto took = in_turns(rounds, ways);
        const double rows = in_rows(mesh, kind, rounds), each = 1e9 / double(fours.size());
        for (size_t i = 0; i < asked.size(); i++)
            std::printf("pairs\t%s\t%s\t%zu\t%s\t%.1f\t%.1f\t%.1f\n", garment.c_str(), name_of(kind), fours.size(), asked[i]->name().c_str(),
                        each * took[0], rows, each * took[i + 1]);
        std::fflush(stdout);
    }
}

// ---- Wrong answers

struct Wrong {
    size_t missed = 0, invented = 0;
};

inline Wrong wrong(Judge &judge, const std::vector<Answered> &pairs, Kind kind, double unit) {
    std::vector<Four> fours;
    for (const auto &pair : pairs) fours.push_back(pair.four);
    std::vector<uint8_t> meets(fours.size());
    judge.take(fours, kind, unit), judge.judge(meets);
    Wrong out;
    for (size_t i = 0; i < pairs.size(); i++) out.missed += pairs[i].meets && !meets[i], out.invented += !pairs[i].meets && meets[i];
    return out;
}

// A line for each peer and unit: set, kind, pairs, share of hits, peer, unit as a power of two, missed and invented per million.
inline void wrong_of(const std::string &set, Kind kind, const std::vector<Answered> &pairs, Judge &judge) {
    if (!judge.knows(kind)) return;
    size_t meeting = 0;
    for (const auto &pair : pairs) meeting += pair.meets;
    const double million = 1e6 / double(pairs.size());
    for (const int unit : judge.units()) {
        const Wrong told = wrong(judge, pairs, kind, std::ldexp(1.0, unit));
        std::printf("wrong\t%s\t%s\t%zu\t%.0f\t%s\t%d\t%.0f\t%.0f\n", set.c_str(), name_of(kind), pairs.size(), 1e2 * double(meeting) / double(pairs.size()),
                    judge.name().c_str(), unit, million * double(told.missed), million * double(told.invented));
    }
    std::fflush(stdout);
}

inline void count_wrong(Judges &judges, size_t count) {
    OurJudge ours;
    for (const Set &set : sets())
        for (const Kind kind : {PointTriangle, EdgeEdge}) {
            const auto pairs = made(set, kind, count);
            wrong_of(set.name, kind, pairs, ours);
            for (auto &judge : judges) wrong_of(set.name, kind, pairs, *judge);
        }
}

// Pairs that a garment lists, each vertex on its own way: here peers answer another question than the library, and each is held to straight motion, which
// it asks; the library's line is no error but tells how often the two questions have two answers.
inline void count_wrong_of_garment(const std::string &garment, const Mesh &mesh, Judges &judges, size_t count) {
    OurJudge ours;
    for (const Kind kind : {PointTriangle, EdgeEdge}) {
        std::vector<Answered> pairs;
        for (const Four &four : pairs_of(mesh, kind, Which::Listed, count)) {
            const auto straight = exact::straight(four, kind);
            if (straight != exact::Straight::Undecided) pairs.push_back({four, straight == exact::Straight::Meet});
        }
        wrong_of(garment + ", straight motion", kind, pairs, ours); // no errors, but answers to another question
        for (auto &judge : judges) wrong_of(garment + ", straight motion", kind, pairs, *judge);
    }
}

// usage: PROGRAM ROUNDS COUNT (NAME START.obj END.obj)..
inline int pairs_main(int argc, char **argv, Judges judges) {
    if (argc < 3 || (argc - 3) % 3) give_up("usage: PROGRAM ROUNDS COUNT (NAME START.obj END.obj)..");
    const int rounds = std::atoi(argv[1]);
    const size_t count = size_t(std::atoi(argv[2]));
    for (int i = 3; i + 2 < argc; i += 3) {
        const Mesh mesh = read_mesh(argv[i + 1], argv[i + 2]);
        time_beside(argv[i], mesh, Which::Listed, judges, rounds);
        time_beside(std::string(argv[i]) + ", near pairs", mesh, Which::Near, judges, rounds);
        count_wrong_of_garment(argv[i], mesh, judges, count);
    }
    count_wrong(judges, count);
    return 0;
}

} // namespace peers
