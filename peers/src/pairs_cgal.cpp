// CGAL has no test of moving parts. What it has is exact signs: so the question of the library itself, the pieces of TR-2009-03, is put with them. Each
// weight is the orientation of five points in space and time, by its filtered kernel of four dimensions, or as a determinant in its numbers: intervals
// first and exact numbers where these do not tell, exact numbers alone, or its lazy ones.
#include "pairs.hpp"
#include <CGAL/Epick_d.h>
#include <CGAL/Interval_nt.h>
#include <CGAL/Lazy_exact_nt.h>
#include <CGAL/Mpzf.h>
#include <CGAL/determinant.h>

namespace {

using namespace peers;

template <class Number> Number volume(const Five &points) {
    std::array<std::array<Number, 4>, 4> d;
    for (size_t i = 0; i < 4; i++) {
        for (size_t axis = 0; axis < 3; axis++) d[i][axis] = Number(double(points[i + 1]->place[axis] - points[0]->place[axis]));
        d[i][3] = Number(double(points[i + 1]->time - points[0]->time));
    }
    return CGAL::determinant(d[0][0], d[0][1], d[0][2], d[0][3], d[1][0], d[1][1], d[1][2], d[1][3], d[2][0], d[2][1], d[2][2], d[2][3], d[3][0],
                             d[3][1], d[3][2], d[3][3]);
}

struct Exact {
    static constexpr const char *name = "CGAL, Mpzf";
    int operator()(const Five &points) const { return int(CGAL::sign(volume<CGAL::Mpzf>(points))); }
};

struct Filtered {
    static constexpr const char *name = "CGAL, intervals and Mpzf";
    int operator()(const Five &points) const {
        const auto sign = CGAL::sign(volume<CGAL::Interval_nt<false>>(points));
        return CGAL::is_certain(sign) ? int(CGAL::get_certain(sign)) : Exact()(points);
    }
    // rounding upwards, for as long as this is there
    CGAL::Protect_FPU_rounding<true> rounding;
};

struct Lazy {
    static constexpr const char *name = "CGAL, lazy";
    int operator()(const Five &points) const { return int(CGAL::sign(volume<CGAL::Lazy_exact_nt<CGAL::Mpzf>>(points))); }
};

struct Kernel {
    static constexpr const char *name = "CGAL, Epick_d";
    using Four_d = CGAL::Epick_d<CGAL::Dimension_tag<4>>;
    int operator()(const Five &points) const {
        std::array<Four_d::Point_d, 5> p;
        for (size_t i = 0; i < 5; i++)
            p[i] = Four_d::Point_d(double(points[i]->place[0]), double(points[i]->place[1]), double(points[i]->place[2]), double(points[i]->time));
        return int(Four_d().orientation_d_object()(p.begin(), p.end()));
    }
};

template <class Sign> class Pieces : public Judge {
  public:
    std::string name() const override { return Sign::name; }
    std::vector<int> units() const override { return {0}; }
    void take(const std::vector<Four> &of, Kind asked, double) override { fours = of, kind = asked; }

    void judge(std::vector<uint8_t> &meets) override {
        const Sign sign{};
        for (size_t i = 0; i < meets.size(); i++) {
            meets[i] = 0;
            for (int piece = 0; piece < piece_count(kind) && !meets[i]; piece++)
                meets[i] = judge_piece(piece_of(fours[i], kind, piece), first_corners(kind), sign) == Piece::Hit;
        }
    }

  private:
    std::vector<Four> fours;
    Kind kind = PointTriangle;
};

} // namespace

int main(int argc, char **argv) {
    Judges judges;
    judges.emplace_back(new Pieces<Filtered>);
    judges.emplace_back(new Pieces<Kernel>);
    judges.emplace_back(new Pieces<Exact>);
    judges.emplace_back(new Pieces<Lazy>);
    return pairs_main(argc, argv, std::move(judges));
}
