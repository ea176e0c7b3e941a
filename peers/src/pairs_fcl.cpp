// FCL's continuous test of a vertex and a face, and of two edges: the moments of one plane by Newton's steps or by a solved cubic, each with its filter
// before it and without.
#include "pairs.hpp"
#include <fcl/narrowphase/detail/traversal/collision/intersect.h>

namespace {

using namespace peers;
using Intersect = fcl::detail::Intersect<double>;
using Point = fcl::Vector3d;

class Cubic : public Judge {
  public:
    Cubic(bool with_newton, bool with_filter) : newton(with_newton), filtered(with_filter), kind(PointTriangle) {}
    std::string name() const override { return std::string("FCL, ") + (newton ? "Newton" : "cubic") + (filtered ? ", filter" : ""); }

    void take(const std::vector<Four> &fours, Kind asked, double unit) override {
        kind = asked;
        points.clear();
        for (const Four &four : fours)
            for (const size_t time : {0, 3})
                for (const auto &p : four) points.emplace_back(unit * p[time], unit * p[time + 1], unit * p[time + 2]);
    }

    void judge(std::vector<uint8_t> &meets) override {
        for (size_t i = 0; i < meets.size(); i++) meets[i] = kind == PointTriangle ? vertex_face(&points[8 * i]) : edge_edge(&points[8 * i]);
    }

  private:
    // the face first
    bool vertex_face(const Point *p) const {
        double time;
        Point at;
        return filtered ? Intersect::intersect_VF_filtered(p[1], p[2], p[3], p[0], p[5], p[6], p[7], p[4], &time, &at, newton)
                        : Intersect::intersect_VF(p[1], p[2], p[3], p[0], p[5], p[6], p[7], p[4], &time, &at, newton);
    }

    bool edge_edge(const Point *p) const {
        double time;
        Point at;
        return filtered ? Intersect::intersect_EE_filtered(p[0], p[1], p[2], p[3], p[4], p[5], p[6], p[7], &time, &at, newton)
                        : Intersect::intersect_EE(p[0], p[1], p[2], p[3], p[4], p[5], p[6], p[7], &time, &at, newton);
    }

    bool newton, filtered;
    Kind kind;
    std::vector<Point> points;
};

} // namespace

int main(int argc, char **argv) {
    Judges judges;
    for (const bool newton : {true, false})
        for (const bool filtered : {false, true}) judges.emplace_back(new Cubic(newton, filtered));
    return pairs_main(argc, argv, std::move(judges));
}
