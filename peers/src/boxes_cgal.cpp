// CGAL's box_intersection_d: a sweep over segment trees.
#include "boxes.hpp"
#include <CGAL/Box_intersection_d/Box_d.h>
#include <CGAL/box_intersection_d.h>

namespace {

using namespace peers;

struct Numbered : CGAL::Box_intersection_d::Box_d<int, 3, CGAL::Box_intersection_d::ID_EXPLICIT> {
    using Base = CGAL::Box_intersection_d::Box_d<int, 3, CGAL::Box_intersection_d::ID_EXPLICIT>;
    Numbered(std::array<int32_t, 3> low, std::array<int32_t, 3> high, uint32_t part) : Base(low.data(), high.data()), number(part) {}
    uint32_t number;
};

std::vector<Numbered> numbered(const std::vector<Box> &boxes) {
    std::vector<Numbered> out;
    for (size_t part = 0; part < boxes.size(); part++) out.emplace_back(boxes[part].low, boxes[part].high, uint32_t(part));
    return out;
}

std::vector<const Numbered *> pointers(const std::vector<Numbered> &boxes) {
    std::vector<const Numbered *> out;
    for (const auto &box : boxes) out.push_back(&box);
    return out;
}

// It goes over pointers, which its page tells to be quicker, and puts them in another order as it works.
class Sweep : public Finder {
  public:
    explicit Sweep(std::ptrdiff_t at) : cutoff(at) {}
    std::string name() const override { return "CGAL, cutoff " + std::to_string(cutoff); }

    void take(const Boxes &boxes) override { vertices = numbered(boxes.vertices), edges = numbered(boxes.edges), triangles = numbered(boxes.triangles); }

    void find(Found &found) override {
        auto v = pointers(vertices), e = pointers(edges), t = pointers(triangles);
        CGAL::box_intersection_d(
            v.begin(), v.end(), t.begin(), t.end(),
            [&](const Numbered *vertex, const Numbered *triangle) { found.point_triangle(vertex->number, triangle->number); }, cutoff);
        CGAL::box_self_intersection_d(
            e.begin(), e.end(), [&](const Numbered *one, const Numbered *other) { found.edges(one->number, other->number); }, cutoff);
    }

  private:
    std::ptrdiff_t cutoff;
    std::vector<Numbered> vertices, edges, triangles;
};

} // namespace

int main(int argc, char **argv) {
    std::vector<std::unique_ptr<Finder>> finders;
    for (const int cutoff : {200, 1000}) finders.emplace_back(new Sweep(cutoff));
    return boxes_main(argc, argv, std::move(finders));
}
