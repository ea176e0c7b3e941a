// FCL's dynamic tree of boxes, as its managers of a broad phase have it.
#include "boxes.hpp"
#include <fcl/broadphase/broadphase_dynamic_AABB_tree.h>
#include <fcl/broadphase/broadphase_dynamic_AABB_tree_array.h>
#include <fcl/geometry/shape/box.h>

namespace {

using namespace peers;
using Object = fcl::CollisionObjectd;

// One object for each box, with its number. Sides and middles are halves of whole numbers, which doubles have.
std::vector<std::unique_ptr<Object>> objects(const std::vector<Box> &boxes) {
    std::vector<std::unique_ptr<Object>> out;
    for (size_t part = 0; part < boxes.size(); part++) {
        fcl::Vector3d low, high;
        for (int axis = 0; axis < 3; axis++) low[axis] = boxes[part].low[axis], high[axis] = boxes[part].high[axis];
        const fcl::Vector3d sides = high - low, middle = (low + high) / 2;
        out.emplace_back(new Object(std::make_shared<fcl::Boxd>(sides), fcl::Matrix3d::Identity(), middle));
        out.back()->setUserData(reinterpret_cast<void *>(part));
    }
    return out;
}

std::vector<Object *> pointers(const std::vector<std::unique_ptr<Object>> &objects) {
    std::vector<Object *> out;
    for (const auto &object : objects) out.push_back(object.get());
    return out;
}

uint32_t number(Object *object) { return uint32_t(reinterpret_cast<size_t>(object->getUserData())); }

// which of two managers a part comes from is told by the order of the two; `false` goes on
bool point_triangle(Object *vertex, Object *triangle, void *found) {
    static_cast<Found *>(found)->point_triangle(number(vertex), number(triangle));
    return false;
}

bool edges_meet(Object *one, Object *other, void *found) {
    static_cast<Found *>(found)->edges(number(one), number(other));
    return false;
}

template <class Manager> class Trees : public Finder {
  public:
    explicit Trees(const char *as) : called(as) {}
    std::string name() const override { return called; }
    void take(const Boxes &boxes) override { vertices = objects(boxes.vertices), edges = objects(boxes.edges), triangles = objects(boxes.triangles); }

    void find(Found &found) override {
        Manager of_vertices, of_edges, of_triangles;
        of_vertices.registerObjects(pointers(vertices)), of_vertices.setup();
        of_triangles.registerObjects(pointers(triangles)), of_triangles.setup();
        of_edges.registerObjects(pointers(edges)), of_edges.setup();
        of_vertices.collide(&of_triangles, &found, point_triangle);
        of_edges.collide(&found, edges_meet);
    }

  private:
    const char *called;
    std::vector<std::unique_ptr<Object>> vertices, edges, triangles;
};

} // namespace

int main(int argc, char **argv) {
    std::vector<std::unique_ptr<Finder>> finders;
    finders.emplace_back(new Trees<fcl::DynamicAABBTreeCollisionManagerd>("FCL, tree"));
    finders.emplace_back(new Trees<fcl::DynamicAABBTreeCollisionManager_Array<double>>("FCL, tree in an array"));
    return boxes_main(argc, argv, std::move(finders));
}
