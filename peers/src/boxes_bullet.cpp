// Bullet's btDbvt, the tree of its broad phase and of its soft bodies, in floats; made by putting boxes in. Built anew from the top
// (optimizeTopDown) it took two to five times as long.
#include "boxes.hpp"
#include <BulletCollision/BroadphaseCollision/btDbvt.h>

namespace {

using namespace peers;

// whole numbers of 20 bits, which floats have
btDbvtVolume volume(const Box &box) {
    return btDbvtVolume::FromMM(btVector3(btScalar(box.low[0]), btScalar(box.low[1]), btScalar(box.low[2])),
                                btVector3(btScalar(box.high[0]), btScalar(box.high[1]), btScalar(box.high[2])));
}

void fill(btDbvt &tree, const std::vector<Box> &boxes) {
    for (size_t part = 0; part < boxes.size(); part++) tree.insert(volume(boxes[part]), reinterpret_cast<void *>(part));
}

uint32_t number(const btDbvtNode *leaf) { return uint32_t(reinterpret_cast<size_t>(leaf->data)); }

struct Points : btDbvt::ICollide {
    explicit Points(Found &to) : found(to) {}
    void Process(const btDbvtNode *vertex, const btDbvtNode *triangle) override { found.point_triangle(number(vertex), number(triangle)); }
    Found &found;
};

struct EdgesMet : btDbvt::ICollide {
    explicit EdgesMet(Found &to) : found(to) {}
    void Process(const btDbvtNode *one, const btDbvtNode *other) override { found.edges(number(one), number(other)); }
    Found &found;
};

class Trees : public Finder {
  public:
    std::string name() const override { return "Bullet, btDbvt"; }
    void take(const Boxes &of) override { boxes = &of; }

    void find(Found &found) override {
        btDbvt vertices, edges, triangles;
        fill(vertices, boxes->vertices), fill(edges, boxes->edges), fill(triangles, boxes->triangles);
        Points points(found);
        EdgesMet met(found);
        vertices.collideTT(vertices.m_root, triangles.m_root, points);
        edges.collideTT(edges.m_root, edges.m_root, met);
    }

  private:
    const Boxes *boxes = nullptr;
};

} // namespace

int main(int argc, char **argv) {
    std::vector<std::unique_ptr<Finder>> finders;
    finders.emplace_back(new Trees);
    return boxes_main(argc, argv, std::move(finders));
}
