// Bullet's continuous test of a soft body's node and face (bernsteinCCD), in floats as it is packaged, or in doubles where it is compiled so. It has no
// such test of two edges.
#include "pairs.hpp"
#include <BulletSoftBody/btSoftBodyInternals.h>

namespace {

using namespace peers;

#ifdef BT_USE_DOUBLE_PRECISION
const char *const called = "Bullet, doubles";
#else
const char *const called = "Bullet, floats";
#endif

// What a node and a face keep of a step of 1: places before and behind it and velocities; the face's normals, and that of its velocities.
struct Kept {
    btVector3 place[4], next[4], velocity[4], normal, next_normal, velocity_normal;
};

btVector3 normal(const btVector3 *of) { return (of[2] - of[1]).cross(of[3] - of[1]); }

class Bernstein : public Judge {
  public:
    std::string name() const override { return called; }
    bool knows(Kind kind) const override { return kind == PointTriangle; }

    void take(const std::vector<Four> &fours, Kind, double unit) override {
        pairs.clear();
        for (const Four &four : fours) {
            Kept kept;
            for (int vertex = 0; vertex < 4; vertex++) {
                const auto &p = four[size_t(vertex)];
                kept.place[vertex] = btVector3(btScalar(unit * p[0]), btScalar(unit * p[1]), btScalar(unit * p[2]));
                kept.next[vertex] = btVector3(btScalar(unit * p[3]), btScalar(unit * p[4]), btScalar(unit * p[5]));
                kept.velocity[vertex] = kept.next[vertex] - kept.place[vertex];
            }
            kept.normal = normal(kept.place), kept.next_normal = normal(kept.next), kept.velocity_normal = normal(kept.velocity);
            pairs.push_back(kept);
        }
    }

    void judge(std::vector<uint8_t> &meets) override {
        btSoftBody::Node nodes[4] = {};
        btSoftBody::Face face = {};
        for (int corner = 0; corner < 3; corner++) face.m_n[corner] = &nodes[corner + 1];
        btVector3 shares;
        for (size_t i = 0; i < meets.size(); i++) {
            const Kept &kept = pairs[int(i)];
            for (int vertex = 0; vertex < 4; vertex++)
                nodes[vertex].m_x = kept.place[vertex], nodes[vertex].m_q = kept.next[vertex], nodes[vertex].m_v = kept.velocity[vertex];
            face.m_n0 = kept.normal, face.m_n1 = kept.next_normal, face.m_vn = kept.velocity_normal;
            meets[i] = bernsteinCCD(&face, &nodes[0], btScalar(1), SAFE_EPSILON, shares);
        }
    }

  private:
    btAlignedObjectArray<Kept> pairs;
};

} // namespace

int main(int argc, char **argv) {
    Judges judges;
    judges.emplace_back(new Bernstein);
    return pairs_main(argc, argv, std::move(judges));
}
