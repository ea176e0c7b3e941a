// Embree's rtcCollide: two trees against each other, or one against itself. It tells leaves that meet, so that each box is looked at behind it.
#include "boxes.hpp"
#include <embree3/rtcore.h>

namespace {

using namespace peers;

void bounds(const RTCBoundsFunctionArguments *asked) {
    const Box &box = (*static_cast<const std::vector<Box> *>(asked->geometryUserPtr))[asked->primID];
    RTCBounds &out = *asked->bounds_o;
    // whole numbers of 20 bits, which floats have
    out.lower_x = float(box.low[0]), out.lower_y = float(box.low[1]), out.lower_z = float(box.low[2]);
    out.upper_x = float(box.high[0]), out.upper_y = float(box.high[1]), out.upper_z = float(box.high[2]);
}

RTCScene scene_of(RTCDevice device, const std::vector<Box> &boxes, RTCBuildQuality quality) {
    RTCGeometry geometry = rtcNewGeometry(device, RTC_GEOMETRY_TYPE_USER);
    rtcSetGeometryUserPrimitiveCount(geometry, unsigned(boxes.size()));
    rtcSetGeometryUserData(geometry, const_cast<std::vector<Box> *>(&boxes));
    rtcSetGeometryBoundsFunction(geometry, bounds, nullptr);
    rtcSetGeometryBuildQuality(geometry, quality);
    rtcCommitGeometry(geometry);
    RTCScene scene = rtcNewScene(device);
    rtcSetSceneBuildQuality(scene, quality);
    rtcAttachGeometry(scene, geometry);
    rtcReleaseGeometry(geometry);
    rtcCommitScene(scene);
    return scene;
}

struct Told {
    const Boxes &boxes;
    Found &found;
};

void points(void *user, RTCCollision *met, unsigned count) {
    const Told &told = *static_cast<Told *>(user);
    for (unsigned i = 0; i < count; i++)
        if (meet(told.boxes.vertices[met[i].primID0], told.boxes.triangles[met[i].primID1]))
            told.found.point_triangle(met[i].primID0, met[i].primID1);
}

// each two are told both ways round
void edges(void *user, RTCCollision *met, unsigned count) {
    const Told &told = *static_cast<Told *>(user);
    for (unsigned i = 0; i < count; i++)
        if (met[i].primID0 < met[i].primID1 && meet(told.boxes.edges[met[i].primID0], told.boxes.edges[met[i].primID1]))
            told.found.edges(met[i].primID0, met[i].primID1);
}

class Trees : public Finder {
  public:
    Trees(RTCDevice with, RTCBuildQuality built, const char *as) : device(with), quality(built), called(as), boxes(nullptr) {}
    std::string name() const override { return called; }
    void take(const Boxes &of) override { boxes = &of; }

    void find(Found &found) override {
        RTCScene vertices = scene_of(device, boxes->vertices, quality), triangles = scene_of(device, boxes->triangles, quality);
        RTCScene all_edges = scene_of(device, boxes->edges, quality);
        Told told{*boxes, found};
        rtcCollide(vertices, triangles, points, &told);
        rtcCollide(all_edges, all_edges, edges, &told);
        for (RTCScene scene : {vertices, triangles, all_edges}) rtcReleaseScene(scene);
    }

  private:
    RTCDevice device;
    RTCBuildQuality quality;
    const char *called;
    const Boxes *boxes;
};

} // namespace

int main(int argc, char **argv) {
    RTCDevice device = rtcNewDevice("threads=1");
    if (!device) give_up("Embree has no device");
    std::vector<std::unique_ptr<Finder>> finders;
    finders.emplace_back(new Trees(device, RTC_BUILD_QUALITY_LOW, "Embree, low"));
    finders.emplace_back(new Trees(device, RTC_BUILD_QUALITY_MEDIUM, "Embree, medium"));
    return boxes_main(argc, argv, std::move(finders));
}
