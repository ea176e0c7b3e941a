// Numbers from a seed (splitmix64): the same on every machine and with every standard library.
#pragma once
#include <cstddef>
#include <cstdint>
#include <utility>
#include <vector>

namespace peers {

class Random {
  public:
    explicit Random(uint64_t seed) : state(seed) {}

    uint64_t next() {
        state += 0x9e3779b97f4a7c15;
        uint64_t z = state;
        z = (z ^ (z >> 30)) * 0xbf58476d1ce4e5b9;
        z = (z ^ (z >> 27)) * 0x94d049bb133111eb;
        return z ^ (z >> 31);
    }

    // below n, which is not 0
    uint64_t below(uint64_t n) { return next() % n; }

    // from low to high, both included
    int64_t between(int64_t low, int64_t high) { return low + int64_t(below(uint64_t(high - low + 1))); }

    // each number below the count once
    std::vector<uint32_t> shuffled(size_t count) {
        std::vector<uint32_t> out(count);
        for (size_t i = 0; i < count; i++) out[i] = uint32_t(i);
        for (size_t i = count; i > 1; i--) std::swap(out[i - 1], out[below(i)]);
        return out;
    }

  private:
    uint64_t state;
};

} // namespace peers
