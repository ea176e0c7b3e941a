// Processor time, and ways to the same that are timed in turns.
#pragma once
#include <cfloat>
#include <ctime>
#include <functional>
#include <vector>

namespace peers {

// Of the whole process: a way that starts threads has their time counted too.
inline double taken() {
    timespec now;
    clock_gettime(CLOCK_PROCESS_CPUTIME_ID, &now);
    return double(now.tv_sec) + 1e-9 * double(now.tv_nsec);
}

using Way = std::function<void()>;

// Seconds from which on a way is timed once: what it takes then is not told by a hundredth more or less.
constexpr double long_enough = 3;

// The shortest round of each, in seconds. A round goes through all ways in turn, so that what else the machine does falls on all alike.
inline std::vector<double> in_turns(int rounds, const std::vector<Way> &ways) {
    std::vector<double> shortest(ways.size(), DBL_MAX);
    for (int round = 0; round < rounds; round++) {
        for (size_t way = 0; way < ways.size(); way++) {
            if (round > 0 && shortest[way] > long_enough) continue;
            const double began = taken();
            ways[way]();
            const double took = taken() - began;
            if (took < shortest[way]) shortest[way] = took;
        }
    }
    return shortest;
}

} // namespace peers
