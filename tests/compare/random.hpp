/* Numbers at random, the same on every machine for the same seed. */
#pragma once

#include <cstdint>
#include <random>
#include <vector>

class Random {
    std::mt19937_64 engine;

  public:
    explicit Random(uint64_t seed) : engine(seed) {}

    /* below n; the standard's distributions differ from library to library */
    uint64_t below(uint64_t n) { return engine() % n; }
    uint64_t between(uint64_t least, uint64_t most) { return least + below(most - least + 1); }
    bool chance(unsigned percent) { return below(100) < percent; }

    template <class T> const T &one_of(const std::vector<T> &all) { return all[below(all.size())]; }
    template <class T> void shuffle(std::vector<T> &all) {
        for (size_t i = all.size(); i > 1; i--)
            std::swap(all[i - 1], all[below(i)]);
    }
};
