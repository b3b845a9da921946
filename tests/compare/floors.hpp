/* Floors to walk on: places 0, 1, .. and which of them are joined. */
#pragma once

#include <algorithm>

#include "random.hpp"

struct Floor {
    std::vector<std::vector<size_t>> neighbours;
    std::vector<size_t> cycle; /* places round which carts can go all at once; none on most floors */

    explicit Floor(size_t places) : neighbours(places) {}

    size_t size() const { return neighbours.size(); }
    bool joined(size_t a, size_t b) const { return std::find(neighbours[a].begin(), neighbours[a].end(), b) != neighbours[a].end(); }

    /* joined at most once, and no place to itself */
    void join(size_t a, size_t b) {
        if (a == b || joined(a, b))
            return;
        neighbours[a].push_back(b);
        neighbours[b].push_back(a);
    }

    size_t add_beside(size_t a) {
        neighbours.emplace_back();
        join(a, size() - 1);
        return size() - 1;
    }
};

inline Floor line(size_t places) {
    Floor floor(places);
    for (size_t i = 1; i < places; i++)
        floor.join(i - 1, i);
    return floor;
}

/* a line with places beside it in which a cart can let others pass */
inline Floor corridor(Random &random, size_t places, unsigned percent_bays) {
    Floor floor = line(places);
    for (size_t i = 0; i < places; i++)
        if (random.chance(percent_bays))
            floor.add_beside(i);
    return floor;
}

inline Floor grid(size_t wide, size_t high) {
    Floor floor(wide * high);
    for (size_t i = 0; i < wide * high; i++) {
        if (i % wide + 1 < wide)
            floor.join(i, i + 1);
        if (i + wide < wide * high)
            floor.join(i, i + wide);
    }
    return floor;
}

/* three places or more */
inline Floor ring(size_t places) {
    Floor floor = line(places);
    floor.join(places - 1, 0);
    for (size_t i = 0; i < places; i++)
        floor.cycle.push_back(i);
    return floor;
}

/* lines that meet at place 0 */
inline Floor star(size_t arms, size_t length) {
    Floor floor(1);
    for (size_t arm = 0; arm < arms; arm++)
        for (size_t i = 0, last = 0; i < length; i++)
            last = floor.add_beside(last);
    return floor;
}

/* a tree at random, and as many roads more as are found free */
inline Floor random_graph(Random &random, size_t places, size_t more) {
    Floor floor(1);
    while (floor.size() < places)
        floor.add_beside(random.below(floor.size()));
    for (size_t i = 0; i < more; i++)
        floor.join(random.below(places), random.below(places));
    return floor;
}
