/* Chains, item by item, as document 01 defines them. */
#pragma once

#include <set>

#include "network.hpp"

struct Item {
    uint64_t number, direction;
};

/* an item as a step from event to event */
struct Step {
    unsigned from, to;
    int64_t cost;
};

/* direction 0 goes from u to v and costs hi, never where hi is none; 1 goes back and costs -lo */
inline std::optional<Step> step_of(const std::vector<Bound> &bounds, const Item &item) {
    for (const Bound &bound : bounds)
        if (bound.number == item.number) {
            if (item.direction == 1)
                return Step{bound.to, bound.from, -bound.lo};
            if (item.direction == 0 && bound.hi)
                return Step{bound.from, bound.to, *bound.hi};
        }
    return std::nullopt;
}

/* why these items are no chain; empty where they are one */
inline std::string no_chain(const std::vector<Bound> &bounds, const std::vector<Item> &items) {
    std::vector<Step> steps;
    for (const Item &item : items) {
        std::optional<Step> step = step_of(bounds, item);
        if (!step)
            return "an item names no bound, or goes along a bound that has no hi";
        steps.push_back(*step);
    }
    if (steps.empty())
        return "a chain of no item";
    std::set<unsigned> met;
    int64_t cost = 0;
    for (size_t i = 0; i < steps.size(); i++) {
        const Step &next = steps[(i + 1) % steps.size()];
        if (steps[i].to != next.from)
            return "an item begins elsewhere than the one before it ends, or the last ends elsewhere than the first begins";
        if (!met.insert(steps[i].from).second)
            return "an event is met twice";
        cost += steps[i].cost;
    }
    return cost < 0 ? "" : "the costs are not below 0";
}
