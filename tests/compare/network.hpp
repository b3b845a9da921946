/* Events and bounds of a plan, from document 01 ("Events", "Bounds", "Reports and timetable") and document 004 (Algorithm 1). */
#pragma once

#include <map>
#include <optional>

#include "tables.hpp"

struct Road {
    uint64_t from, to, length, margin;
};

struct Cart {
    uint64_t fastest;
    std::optional<uint64_t> slowest;
};

struct Plan {
    std::vector<Road> roads;
    std::vector<Cart> carts;
    std::vector<std::vector<uint64_t>> paths;
};

/* the road of a pair of cells, either way round */
class Roads {
    std::map<std::pair<uint64_t, uint64_t>, Road> of_pair;

  public:
    static std::pair<uint64_t, uint64_t> pair(uint64_t a, uint64_t b) { return {std::min(a, b), std::max(a, b)}; }

    /* false where the pair has one */
    bool add(const Road &road) { return of_pair.emplace(pair(road.from, road.to), road).second; }

    const Road *find(uint64_t a, uint64_t b) const {
        auto found = of_pair.find(pair(a, b));
        return found == of_pair.end() ? nullptr : &found->second;
    }
};

/* an event's place on the floor; cart 0 is start and finish */
struct Event {
    unsigned cart;
    uint64_t cell;
};

/* [lo, hi] from event u to event v; without hi there is no upper bound */
struct Bound {
    unsigned number, from, to;
    int64_t lo;
    std::optional<int64_t> hi;
};

/* the entry of a cell: the step, and the number of its event; the points on either side have the numbers beside it */
struct Entry {
    size_t step;
    uint64_t cell;
    unsigned event;

    unsigned approach() const { return event - 1; }
    unsigned leave() const { return event + 1; }
};

struct Network {
    std::vector<Event> events;
    std::vector<std::vector<Entry>> routes;
    std::vector<Bound> bounds;

    unsigned finish() const { return static_cast<unsigned>(events.size() - 1); }
};

/* "Events": start; cart by cart the entries with the points between two of them; finish */
inline void add_events(const Plan &plan, Network &network) {
    network.events.push_back({0, 0});
    for (unsigned cart = 1; cart <= plan.paths.size(); cart++) {
        const std::vector<uint64_t> &path = plan.paths[cart - 1];
        std::vector<Entry> route;
        for (size_t step = 0; step < path.size(); step++) {
            if (step > 0 && path[step] == path[step - 1])
                continue;
            if (step > 0) {
                network.events.push_back({cart, path[step - 1]});
                network.events.push_back({cart, path[step]});
            }
            route.push_back({step, path[step], static_cast<unsigned>(network.events.size())});
            network.events.push_back({cart, path[step]});
        }
        network.routes.push_back(route);
    }
    network.events.push_back({0, 0});
}

inline void add_bound(Network &network, unsigned from, unsigned to, int64_t lo, std::optional<int64_t> hi) {
    network.bounds.push_back({static_cast<unsigned>(network.bounds.size()), from, to, lo, hi});
}

/* the time of a part of a move: lo rounded up, hi rounded down */
inline void add_part(Network &network, const Cart &cart, unsigned from, uint64_t part) {
    std::optional<int64_t> hi;
    if (cart.slowest)
        hi = static_cast<int64_t>(1000 * part / *cart.slowest);
    add_bound(network, from, from + 1, static_cast<int64_t>((1000 * part + cart.fastest - 1) / cart.fastest), hi);
}

/* 2. travel bounds: three for each move */
inline void add_travel_bounds(const Plan &plan, Network &network) {
    Roads roads;
    for (const Road &road : plan.roads)
        roads.add(road);
    for (size_t j = 0; j < plan.carts.size(); j++)
        for (size_t i = 1; i < network.routes[j].size(); i++) {
            const Entry &left = network.routes[j][i - 1], &entered = network.routes[j][i];
            const Road &road = *roads.find(left.cell, entered.cell);
            add_part(network, plan.carts[j], left.event, road.margin);
            add_part(network, plan.carts[j], left.leave(), road.length - 2 * road.margin);
            add_part(network, plan.carts[j], entered.approach(), road.margin);
        }
}

/* the first entry to a cell at a step after this one */
inline const Entry *first_after(const std::vector<Entry> &route, uint64_t cell, size_t step) {
    for (const Entry &entry : route)
        if (entry.cell == cell && entry.step > step)
            return &entry;
    return nullptr;
}

/* 3. order bounds: by cart j, its entries, other cart k */
inline void add_order_bounds(Network &network) {
    for (size_t j = 0; j < network.routes.size(); j++)
        for (const Entry &earlier : network.routes[j])
            for (size_t k = 0; k < network.routes.size(); k++) {
                const Entry *later = k == j ? nullptr : first_after(network.routes[k], earlier.cell, earlier.step);
                if (later != nullptr)
                    add_bound(network, earlier.leave(), later->approach(), 0, std::nullopt);
            }
}

/* the network of a plan without collisions, whose moves all have a road */
inline Network network_of(const Plan &plan) {
    Network network;
    add_events(plan, network);
    for (const std::vector<Entry> &route : network.routes)
        add_bound(network, 0, route.front().event, 0, 0); /* 1. start bounds */
    add_travel_bounds(plan, network);
    add_order_bounds(network);
    for (const std::vector<Entry> &route : network.routes)
        add_bound(network, route.back().event, network.finish(), 0, std::nullopt); /* 4. finish bounds */
    return network;
}
