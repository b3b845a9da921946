/* The marker's book, from document 01: the clock, and for each cart the points passed with their times. */
#pragma once

#include "network.hpp"

class Book {
    struct Marked {
        unsigned first, last, next; /* its points, and the one to be passed next */
    };

    std::vector<Marked> carts;
    std::map<unsigned, uint64_t> reported; /* by event */
    uint64_t time = 0;

  public:
    explicit Book(const Network &network) {
        for (const std::vector<Entry> &route : network.routes)
            carts.push_back({route.front().event, route.back().event, route.front().event + 1});
    }

    uint64_t clock() const { return time; }
    uint64_t cart_count() const { return carts.size(); }

    /* the point that a cart passes next, if there is the cart and such a point */
    std::optional<unsigned> next(uint64_t cart) const {
        if (cart < 1 || cart > carts.size() || carts[cart - 1].next > carts[cart - 1].last)
            return std::nullopt;
        return carts[cart - 1].next;
    }

    /* the refusal that a report deserves; an accepted one, 0, is entered */
    unsigned report(const Report &report) {
        std::optional<unsigned> event = next(report.cart);
        if (!event)
            return 11;
        if (report.time < time || report.time > most_time)
            return 12;
        reported[*event] = time = report.time;
        carts[report.cart - 1].next++;
        return 0;
    }

    /* the network's bounds and the added ones, numbered 10,000 + e */
    std::vector<Bound> bounds(const Network &network) const {
        std::vector<Bound> all = network.bounds;
        for (const Marked &cart : carts)
            for (unsigned event = cart.first + 1; event <= cart.last; event++) {
                bool passed = event < cart.next;
                int64_t lo = static_cast<int64_t>(passed ? reported.at(event) : time);
                all.push_back({10000 + event, 0, event, lo, passed ? std::optional(lo) : std::nullopt});
            }
        return all;
    }
};
