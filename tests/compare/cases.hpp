/* Cases at random: a plan on a floor of some kind, and reports. */
#pragma once

#include "plans.hpp"
#include "trial.hpp"

/* ---- plans */

/* a floor on which so many carts can stand, mostly with room to move */
inline Floor random_floor(Random &random, size_t carts) {
    size_t places = carts + random.between(1, 2 + carts);
    switch (random.below(6)) {
    case 0:
        return corridor(random, places, static_cast<unsigned>(random.between(10, 80)));
    case 1: {
        size_t wide = random.between(2, 9);
        return grid(wide, places / wide + 1);
    }
    case 2: /* as many places as carts: all must move at once */
        return ring(std::max<size_t>(3, random.chance(30) ? carts : places));
    case 3: {
        size_t arms = random.between(2, 8);
        return star(arms, places / arms + 1);
    }
    case 4:
        return line(places);
    default:
        return random_graph(random, places, random.below(2 * places));
    }
}

inline size_t random_carts(Random &random) {
    unsigned kind = static_cast<unsigned>(random.below(10));
    return kind < 2 ? 1 : kind < 7 ? random.between(2, 8) : kind < 9 ? random.between(9, 32) : random.between(33, most_carts);
}

/* few steps mostly, now and then as many as there may be */
inline size_t random_steps(Random &random, size_t carts) {
    size_t most = std::min(most_steps, most_path_cells / carts);
    unsigned kind = static_cast<unsigned>(random.below(100));
    return kind < 70 ? random.between(1, 16) : kind < 97 ? random.between(1, std::min<size_t>(most, 64)) : random.between(most / 2, most);
}

inline Scale random_scale(Random &random) {
    return {random.one_of<uint64_t>({3, 7, 1000, 1000000, most_length}), random.one_of<uint64_t>({least_speed, 1001, 250000, most_speed}),
            random.one_of<unsigned>({0, 0, 0, 5, 30, 100})};
}

/* mostly no more moves than the events' limit allows */
inline Plan random_plan(Random &random, bool small) {
    size_t carts = small ? random.between(1, 6) : random_carts(random), steps = small ? random.between(1, 12) : random_steps(random, carts);
    size_t most_moves = random.chance(98) ? (most_events - 2 - carts) / 3 : SIZE_MAX / 2;
    Floor floor = random_floor(random, carts);
    Walks walks = walk(random, floor, carts, steps, random.one_of<unsigned>({0, 10, 30, 70}), most_moves);
    return plan_of(random, floor, walks, random_scale(random));
}

/* ---- reports */

/* the time of a cart's next point by the last times found: then, somewhat later, too early for a cart so fast, or out of all range */
inline uint64_t random_time(Random &random, uint64_t clock, uint64_t due) {
    due = std::max(clock, due);
    switch (random.below(20)) {
    case 0:
        return clock + random.below(due - clock + 1);
    case 1:
        return clock == 0 ? 0 : clock - 1;
    case 2:
        return random.one_of<uint64_t>({0, clock, most_time, most_time + 1, UINT64_MAX, UINT64_C(1) << 63});
    case 3:
    case 4:
    case 5:
        return due + random.below(3000);
    default:
        return due;
    }
}

/* mostly the cart that comes next by these times, else any, now and then one that is not there */
inline uint64_t random_reporter(Random &random, const Held &held, const std::vector<int64_t> &times) {
    uint64_t carts = held.book.cart_count(), any = random.between(1, carts), first = 0;
    if (random.chance(4))
        return random.one_of<uint64_t>({0, carts + 1, 64, 65, 256 + any, (UINT64_C(1) << 32) + any, UINT64_MAX});
    if (times.empty() || random.chance(30))
        return any;
    for (uint64_t cart = 1; cart <= carts; cart++) {
        std::optional<unsigned> point = held.book.next(cart);
        if (point && (first == 0 || times[*point] < times[*held.book.next(first)]))
            first = cart;
    }
    return first == 0 ? any : first;
}

/* reports of a plan, some of them refused */
inline std::vector<Report> random_reports(Random &random, const Reading &reading, size_t count) {
    std::vector<Report> reports;
    Held held({}, reading.network);
    std::vector<int64_t> times;
    for (size_t i = 0; i < count; i++) {
        if (i == 0 || reading.network.events.size() < many_events)
            times = solve(reading.network.events.size(), held.book.bounds(reading.network)).times;
        uint64_t cart = random_reporter(random, held, times);
        std::optional<unsigned> point = held.book.next(cart);
        uint64_t due = point && !times.empty() ? static_cast<uint64_t>(times[*point]) : held.book.clock();
        reports.push_back({cart, random_time(random, held.book.clock(), due)});
        held.report(reports.back());
    }
    return reports;
}

/* mostly a few, on small plans now and then more than there are points */
inline size_t random_count(Random &random, const Reading &reading) {
    size_t events = reading.network.events.size();
    return random.chance(30) ? 0 : events < 80 && random.chance(20) ? events + 2 : random.between(1, 10);
}

inline Case random_case(Random &random, bool small) {
    Case made;
    made.tables = write_tables(random_plan(random, small));
    made.more = random.chance(80) ? 0 : random.between(1, 5000);
    Reading reading = read_tables(made.tables);
    if (reading.refusal.number == 0)
        made.reports = random_reports(random, reading, random_count(random, reading));
    else
        made.reports = {{1, 0}};
    return made;
}
