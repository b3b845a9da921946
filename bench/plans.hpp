/* The plans that are measured, the same in every run: floors and walks at random, from fixed seeds. */
#pragma once

#include "../tests/compare/plans.hpp"
#include "../tests/compare/starred.hpp"
#include "words.hpp"

struct Measured {
    std::string name;
    size_t size, events; /* moves of the one cart, or carts; the events that the plan is made to have */
    Tables tables;
};

/* one metre, one metre per second; slowest speeds come later */
constexpr Scale usual{1000000, 1000000, 0};

/* Every other cart gets the least slowest speed there is, so that there are upper bounds and they leave times. */
inline Tables tables_with_slowest(Plan plan) {
    for (size_t j = 1; j < plan.carts.size(); j += 2)
        plan.carts[j].slowest = least_speed;
    return write_tables(plan);
}

inline size_t events_of(size_t carts, size_t moves) { return 2 + carts + 3 * moves; }

inline Measured pair_plan() { return {"the pair", 2, 28, pair_of("250000,").tables}; }

/* to and fro on a line that is the same for any number of moves */
inline Measured one_cart(size_t moves) {
    Random random(1);
    Floor floor = line(1024);
    Walks walks = walk(random, floor, 1, moves + 1, 0, moves);
    return {"one cart, " + count(moves) + " moves", moves, events_of(1, moves), tables_with_slowest(plan_of(random, floor, walks, usual))};
}

/* a corridor with bays, with as many moves as the limit on events leaves */
inline Measured in_corridor(size_t carts, size_t places) {
    Random random(1);
    Floor floor = corridor(random, places, 30);
    size_t moves = (most_events - 2 - carts) / 3;
    Walks walks = walk(random, floor, carts, 300, 10, moves);
    return {count(carts) + " carts in a corridor", carts, events_of(carts, moves), tables_with_slowest(plan_of(random, floor, walks, usual))};
}

/* a grid that is just large enough for the limit on bounds, with as many moves as the limit on events leaves */
inline Measured on_full_grid(size_t carts, size_t wide, size_t high) {
    Random random(1);
    Floor floor = grid(wide, high);
    size_t moves = (most_events - 2 - carts) / 3;
    Walks walks = walk(random, floor, carts, 100, 20, moves);
    return {count(carts) + " carts on a full grid", carts, events_of(carts, moves), tables_with_slowest(plan_of(random, floor, walks, usual))};
}

/* 20 moves for each cart, on a grid that is the same for any number of carts and so large that no cart ever has to wait */
inline Measured on_wide_grid(size_t carts) {
    Random random(1);
    Floor floor = grid(22, 22);
    Walks walks = walk(random, floor, carts, 21, 0, 20 * carts);
    return {count(carts) + " carts on a grid", carts, events_of(carts, 20 * carts), tables_with_slowest(plan_of(random, floor, walks, usual))};
}

/* the pair, and plans near the limits */
inline std::vector<Measured> other_plans() { return {pair_plan(), in_corridor(9, 60), on_full_grid(32, 14, 13), on_full_grid(64, 14, 14)}; }

inline std::vector<Measured> plans_by_moves() { return {one_cart(75), one_cart(150), one_cart(300), one_cart(600), one_cart(1023)}; }

inline std::vector<Measured> plans_by_carts() {
    std::vector<Measured> plans;
    for (size_t carts = 2; carts <= most_carts; carts *= 2)
        plans.push_back(on_wide_grid(carts));
    return plans;
}
