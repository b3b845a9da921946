/* Plans from walks: cells, lengths, margins and speeds; and the tables that hold a plan. */
#pragma once

#include "network.hpp"
#include "walks.hpp"

/* ---- the tables of a plan */

inline void add_record(std::string &table, const std::vector<uint64_t> &numbers) {
    for (size_t i = 0; i < numbers.size(); i++)
        table += (i == 0 ? "" : ",") + std::to_string(numbers[i]);
    table += "\r\n";
}

inline Tables write_tables(const Plan &plan) {
    Tables tables{roads_line + "\r\n", carts_line + "\r\n", ""};
    for (const Road &road : plan.roads)
        add_record(tables.roads, {road.from, road.to, road.length, road.margin});
    for (const Cart &cart : plan.carts)
        tables.carts += std::to_string(cart.fastest) + "," + (cart.slowest ? std::to_string(*cart.slowest) : "") + "\r\n";
    for (const std::vector<uint64_t> &path : plan.paths)
        add_record(tables.paths, path);
    return tables;
}

/* ---- roads and speeds */

/* what lengths and speeds of a plan are near to, and which share of the carts has a slowest speed */
struct Scale {
    uint64_t length, speed;
    unsigned percent_slowest;
};

/* mostly lengths near the scale, margins from the least to the greatest */
inline Road random_road(Random &random, const Scale &scale, uint64_t from, uint64_t to) {
    uint64_t length = random.chance(50) ? scale.length : random.between(std::max<uint64_t>(3, scale.length / 2), scale.length);
    uint64_t most_margin = (length - 1) / 2, margin = random.chance(20) ? 1 : random.chance(20) ? most_margin : random.between(1, most_margin);
    if (random.chance(50))
        std::swap(from, to);
    return {from, to, length, margin};
}

inline Cart random_cart(Random &random, const Scale &scale) {
    uint64_t fastest = random.chance(30) ? scale.speed : random.between(std::max(least_speed, scale.speed / 8), scale.speed);
    Cart cart{fastest, std::nullopt};
    if (random.chance(scale.percent_slowest))
        cart.slowest = std::max(least_speed, random.chance(10) ? fastest : fastest / random.between(2, 60));
    return cart;
}

/* ---- plans */

/* the cells' numbers: the places' own, or scattered over the whole range */
inline std::vector<uint64_t> cell_numbers(Random &random, size_t places) {
    std::vector<uint64_t> cells(places);
    std::iota(cells.begin(), cells.end(), random.chance(50) ? 0 : most_cell + 1 - places);
    if (random.chance(50) && places > 0) {
        uint64_t stride = (most_cell + 1) / places;
        for (size_t i = 0; i < places; i++)
            cells[i] = stride * i + random.below(stride);
        random.shuffle(cells);
    }
    return cells;
}

/* the plan of carts that walk so on a floor; not every road need be used */
inline Plan plan_of(Random &random, const Floor &floor, const Walks &walks, const Scale &scale) {
    std::vector<uint64_t> cells = cell_numbers(random, floor.size());
    Plan plan;
    for (size_t a = 0; a < floor.size(); a++)
        for (size_t b : floor.neighbours[a])
            if (a < b)
                plan.roads.push_back(random_road(random, scale, cells[a], cells[b]));
    random.shuffle(plan.roads);
    for (const std::vector<size_t> &walk : walks) {
        plan.carts.push_back(random_cart(random, scale));
        plan.paths.emplace_back();
        for (size_t place : walk)
            plan.paths.back().push_back(cells[place]);
    }
    return plan;
}
