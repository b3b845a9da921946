/* Plans at every limit of document 01 and one past it, each with the refusal that it must have. */
#pragma once

#include "known.hpp"
#include "plans.hpp"

/* ---- plans made to measure */

constexpr Road metre(uint64_t from, uint64_t to) { return {from, to, 1000000, 250000}; }
constexpr uint64_t quarter_metre = 250000; /* a second */

/* carts apart, each to and fro on a road of its own, with so many moves and then waiting */
inline void add_apart(Plan &plan, const std::vector<size_t> &moves, size_t steps) {
    for (size_t cart_moves : moves) {
        uint64_t cell = 30000 + 2 * plan.carts.size();
        plan.roads.push_back(metre(cell, cell + 1));
        plan.carts.push_back({quarter_metre, std::nullopt});
        plan.paths.emplace_back();
        for (size_t step = 0; step < steps; step++)
            plan.paths.back().push_back(cell + std::min(step, cart_moves) % 2);
    }
}

inline Plan apart(const std::vector<size_t> &moves, size_t steps) {
    Plan plan;
    add_apart(plan, moves, steps);
    return plan;
}

/* so many carts, each in a cell of its own for so many steps */
inline Plan standing(size_t carts, size_t steps) { return apart(std::vector<size_t>(carts), steps); }

/* roads of a line */
inline Plan with_roads(size_t count) {
    Plan plan = standing(1, 1);
    plan.roads.clear();
    for (uint64_t i = 0; i < count; i++)
        plan.roads.push_back(metre(i, i + 1));
    return plan;
}

inline void cut(Plan &plan, size_t steps) {
    for (Path &path : plan.paths)
        path.resize(steps);
}

/* just so many bounds: carts on a ring for as many steps as leave room, and carts apart, each with 2 bounds and 3 for each move */
inline Plan with_bounds(size_t count) {
    Random random(1);
    Floor floor = ring(16);
    Plan plan = plan_of(random, floor, walk(random, floor, 11, 200, 20, most_events), {1000000, quarter_metre, 0});
    for (size_t steps = 200; network_of(plan).bounds.size() > count - 20; steps--)
        cut(plan, steps);
    size_t more = count - network_of(plan).bounds.size(), carts = more % 3 == 2 ? 1 : more % 3 == 1 ? 2 : 3;
    std::vector<size_t> moves(carts);
    moves[0] = (more - 2 * carts) / 3;
    add_apart(plan, moves, plan.paths[0].size());
    return plan;
}

/* a cart, and one in its way at the end, which leaves late, slowly and by a long margin */
inline Plan with_late_end(size_t moves, const Cart &first_cart, const Cart &second_cart) {
    Plan plan;
    Path first, second;
    for (uint64_t cell = 0; cell <= moves; cell++) {
        first.push_back(cell);
        second.push_back(cell < moves ? moves : moves + 1);
        plan.roads.push_back(cell < moves ? metre(cell, cell + 1) : Road{cell, cell + 1, most_length, (most_length - 1) / 2});
    }
    plan.carts = {first_cart, second_cart};
    plan.paths = {first, second};
    return plan;
}

/* carts behind each other around a ring, so many cells apart, each with so many moves: many order bounds from a short table of paths */
inline Plan around(size_t carts, size_t apart, size_t moves, uint64_t first) {
    Plan plan;
    size_t cells = apart * carts;
    for (uint64_t cell = 0; cell < cells; cell++)
        plan.roads.push_back(metre(first + cell, first + (cell + 1) % cells));
    for (size_t cart = 0; cart < carts; cart++) {
        plan.carts.push_back({quarter_metre, std::nullopt});
        plan.paths.emplace_back();
        for (size_t step = 0; step <= moves; step++)
            plan.paths.back().push_back(first + (apart * cart + step) % cells);
    }
    return plan;
}

/* ---- tables by their bytes */

/* a table filled up with records, the last cut, to so many bytes */
inline std::string filled(const std::string &table, const std::string &record, size_t bytes) {
    std::string all = table;
    while (all.size() < bytes)
        all += record;
    all.resize(bytes);
    return all;
}

inline Tables one_road(const std::string &record) { return {roads_line + "\r\n" + record + "\r\n", carts_line + "\r\n250000,\r\n", "7\r\n"}; }
inline Tables one_cart(const std::string &record) { return {roads_line + "\r\n", carts_line + "\r\n" + record + "\r\n", "7\r\n"}; }
inline Tables one_path(const std::string &record) { return {roads_line + "\r\n", carts_line + "\r\n250000,\r\n", record + "\r\n"}; }

/* ---- the list */

/* Each cart goes 4 seconds a move, and the report is of cart 1's first point when it is due: the clock then reaches all first points by one bound. */
inline void add_counts(std::vector<Known> &known) {
    auto add = [&](const std::string &name, const Plan &plan, const Refusal &refusal, const std::optional<Outcome> &outcome = {}) {
        known.push_back({name, {write_tables(plan), {{1, 1000}}, {}, 0}, refusal, {}, outcome});
    };
    add("1,024 roads", with_roads(1024), {});
    add("1,025 roads", with_roads(1025), {4, roads_table, 1025});
    add("64 carts", standing(64, 1), {});
    add("65 carts", standing(65, 1), {4, carts_table, 65});
    add("T 1,023", apart({1023}, 1024), {}, Outcome{true, 3072, 3071, 3070, {{3071, 4092000}}});
    add("T 1,024", apart({1023}, 1025), {4, paths_table, 1});
    add("8,192 path cells", standing(64, 128), {});
    add("8,256 path cells", standing(64, 129), {4, paths_table, 64});
    add("4,096 events", apart({682, 682}, 683), {}, Outcome{true, 4096, 4096, 2047, {{4095, 2728000}}});
    add("4,097 events", apart({454, 454, 456}, 457), {4, paths_table, 0});
    std::vector<size_t> moves(64, 21);
    moves[0] = 20;
    add("4,095 events of 64 carts", apart(moves, 128), {}, Outcome{true, 4095, 4157, 64, {{4094, 84000}}});
    add("8,192 bounds", with_bounds(8192), {}, Outcome{true, 0, 8192, 0, {}});
    add("8,193 bounds", with_bounds(8193), {4, paths_table, 0});
    /* the cart must go on at its one speed: the only chain runs along the whole route */
    add("a chain of over 3,000 items", with_late_end(1020, {quarter_metre, quarter_metre}, {least_speed, std::nullopt}), {}, Outcome{false});
    /* it may go at half its speed, and is late on half its way: each of its events there is late for the sake of the next. On a long way these are more
       than the plan's own bounds are swept for, and where it is late on nearly all of it, more than sweeps are made for */
    add("late on half the way", with_late_end(100, {quarter_metre, quarter_metre / 2}, {83334, std::nullopt}), {},
        Outcome{true, 307, 308, 153, {{300, 599996}, {301, 600996}, {306, 1199993}}});
    add("late on half of a long way", with_late_end(1000, {quarter_metre, quarter_metre / 2}, {8334, std::nullopt}), {},
        Outcome{true, 3007, 3008, 1503, {{3000, 5999520}, {3001, 6000520}, {3006, 11999041}}});
    add("late on nearly all of a long way", with_late_end(1020, {quarter_metre, quarter_metre / 2}, {6251, std::nullopt}), {},
        Outcome{true, 3067, 3068, 2942, {{3060, 7998721}, {3061, 7999721}, {3066, 15997443}}});
    /* each of 40 cells is visited by 10 carts, which makes 45 order bounds, or by 15, which makes 105; or all of 8 or of 14 carts go on at once, each to the
       cell before it, which makes 49 or 195 at every cell: mostly more bounds than 80, 294 and 580 moves let one expect */
    add("648 bounds from 80 moves", around(8, 1, 10, 0), {}, Outcome{true, 250, 648, 31, {{249, 40000}}});
    add("3,640 bounds from 294 moves", around(14, 1, 21, 0), {}, Outcome{true, 898, 3640, 64, {{897, 84000}}});
    add("2,980 bounds from 380 moves", around(20, 2, 19, 0), {}, Outcome{true, 1162, 2980, 58, {{1161, 76000}}});
    add("5,980 bounds from 580 moves", around(20, 2, 29, 100), {}, Outcome{true, 1762, 5980, 88, {{1761, 116000}}});
}

inline void add_sizes(std::vector<Known> &known) {
    auto add = [&](const std::string &name, const Tables &tables, const Refusal &refusal) {
        known.push_back({name, {tables, {{1, 0}}, {}, 0}, refusal, {}, {}});
    };
    Tables one = one_path("7");
    std::string roads = write_tables(with_roads(1024)).roads, cells = filled("", "7,8,9\r\n", 7 * 2731);
    add("roads of 65,536 bytes", {filled(roads, "5000,5001,3,1\r\n", 65536), one.carts, one.paths}, {4, roads_table, 1025});
    add("roads of 65,537 bytes", {filled(roads, "5000,5001,3,1\r\n", 65537), one.carts, one.paths}, {4, roads_table, 0});
    add("carts of 65,536 bytes", {one.roads, filled(one.carts, "1000,\r\n", 65536), one.paths}, {4, carts_table, 65});
    add("carts of 65,537 bytes", {one.roads, filled(one.carts, "1000,\r\n", 65537), one.paths}, {4, carts_table, 0});
    add("paths of 65,536 bytes", {one.roads, one.carts, filled("", "7\r\n", 65536)}, {4, paths_table, 8193});
    add("paths of 65,537 bytes", {one.roads, one.carts, filled("", "7\r\n", 65537)}, {4, paths_table, 0});
    add("8,193 path cells in 2,731 records", {one.roads, one.carts, cells}, {4, paths_table, 2731});
    add("8,190 path cells in 2,730 records", {one.roads, one.carts, cells.substr(7)}, {6, paths_table, 0});
    add("no byte at all", {"", "", ""}, {1, roads_table, 0});
    add("first lines alone", {roads_line, carts_line, ""}, {5, carts_table, 0});
    add("no path", {roads_line, one.carts, ""}, {6, paths_table, 0});
}

/* one record by itself, and the refusal's number */
struct Ranges {
    std::vector<Known> &known;

    void add(Table table, const std::string &record, unsigned number) {
        Tables tables = table == roads_table ? one_road(record) : table == carts_table ? one_cart(record) : one_path(record);
        Refusal refusal = number == 0 ? Refusal{} : Refusal{number, table, 1};
        known.push_back({"table " + std::to_string(table) + ", " + record, {tables, {}, {}, 0}, refusal, {}, {}});
    }
    void add_all(Table table, unsigned number, const std::vector<std::string> &records) {
        for (const std::string &record : records)
            add(table, record, number);
    }
};

inline void add_ranges(std::vector<Known> &known) {
    Ranges ranges{known};
    ranges.add_all(roads_table, 0, {"65534,0,3,1", "0,65534,100000000,49999999", "1,2,4,1", "1,2,5,2"});
    ranges.add_all(roads_table, 2,
                   {"65535,0,3,1", "0,65535,3,1", "1,2,2,1", "1,2,100000001,1", "1,2,3,0", "1,2,4,2", "1,2,100000000,50000000", "1,2,9999999999,1"});
    ranges.add_all(roads_table, 1, {"1,2,10000000000,1", "01,2,3,1", "1,2,3", "1,2,3,1,", ",2,3,1", "1,2,3,", "1,2,3:,1", "1,2,3/,1"});
    ranges.add(roads_table, "7,7,3,1", 3);
    ranges.add_all(carts_table, 0, {"1000,", "20000000,", "1000,1000", "20000000,1000", "20000000,20000000"});
    ranges.add_all(carts_table, 2, {"999,", "20000001,", "1000,999", "1000,1001", "20000000,20000001", "0,", "1000,0"});
    ranges.add_all(carts_table, 1, {",1000", ",", "1000", "1000,,", "1000,01000", "1000,10000000000"});
    ranges.add(paths_table, "65534", 0);
    ranges.add_all(paths_table, 2, {"65535", "9999999999"});
    ranges.add_all(paths_table, 1, {"", ",", "7,", "10000000000", "00", "7\r"});
}

/* so many places from one on without a zero */
inline Changes no_zero(size_t from, size_t count) {
    Changes changes;
    for (size_t i = 0; i < count; i++)
        changes.push_back({from + i, ','});
    return changes;
}

/* the slice that a load of these tables would leave, if it took them */
inline Changes all_of(const Plan &plan) {
    Changes changes;
    Bytes bytes = slice_of(write_tables(plan), {}, plan_need);
    for (size_t i = 0; i < bytes.size(); i++)
        changes.push_back({i, bytes[i]});
    return changes;
}

/* plan slices whose parts have no zero behind what they hold, and plan slices with tables that keep the last limits or pass them */
inline void add_slices(std::vector<Known> &known) {
    Case filled{one_path("7"), {}, {no_zero(0, plan_need), no_zero(log_carts, most_events), no_zero(log_times, 8 * most_events)}, 0};
    for (size_t table = 0; table < 3; table++)
        filled.changes.push_back(no_zero(table * most_bytes, most_bytes));
    known.push_back({"a plan slice without a zero", filled, {}, {}, {}});
    Case written{one_path("7"), {}, {all_of(with_bounds(8192)), all_of(with_bounds(8193)), all_of(apart({454, 454, 456}, 457)), all_of(apart({682, 682}, 683))}, 0};
    known.push_back({"tables at the last limits written by another hand", written, {}, {}, {}});
}

inline std::vector<Known> at_limits() {
    std::vector<Known> known;
    add_slices(known);
    add_counts(known);
    add_sizes(known);
    add_ranges(known);
    return known;
}
