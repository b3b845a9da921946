/* The test's own reading of the three tables: document 01, "The three tables" and "Turned down because of the input". Nothing of the library is used. */
#pragma once

#include <algorithm>
#include <string_view>

#include "network.hpp"

/* number 0: accepted */
struct Refusal {
    unsigned number = 0, table = 0;
    uint64_t record = 0;

    bool operator==(const Refusal &other) const { return number == other.number && table == other.table && record == other.record; }
};

enum Table : unsigned { no_table = 0, roads_table = 1, carts_table = 2, paths_table = 3 };

/* ---- the layout */

/* the records of a table: each ends in CR LF, the last may end without it; zero bytes hold no record */
inline std::vector<std::string_view> records_of(std::string_view table) {
    std::vector<std::string_view> records;
    while (!table.empty()) {
        size_t end = table.find("\r\n");
        records.push_back(table.substr(0, end));
        table = end == std::string_view::npos ? std::string_view() : table.substr(end + 2);
    }
    return records;
}

inline std::vector<std::string_view> fields_of(std::string_view record) {
    std::vector<std::string_view> fields;
    for (;;) {
        size_t comma = record.find(',');
        fields.push_back(record.substr(0, comma));
        if (comma == std::string_view::npos)
            return fields;
        record = record.substr(comma + 1);
    }
}

/* "0", or up to ten decimal digits of which the first is not 0 */
inline std::optional<uint64_t> number_of(std::string_view field) {
    if (field.empty() || field.size() > 10 || (field[0] == '0' && field.size() > 1))
        return std::nullopt;
    uint64_t number = 0;
    for (char digit : field) {
        if (digit < '0' || digit > '9')
            return std::nullopt;
        number = 10 * number + static_cast<uint64_t>(digit - '0');
    }
    return number;
}

/* all fields as numbers, where they are so many and have that form */
inline std::optional<std::vector<uint64_t>> numbers_of(const std::vector<std::string_view> &fields, size_t count) {
    std::vector<uint64_t> numbers;
    for (std::string_view field : fields)
        if (std::optional<uint64_t> number = number_of(field))
            numbers.push_back(*number);
    if (fields.size() != count || numbers.size() != count)
        return std::nullopt;
    return numbers;
}

inline bool within(uint64_t number, uint64_t least, uint64_t most) { return least <= number && number <= most; }

/* ---- one record of each table: 1, 2, 3, 4 in this order, 0 where it is taken */

inline unsigned read_road(std::string_view record, Plan &plan, Roads &roads) {
    std::optional<std::vector<uint64_t>> n = numbers_of(fields_of(record), 4);
    if (!n)
        return 1;
    Road road{(*n)[0], (*n)[1], (*n)[2], (*n)[3]};
    if (road.from > most_cell || road.to > most_cell || !within(road.length, 3, most_length) || road.margin < 1 || 2 * road.margin >= road.length)
        return 2;
    if (road.from == road.to || !roads.add(road))
        return 3;
    plan.roads.push_back(road);
    return plan.roads.size() > most_roads ? 4 : 0;
}

inline unsigned read_cart(std::string_view record, Plan &plan) {
    std::vector<std::string_view> fields = fields_of(record);
    bool no_slowest = fields.size() == 2 && fields[1].empty();
    if (no_slowest)
        fields.pop_back();
    std::optional<std::vector<uint64_t>> n = numbers_of(fields, no_slowest ? 1 : 2);
    if (!n)
        return 1;
    Cart cart{(*n)[0], no_slowest ? std::nullopt : std::optional((*n)[1])};
    if (!within(cart.fastest, least_speed, most_speed) || (cart.slowest && !within(*cart.slowest, least_speed, cart.fastest)))
        return 2;
    plan.carts.push_back(cart);
    return plan.carts.size() > most_carts ? 4 : 0;
}

inline unsigned read_path(std::string_view record, Plan &plan) {
    std::vector<std::string_view> fields = fields_of(record);
    std::optional<std::vector<uint64_t>> path = numbers_of(fields, plan.paths.empty() ? fields.size() : plan.paths[0].size());
    if (!path)
        return 1;
    if (std::any_of(path->begin(), path->end(), [](uint64_t cell) { return cell > most_cell; }))
        return 2;
    plan.paths.push_back(*path);
    return path->size() > most_steps || plan.paths.size() * path->size() > most_path_cells ? 4 : 0;
}

/* ---- tables */

/* a table with its first line, if it has one; `read` takes a record */
template <class Read> Refusal read_table(std::string_view bytes, Table table, const std::string *first_line, Read read) {
    if (bytes.size() > most_bytes)
        return {4, table, 0};
    std::vector<std::string_view> records = records_of(bytes);
    size_t first = first_line == nullptr ? 0 : 1;
    if (first_line != nullptr && (records.empty() || records[0] != *first_line))
        return {1, table, 0};
    for (size_t i = first; i < records.size(); i++)
        if (unsigned number = read(records[i]))
            return {number, table, i + 1 - first};
    return {};
}

/* 7: the lowest record that leaves the roads */
inline Refusal off_roads(const Plan &plan, const Roads &roads) {
    for (size_t j = 0; j < plan.paths.size(); j++) {
        const std::vector<uint64_t> &path = plan.paths[j];
        for (size_t t = 1; t < path.size(); t++)
            if (path[t - 1] != path[t] && roads.find(path[t - 1], path[t]) == nullptr)
                return {7, paths_table, j + 1};
    }
    return {};
}

/* 8 and 9: the earliest step, then the lowest higher record of a pair that meets there */
template <class Meet> Refusal collisions(const Plan &plan, unsigned number, size_t first_step, Meet meet) {
    for (size_t t = first_step; t < plan.paths[0].size(); t++)
        for (size_t higher = 1; higher < plan.paths.size(); higher++)
            for (size_t lower = 0; lower < higher; lower++)
                if (meet(plan.paths[lower], plan.paths[higher], t))
                    return {number, paths_table, higher + 1};
    return {};
}

using Path = std::vector<uint64_t>;

inline bool same_cell(const Path &a, const Path &b, size_t t) { return a[t] == b[t]; }
inline bool exchange(const Path &a, const Path &b, size_t t) { return a[t] != a[t - 1] && a[t] == b[t - 1] && b[t] == a[t - 1]; }

/* ---- all three */

struct Reading {
    Refusal refusal;
    Plan plan;
    Network network; /* of an accepted plan */
};

/* 7, 8, 9, then 4 for events and for bounds */
inline Refusal judge_paths(const Roads &roads, Reading &reading) {
    const Plan &plan = reading.plan;
    Refusal refusal = off_roads(plan, roads);
    if (refusal.number == 0)
        refusal = collisions(plan, 8, 0, same_cell);
    if (refusal.number == 0)
        refusal = collisions(plan, 9, 1, exchange);
    if (refusal.number != 0)
        return refusal;
    reading.network = network_of(plan);
    if (reading.network.events.size() > most_events || reading.network.bounds.size() > most_bounds)
        return {4, paths_table, 0};
    return {};
}

inline Refusal read_all(const Tables &tables, Reading &reading) {
    Plan &plan = reading.plan;
    Roads roads;
    Refusal refusal = read_table(tables.roads, roads_table, &roads_line, [&](std::string_view record) { return read_road(record, plan, roads); });
    if (refusal.number != 0)
        return refusal;
    refusal = read_table(tables.carts, carts_table, &carts_line, [&](std::string_view record) { return read_cart(record, plan); });
    if (refusal.number != 0)
        return refusal;
    if (plan.carts.empty())
        return {5, carts_table, 0};
    refusal = read_table(tables.paths, paths_table, nullptr, [&](std::string_view record) { return read_path(record, plan); });
    if (refusal.number != 0)
        return refusal;
    if (plan.paths.size() != plan.carts.size())
        return {6, paths_table, 0};
    return judge_paths(roads, reading);
}

inline Reading read_tables(const Tables &tables) {
    Reading reading;
    reading.refusal = read_all(tables, reading);
    return reading;
}
