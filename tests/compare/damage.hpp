/* Damage: tables and plan slices changed a little, so that most are refused and some are just not. */
#pragma once

#include "cases.hpp"

/* ---- bytes of a table */

inline char random_byte(Random &random) {
    static const std::string likely = ",\r\n0123456789/: -+.\"\t;xX"; /* '/' and ':' stand beside the digits */
    return random.chance(80) ? likely[random.below(likely.size())] : static_cast<char>(random.below(256));
}

inline void damage_byte(Random &random, std::string &table) {
    size_t place = random.below(table.size() + 1);
    switch (random.below(5)) {
    case 0:
        table.insert(place, 1, random_byte(random));
        break;
    case 1:
        table.erase(std::min(place, table.size()), 1);
        break;
    case 2:
        table.insert(place, table.substr(place, 1));
        break;
    case 3:
        table.resize(place);
        break;
    default:
        if (place < table.size())
            table[place] = random_byte(random);
    }
}

/* ---- fields and records */

using Records = std::vector<std::vector<std::string>>;

inline Records split(const std::string &table) {
    Records records;
    for (std::string_view record : records_of(table)) {
        records.emplace_back();
        for (std::string_view field : fields_of(record))
            records.back().emplace_back(field);
    }
    return records;
}

inline std::string unite(const Records &records) {
    std::string table;
    for (const std::vector<std::string> &record : records) {
        for (size_t i = 0; i < record.size(); i++)
            table += (i == 0 ? "" : ",") + record[i];
        table += "\r\n";
    }
    return table;
}

/* the ends of the ranges and one past them, forms that are no number, and what stands elsewhere in the table */
inline std::string random_field(Random &random, const Records &records) {
    static const std::vector<std::string> fields = {"",           "0",          "1",          "2",           "3",
                                                    "00",         "01",         "65534",      "65535",       "65536",
                                                    "100000000",  "100000001",  "50000000",   "49999999",    "999",
                                                    "1000",       "20000000",   "20000001",   "4294967295",  "4294967296",
                                                    "4294967297", "9999999999", "1000000000", "10000000000", "18446744073709551617",
                                                    "-1",         "+1",         "1.0",        " 1",          "1 ",
                                                    "\"1\"",      "1e3",        "0x1",        "\r",          "\n",
                                                    "fastest"};
    if (random.chance(60))
        return random.one_of(fields);
    const std::vector<std::string> &record = random.one_of(records);
    return random.one_of(record);
}

inline void damage_field(Random &random, Records &records) {
    std::vector<std::string> &record = records[random.below(records.size())];
    size_t place = random.below(record.size());
    switch (random.below(4)) {
    case 0:
        record.erase(record.begin() + static_cast<long>(place));
        if (record.empty())
            record.emplace_back();
        break;
    case 1:
        record.insert(record.begin() + static_cast<long>(place), std::string(record[place]));
        break;
    case 2:
        std::swap(record[place], record[random.below(record.size())]);
        break;
    default:
        record[place] = random_field(random, records);
    }
}

inline void damage_record(Random &random, Records &records) {
    size_t place = random.below(records.size());
    auto at = records.begin() + static_cast<long>(place);
    switch (random.below(4)) {
    case 0:
        records.erase(at);
        break;
    case 1:
        records.insert(at, std::vector<std::string>(records[place]));
        break;
    case 2:
        std::swap(records[place], records[random.below(records.size())]);
        break;
    default:
        records.insert(at, {""});
    }
}

/* all of a table, or all but its first line, lost or doubled */
inline void damage_whole(Random &random, std::string &table) {
    size_t line = std::min(table.size(), table.find("\r\n") == std::string::npos ? table.size() : table.find("\r\n") + 2);
    switch (random.below(3)) {
    case 0:
        table.clear();
        break;
    case 1:
        table.resize(line);
        break;
    default:
        table += table.substr(line);
    }
}

/* one table, in one way */
inline void damage_table(Random &random, std::string &table) {
    Records records = split(table);
    unsigned way = static_cast<unsigned>(random.below(12));
    if (way < 3 || records.empty()) {
        damage_byte(random, table);
        return;
    }
    if (way == 3) {
        damage_whole(random, table);
        return;
    }
    bool ended = table.size() >= 2 && table.compare(table.size() - 2, 2, "\r\n") == 0;
    if (way < 9)
        damage_field(random, records);
    else if (way < 11)
        damage_record(random, records);
    else
        ended = !ended;
    table = unite(records);
    if (!ended && !table.empty())
        table.resize(table.size() - 2);
}

/* a cart is put where another is at a step, or stands in its way and exchanges cells with it */
inline void damage_walk(Random &random, std::string &paths) {
    Records records = split(paths);
    if (records.empty())
        return;
    std::vector<std::string> &path = records[random.below(records.size())];
    const std::vector<std::string> other = random.one_of(records);
    size_t step = random.below(std::min(path.size(), other.size()));
    auto at = path.begin() + static_cast<long>(step);
    if (step > 0 && other[step - 1] != other[step] && random.chance(70)) {
        std::fill(path.begin(), at, other[step]);
        std::fill(at, path.end(), other[step - 1]);
    } else if (random.chance(50)) {
        std::fill(at, path.end(), other[step]);
    } else {
        *at = other[step];
    }
    paths = unite(records);
}

inline void damage_tables(Random &random, Tables &tables) {
    if (random.chance(30)) {
        damage_walk(random, tables.paths);
        return;
    }
    std::string *all[] = {&tables.roads, &tables.carts, &tables.paths};
    for (size_t i = 0, n = random.chance(70) ? 1 : random.between(2, 3); i < n; i++)
        damage_table(random, *all[random.below(3)]);
}

/* ---- plan slices */

/* where a change tells: in the tables, at their ends, in the log, at its end, anywhere */
inline size_t random_place(Random &random, const Case &of, size_t log_length) {
    size_t table = random.below(3), length = table == 0 ? of.tables.roads.size() : table == 1 ? of.tables.carts.size() : of.tables.paths.size();
    switch (random.below(8)) {
    case 0:
    case 1:
        return table * most_bytes + random.below(length + 2);
    case 2:
        return log_carts + random.below(log_length + 2);
    case 3:
        return log_times + random.below(8 * log_length + 16);
    case 4:
        return random.one_of<size_t>(
            {most_bytes - 1, most_bytes, 2 * most_bytes - 1, 3 * most_bytes - 1, log_times - 1, plan_need - 1, plan_need + of.more - 1});
    default:
        return random.below(plan_need + of.more);
    }
}

inline uint8_t random_change(Random &random, uint8_t was) {
    switch (random.below(5)) {
    case 0:
        return 0;
    case 1:
        return static_cast<uint8_t>(was + 1);
    case 2:
        return static_cast<uint8_t>(was ^ 1 << random.below(8));
    case 3:
        return static_cast<uint8_t>(random_byte(random));
    default:
        return static_cast<uint8_t>(random.below(256));
    }
}

/* a few bytes of a slice at a time */
inline Changes random_changes(Random &random, const Case &of, const Held &held, const Bytes &bytes) {
    Changes changes;
    for (size_t i = 0, n = random.chance(70) ? 1 : random.between(2, 3); i < n; i++) {
        size_t place = random_place(random, of, held.log.size());
        changes.push_back({place, random_change(random, bytes[place])});
    }
    return changes;
}

/* some changes of the slice that a plan and its reports leave */
inline void add_changes(Random &random, Case &to, size_t count) {
    Reading reading = read_tables(to.tables);
    if (reading.refusal.number != 0)
        return;
    Held held(to.tables, reading.network);
    for (const Report &report : to.reports)
        held.report(report);
    Bytes bytes = held.slice(plan_need + to.more);
    for (size_t i = 0; i < count; i++)
        to.changes.push_back(random_changes(random, to, held, bytes));
}
