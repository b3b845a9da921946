/* A plan that is held: what a load and the reports since leave in a plan slice (docs/CALLS.md), written and read by the test's own hand. */
#pragma once

#include "book.hpp"
#include "lent.hpp"
#include "reading.hpp"

constexpr size_t log_carts = 3 * most_bytes, log_times = log_carts + most_events, plan_need = log_times + 8 * most_events;

/* the tables, each followed by zeros; the reports' carts; their times; zeros to the end */
inline Bytes slice_of(const Tables &tables, const std::vector<Report> &log, size_t length) {
    Bytes bytes(length);
    std::copy(tables.roads.begin(), tables.roads.end(), bytes.begin());
    std::copy(tables.carts.begin(), tables.carts.end(), bytes.begin() + most_bytes);
    std::copy(tables.paths.begin(), tables.paths.end(), bytes.begin() + 2 * most_bytes);
    for (size_t i = 0; i < log.size(); i++) {
        put_number(bytes, log_carts + i, 1, log[i].cart);
        put_number(bytes, log_times + 8 * i, 8, log[i].time);
    }
    return bytes;
}

/* what document 01 says of a plan: its network, and the book after the reports */
struct Held {
    Tables tables;
    Network network;
    Book book;
    std::vector<Report> log;

    Held(const Tables &tables, const Network &network) : tables(tables), network(network), book(network) {}

    unsigned report(const Report &report) {
        unsigned refusal = book.report(report);
        if (refusal == 0)
            log.push_back(report);
        return refusal;
    }

    Bytes slice(size_t length) const { return slice_of(tables, log, length); }
};

/* the bytes of a table: no accepted one has a zero */
inline std::string table_in(const Bytes &bytes, size_t place) {
    auto begin = bytes.begin() + static_cast<long>(place), end = begin + most_bytes;
    return std::string(begin, std::find(begin, end, 0));
}

/* the plan that these bytes hold, if a load and reports leave them */
inline std::optional<Held> held_in(const Bytes &bytes) {
    Tables tables{table_in(bytes, 0), table_in(bytes, most_bytes), table_in(bytes, 2 * most_bytes)};
    Reading reading = read_tables(tables);
    if (reading.refusal.number != 0)
        return std::nullopt;
    Held held(tables, reading.network);
    for (size_t i = 0; i < most_events && bytes[log_carts + i] != 0; i++)
        if (held.report({bytes[log_carts + i], get_number(bytes, log_times + 8 * i, 8)}) != 0)
            return std::nullopt;
    return held.slice(bytes.size()) == bytes ? std::optional(held) : std::nullopt;
}
