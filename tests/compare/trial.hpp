/* One case tried on the library: each call's answer and every lent byte against what document 01 says. */
#pragma once

#include <stdexcept>

#include "../../include/hegtalim.h"
#include "chain.hpp"
#include "held.hpp"
#include "solver.hpp"

static_assert(plan_need == HEGTALIM_PLAN_NEED && 8 * most_events == HEGTALIM_TIMES_NEED && 2 * most_events == HEGTALIM_CHAIN_BOUNDS_NEED &&
                  most_events == HEGTALIM_CHAIN_DIRECTIONS_NEED && most_time == HEGTALIM_MOST_TIME,
              "the header's needs are those of document 01's limits");

/* a byte of the plan slice written by another hand */
struct Change {
    size_t place;
    uint8_t byte;
};

using Changes = std::vector<Change>;

/* what is tried: a load, reports with timetables between them, then changes of the plan slice as it is then, each list of them by itself; the slice may
   be longer than it need be */
struct Case {
    Tables tables;
    std::vector<Report> reports;
    std::vector<Changes> changes;
    size_t more = 0;
};

/* what the library did and document 01 does not say */
struct Difference : std::runtime_error {
    using std::runtime_error::runtime_error;
};

inline void must(bool holds, const std::string &otherwise) {
    if (!holds)
        throw Difference(otherwise);
}

inline std::string in_words(uint64_t answer) {
    return "refusal " + std::to_string(HEGTALIM_REFUSAL(answer)) + ", table " + std::to_string(HEGTALIM_TABLE(answer)) + ", value " +
           std::to_string(HEGTALIM_VALUE(answer));
}

inline void must_answer(const char *call, uint64_t answer, unsigned refusal, unsigned table, uint64_t value) {
    uint64_t due = refusal | table << 8 | value << 32;
    must(answer == due, std::string(call) + ": " + in_words(answer) + "; due: " + in_words(due));
}

/* from so many events on, times are not found after every report */
constexpr size_t many_events = 250;

/* how often each call came to each refusal */
class Met {
    std::map<std::pair<std::string, unsigned>, unsigned> times;

  public:
    void add(const std::string &call, unsigned refusal) { times[{call, refusal}]++; }
    unsigned count(const std::string &call, unsigned refusal) const {
        auto found = times.find({call, refusal});
        return found == times.end() ? 0 : found->second;
    }
};

/* a case, call by call: the slice, and what document 01 says it holds */
class Trial {
    Case tried;
    Met &met;
    Lent plan;
    Bytes before; /* of the plan slice */
    std::optional<Held> held;

    /* ---- loads */

    static Bytes bytes_of(const std::string &table) { return Bytes(table.begin(), table.end()); }

    uint64_t load_into(Lent &slice) {
        Lent roads(bytes_of(tried.tables.roads)), carts(bytes_of(tried.tables.carts)), paths(bytes_of(tried.tables.paths));
        uint64_t answer = hegtalim_load(roads.data(), roads.size(), carts.data(), carts.size(), paths.data(), paths.size(), slice.data(), slice.size());
        must(roads.holds(bytes_of(tried.tables.roads)) && carts.holds(bytes_of(tried.tables.carts)) && paths.holds(bytes_of(tried.tables.paths)),
             "load: a table has changed");
        return answer;
    }

    void load_short() {
        Bytes content = unlike_any(plan_need - 1);
        Lent slice(content);
        must_answer("load, a plan slice one byte short", load_into(slice), 14, 0, 0);
        must(slice.holds(content), "load: 14, and the plan slice has changed");
        met.add("load", 14);
    }

    /* a refused load leaves zeros */
    void load() {
        Reading reading = read_tables(tried.tables);
        uint64_t answer = load_into(plan);
        must_answer("load", answer, reading.refusal.number, reading.refusal.table, reading.refusal.record);
        met.add("load", reading.refusal.number);
        if (reading.refusal.number == 0)
            held.emplace(tried.tables, reading.network);
        before = held ? held->slice(plan.size()) : Bytes(plan.size());
        must(plan.holds(before), "load: the plan slice is not what it must be after " + in_words(answer));
    }

    /* ---- timetables */

    /* the slices that a timetable writes, one of them so many bytes shorter than its need */
    struct Written {
        Bytes times_before, numbers_before, directions_before;
        Lent times, numbers, directions;

        explicit Written(size_t less_times = 0, size_t less_numbers = 0, size_t less_directions = 0)
            : times_before(unlike_any(8 * most_events - less_times)), numbers_before(unlike_any(2 * most_events - less_numbers)),
              directions_before(unlike_any(most_events - less_directions)), times(times_before), numbers(numbers_before), directions(directions_before) {}

        uint64_t ask(uint8_t *plan, size_t length) {
            return hegtalim_timetable(plan, length, times.data(), times.size(), numbers.data(), numbers.size(), directions.data(), directions.size());
        }
        bool kept() const { return times.holds(times_before) && numbers.holds(numbers_before) && directions.holds(directions_before); }
    };

    void timetable_short() {
        for (unsigned shorter = 0; shorter < 4; shorter++) {
            Written written(shorter == 0, shorter == 1, shorter == 2);
            must_answer("timetable, a slice one byte short", written.ask(plan.data(), shorter == 3 ? plan_need - 1 : plan.size()), 14, 0, 0);
            must(written.kept() && plan.holds(before), "timetable: 14, and a slice has changed");
            met.add("timetable", 14);
        }
    }

    static void check_times(const Graph::Solution &solution, uint64_t answer, const Written &written) {
        must_answer("timetable", answer, 0, 0, solution.passes);
        Bytes times = written.times_before;
        for (size_t event = 0; event < solution.times.size(); event++)
            put_number(times, 8 * event, 8, static_cast<uint64_t>(solution.times[event]));
        must(written.times.holds(times), "timetable: a time differs, or another place has changed");
        must(written.numbers.holds(written.numbers_before) && written.directions.holds(written.directions_before), "timetable: a chain slice has changed");
    }

    /* which chain comes is free; behind it and in the times nothing may change */
    static void check_chain(const std::vector<Bound> &bounds, uint64_t answer, const Written &written) {
        size_t length = HEGTALIM_VALUE(answer);
        must_answer("timetable", answer, 13, 0, length);
        must(length <= most_events, "timetable: a chain longer than its slices");
        Bytes numbers = written.numbers_before, directions = written.directions_before, got = written.numbers.slice(), ways = written.directions.slice();
        std::vector<Item> items;
        for (size_t i = 0; i < length; i++) {
            items.push_back({get_number(got, 2 * i, 2), ways[i]});
            put_number(numbers, 2 * i, 2, items[i].number);
            directions[i] = ways[i];
        }
        std::string why = no_chain(bounds, items);
        must(why.empty(), "timetable: 13 with " + why);
        must(written.times.holds(written.times_before), "timetable: 13, and the times slice has changed");
        must(written.numbers.holds(numbers) && written.directions.holds(directions), "timetable: 13, and a place behind the chain has changed");
    }

    void timetable() {
        Written written;
        uint64_t answer = written.ask(plan.data(), plan.size());
        must(plan.holds(before), "timetable: the plan slice has changed");
        met.add("timetable", HEGTALIM_REFUSAL(answer));
        if (held && !held->log.empty())
            met.add("timetable with reports", HEGTALIM_REFUSAL(answer));
        if (!held) {
            must_answer("timetable", answer, 10, 0, 0);
            must(written.kept(), "timetable: 10, and a slice has changed");
            return;
        }
        std::vector<Bound> bounds = held->book.bounds(held->network);
        Graph::Solution solution = solve(held->network.events.size(), bounds);
        if (solution.exists)
            check_times(solution, answer, written);
        else
            check_chain(bounds, answer, written);
    }

    /* ---- reports */

    void report_short() {
        Lent slice(Bytes(before.begin(), before.begin() + plan_need - 1));
        must_answer("report, a plan slice one byte short", hegtalim_report(slice.data(), slice.size(), 1, most_time), 14, 0, 0);
        must(slice.holds(Bytes(before.begin(), before.begin() + plan_need - 1)), "report: 14, and the plan slice has changed");
        met.add("report", 14);
    }

    void report(const Report &report) {
        uint64_t answer = hegtalim_report(plan.data(), plan.size(), report.cart, report.time);
        unsigned due = held ? held->report(report) : 10;
        must_answer("report", answer, due, 0, 0);
        if (due == 0)
            before = held->slice(plan.size());
        must(plan.holds(before), "report: the plan slice is not what it must be after " + in_words(due));
        met.add("report", due);
    }

    /* with many events a solution for each report takes long: then after every eighth, and the last */
    bool is_timed(size_t report) const { return held->network.events.size() < many_events || report % 8 == 7 || report + 1 == tried.reports.size(); }

    void report_all() {
        for (size_t i = 0; i < tried.reports.size(); i++) {
            report(tried.reports[i]);
            if (held && is_timed(i))
                timetable();
        }
    }

    /* ---- changes by another hand: a 10 where no load and reports leave those bytes */

    void change_slice(const Changes &changes) {
        for (const Change &change : changes)
            before.at(change.place) = change.byte;
        plan.put(before);
        held = held_in(before);
        met.add("changed slice", held ? 0 : 10);
        timetable();
        for (uint64_t cart = 1; cart <= 2; cart++)
            report({cart, held ? held->book.clock() : 0});
    }

  public:
    Trial(const Case &tried, Met &met) : tried(tried), met(met), plan(unlike_any(plan_need + tried.more)), before(unlike_any(plan_need + tried.more)) {}

    /* throws a Difference */
    void run() {
        load_short();
        load();
        timetable_short();
        report_short();
        timetable();
        report_all();
        Bytes left = before;
        for (const Changes &changes : tried.changes) {
            before = left;
            change_slice(changes);
        }
    }
};

/* what differs in a case; empty where nothing does */
inline std::string difference(const Case &tried, Met &met) {
    try {
        Trial(tried, met).run();
    } catch (const Difference &found) {
        return found.what();
    }
    return "";
}
