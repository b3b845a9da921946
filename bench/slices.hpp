/* Hegtalim's side: the slices that are lent to its calls, with a plan held in one of them. */
#pragma once

#include "../include/hegtalim.h"
#include "../tests/compare/tables.hpp"

class Slices {
    std::vector<uint8_t> plan, after_load, times_slice, chain_bounds, chain_directions;
    uint64_t loaded;

    static const uint8_t *bytes(const std::string &table) { return reinterpret_cast<const uint8_t *>(table.data()); }

  public:
    explicit Slices(const Tables &tables)
        : plan(HEGTALIM_PLAN_NEED), times_slice(HEGTALIM_TIMES_NEED), chain_bounds(HEGTALIM_CHAIN_BOUNDS_NEED),
          chain_directions(HEGTALIM_CHAIN_DIRECTIONS_NEED) {
        loaded = hegtalim_load(bytes(tables.roads), tables.roads.size(), bytes(tables.carts), tables.carts.size(), bytes(tables.paths), tables.paths.size(),
                               plan.data(), plan.size());
        after_load = plan;
    }

    bool accepted() const { return loaded == 0; }

    uint64_t timetable() {
        return hegtalim_timetable(plan.data(), plan.size(), times_slice.data(), times_slice.size(), chain_bounds.data(), chain_bounds.size(),
                                  chain_directions.data(), chain_directions.size());
    }

    /* Judging alone: a report of a cart that no plan has. The order of refusals is 14, 10, 11, so the whole plan slice is judged before the report is refused
       with 11, and nothing is changed. The order bounds are counted, which a timetable does by writing them. */
    uint64_t judge() { return hegtalim_report(plan.data(), plan.size(), HEGTALIM_MOST_CARTS + 1, 0); }

    bool unchanged() const { return plan == after_load; }

    /* the time of an event in the times slice, eight bytes, least first */
    int64_t time(size_t event) const {
        uint64_t time = 0;
        for (size_t i = 8; i-- > 0;)
            time = time << 8 | times_slice[8 * event + i];
        return static_cast<int64_t>(time);
    }

    /* so that times of an earlier call can't be taken for those of the next */
    void spoil_times() { times_slice.assign(times_slice.size(), 0xff); }
};
