/* A plan with everything that is timed on it, and the checks that all sides come to the same. */
#pragma once

#include "../tests/compare/book.hpp"
#include "../tests/compare/reading.hpp"
#include "boost.hpp"
#include "checks.hpp"
#include "measure.hpp"
#include "plans.hpp"
#include "slices.hpp"

/* a line of a table, a point of each line of the plot */
struct Row {
    std::string name;
    size_t size, events, bounds;
    unsigned passes;
    Times times;
};

class Subject {
    std::string name;
    size_t size, events, bounds;
    Slices slices;
    Graph lemon_graph;
    BoostGraph boost_graph;

    /* what the last calls came to */
    uint64_t answer = 0, judged = 0;
    Graph::Solution lemon{};
    std::vector<int64_t> boost;

    Parted timetable; /* its part is judging */
    Side lemon_side, boost_side;

    /* in how many repetitions a side came to something else */
    unsigned refused = 0, other_times = 0, other_passes = 0, other_boost = 0, judged_wrongly = 0;

    bool same_times(const std::vector<int64_t> &times) const {
        bool same = times.size() == events;
        for (size_t event = 0; same && event < events; event++)
            same = slices.time(event) == times[event];
        return same;
    }

    void compare() {
        refused += HEGTALIM_REFUSAL(answer) != HEGTALIM_ACCEPTED;
        other_times += !same_times(lemon.times);
        other_passes += HEGTALIM_VALUE(answer) != lemon.passes;
        other_boost += !same_times(boost);
        judged_wrongly += judged != HEGTALIM_NO_POINT || !slices.unchanged();
    }

  public:
    /* of a plan that is accepted */
    Subject(const Measured &plan, const Network &network)
        : name(plan.name), size(plan.size), events(network.events.size()), bounds(network.bounds.size()), slices(plan.tables),
          lemon_graph(events, Book(network).bounds(network)), boost_graph(events, Book(network).bounds(network)),
          timetable([this] { answer = slices.timetable(); }, [this] { judged = slices.judge(); }), lemon_side([this] { lemon = lemon_graph.solve(); }),
          boost_side([this] { boost = boost_graph.solve(); }) {}
    Subject(const Subject &) = delete;

    void calibrate() {
        timetable.calibrate();
        lemon_side.calibrate();
        boost_side.calibrate();
    }

    /* all sides in turn; the last answer of each is checked */
    void repeat() {
        slices.spoil_times();
        timetable.repeat();
        lemon_side.repeat();
        boost_side.repeat();
        compare();
    }

    void check(Checks &checks) const {
        checks.that(slices.accepted() && refused == 0, name + ": a call of Hegtalim is refused");
        checks.that(judged_wrongly == 0, name + ": the call that only judges is not refused with 11, or changes the plan slice");
        checks.that(other_times == 0, name + ": the times are not LEMON's");
        checks.that(other_passes == 0, name + ": the passes are not as many as LEMON's rounds");
        checks.that(other_boost == 0, name + ": the times are not Boost's");
    }

    Row row() const {
        return {name,   size,         events,
                bounds, lemon.passes, {timetable.whole_time(), timetable.part_time(), timetable.rest_time(), lemon_side.time(), boost_side.time()}};
    }
};
