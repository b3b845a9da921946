/* Cases whose outcome is known beforehand: they test the test's own reading too. */
#pragma once

#include "trial.hpp"

/* a timetable: whether there are times, then what is said of them; 0 says nothing */
struct Outcome {
    bool exist;
    size_t events = 0, bounds = 0;
    unsigned passes = 0;
    std::map<unsigned, int64_t> times = {}; /* by event */
};

struct Known {
    std::string name;
    Case tried;
    Refusal refusal;                /* of the load */
    std::vector<unsigned> answers;  /* of the reports, where they are said */
    std::optional<Outcome> outcome; /* of the timetable after them, where it is said */
};

inline std::string misread_times(const Outcome &outcome, const Network &network, const Graph::Solution &solution) {
    if (solution.exists != outcome.exist)
        return "times where there are none, or none where there are";
    if ((outcome.events != 0 && outcome.events != network.events.size()) || (outcome.bounds != 0 && outcome.bounds != network.bounds.size()))
        return std::to_string(network.events.size()) + " events, " + std::to_string(network.bounds.size()) + " bounds";
    if (outcome.passes != 0 && outcome.passes != solution.passes)
        return std::to_string(solution.passes) + " passes";
    for (const auto &[event, time] : outcome.times)
        if (solution.times.at(event) != time)
            return "event " + std::to_string(event) + " at " + std::to_string(solution.times[event]);
    return "";
}

/* what the test's reading comes to and should not; empty where it is right */
inline std::string misread(const Known &known) {
    Reading reading = read_tables(known.tried.tables);
    if (!(reading.refusal == known.refusal))
        return "refusal " + std::to_string(reading.refusal.number) + ", table " + std::to_string(reading.refusal.table) + ", record " +
               std::to_string(reading.refusal.record);
    if (reading.refusal.number != 0)
        return "";
    Held held(known.tried.tables, reading.network);
    for (size_t i = 0; i < known.tried.reports.size(); i++) {
        unsigned answer = held.report(known.tried.reports[i]);
        if (i < known.answers.size() && answer != known.answers[i])
            return "report " + std::to_string(i + 1) + " answered " + std::to_string(answer);
    }
    if (!known.outcome)
        return "";
    return misread_times(*known.outcome, held.network, solve(held.network.events.size(), held.book.bounds(held.network)));
}
