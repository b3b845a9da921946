/* One input of a coverage-guided fuzzer, on standard input or, to see what differs, in a file: roads, carts and paths, each ended by a zero byte, then
   reports, a cart and a time each. Two archives are linked: the calls of an instrumented one, from the same sources, are only made so that the fuzzer sees
   which of its branches an input takes; the calls of the library as it is built for users are compared, as tests/compare does. */
#include <cstdio>
#include <cstdlib>
#include <unistd.h>

#include "../compare/folder.hpp"

extern "C" {
decltype(hegtalim_load) guide_load;
decltype(hegtalim_report) guide_report;
decltype(hegtalim_timetable) guide_timetable;
}

static const uint8_t *data_of(const std::string &table) { return reinterpret_cast<const uint8_t *>(table.data()); }

/* at most 16 reports, so that an input is soon done with */
static Case case_of(const std::string &bytes) {
    Case made;
    std::istringstream input(bytes);
    std::getline(input, made.tables.roads, '\0');
    std::getline(input, made.tables.carts, '\0');
    std::getline(input, made.tables.paths, '\0');
    for (Report report; made.reports.size() < 16 && input >> report.cart >> report.time;)
        made.reports.push_back(report);
    return made;
}

static void guide(const Case &tried) {
    static uint8_t plan[HEGTALIM_PLAN_NEED], times[HEGTALIM_TIMES_NEED], bounds[HEGTALIM_CHAIN_BOUNDS_NEED], directions[HEGTALIM_CHAIN_DIRECTIONS_NEED];
    const Tables &t = tried.tables;
    if (guide_load(data_of(t.roads), t.roads.size(), data_of(t.carts), t.carts.size(), data_of(t.paths), t.paths.size(), plan, sizeof plan) != 0)
        return;
    for (const Report &report : tried.reports)
        guide_report(plan, sizeof plan, report.cart, report.time);
    guide_timetable(plan, sizeof plan, times, sizeof times, bounds, sizeof bounds, directions, sizeof directions);
}

/* a refused load is compared by its answer alone, which is quick; most inputs are refused */
static std::string compare(const Case &tried) {
    static uint8_t plan[HEGTALIM_PLAN_NEED];
    const Tables &t = tried.tables;
    Refusal due = read_tables(t).refusal;
    Met met;
    if (due.number == 0)
        return difference(tried, met);
    try {
        must_answer("load",
                    hegtalim_load(data_of(t.roads), t.roads.size(), data_of(t.carts), t.carts.size(), data_of(t.paths), t.paths.size(), plan, sizeof plan),
                    due.number, due.table, due.record);
    } catch (const Difference &found) {
        return found.what();
    }
    return "";
}

__AFL_FUZZ_INIT();

int main(int count, char **words) {
    if (count > 1) {
        std::string found = compare(case_of(read_file(words[1])));
        printf("%s\n", found.empty() ? "nothing differs" : found.c_str());
        return !found.empty();
    }
    __AFL_INIT();
    const unsigned char *input = __AFL_FUZZ_TESTCASE_BUF;
    while (__AFL_LOOP(10000)) {
        Case tried = case_of(std::string(reinterpret_cast<const char *>(input), static_cast<size_t>(__AFL_FUZZ_TESTCASE_LEN)));
        guide(tried);
        if (!compare(tried).empty())
            abort();
    }
    return 0;
}
