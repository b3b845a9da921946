/* Hegtalim's timetable beside LEMON's and Boost's Bellman-Ford on the same bounds: times of calls, how they grow with moves and with carts, and a plot.
   Every side's answers are checked against the others' in every repetition.
   Usage: compare [--short] PLOT. PLOT is the SVG file that is written. The short form has few repetitions and prints no times.
   The last line is 'N passed, M failed'; the exit status is 0 only where M is 0. */
#include <memory>

#include "plot.hpp"

using Subjects = std::vector<std::unique_ptr<Subject>>;

struct Benchmark {
    Subjects other, by_moves, by_carts;

    template <class Use> void each(Use use) {
        for (Subjects *subjects : {&other, &by_moves, &by_carts})
            for (std::unique_ptr<Subject> &subject : *subjects)
                use(*subject);
    }
};

static const char *const explanation =
    "Each time is that of one call, the median of %u repetitions in one run. In a repetition all sides are called in turn, each once\n"
    "untimed and then as often as fills 1 ms.\n"
    "whole:   hegtalim_timetable, right after another.\n"
    "judging: hegtalim_report(plan, length, 65, 0), right after a timetable. No plan has a cart 65, and refusals come in the order 14,\n"
    "         10, 11: the call judges the whole plan slice, is refused with 11 and changes nothing. It counts order bounds, where a\n"
    "         timetable writes them and takes their number from that.\n"
    "engine:  whole less judging in the same repetition: the network built, the times found and written, less what a report counts.\n"
    "LEMON:   BellmanFord::processNextRound on a StaticDigraph built beforehand, until nothing changes. Its rounds are the passes.\n"
    "Boost:   bellman_ford_shortest_paths on a compressed_sparse_row_graph built beforehand. It gives no pass number.\n"
    "A ratio is the first time over the second, with the name of the faster one behind it.\n";

/* the plans by the second reading, which must accept them and find the events that they are made to have */
static Subjects prepare(const std::vector<Measured> &plans, Checks &checks) {
    Subjects subjects;
    for (const Measured &plan : plans) {
        Reading reading = read_tables(plan.tables);
        bool as_made = reading.refusal.number == 0 && reading.network.events.size() == plan.events;
        checks.that(as_made, plan.name + ": not the plan that it is made to be");
        if (as_made)
            subjects.push_back(std::make_unique<Subject>(plan, reading.network));
    }
    return subjects;
}

static void measure(Benchmark &benchmark, unsigned repetitions, bool calibrated) {
    if (calibrated)
        benchmark.each([](Subject &subject) { subject.calibrate(); });
    for (unsigned i = 0; i < repetitions; i++)
        benchmark.each([](Subject &subject) { subject.repeat(); });
}

static std::vector<Row> rows_of(const Subjects &subjects) {
    std::vector<Row> rows;
    for (const std::unique_ptr<Subject> &subject : subjects)
        rows.push_back(subject->row());
    return rows;
}

static void print_all(unsigned repetitions, const std::vector<Row> &other, const std::vector<Row> &moves, const std::vector<Row> &carts) {
    std::printf(explanation, repetitions);
    print_times("Plans", {other[0], moves[2], moves[4], other[1], other[2], other[3]});
    print_times("By moves: one cart to and fro on a line of 1,024 cells", moves);
    print_growth("Growth by moves: so many times", "moves", moves);
    print_times("By carts: 20 moves each on a grid of 22 by 22 cells", carts);
    print_growth("Growth by carts: so many times", "carts", carts);
    std::printf("\n");
}

static void print_agreement(const std::vector<Row> &rows) {
    for (const Row &row : rows)
        std::printf("%s: %zu events, %zu bounds, %u passes\n", row.name.c_str(), row.events, row.bounds, row.passes);
}

int main(int argc, char **argv) {
    bool brief = argc == 3 && std::string(argv[1]) == "--short";
    if (argc != (brief ? 3 : 2)) {
        std::fprintf(stderr, "usage: compare [--short] PLOT\n");
        return 2;
    }
    std::string file = argv[argc - 1];
    unsigned repetitions = brief ? 2 : 51;
    Checks checks;
    Benchmark benchmark{prepare(other_plans(), checks), prepare(plans_by_moves(), checks), prepare(plans_by_carts(), checks)};
    if (!checks.all_passed())
        return checks.finish();
    measure(benchmark, repetitions, !brief);
    benchmark.each([&](Subject &subject) { subject.check(checks); });
    std::vector<Row> other = rows_of(benchmark.other), moves = rows_of(benchmark.by_moves), carts = rows_of(benchmark.by_carts);
    if (brief)
        for (const std::vector<Row> *rows : {&other, &moves, &carts})
            print_agreement(*rows);
    else
        print_all(repetitions, other, moves, carts);
    Plot plot("One timetable: median of " + std::to_string(repetitions) + " repetitions",
              {{"one cart on a line of 1,024 cells", "moves", &moves}, {"20 moves for each cart, grid of 22 × 22 cells", "carts", &carts}});
    checks.that(plot.write(file), file + ": not written");
    return checks.finish();
}
