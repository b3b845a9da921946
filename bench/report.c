/* How long hegtalim_report takes, beside a load of the same plan and a timetable after the report. All three are measured in one run, in turn, the
   median of so many repetitions; what is compared are the ratios. A report judges the tables in the plan slice again and replays the log.
   Usage: report [REPETITIONS]. Fails where a report is not taken, or leaves other bytes than it must. */
#define _DEFAULT_SOURCE
#include "../include/hegtalim.h"
#include "../tests/common/lent.h"
#include "../tests/common/slice.h"
#include "clock.h"

static struct plan p;
static struct report log[LOG_PLACES], next;
static uint8_t loaded[HEGTALIM_PLAN_NEED], held[HEGTALIM_PLAN_NEED], after[HEGTALIM_PLAN_NEED], times[HEGTALIM_TIMES_NEED],
    chain_bounds[HEGTALIM_CHAIN_BOUNDS_NEED], chain_directions[HEGTALIM_CHAIN_DIRECTIONS_NEED];
static uint64_t answer;

static void load_side(void) {
    answer |= hegtalim_load(p.roads.bytes, p.roads.length, p.carts.bytes, p.carts.length, p.paths.bytes, p.paths.length, loaded, sizeof loaded);
}

static void report_side(void) { answer |= hegtalim_report(held, sizeof held, next.cart, next.time); }

static void timetable_side(void) {
    answer |= HEGTALIM_REFUSAL(hegtalim_timetable(held, sizeof held, times, sizeof times, chain_bounds, sizeof chain_bounds, chain_directions,
                                                  sizeof chain_directions));
}

/* a report after so many others that are taken */
static void compare(const char *name, size_t reports, unsigned repetitions) {
    static double load[MOST_REPETITIONS], report[MOST_REPETITIONS], timetable[MOST_REPETITIONS];
    put_tables(held, sizeof held, &p);
    put_log(held, log, reports);
    next = log[reports];
    memcpy(after, held, sizeof after);
    put_report(after, reports, next);
    answer = 0;
    for (unsigned k = 0; k < repetitions; k++) {
        put_report(held, reports, (struct report){0, 0});
        load[k] = took(load_side);
        report[k] = took(report_side);
        timetable[k] = took(timetable_side);
        if (answer != 0 || memcmp(held, after, sizeof held) != 0) {
            printf("%s: a call is refused, or the report leaves other bytes than it must\n", name);
            exit(1);
        }
    }
    double a = median(load, repetitions), b = median(report, repetitions), c = median(timetable, repetitions);
    printf("%s, after %zu reports: report %.1f us, load %.1f us, ratio %.1f; timetable %.1f us\n", name, reports, b, a, b / a, c);
}

/* the first report of p, and the last */
static void compare_both(const char *name, unsigned repetitions) {
    size_t reports = every_report(&p, log);
    compare(name, 0, repetitions);
    compare(name, reports - 1, repetitions);
}

int main(int argc, char **argv) {
    static struct steps way;
    unsigned repetitions = medians_of(argc, argv, 51);
    begin_plan(&p);
    add(&p.roads, AB BC CD DE CF);
    add(&p.carts, "250000,\r\n62500,\r\n");
    add(&p.paths, PAIR_PATHS);
    compare_both("the pair", repetitions);
    times_at_limits(&p);
    compare_both("64 carts at the limits", repetitions);
    to_and_fro(&p, &way, 2, 700, 682, 0);
    compare_both("4,096 events", repetitions);
    return 0;
}
