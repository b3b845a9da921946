/* How long hegtalim_timetable takes, against the plain C of tests/common/solver.h, which reads the same plan slice into numbers, lists events and bounds
   and makes the same passes, but judges nothing. Everything is measured in one run, the two sides in turn, the median of so many repetitions; what is
   compared are the ratios. Usage: timetable [REPETITIONS]. Fails where the two sides don't come to the same times and passes. */
#define _POSIX_C_SOURCE 200809L
#include "../include/hegtalim.h"
#include "../tests/common/slice.h"
#include "clock.h"

static struct plan p;
static uint8_t held[HEGTALIM_PLAN_NEED], times[HEGTALIM_TIMES_NEED], chain_bounds[HEGTALIM_CHAIN_BOUNDS_NEED],
    chain_directions[HEGTALIM_CHAIN_DIRECTIONS_NEED];
static uint64_t answer;
static struct numbers numbers;
static struct network network;
static struct solution solution;

/* ---- the two sides */

static void timetable_side(void) {
    answer = hegtalim_timetable(held, sizeof held, times, sizeof times, chain_bounds, sizeof chain_bounds, chain_directions, sizeof chain_directions);
}

static void plain_side(void) {
    static struct report log[LOG_PLACES];
    size_t reports = 0;
    const uint8_t *carts = held + TABLE_PLACES, *paths = held + 2 * TABLE_PLACES;
    parse(held, strlen((const char *)held), carts, strlen((const char *)carts), paths, strlen((const char *)paths), &numbers);
    for (; held[LOG_CARTS + reports] != 0; reports++)
        log[reports] = (struct report){held[LOG_CARTS + reports], get_number(held + LOG_TIMES + 8 * reports, 8)};
    read_network(&numbers, &network);
    add_reports(&network, log, reports);
    solve(&network, &solution);
}

static void same_times(const char *name) {
    timetable_side();
    plain_side();
    int same = solution.fits && answer == (uint64_t)solution.passes << 32;
    for (unsigned e = 0; same && e < network.events; e++)
        same = get_number(times + 8 * e, 8) == (uint64_t)solution.time[e];
    if (!same) {
        printf("%s: the two sides differ (answer 0x%llx; plain: fits %d, %u passes)\n", name, (unsigned long long)answer, solution.fits, solution.passes);
        exit(1);
    }
}

/* ---- times */

static void compare(const char *name, unsigned repetitions) {
    static double timetable[MOST_REPETITIONS], plain[MOST_REPETITIONS];
    put_tables(held, sizeof held, &p);
    same_times(name);
    for (unsigned k = 0; k < repetitions; k++) {
        timetable[k] = took(timetable_side);
        plain[k] = took(plain_side);
    }
    double a = median(timetable, repetitions), b = median(plain, repetitions);
    printf("%s (%u events, %u bounds, %u passes): timetable %.2f ms, plain C %.2f ms, ratio %.1f\n", name, network.events, network.bounds,
           solution.passes, 1e-3 * a, 1e-3 * b, a / b);
}

int main(int argc, char **argv) {
    static struct steps way;
    unsigned repetitions = medians_of(argc, argv, 15);
    to_and_fro(&p, &way, 1, 301, 300, 0);
    compare("one cart, 300 moves", repetitions);
    to_and_fro(&p, &way, 1, 1024, 1023, 0);
    compare("one cart, 1,023 moves", repetitions);
    follow(&p, 9, 120, "62500,\r\n", "250000,\r\n");
    compare("nine carts in a corridor", repetitions);
    times_at_limits(&p);
    compare("64 carts apart", repetitions);
    turns(&p, 64, 1, 61);
    compare("64 carts that take turns", repetitions);
    turns(&p, 16, 24, 72);
    compare("16 carts that take turns", repetitions);
    return 0;
}
