/* How much stack hegtalim_timetable uses: at most 393,216 bytes (384 KiB), so that a thread of 512 KiB can call it; a third of that for a short plan, whose
   arrays are shorter, and hardly any where a slice is too short. The last line is 'N passed, M failed'. */
#define _DEFAULT_SOURCE
#include "../../include/hegtalim.h"
#include "../common/lent.h"
#include "../common/slice.h"
#include "../common/stack.h"

#define MOST 393216
#define MOST_SHORT_PLAN 131072
#define MOST_SHORT_SLICE 4096

static struct plan p;
static struct steps way;
static struct report log[LOG_PLACES];
static uint8_t held[HEGTALIM_PLAN_NEED], times[HEGTALIM_TIMES_NEED], chain_bounds[HEGTALIM_CHAIN_BOUNDS_NEED],
    chain_directions[HEGTALIM_CHAIN_DIRECTIONS_NEED];

/* the refusal alone: how long a chain is, and how many passes there are, is not asked here */
static uint64_t refusal(void) {
    return HEGTALIM_REFUSAL(hegtalim_timetable(held, sizeof held, times, sizeof times, chain_bounds, sizeof chain_bounds, chain_directions,
                                               sizeof chain_directions));
}

/* the same with a slice one byte too short, the plan slice or the times */
static uint64_t short_plan_slice(void) {
    return hegtalim_timetable(held, sizeof held - 1, times, sizeof times, chain_bounds, sizeof chain_bounds, chain_directions, sizeof chain_directions);
}

static uint64_t short_times(void) {
    return hegtalim_timetable(held, sizeof held, times, sizeof times - 1, chain_bounds, sizeof chain_bounds, chain_directions, sizeof chain_directions);
}

static void measure(const char *name, unsigned expected) { count(measure_stack(name, refusal, expected, MOST)); }

int main(void) {
    begin_plan(&p);
    add(&p.roads, AB BC CD DE CF);
    add(&p.carts, "250000,\r\n62500,\r\n");
    add(&p.paths, PAIR_PATHS);
    put_tables(held, sizeof held, &p);
    count(measure_stack("the pair", refusal, 0, MOST_SHORT_PLAN));
    count(measure_stack("a plan slice too short", short_plan_slice, 14, MOST_SHORT_SLICE));
    count(measure_stack("a times slice too short", short_times, 14, MOST_SHORT_SLICE));
    times_at_limits(&p);
    put_tables(held, sizeof held, &p);
    measure("64 carts at the limits", 0);
    put_log(held, log, every_report(&p, log));
    measure("64 carts at the limits, every point reported", 0);
    to_and_fro(&p, &way, 2, 700, 682, 0);
    put_tables(held, sizeof held, &p);
    measure("4,096 events", 0);
    turns(&p, 16, 24, 72);
    put_tables(held, sizeof held, &p);
    measure("8,192 bounds", 0);
    plan_at_limits(&p);
    put_tables(held, sizeof held, &p);
    measure("64 carts at the limits, no times", 13);
    late_end(&p, 1020, "250000,125000\r\n", "6251,\r\n");
    put_tables(held, sizeof held, &p);
    measure("times by the passes", 0);
    late_end(&p, 1020, "250000,250000\r\n", "1000,\r\n");
    put_tables(held, sizeof held, &p);
    measure("a chain by the passes", 13);
    held[LOG_CARTS] = 65;
    measure("no plan", 10);
    return end_tests();
}
