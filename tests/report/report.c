/* Tests of hegtalim_report. A report is made in two plan slices, of the least length and longer, and before that in both with a byte too few, which
   must be a 14. What must come is kept by the test from tables and arguments alone: the book of tests/common/solver.h answers, and writes the slices
   as they must be. After every call every byte of the slice is compared, and the guard bytes between which it lies unaligned. Timetables of the
   slices are compared with the times of the book (tests/common/timed.h). One line for each case that fails; the last line is 'N passed, M failed'. */
#define _DEFAULT_SOURCE
#include "../common/damage.h"
#include "../common/timed.h"

enum { LEAST, LONGER, PLANS };
static const size_t plan_length[PLANS] = {PLAN_NEED, PLAN_NEED + MORE};

/* the two slices between their guards, and what must be there */
static uint8_t given[PLANS][GUARD + PLAN_NEED + MORE + GUARD], kept[PLANS][GUARD + PLAN_NEED + MORE + GUARD];

/* the book, and the reports that it has taken */
static struct book book;
static struct report taken[LOG_PLACES];
static size_t reports;

/* ---- one call */

static int is_kept(const char *name, unsigned i) {
    size_t k = 0;
    if (memcmp(given[i], kept[i], sizeof given[i]) == 0)
        return 1;
    while (given[i][k] == kept[i][k])
        k++;
    printf("%s: slice of %zu, report %zu: place %ld is %u; expected %u\n", name, plan_length[i], reports, (long)k - GUARD, given[i][k], kept[i][k]);
    return 0;
}

/* reports in a slice, of which `length` places are lent; 0 where answer, slice or guards are not what must come */
static int report_once(const char *name, unsigned i, size_t length, struct report r, unsigned refusal) {
    running = name;
    uint64_t got = hegtalim_report(given[i] + GUARD, length, r.cart, r.time);
    if (got != refusal) {
        printf("%s: %zu places, cart %llu at %llu, clock %llu: answer 0x%llx; expected %u\n", name, length, (unsigned long long)r.cart,
               (unsigned long long)r.time, (unsigned long long)book.clock, (unsigned long long)got, refusal);
        return 0;
    }
    return is_kept(name, i);
}

/* a report in both slices, answered by the book; the refusal that the case expects */
static int report_both(const char *name, struct report r, unsigned expected) {
    unsigned refusal = enter(&network, &book, r);
    if (expected != refusal) {
        printf("%s: the test expects %u and reads %u\n", name, expected, refusal);
        return 0;
    }
    if (!report_once(name, LEAST, PLAN_NEED - 1, r, 14) || !report_once(name, LONGER, PLAN_NEED - 1, r, 14))
        return 0;
    if (refusal == 0) {
        put_report(kept[LEAST] + GUARD, reports, r);
        put_report(kept[LONGER] + GUARD, reports, r);
        taken[reports++] = r;
    }
    return report_once(name, LEAST, plan_length[LEAST], r, refusal) && report_once(name, LONGER, plan_length[LONGER], r, refusal);
}

/* ---- a plan that is held */

/* p loaded into both slices, and no report yet; 0 where it isn't */
static int begin(const char *name) {
    static struct numbers numbers;
    for (unsigned i = 0; i < PLANS; i++) {
        for (size_t k = 0; k < sizeof given[i]; k++)
            given[i][k] = kept[i][k] = before(k);
        uint64_t loaded = hegtalim_load(p.roads.bytes, p.roads.length, p.carts.bytes, p.carts.length, p.paths.bytes, p.paths.length, given[i] + GUARD,
                                        plan_length[i]);
        put_tables(kept[i] + GUARD, plan_length[i], &p);
        if (loaded != 0 || !is_kept(name, i)) {
            printf("%s: not loaded, 0x%llx\n", name, (unsigned long long)loaded);
            return 0;
        }
    }
    parse_plan(&p, &numbers);
    read_network(&numbers, &network);
    open_book(&network, &book);
    reports = 0;
    return 1;
}

/* the times of the book, or that there are none */
static unsigned solve_book(void) {
    if (!add_reports(&network, taken, reports)) {
        fprintf(stderr, "a report of a test is not taken\n");
        exit(2);
    }
    solve(&network, &solution);
    return solution.fits ? 0 : 13;
}

/* timetables of both slices, which stay as they are; the refusal that the case expects */
static int time_both(const char *name, unsigned expected) {
    unsigned refusal = solve_book();
    if (expected != refusal) {
        printf("%s: the test expects a timetable's refusal %u and reads %u\n", name, expected, refusal);
        return 0;
    }
    for (unsigned i = 0; i < PLANS; i++)
        if (!time_once(name, i, given[i] + GUARD, plan_length[i], need, refusal) || !is_kept(name, i))
            return 0;
    return 1;
}

/* ---- cases that are written out */

struct call {
    struct report r;
    unsigned refusal;
};

#define CALLS(...) (const struct call[]){__VA_ARGS__}, sizeof((const struct call[]){__VA_ARGS__}) / sizeof(struct call)
#define OF_ONE(path) B(ROADS AB), B(ONE), B(path "\r\n")
#define OF_PAIR B(PAIR), B(CARTS "250000,\r\n62500,\r\n"), B(PAIR_PATHS)
#define TOP MOST_TIME
#define BIT(n) ((uint64_t)1 << (n))

static const struct {
    const char *name;
    struct bytes roads, carts, paths;
    const struct call *calls;
    size_t length;
    unsigned refusal; /* a timetable's, after the calls */
    int64_t finish;   /* where there are times */
} cases[] = {
    /* document 01, "Plans with known times" */
    {"event 2 reported at 1500", OF_ONE("0,1"), CALLS({{1, 1500}, 0}), 0, 4500},
    {"event 2 reported at 500, then 499, then 500", OF_ONE("0,1"), CALLS({{1, 500}, 0}, {{1, 499}, 12}, {{1, 500}, 0}), 13, 0},

    /* carts */
    {"cart 0", OF_ONE("0,1"), CALLS({{0, 1000}, 11}, {{0, 0}, 11}), 0, 4000},
    {"one cart more than there are", OF_PAIR, CALLS({{3, 4000}, 11}, {{2, 4000}, 0}, {{3, 4000}, 11}), 0, 64000},
    {"carts whose low byte is a cart", OF_PAIR, CALLS({{256, 0}, 11}, {{257, 0}, 11}, {{258, 4000}, 11}, {{BIT(16) + 1, 0}, 11}, {{1, 1000}, 0}), 0, 64000},
    {"carts whose low word is a cart", OF_PAIR, CALLS({{BIT(32) + 1, 1000}, 11}, {{BIT(63) + 1, 1000}, 11}, {{BIT(63), 1000}, 11}, {{1, 1000}, 0}), 0, 64000},
    {"the greatest numbers", OF_PAIR,
     CALLS({{UINT64_MAX, 1000}, 11}, {{UINT64_MAX - 1, 1000}, 11}, {{65, 1000}, 11}, {{64, 1000}, 11}, {{255, 1000}, 11}), 0, 64000},
    {"11 before 12", OF_PAIR, CALLS({{1, 1000}, 0}, {{0, 999}, 11}, {{3, UINT64_MAX}, 11}, {{257, TOP + 1}, 11}), 0, 64000},

    /* times */
    {"a first report at 0", OF_ONE("0,1"), CALLS({{1, 0}, 0}), 13, 0},
    {"around the clock", OF_ONE("0,1"), CALLS({{1, 1500}, 0}, {{1, 1499}, 12}, {{1, 0}, 12}, {{1, 1500}, 0}, {{1, 1499}, 12}, {{1, 1501}, 0}), 13, 0},
    {"the clock is that of all carts", OF_PAIR, CALLS({{2, 5000}, 0}, {{1, 4999}, 12}, {{1, 5000}, 0}, {{2, 4999}, 12}, {{1, 7000}, 0}, {{2, 6999}, 12}), 0, 65000},
    {"a refused time is no clock", OF_ONE("0,1"), CALLS({{1, TOP + 1}, 12}, {{1, 1000}, 0}, {{1, 999}, 12}, {{1, TOP + 1}, 12}, {{1, 3000}, 0}), 0, 4000},
    {"the time of no cart is no clock", OF_PAIR, CALLS({{3, 9000}, 11}, {{1, 1000}, 0}), 0, 64000},
    {"over 10^12", OF_ONE("0,1"), CALLS({{1, TOP + 1}, 12}, {{1, BIT(63)}, 12}, {{1, BIT(63) + 1000}, 12}, {{1, UINT64_MAX}, 12}, {{1, BIT(40)}, 12}), 0, 4000},
    {"10^12 at first", OF_ONE("0,1"), CALLS({{1, TOP}, 0}), 0, TOP + 3000},
    {"10^12 and no further", OF_ONE("0,1"), CALLS({{1, 1000}, 0}, {{1, 3000}, 0}, {{1, TOP + 1}, 12}, {{1, UINT64_MAX}, 12}, {{1, TOP}, 0}), 0, TOP},
    {"10^12 twice", OF_PAIR, CALLS({{1, TOP}, 0}, {{2, TOP - 1}, 12}, {{2, TOP + 1}, 12}, {{2, TOP}, 0}), 0, TOP + 60000},
    {"times of every width", OF_PAIR,
     CALLS({{1, 255}, 0}, {{1, 256}, 0}, {{1, 65535}, 0}, {{1, 65536}, 0}, {{1, BIT(24)}, 0}, {{1, BIT(32) - 1}, 0}, {{2, BIT(32)}, 0}, {{2, BIT(39) + 1}, 0}),
     13, 0},

    /* a cart past its last point */
    {"all points", OF_ONE("0,1"),
     CALLS({{1, 1000}, 0}, {{1, 3000}, 0}, {{1, 4000}, 0}, {{1, 4000}, 11}, {{1, 3999}, 11}, {{1, 0}, 11}, {{1, TOP}, 11}, {{1, TOP + 1}, 11},
           {{1, UINT64_MAX}, 11}),
     0, 4000},
    {"a cart without a move", OF_ONE("0"), CALLS({{1, 0}, 11}, {{1, 1000}, 11}, {{1, TOP + 1}, 11}), 0, 0},
    {"a cart that waits", OF_ONE("0,0,1,1"), CALLS({{1, 1000}, 0}, {{1, 3000}, 0}, {{1, 9000}, 0}, {{1, 9000}, 11}), 0, 9000},
    {"one cart past its points, the other not", B(ROADS AB CD DE), B(TWO), B("0,1,1\r\n2,3,4\r\n"),
     CALLS({{1, 1000}, 0}, {{1, 3000}, 0}, {{1, 4000}, 0}, {{1, 4000}, 11}, {{2, 3999}, 12}, {{2, 4000}, 0}, {{1, 5000}, 11}, {{2, 4000}, 0}), 13, 0},
    {"no CR LF at the ends", B(ROADS "0,1,1000000,250000"), B(CARTS "250000,"), B("0,1"), CALLS({{2, 1000}, 11}, {{1, 1000}, 0}), 0, 4000},
};

static void written_cases(void) {
    for (size_t i = 0; i < sizeof cases / sizeof *cases; i++) {
        const char *name = cases[i].name;
        put_bytes(cases[i].roads, cases[i].carts, cases[i].paths);
        int ok = begin(name);
        for (size_t k = 0; ok && k < cases[i].length; k++)
            ok = report_both(name, cases[i].calls[k].r, cases[i].calls[k].refusal);
        ok = ok && time_both(name, cases[i].refusal);
        if (ok && solution.fits && solution.time[network.events - 1] != cases[i].finish) {
            printf("%s: finish at %lld; expected %lld\n", name, (long long)solution.time[network.events - 1], (long long)cases[i].finish);
            ok = 0;
        }
        count(ok);
    }
}

/* ---- every cart to its end */

/* Every point of p reported at its time, all but the last `calls` reports put into the log by the test. Then no cart has a point left, and the first
   times come again. */
static int drive(const char *name, size_t calls) {
    static struct report log[LOG_PLACES];
    static struct solution first;
    if (!begin(name))
        return 0;
    solve_book();
    first = solution;
    size_t length = report_all(&network, &solution, log), at = calls < length ? length - calls : 0;
    for (; reports < at; reports++) {
        taken[reports] = log[reports];
        if (enter(&network, &book, log[reports]) != 0)
            return 0;
    }
    for (unsigned i = 0; i < PLANS; i++) {
        put_log(given[i] + GUARD, log, at);
        put_log(kept[i] + GUARD, log, at);
    }
    for (; at < length; at++)
        if (!report_both(name, log[at], 0))
            return 0;
    for (unsigned cart = 0; cart <= network.carts + 1; cart++)
        if (!report_both(name, (struct report){cart, MOST_TIME}, 11))
            return 0;
    if (!time_both(name, 0))
        return 0;
    if (memcmp(first.time, solution.time, network.events * sizeof *first.time) == 0)
        return 1;
    printf("%s: other times\n", name);
    return 0;
}

static void drives(void) {
    static struct steps way;
    follow(&p, 9, 20, "62500,\r\n", "250000,\r\n");
    count(drive("nine carts in a corridor", LOG_PLACES));
    times_at_limits(&p);
    count(drive("64 carts at the limits", 70));
    to_and_fro(&p, &way, 2, 700, 682, 0);
    count(drive("4,096 events", 6));
    turns(&p, 16, 24, 72);
    count(drive("8,192 bounds", 6));
    times_at_limits(&p);
    count(begin("64 carts") && report_both("64 carts", (struct report){65, 0}, 11) && report_both("64 carts", (struct report){64, 3}, 0) &&
          report_both("64 carts", (struct report){256 + 64, 3}, 11) && report_both("64 carts", (struct report){63, 2}, 12));
    plan_at_limits(&p);
    count(begin("64 carts, no times") && report_both("64 carts, no times", (struct report){64, 9}, 0) && time_both("64 carts, no times", 13));
}

/* ---- slices that hold no plan, or are too short */

/* `held` in both slices */
static void give_held(void) {
    for (unsigned i = 0; i < PLANS; i++) {
        for (size_t k = 0; k < sizeof given[i]; k++)
            given[i][k] = before(k);
        memcpy(given[i] + GUARD, held, plan_length[i]);
        memcpy(kept[i], given[i], sizeof kept[i]);
    }
}

/* reports in what `held` holds: 10 where a timetable is, else what the book of its log answers */
static int report_held(const char *name, unsigned i, int is_plan) {
    static const struct report tries[] = {{1, MOST_TIME}, {2, 4000}, {0, 0}, {1, UINT64_MAX}, {65, MOST_TIME}};
    int length = read_held(plan_length[i], taken);
    if ((length >= 0) != is_plan) {
        printf("%s: the test expects %s plan\n", name, is_plan ? "a" : "no");
        return 0;
    }
    for (size_t k = 0; k < sizeof tries / sizeof *tries; k++) {
        unsigned refusal = 10;
        give_held();
        reports = 0;
        if (is_plan) {
            open_book(&network, &book);
            while (reports < (size_t)length)
                enter(&network, &book, taken[reports++]);
            refusal = enter(&network, &book, tries[k]);
        }
        if (!report_once(name, i, PLAN_NEED - 1, tries[k], 14))
            return 0;
        if (refusal == 0)
            put_report(kept[i] + GUARD, reports, tries[k]);
        if (!report_once(name, i, plan_length[i], tries[k], refusal))
            return 0;
    }
    return 1;
}

static void check_held_slice(const char *name, unsigned least, unsigned longer) {
    count(report_held(name, LEAST, least != 10) && report_held(name, LONGER, longer != 10));
}

static void short_slices(void) {
    static const size_t lengths[] = {0, 1, 65536, 131072, LOG_CARTS, LOG_CARTS + 1, LOG_TIMES, LOG_TIMES + 8, PLAN_NEED - 8, PLAN_NEED - 1};
    put_bytes((struct bytes)B(PAIR), (struct bytes)B(TWO), (struct bytes)B(PAIR_PATHS));
    for (size_t i = 0; i < sizeof lengths / sizeof *lengths; i++) {
        count(begin("short slices") && report_once("short slices", LEAST, lengths[i], (struct report){1, 1000}, 14) &&
              report_once("short slices, no cart", LONGER, lengths[i], (struct report){0, UINT64_MAX}, 14));
        memset(held, 0, sizeof held);
        give_held();
        count(report_once("short slices, no plan", LEAST, lengths[i], (struct report){1, 1000}, 14));
    }
}

int main(void) {
    begin_tests();
    plan_pages = new_pages(sizeof held);
    written_cases();
    drives();
    damaged_slices(check_held_slice);
    short_slices();
    return end_tests();
}
