/* Tests of hegtalim_timetable. What a plan slice means is read a second time, by tests/common/held.h.
   In each case the call is made with each slice in turn one byte too short, with slices of the least lengths and with longer ones, and compared by
   tests/common/timed.h. One line for each case that fails; the last line is 'N passed, M failed'. */
#define _DEFAULT_SOURCE
#include "../common/damage.h"
#include "../common/timed.h"

/* 14 where slices of the least lengths become too short, one at a time */
static int time_short(const char *name, size_t less) {
    for (unsigned s = 0; s <= SLICES; s++) {
        size_t length[SLICES] = {need[0], need[1], need[2]}, plan_length = PLAN_NEED;
        size_t *one = s < SLICES ? &length[s] : &plan_length;
        *one = less < *one ? *one - less : 0;
        if (!time_once(name, s, held, plan_length, length, 14))
            return 0;
    }
    return 1;
}

/* the calls of a case; the refusals that it must have with the least plan slice and with the longer one */
static int time_all(const char *name, unsigned refusal, unsigned longer) {
    static const size_t longer_length[SLICES] = {32768 + MORE, 8192 + MORE, 4096 + MORE};
    if (!time_short(name, 1))
        return 0;
    for (unsigned turn = 5; turn < 7; turn++) {
        size_t length = turn == 5 ? PLAN_NEED : PLAN_NEED + MORE;
        unsigned wanted = turn == 5 ? refusal : longer, judged = judge(length);
        if (wanted != judged) {
            printf("%s: the test expects %u and reads %u\n", name, wanted, judged);
            return 0;
        }
        if (!time_once(name, turn, held, length, turn == 5 ? need : longer_length, judged))
            return 0;
    }
    return 1;
}

static void check_both(const char *name, unsigned least, unsigned longer) { count(time_all(name, least, longer)); }
static void check(const char *name, unsigned refusal) { check_both(name, refusal, refusal); }

/* what the case last timed has, by the test's reading: events and bounds */
static int has_counts(const char *name, unsigned events, unsigned bounds) {
    if (network.events == events && network.bounds == bounds)
        return 1;
    printf("%s: %u events, %u bounds; expected %u and %u\n", name, network.events, network.bounds, events, bounds);
    return 0;
}

/* a time that came */
static int has_time(const char *name, unsigned event, int64_t time) {
    int64_t got = (int64_t)get_number(memory[TIMES] + GUARD + 8 * event, 8);
    if (got == time)
        return 1;
    printf("%s: event %u at %lld; expected %lld\n", name, event, (long long)got, (long long)time);
    return 0;
}

/* the number of passes that came, or the length of the chain */
static int has_value(const char *name, unsigned value) {
    if (answer >> 32 == value)
        return 1;
    printf("%s: %llu passes or items; expected %u\n", name, (unsigned long long)(answer >> 32), value);
    return 0;
}

/* a case that has times, with these events, bounds, passes and finish */
static void check_times(const char *name, unsigned events, unsigned bounds, unsigned passes, int64_t finish) {
    count(time_all(name, 0, 0) && has_counts(name, events, bounds) && has_value(name, passes) && has_time(name, events - 1, finish));
}

/* ---- cases that are written out */

#define OF_PAIR(carts) B(PAIR), B(CARTS carts "62500,\r\n"), B(PAIR_PATHS)
#define OF_ONE(cart, path) B(ROADS AB), B(CARTS cart "\r\n"), B(path "\r\n")
#define TRIANGLE ROADS AB BC "2,0,1000000,250000\r\n"

static const struct {
    const char *name;
    struct bytes roads, carts, paths;
    struct report log[8]; /* ended by cart 0 */
    unsigned refusal, events, bounds;
    unsigned value; /* the passes, or the length of the only chain there is; 0: not said */
    struct {
        unsigned event;
        int64_t time;
    } known[8]; /* ended by event 0 */
} cases[] = {
    /* document 01, "Plans with known times" */
    {"the pair", OF_PAIR("250000,\r\n"), {{0}}, 0, 28, 32, 14, {{13, 29000}, {27, 64000}}},
    {"the pair, slowest 80,000", OF_PAIR("250000,80000\r\n"), {{0}}, 0, 28, 32, 14,
     {{1, 0}, {2, 1250}, {3, 7500}, {4, 10625}, {5, 13750}, {6, 20000}, {27, 64000}}},
    {"the pair, slowest 87,489", OF_PAIR("250000,87489\r\n"), {{0}}, 0, 28, 32, 14, {{6, 20000}, {27, 64000}}},
    {"the pair, slowest 87,490", OF_PAIR("250000,87490\r\n"), {{0}}, 13, 28, 32, 0, {{0}}},
    {"fastest and slowest 300,000", OF_ONE("300000,300000", "0,1"), {{0}}, 13, 6, 5, 2, {{0}}},
    {"one cart, one cell", OF_ONE("250000,", "0"), {{0}}, 0, 3, 2, 2, {{1, 0}, {2, 0}}},
    {"one cart, A B, the program's example", OF_ONE("250000,", "0,1"), {{0}}, 0, 6, 5, 5, {{1, 0}, {2, 1000}, {3, 3000}, {4, 4000}, {5, 4000}}},
    {"event 2 reported at 1500", OF_ONE("250000,", "0,1"), {{1, 1500}}, 0, 6, 5, 4, {{1, 0}, {2, 1500}, {3, 3500}, {4, 4500}, {5, 4500}}},
    {"event 2 reported at 500", OF_ONE("250000,", "0,1"), {{1, 500}}, 13, 6, 5, 3, {{0}}},
    {"events 2 and 3 reported at 500", OF_ONE("250000,", "0,1"), {{1, 500}, {1, 500}}, 13, 6, 5, 0, {{0}}},
    {"three carts round a triangle", B(TRIANGLE), B(THREE), B("0,1\r\n1,2\r\n2,0\r\n"), {{0}}, 0, 14, 18, 5, {{2, 1000}, {3, 3000}, {8, 4000}, {13, 4000}}},
    {"three carts once round a triangle, one slow", B(TRIANGLE), B(CARTS FREE "62500,\r\n" FREE), B("0,1,2,0\r\n1,2,0,1\r\n2,0,1,2\r\n"), {{0}}, 0, 32, 48,
     11, {{3, 4000}, {6, 20000}, {9, 36000}, {10, 37000}, {26, 7000}, {29, 22000}, {30, 23000}, {31, 48000}}},

    /* other reports of one cart */
    {"a report at 0", OF_ONE("250000,", "0,1"), {{1, 0}}, 13, 6, 5, 3, {{0}}},
    {"a report at 999", OF_ONE("250000,", "0,1"), {{1, 999}}, 13, 6, 5, 3, {{0}}},
    {"a report at 1000", OF_ONE("250000,", "0,1"), {{1, 1000}}, 0, 6, 5, 4, {{2, 1000}, {3, 3000}, {5, 4000}}},
    {"a report at 10^12", OF_ONE("250000,", "0,1"), {{1, MOST_TIME}}, 0, 6, 5, 4, {{2, MOST_TIME}, {3, MOST_TIME + 2000}, {5, MOST_TIME + 3000}}},
    {"all points at 10^12 but for the first", OF_ONE("250000,", "0,1"), {{1, 1000}, {1, MOST_TIME}, {1, MOST_TIME}}, 13, 6, 5, 0, {{0}}},
    {"all points reported", OF_ONE("250000,", "0,1"), {{1, 1000}, {1, 3000}, {1, 4000}}, 0, 6, 5, 2, {{2, 1000}, {4, 4000}, {5, 4000}}},
    {"all points reported, the last late", OF_ONE("250000,", "0,1"), {{1, 1000}, {1, 3000}, {1, 9000}}, 0, 6, 5, 2, {{3, 3000}, {4, 9000}, {5, 9000}}},
    {"all points reported, the last early", OF_ONE("250000,", "0,1"), {{1, 1000}, {1, 3000}, {1, 3999}}, 13, 6, 5, 0, {{0}}},
    {"a report that a slowest speed allows", OF_ONE("250000,125000", "0,1"), {{1, 2000}}, 0, 6, 5, 4, {{2, 2000}, {3, 4000}, {5, 5000}}},
    {"a report 1 ms later", OF_ONE("250000,125000", "0,1"), {{1, 2001}}, 13, 6, 5, 3, {{0}}},

    /* reports of one cart bear on another */
    {"the pair, cart 2 reported late", OF_PAIR("250000,\r\n"), {{2, 30000}}, 0, 28, 32, 0, {{2, 30000}, {3, 32000}, {15, 30000}, {27, 90000}}},
    {"the clock passes a slowest speed", B(PAIR), B(CARTS "250000,125000\r\n62500,\r\n"), B("0,1\r\n2,3\r\n"), {{2, 4000}}, 13, 10, 10, 0, {{0}}},
    {"the clock just within a slowest speed", B(PAIR), B(CARTS "250000,125000\r\n62500,\r\n"), B("0,1\r\n3,4\r\n"), {{1, 2000}, {1, 4000}, {2, 6000}}, 0, 10,
     10, 0, {{2, 2000}, {3, 4000}, {4, 6000}, {6, 6000}}},

    /* no margin to spare, and rounding: 1 of 3 micrometres at 1,001 micrometres per second is 0.999 ms */
    {"lo rounded up, part by part", B(ROADS "0,1,3,1\r\n"), B(CARTS "1001,\r\n"), B("0,1\r\n"), {{0}}, 0, 6, 5, 5, {{2, 1}, {3, 2}, {4, 3}, {5, 3}}},
    {"lo 0.05 ms rounded up", B(ROADS "0,1,3,1\r\n"), B(CARTS "20000000,\r\n"), B("0,1\r\n"), {{0}}, 0, 6, 5, 5, {{2, 1}, {3, 2}, {4, 3}, {5, 3}}},
    {"hi 0.999 ms rounded down", B(ROADS "0,1,3,1\r\n"), B(CARTS "1001,1001\r\n"), B("0,1\r\n"), {{0}}, 13, 6, 5, 2, {{0}}},
    {"hi 1 ms", B(ROADS "0,1,3,1\r\n"), B(CARTS "1001,1000\r\n"), B("0,1\r\n"), {{0}}, 0, 6, 5, 5, {{2, 1}, {5, 3}}},
    {"the longest road at the slowest speed", B(ROADS "0,1,100000000,1\r\n"), B(CARTS "1000,1000\r\n"), B("0,1\r\n"), {{0}}, 0, 6, 5, 5,
     {{2, 1}, {3, 99999999}, {4, 100000000}, {5, 100000000}}},

    /* waits leave no event, and no table need end in CR LF */
    {"waits", OF_ONE("250000,", "0,0,1,1,1,0,0"), {{0}}, 0, 9, 8, 8, {{2, 1000}, {4, 4000}, {7, 8000}, {8, 8000}}},
    {"no CR LF at the ends", B(ROADS "0,1,1000000,250000"), B(CARTS "250000,"), B("0,1"), {{0}}, 0, 6, 5, 5, {{2, 1000}, {5, 4000}}},
    {"no road", B("from,to,length,margin"), B(ONE), B("7,7\r\n"), {{0}}, 0, 3, 2, 2, {{2, 0}}},
};

static void written_cases(void) {
    for (size_t i = 0; i < sizeof cases / sizeof *cases; i++) {
        const char *name = cases[i].name;
        hold_bytes(name, cases[i].roads, cases[i].carts, cases[i].paths);
        for (size_t k = 0; k < 8 && cases[i].log[k].cart != 0; k++)
            put_report(held, k, cases[i].log[k]);
        int ok = time_all(name, cases[i].refusal, cases[i].refusal) && has_counts(name, cases[i].events, cases[i].bounds) &&
                 (cases[i].value == 0 || has_value(name, cases[i].value));
        for (size_t k = 0; ok && k < 8 && cases[i].known[k].event != 0; k++)
            ok = has_time(name, cases[i].known[k].event, cases[i].known[k].time);
        count(ok);
    }
}

/* ---- long plans and the limits */

/* the times that came last, each reported in turn: the same times come again */
static void check_all_reported(const char *name, size_t reports) {
    static struct report log[LOG_PLACES];
    static struct solution first;
    size_t length = report_all(&network, &solution, log);
    first = solution;
    put_log(held, log, length);
    check(name, 0);
    int ok = length == reports && memcmp(first.time, solution.time, network.events * sizeof *first.time) == 0;
    if (!ok)
        printf("%s: %zu reports, or other times\n", name, length);
    count(ok);
}

/* one cart that goes to and fro between two cells */
static void one_cart(unsigned moves) {
    static struct steps way;
    to_and_fro(&p, &way, 1, moves + 1, moves, 0);
}

/* Two carts whose only chain goes through nearly all events. Cart 2 makes `moves` + 1 moves between cells 2 and 3, and one more from 2 to 3; cart 1,
   which has one speed, makes `moves` (an odd number) between 0 and 1 and then has to be at cell 2 before cart 2 has left it for the last time. */
static void long_chain(unsigned moves) {
    static struct steps way;
    begin_plan(&p);
    add(&p.roads, AB BC CD);
    add(&p.carts, "250000,250000\r\n250000,\r\n");
    way.carts = 2;
    way.steps = moves + 3;
    for (unsigned s = 0; s < way.steps; s++) {
        way.cell[0][s] = s <= moves ? s % 2 : 1;
        way.cell[1][s] = 2 + s % 2;
    }
    way.cell[0][moves + 2] = 2;
    add_paths(&p.paths, &way);
}

static void long_plans(void) {
    one_cart(300);
    hold("300 moves");
    check_times("300 moves", 903, 902, 902, 1200000);
    check_all_reported("300 moves, all reported", 900);

    one_cart(1023);
    hold("1,023 moves");
    check_times("1,023 moves", 3072, 3071, 3071, 4092000);

    begin_plan(&p);
    add_road(&p.roads, 0, 1, 100000000, 1);
    add(&p.carts, "1000,\r\n");
    for (unsigned s = 0; s < 1024; s++)
        add(&p.paths, s == 1023 ? "1\r\n" : s % 2 == 0 ? "0," : "1,");
    hold("1,023 long moves");
    put_report(held, 0, (struct report){1, MOST_TIME});
    check_times("1,023 long moves, after 10^12", 3072, 3071, 3070, MOST_TIME + 1023 * (int64_t)100000000 - 1);

    /* behind a slow leader: cart 2 can't be nearer than the leader's leave points, 4,000 after each of its entries */
    follow(&p, 9, 20, "62500,\r\n", "250000,\r\n");
    hold("nine carts in a corridor");
    check_times("nine carts in a corridor", 551, 1194, 62, 320000);
    count(has_time("nine carts in a corridor", 64, 4000) && has_time("nine carts in a corridor", 67, 20000));
    check_all_reported("nine carts in a corridor, all reported", 540);
    follow(&p, 9, 20, "62500,\r\n", "250000,125000\r\n");
    hold("nine carts in a corridor, none of which can wait long");
    check("nine carts in a corridor, none of which can wait long", 13);
}

static void plans_at_limits(void) {
    static struct steps way;
    times_at_limits(&p);
    hold("64 carts at the limits");
    check_times("64 carts at the limits", 4095, 4157, 65, 21 * 5001);
    check_all_reported("64 carts at the limits, all reported", 4029);
    plan_at_limits(&p);
    hold("64 carts at the limits, lo above hi");
    count(time_all("64 carts at the limits, lo above hi", 13, 13) && has_value("64 carts at the limits, lo above hi", 2));
    to_and_fro(&p, &way, 2, 700, 682, 0);
    hold("4,096 events");
    check_times("4,096 events", 4096, 4096, 2048, 682 * 4000);
    check_all_reported("4,096 events, all reported", 4092);
    turns(&p, 16, 24, 72);
    hold("8,192 bounds");
    check_times("8,192 bounds", 2538, 8192, 1328, 1032000); /* turns 2,000 apart from 3,000 on; cart 1 is home from its last at 744,000, and makes 72 moves */
    long_chain(679);
    hold("a chain through nearly all events");
    int ok = time_all("a chain through nearly all events", 13, 13) && has_counts("a chain through nearly all events", 4087, 4428);
    if (ok && answer >> 32 < 4082)
        printf("a chain through nearly all events: only %llu items\n", (unsigned long long)(answer >> 32));
    count(ok && answer >> 32 >= 4082);
}

static void short_slices(void) {
    static const size_t less[] = {2, 8, 4096, 8192, 32767, 300000};
    hold_bytes("short slices", (struct bytes)B(PAIR), (struct bytes)B(CARTS "250000,\r\n62500,\r\n"), (struct bytes)B(PAIR_PATHS));
    for (size_t i = 0; i < sizeof less / sizeof *less; i++)
        count(time_short("short slices, a plan that has times", less[i]));
    memset(held, 0, sizeof held);
    for (size_t i = 0; i < sizeof less / sizeof *less; i++)
        count(time_short("short slices, no plan", less[i]));
}

int main(void) {
    begin_tests();
    plan_pages = new_pages(sizeof held);
    written_cases();
    long_plans();
    plans_at_limits();
    damaged_slices(check_both);
    short_slices();
    return end_tests();
}
