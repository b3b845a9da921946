/* Plan slices for tests that no load, with reports since, leaves, and beside them some that differ as little and hold a plan. Each is put in `held` and
   handed to a check of the test, with the refusals that a timetable of it has in a slice of the least length and in the longer one. */
#ifndef DAMAGE_H
#define DAMAGE_H

#include "held.h"

typedef void check_held(const char *name, unsigned least, unsigned longer);

/* a number of n bytes changed, and then as it was */
static inline void damage_number(check_held *check, const char *name, size_t place, unsigned n, uint64_t number, unsigned refusal) {
    uint64_t was = get_number(held + place, n);
    if (was == number) {
        printf("%s: nothing is changed\n", name);
        count(0);
        return;
    }
    put_number(held + place, n, number);
    check(name, refusal, refusal);
    put_number(held + place, n, was);
}

static inline void damage(check_held *check, const char *name, size_t place, uint8_t byte, unsigned refusal) {
    damage_number(check, name, place, 1, byte, refusal);
}

/* the log's times: one changed */
static inline void damage_time(check_held *check, const char *name, size_t i, uint64_t time, unsigned refusal) {
    damage_number(check, name, LOG_TIMES + 8 * i, 8, time, refusal);
}

/* bytes past the log, which only the longer slice has */
static inline void damage_past(check_held *check, const char *name, size_t place) {
    held[place] = 1;
    check(name, 0, 10);
    held[place] = 0;
}

static inline void damaged_tables(check_held *check) {
    struct bytes roads = B(PAIR), carts = B(CARTS "250000,\r\n62500,\r\n"), paths = B(PAIR_PATHS);
    size_t carts_at = TABLE_PLACES, paths_at = 2 * TABLE_PLACES;
    hold_bytes("damage", roads, carts, paths);
    damage(check, "roads: first line", 0, 'F', 10);
    damage(check, "roads: first byte zero", 0, 0, 10);
    damage(check, "roads: a byte of no number", 23, 'x', 10);
    damage(check, "roads: a zero byte within", 40, 0, 10);
    damage(check, "roads: the last byte zero", roads.length - 1, 0, 10);
    damage(check, "roads: another road, the pair off the roads", 23, '7', 10);
    damage(check, "roads: another length", 27, '2', 0);
    damage(check, "roads: the byte behind", roads.length, 'x', 10);
    damage(check, "roads: one place further", roads.length + 1, 'x', 10);
    damage(check, "roads: the last place", TABLE_PLACES - 1, '\n', 10);
    damage(check, "carts: first line", carts_at, 'F', 10);
    damage(check, "carts: first byte zero", carts_at, 0, 10);
    damage(check, "carts: fastest out of range", carts_at + 17, '0', 10);
    damage(check, "carts: another speed", carts_at + 17, '3', 0);
    damage(check, "carts: the byte behind", carts_at + carts.length, '1', 10);
    damage(check, "carts: one place further", carts_at + carts.length + 1, '1', 10);
    damage(check, "carts: the last place", carts_at + TABLE_PLACES - 1, 255, 10);
    damage(check, "paths: first byte zero", paths_at, 0, 10);
    damage(check, "paths: off the roads", paths_at, '3', 10);
    damage(check, "paths: two carts in one cell", paths_at, '1', 10);
    damage(check, "paths: a zero byte within", paths_at + 5, 0, 10);
    damage(check, "paths: the byte behind", paths_at + paths.length, '1', 10);
    damage(check, "paths: the last place", paths_at + TABLE_PLACES - 1, 1, 10);
    hold_bytes("damage", (struct bytes)B(ROADS AB), (struct bytes)B(TWO), (struct bytes)B("0,0\r\n1,1\r\n"));
    held[paths_at + 2] = '1';
    held[paths_at + 7] = '0';
    check("paths: an exchange", 10, 10);
    hold_bytes("damage", (struct bytes)B(ROADS "0,1,1000000,250000"), (struct bytes)B(ONE), (struct bytes)B("0,1\r\n"));
    damage(check, "roads: CR behind the last record", strlen(ROADS AB) - 2, '\r', 10);
    held[strlen(ROADS AB) - 2] = '\r';
    held[strlen(ROADS AB) - 1] = '\n';
    check("roads: CR LF behind the last record", 0, 0);
}

static inline void damaged_logs(check_held *check) {
    static const struct report log[] = {{1, 1000}, {2, 4000}, {1, 4000}, {1, 5000}, {1, 6000}};
    hold_bytes("damage", (struct bytes)B(PAIR), (struct bytes)B(CARTS "250000,\r\n62500,\r\n"), (struct bytes)B(PAIR_PATHS));
    put_log(held, log, 5);
    check("the log as it is", 0, 0);
    damage(check, "log: a report of cart 3", LOG_CARTS + 4, 3, 10);
    damage(check, "log: the first report of cart 3", LOG_CARTS, 3, 10);
    damage(check, "log: a report of cart 64", LOG_CARTS + 2, 64, 10);
    damage(check, "log: a report of cart 65", LOG_CARTS + 2, 65, 10);
    damage(check, "log: a report of cart 255", LOG_CARTS + 4, 255, 10);
    damage(check, "log: a report of cart 0 within", LOG_CARTS + 2, 0, 10);
    damage(check, "log: the first report of cart 0", LOG_CARTS, 0, 10);
    damage(check, "log: the last report of cart 0, its time left", LOG_CARTS + 4, 0, 10);
    damage(check, "log: a report of the other cart", LOG_CARTS + 2, 2, 13);
    damage_time(check, "log: a time below the clock", 1, 999, 10);
    damage_time(check, "log: a time that is the clock", 1, 1000, 13);
    damage_time(check, "log: a time above the next", 3, 6001, 10);
    damage_time(check, "log: the last time below the clock", 4, 4999, 10);
    damage_time(check, "log: the last time 0", 4, 0, 10);
    damage_time(check, "log: the last time 10^12", 4, MOST_TIME, 0);
    damage_time(check, "log: the last time 10^12 + 1", 4, (uint64_t)MOST_TIME + 1, 10);
    damage_time(check, "log: the last time 2^63", 4, (uint64_t)1 << 63, 10);
    damage_time(check, "log: the last time 2^63 + 6000", 4, ((uint64_t)1 << 63) + 6000, 10);
    damage_time(check, "log: the last time 2^64 - 1", 4, UINT64_MAX, 10);
    damage(check, "log: a cart behind, its time below the clock", LOG_CARTS + 5, 2, 10);
    damage(check, "log: a cart behind, after a zero", LOG_CARTS + 6, 1, 10);
    damage(check, "log: the last cart's place", LOG_CARTS + LOG_PLACES - 1, 1, 10);
    damage(check, "log: a time behind, of no cart", LOG_TIMES + 8 * 5 + 7, 1, 10);
    damage(check, "log: the first byte of a time behind", LOG_TIMES + 8 * 5, 1, 10);
    damage(check, "log: the last time's place", LOG_TIMES + 8 * LOG_PLACES - 1, 1, 10);
    damage_past(check, "the first place past the log", PLAN_NEED);
    damage_past(check, "a place past the log", PLAN_NEED + 2048);
    damage_past(check, "the last place", sizeof held - 1);

    hold_bytes("damage", (struct bytes)B(ROADS AB), (struct bytes)B(ONE), (struct bytes)B("0,1\r\n"));
    damage(check, "log: a cart without a time, which is then 0", LOG_CARTS, 1, 13);
    damage(check, "log: a time without a cart", LOG_TIMES, 1, 10);
    put_report(held, 0, (struct report){1, 1000});
    put_report(held, 1, (struct report){1, 3000});
    put_report(held, 2, (struct report){1, 4000});
    check("log: all points of the cart", 0, 0);
    put_report(held, 3, (struct report){1, 4000});
    check("log: one report more than points", 10, 10);
    hold_bytes("damage", (struct bytes)B(ROADS AB), (struct bytes)B(ONE), (struct bytes)B("0,0\r\n"));
    put_report(held, 0, (struct report){1, 0});
    check("log: a report of a cart without a move", 10, 10);
    hold_bytes("damage", (struct bytes)B(ROADS AB), (struct bytes)B(ONE), (struct bytes)B("0,1\r\n"));
    put_report(held, 0, (struct report){1, 500});
    put_report(held, 1, (struct report){1, 499});
    check("log: 500, then 499", 10, 10);
    put_report(held, 1, (struct report){1, 500});
    check("log: 500, then 500", 13, 13);
}

/* slices far from what a load leaves */
static inline void not_loaded(check_held *check) {
    static struct steps way;
    memset(held, 0, sizeof held);
    check("zeros", 10, 10);
    memset(held, 255, sizeof held);
    check("no zero", 10, 10);
    memset(held, ',', sizeof held);
    check("commas", 10, 10);
    hegtalim_load((const uint8_t *)"x", 1, (const uint8_t *)"x", 1, (const uint8_t *)"x", 1, held, sizeof held);
    check("a refused load", 10, 10);
    plan_at_limits(&p);
    put_tables(held, sizeof held, &p);
    memmove(held + 1, held, sizeof held - 1);
    check("all one place further", 10, 10);
    to_and_fro(&p, &way, 2, 700, 682, 1);
    put_tables(held, sizeof held, &p);
    check("4,099 events", 10, 10);
    to_and_fro(&p, &way, 3, 700, 454, 2);
    put_tables(held, sizeof held, &p);
    check("4,097 events", 10, 10);
    turns(&p, 18, 20, 10);
    put_tables(held, sizeof held, &p);
    check("8,193 bounds", 10, 10);
    memset(held, 0, sizeof held);
    memcpy(held, PAIR, strlen(PAIR));
    memcpy(held + TABLE_PLACES, PAIR_PATHS, strlen(PAIR_PATHS));
    memcpy(held + 2 * TABLE_PLACES, TWO, strlen(TWO));
    check("carts and paths exchanged", 10, 10);
}

/* all of them */
static inline void damaged_slices(check_held *check) {
    damaged_tables(check);
    damaged_logs(check);
    not_loaded(check);
}

#endif
