/* The plan slice as docs/DECISIONS.md lays it out, and numbers in slices, for tests that write and read them by themselves. */
#ifndef SLICE_H
#define SLICE_H

#include "plans.h"
#include "solver.h"

#define PLAN_NEED 233472
#define TABLE_PLACES 65536
#define LOG_CARTS 196608
#define LOG_TIMES 200704
#define LOG_PLACES 4096

/* little-endian numbers of n bytes */
static inline uint64_t get_number(const uint8_t *at, unsigned n) {
    uint64_t v = 0;
    for (unsigned i = 0; i < n; i++)
        v |= (uint64_t)at[i] << 8 * i;
    return v;
}

static inline void put_number(uint8_t *at, unsigned n, uint64_t v) {
    for (unsigned i = 0; i < n; i++)
        at[i] = (uint8_t)(v >> 8 * i);
}

/* the three tables, and zeros */
static inline void put_tables(uint8_t *slice, size_t length, const struct plan *p) {
    memset(slice, 0, length);
    memcpy(slice, p->roads.bytes, p->roads.length);
    memcpy(slice + TABLE_PLACES, p->carts.bytes, p->carts.length);
    memcpy(slice + 2 * TABLE_PLACES, p->paths.bytes, p->paths.length);
}

/* the report at a place of the log */
static inline void put_report(uint8_t *slice, size_t i, struct report r) {
    slice[LOG_CARTS + i] = (uint8_t)r.cart;
    put_number(slice + LOG_TIMES + 8 * i, 8, r.time);
}

static inline void put_log(uint8_t *slice, const struct report *log, size_t length) {
    for (size_t i = 0; i < length; i++)
        put_report(slice, i, log[i]);
}

/* the tables' numbers */
static inline void parse_plan(const struct plan *p, struct numbers *to) {
    parse(p->roads.bytes, p->roads.length, p->carts.bytes, p->carts.length, p->paths.bytes, p->paths.length, to);
}

/* the log of a plan in which every point is reported at its time: how many reports there are */
static inline size_t every_report(const struct plan *p, struct report *log) {
    static struct numbers numbers;
    static struct network network;
    static struct solution solution;
    parse_plan(p, &numbers);
    read_network(&numbers, &network);
    add_reports(&network, log, 0);
    solve(&network, &solution);
    return report_all(&network, &solution, log);
}

#endif
