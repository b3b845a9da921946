/* A plan slice for tests of calls, and what it means, read a second time with solver.h: whether a plan is held, and its times with their number of
   passes, or that there are none. Only the tables themselves are judged by hegtalim_load, which has tests of its own. */
#ifndef HELD_H
#define HELD_H

#include "../../include/hegtalim.h"
#include "lent.h"
#include "slice.h"

/* the tables of a case, its plan slice, longer than it need be, and what that means */
static struct plan p;
static uint8_t held[PLAN_NEED + MORE];
static struct network network;
static struct solution solution;

/* ---- what a plan slice means */

/* a table: the bytes up to the first zero; 0 where others follow */
static inline int read_table(unsigned i, struct text *to) {
    const uint8_t *at = held + TABLE_PLACES * i;
    size_t n = 0;
    while (n < TABLE_PLACES && at[n] != 0)
        n++;
    for (size_t k = n; k < TABLE_PLACES; k++)
        if (at[k] != 0)
            return 0;
    to->length = 0;
    add_bytes(to, at, n);
    return 1;
}

/* the log's reports; -1 where other bytes than theirs are not zero */
static inline int read_log(size_t length, struct report *log) {
    int n = 0;
    while (n < LOG_PLACES && held[LOG_CARTS + n] != 0) {
        log[n] = (struct report){held[LOG_CARTS + n], get_number(held + LOG_TIMES + 8 * n, 8)};
        n++;
    }
    for (size_t k = LOG_CARTS + (size_t)n; k < LOG_TIMES; k++)
        if (held[k] != 0)
            return -1;
    for (size_t k = LOG_TIMES + 8 * (size_t)n; k < length; k++)
        if (held[k] != 0)
            return -1;
    return n;
}

/* whether a load accepts the tables */
static inline int is_loaded(const struct plan *p) {
    static uint8_t slice[PLAN_NEED];
    return hegtalim_load(p->roads.bytes, p->roads.length, p->carts.bytes, p->carts.length, p->paths.bytes, p->paths.length, slice, sizeof slice) == 0;
}

/* the number of reports of the plan that the first `length` bytes of `held` hold, with log and network; -1 where they hold none */
static inline int read_held(size_t length, struct report *log) {
    static struct plan tables;
    static struct numbers numbers;
    if (!read_table(0, &tables.roads) || !read_table(1, &tables.carts) || !read_table(2, &tables.paths) || !is_loaded(&tables))
        return -1;
    int reports = read_log(length, log);
    if (reports < 0)
        return -1;
    parse_plan(&tables, &numbers);
    read_network(&numbers, &network);
    return add_reports(&network, log, (size_t)reports) ? reports : -1;
}

/* the refusal that a timetable of them deserves: 10, or 13 or 0, with network and solution */
static inline unsigned judge(size_t length) {
    static struct report log[LOG_PLACES];
    if (read_held(length, log) < 0)
        return 10;
    solve(&network, &solution);
    return solution.fits ? 0 : 13;
}

/* ---- plans that are held */

/* `held` as the load of p leaves it */
static inline void hold(const char *name) {
    uint64_t loaded = hegtalim_load(p.roads.bytes, p.roads.length, p.carts.bytes, p.carts.length, p.paths.bytes, p.paths.length, held, sizeof held);
    if (loaded != 0) {
        printf("%s: not loaded, 0x%llx\n", name, (unsigned long long)loaded);
        count(0);
    }
}

/* these tables, in p */
static inline void put_bytes(struct bytes roads, struct bytes carts, struct bytes paths) {
    p.roads.length = p.carts.length = p.paths.length = 0;
    add_bytes(&p.roads, roads.at, roads.length);
    add_bytes(&p.carts, carts.at, carts.length);
    add_bytes(&p.paths, paths.at, paths.length);
}

static inline void hold_bytes(const char *name, struct bytes roads, struct bytes carts, struct bytes paths) {
    put_bytes(roads, carts, paths);
    hold(name);
}

#endif
