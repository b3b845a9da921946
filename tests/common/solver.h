/* Document 01 read a second time, for tests: from the numbers of accepted tables and a log of reports to events, bounds, times, passes and chains.
   Plain loops that follow the document's sentences, written apart from the product's code, which they are compared with. No table is judged. */
#ifndef SOLVER_H
#define SOLVER_H

#include <stdio.h>
#include <stdlib.h>

#include "numbers.h"

#define MOST_CARTS 64
#define MOST_STEPS 1024
#define MOST_EVENTS 4096
#define MOST_BOUNDS 8192
#define NO_HI INT64_MAX  /* hi is none */
#define NO_SUM INT64_MIN /* no walk has come there */
#define MOST_TIME 1000000000000

/* lo <= time(to) - time(from) <= hi */
struct bound {
    unsigned from, to;
    int64_t lo, hi;
};

/* an entry of a cart's route */
struct entry {
    unsigned step, cell, event;
};

struct network {
    unsigned carts, events, bounds;
    unsigned entries[MOST_CARTS];
    struct entry entry[MOST_CARTS][MOST_STEPS];
    struct bound bound[MOST_BOUNDS];
    /* added bounds, by their event; is_added: 1 where there is one */
    struct bound added[MOST_EVENTS];
    uint8_t is_added[MOST_EVENTS];
};

struct report {
    uint64_t cart; /* from 1 */
    uint64_t time;
};

/* ---- events */

/* the leave point of an entry, and the approach point before one; whether they are there is the caller's to know */
static inline unsigned leave_point(const struct entry *e) { return e->event + 1; }
static inline unsigned approach_point(const struct entry *e) { return e->event - 1; }

/* "Event 0 is the start. Then, cart by cart, the route: ... The finish is the last event." */
static inline void number_events(const struct numbers *t, struct network *n) {
    unsigned steps = (unsigned)(t->cells / t->carts), next = 1;
    n->carts = (unsigned)t->carts;
    for (unsigned j = 0; j < n->carts; j++) {
        const uint32_t *cell = t->cell + j * steps;
        n->entries[j] = 0;
        for (unsigned s = 0; s < steps; s++)
            if (s == 0 || cell[s] != cell[s - 1]) {
                if (s != 0)
                    next += 2; /* the leave point of the cell before, the approach point of this one */
                n->entry[j][n->entries[j]++] = (struct entry){s, cell[s], next++};
            }
    }
    n->events = next + 1;
}

/* the events of a cart: its first, and how many there are */
static inline unsigned first_point(const struct network *n, unsigned j) { return n->entry[j][0].event; }
static inline unsigned points(const struct network *n, unsigned j) { return 3 * n->entries[j] - 2; }

/* ---- bounds */

static inline void add_bound(struct network *n, unsigned from, unsigned to, int64_t lo, int64_t hi) {
    if (n->bounds == MOST_BOUNDS) {
        fprintf(stderr, "a plan of a test has too many bounds\n");
        exit(2);
    }
    n->bound[n->bounds++] = (struct bound){from, to, lo, hi};
}

/* the road between two cells; roads are chained by either cell */
struct road_chains {
    uint16_t first[65536], next[2 * 1024]; /* 1 + 2 * road + side; 0 ends a chain */
};

static inline void chain_roads(const struct numbers *t, struct road_chains *c) {
    memset(c->first, 0, sizeof c->first);
    for (unsigned i = 0; i < t->roads; i++)
        for (unsigned side = 0; side < 2; side++) {
            uint32_t cell = t->road[i][side];
            c->next[2 * i + side] = c->first[cell];
            c->first[cell] = (uint16_t)(1 + 2 * i + side);
        }
}

static inline const uint32_t *road_between(const struct numbers *t, const struct road_chains *c, uint32_t a, uint32_t b) {
    for (unsigned at = c->first[a]; at != 0; at = c->next[at - 1]) {
        const uint32_t *road = t->road[(at - 1) / 2];
        if (road[1 - (at - 1) % 2] == b)
            return road;
    }
    fprintf(stderr, "a plan of a test leaves the roads\n");
    exit(2);
}

/* "lo is 1,000 x part / fastest rounded up, hi is 1,000 x part / slowest rounded down, or none." */
static inline void add_part(struct network *n, unsigned from, int64_t part, const uint32_t *speeds) {
    int64_t fastest = speeds[0], slowest = speeds[1];
    add_bound(n, from, from + 1, (1000 * part + fastest - 1) / fastest, slowest == 0 ? NO_HI : 1000 * part / slowest);
}

/* "A move has three parts of lengths margin, length - 2 x margin, margin." */
static inline void add_travel(const struct numbers *t, const struct road_chains *c, struct network *n, unsigned j) {
    for (unsigned i = 0; i + 1 < n->entries[j]; i++) {
        const struct entry *e = &n->entry[j][i];
        const uint32_t *road = road_between(t, c, e->cell, e[1].cell);
        int64_t length = road[2], margin = road[3];
        add_part(n, e->event, margin, t->cart[j]);
        add_part(n, leave_point(e), length - 2 * margin, t->cart[j]);
        add_part(n, approach_point(e + 1), margin, t->cart[j]);
    }
}

/* "k's first entry to the same cell at a step after t, if any" */
static inline const struct entry *first_entry_after(const struct network *n, unsigned k, const struct entry *e) {
    for (unsigned i = 0; i < n->entries[k]; i++)
        if (n->entry[k][i].cell == e->cell && n->entry[k][i].step > e->step)
            return &n->entry[k][i];
    return NULL;
}

/* "for each cart j and entry of j at step t to a cell, and for each other cart k, ...; by j, then t, then k" */
static inline void add_orders(struct network *n) {
    static uint64_t visitors[65536]; /* a bit for each cart that comes to the cell, so that no other is searched */
    memset(visitors, 0, sizeof visitors);
    for (unsigned j = 0; j < n->carts; j++)
        for (unsigned i = 0; i < n->entries[j]; i++)
            visitors[n->entry[j][i].cell] |= (uint64_t)1 << j;
    for (unsigned j = 0; j < n->carts; j++)
        for (unsigned i = 0; i < n->entries[j]; i++) {
            const struct entry *e = &n->entry[j][i];
            for (unsigned k = 0; k < n->carts; k++) {
                const struct entry *later = k != j && (visitors[e->cell] >> k & 1) ? first_entry_after(n, k, e) : NULL;
                if (later != NULL)
                    add_bound(n, leave_point(e), approach_point(later), 0, NO_HI);
            }
        }
}

/* the events and bounds of a plan without reports */
static inline void read_network(const struct numbers *t, struct network *n) {
    static struct road_chains chains;
    chain_roads(t, &chains);
    number_events(t, n);
    n->bounds = 0;
    for (unsigned j = 0; j < n->carts; j++)
        add_bound(n, 0, first_point(n, j), 0, 0);
    for (unsigned j = 0; j < n->carts; j++)
        add_travel(t, &chains, n, j);
    add_orders(n);
    for (unsigned j = 0; j < n->carts; j++)
        add_bound(n, n->entry[j][n->entries[j] - 1].event, n->events - 1, 0, NO_HI);
    memset(n->is_added, 0, sizeof n->is_added);
}

/* ---- reports */

/* the book: what reports amount to */
struct book {
    uint64_t clock;
    unsigned passed[MOST_CARTS]; /* points passed by each cart, its first entry among them */
};

static inline void open_book(const struct network *n, struct book *b) {
    b->clock = 0;
    for (unsigned j = 0; j < n->carts; j++)
        b->passed[j] = 1;
}

static inline int has_next(const struct network *n, const struct book *b, uint64_t cart) {
    return 1 <= cart && cart <= n->carts && b->passed[cart - 1] < points(n, cart - 1);
}

/* a cart's next point */
static inline unsigned next_point(const struct network *n, const struct book *b, uint64_t cart) {
    return first_point(n, cart - 1) + b->passed[cart - 1];
}

/* the answer to a report: 0 and the book is written on, or 11 or 12 */
static inline unsigned enter(const struct network *n, struct book *b, struct report r) {
    if (!has_next(n, b, r.cart))
        return 11;
    if (r.time < b->clock || r.time > MOST_TIME)
        return 12;
    b->passed[r.cart - 1]++;
    b->clock = r.time;
    return 0;
}

/* the added bounds of a log, whose reports are accepted one after the other: 1; else 0 */
static inline int add_reports(struct network *n, const struct report *log, size_t length) {
    struct book b;
    open_book(n, &b);
    memset(n->is_added, 0, sizeof n->is_added);
    for (size_t i = 0; i < length; i++) {
        unsigned e = has_next(n, &b, log[i].cart) ? next_point(n, &b, log[i].cart) : 0;
        if (enter(n, &b, log[i]) != 0)
            return 0;
        n->added[e] = (struct bound){0, e, (int64_t)log[i].time, (int64_t)log[i].time};
        n->is_added[e] = 1;
    }
    for (unsigned j = 0; j < n->carts; j++)
        for (unsigned i = b.passed[j]; i < points(n, j); i++) {
            unsigned e = first_point(n, j) + i;
            n->added[e] = (struct bound){0, e, (int64_t)b.clock, NO_HI};
            n->is_added[e] = 1;
        }
    return 1;
}

/* ---- times */

struct solution {
    int fits; /* 1: there are times */
    unsigned passes;
    int64_t time[MOST_EVENTS];
};

struct arc {
    unsigned from, to;
    int64_t adds;
};

/* "Following a bound, added ones included, forward adds lo, backward subtracts hi, and hi none is not followed." */
static inline size_t put_arcs(const struct bound *b, struct arc *to) {
    to[0] = (struct arc){b->from, b->to, b->lo};
    if (b->hi == NO_HI)
        return 1;
    to[1] = (struct arc){b->to, b->from, -b->hi};
    return 2;
}

/* "the smallest k for which the greatest sums over walks from the start of at most k bounds and of at most k + 1 bounds agree at every event", which
   is below the number of events; where no such k agrees there are no times */
static inline void solve(const struct network *n, struct solution *s) {
    static struct arc arc[2 * (MOST_BOUNDS + MOST_EVENTS)];
    static int64_t next[MOST_EVENTS];
    size_t arcs = 0, bytes = n->events * sizeof *next;
    for (unsigned i = 0; i < n->bounds; i++)
        arcs += put_arcs(&n->bound[i], arc + arcs);
    for (unsigned e = 0; e < n->events; e++)
        if (n->is_added[e])
            arcs += put_arcs(&n->added[e], arc + arcs);
    s->time[0] = 0;
    for (unsigned e = 1; e < n->events; e++)
        s->time[e] = NO_SUM;
    s->fits = 0;
    for (s->passes = 0; s->passes < n->events; s->passes++) {
        memcpy(next, s->time, bytes);
        for (size_t i = 0; i < arcs; i++) {
            int64_t sum = s->time[arc[i].from];
            if (sum != NO_SUM && sum + arc[i].adds > next[arc[i].to])
                next[arc[i].to] = sum + arc[i].adds;
        }
        if (memcmp(next, s->time, bytes) == 0) {
            s->fits = 1;
            return;
        }
        memcpy(s->time, next, bytes);
    }
}

/* every point of every cart but its first, reported at the time that it has, in order of the times: how many there are */
static inline size_t report_all(const struct network *n, const struct solution *s, struct report *log) {
    struct book b;
    size_t length = 0;
    open_book(n, &b);
    for (;;) {
        unsigned cart = 0;
        for (unsigned j = 1; j <= n->carts; j++)
            if (has_next(n, &b, j) && (cart == 0 || s->time[next_point(n, &b, j)] < s->time[next_point(n, &b, cart)]))
                cart = j;
        if (cart == 0)
            return length;
        log[length] = (struct report){cart, (uint64_t)s->time[next_point(n, &b, cart)]};
        if (enter(n, &b, log[length++]) != 0) {
            fprintf(stderr, "a report of a test is not taken\n");
            exit(2);
        }
    }
}

/* ---- chains */

/* what keeps a list of bound numbers with directions from being a chain; NULL where it is one */
static inline const char *no_chain(const struct network *n, const unsigned *number, const unsigned *direction, size_t length) {
    static uint8_t met[MOST_EVENTS];
    int64_t cost = 0;
    unsigned first = 0, at = 0;
    if (length == 0)
        return "no item";
    memset(met, 0, sizeof met);
    for (size_t i = 0; i < length; i++) {
        unsigned e = number[i] - 10000;
        const struct bound *b = number[i] < n->bounds ? &n->bound[number[i]] : number[i] >= 10000 && e < n->events && n->is_added[e] ? &n->added[e] : NULL;
        if (b == NULL)
            return "a number of no bound";
        if (direction[i] > 1)
            return "a direction that is neither 0 nor 1";
        if (direction[i] == 0 && b->hi == NO_HI)
            return "a bound without hi taken forward";
        unsigned from = direction[i] == 0 ? b->from : b->to;
        if (i == 0)
            first = from;
        else if (from != at)
            return "an item that doesn't begin where the one before it ends";
        if (met[from])
            return "an event met twice";
        met[from] = 1;
        at = direction[i] == 0 ? b->to : b->from;
        cost += direction[i] == 0 ? b->hi : -b->lo;
    }
    if (at != first)
        return "an end that is not where it begins";
    return cost < 0 ? NULL : "a cost that is not below 0";
}

#endif
