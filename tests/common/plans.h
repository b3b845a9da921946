/* Tables written for tests: a growing text, and plans at the limits of document 01. */
#ifndef PLANS_H
#define PLANS_H

#include <stdint.h>
#include <stdio.h>
#include <stdlib.h>
#include <string.h>

/* bytes, with room for a table that is over its limit */
struct text {
    size_t length;
    uint8_t bytes[70000];
};

struct plan {
    struct text roads, carts, paths;
};

static inline void add_bytes(struct text *t, const void *bytes, size_t n) {
    if (n > sizeof t->bytes - t->length) {
        fprintf(stderr, "a text of a test is too long\n");
        exit(2);
    }
    memcpy(t->bytes + t->length, bytes, n);
    t->length += n;
}

static inline void add(struct text *t, const char *s) { add_bytes(t, s, strlen(s)); }

static inline void add_number(struct text *t, unsigned n) {
    char digits[16];
    add_bytes(t, digits, (size_t)snprintf(digits, sizeof digits, "%u", n));
}

static inline void add_road(struct text *t, unsigned from, unsigned to, unsigned length, unsigned margin) {
    add_number(t, from);
    add(t, ",");
    add_number(t, to);
    add(t, ",");
    add_number(t, length);
    add(t, ",");
    add_number(t, margin);
    add(t, "\r\n");
}

/* the paths of a plan: cell[j][s] is where cart j + 1 is at step s */
struct steps {
    unsigned carts, steps;
    unsigned cell[65][1026];
};

static inline void add_paths(struct text *t, const struct steps *p) {
    for (unsigned j = 0; j < p->carts; j++)
        for (unsigned s = 0; s < p->steps; s++) {
            add_number(t, p->cell[j][s]);
            add(t, s + 1 < p->steps ? "," : "\r\n");
        }
}

static inline void begin_plan(struct plan *p) {
    p->roads.length = p->carts.length = p->paths.length = 0;
    add(&p->roads, "from,to,length,margin\r\n");
    add(&p->carts, "fastest,slowest\r\n");
}

static inline void add_carts(struct plan *p, unsigned n, const char *record) {
    for (unsigned j = 0; j < n; j++)
        add(&p->carts, record);
}

/* A corridor of 1,024 roads, cells 60,000 to 61,024, with the longest numbers that a road may have. Each of the carts, at most 64, keeps to 16 cells
   of its own, goes from the first towards the last and back with `moves` moves in all (the last cart: one less), and then waits: no cart enters a
   cell of another. */
static inline void corridor(struct plan *p, unsigned carts, unsigned steps, unsigned moves) {
    static struct steps way;
    begin_plan(p);
    for (unsigned i = 0; i < 1024; i++)
        add_road(&p->roads, 60000 + i, 60001 + i, 100000000, 49999999);
    add_carts(p, carts, "20000000,10000000\r\n");
    way.carts = carts;
    way.steps = steps;
    for (unsigned j = 0; j < carts; j++)
        for (unsigned s = 0; s < steps; s++) {
            unsigned most = j + 1 < carts ? moves : moves - 1, gone = (s < most ? s : most) % 30;
            way.cell[j][s] = 60000 + 16 * j + (gone <= 15 ? gone : 30 - gone);
        }
    add_paths(&p->paths, &way);
}

/* The plan at the limits: 1,024 roads, 64 carts, 8,192 path cells; 63 × 21 + 20 = 1,343 moves, so 2 + 64 + 3 × 1,343 = 4,095 events, and one move
   more would be over 4,096. */
static inline void plan_at_limits(struct plan *p) { corridor(p, 64, 128, 21); }

/* It has no times: two micrometres take a cart no whole number of milliseconds that is between its speeds. The same with carts that may wait has. */
static inline void times_at_limits(struct plan *p) {
    plan_at_limits(p);
    p->carts.length = 0;
    add(&p->carts, "fastest,slowest\r\n");
    add_carts(p, 64, "20000000,\r\n");
}

/* n carts, each on a road of its own, that make `moves` moves there and back, the last `more` besides; all in w cells */
static inline void to_and_fro(struct plan *p, struct steps *way, unsigned n, unsigned w, unsigned moves, unsigned more) {
    begin_plan(p);
    way->carts = n;
    way->steps = w;
    for (unsigned j = 0; j < n; j++) {
        add_road(&p->roads, 2 * j, 2 * j + 1, 1000000, 250000);
        add(&p->carts, "250000,\r\n");
        for (unsigned s = 0; s < w; s++) {
            unsigned all = j + 1 < n ? moves : moves + more;
            way->cell[j][s] = 2 * j + (s < all ? s : all) % 2;
        }
    }
    add_paths(&p->paths, way);
}

/* Carts in a row, one behind the other, in a corridor of cells 0, 1, ..: cart 1 leads, and at each of `moves` steps every cart moves one cell on, into
   the cell that the cart before it leaves. The leader's record of the carts table, and that of each other. */
static inline void follow(struct plan *p, unsigned n, unsigned moves, const char *leader, const char *others) {
    static struct steps way;
    begin_plan(p);
    for (unsigned i = 0; i + 1 < n + moves; i++)
        add_road(&p->roads, i, i + 1, 1000000, 250000);
    add(&p->carts, leader);
    add_carts(p, n - 1, others);
    way.carts = n;
    way.steps = moves + 1;
    for (unsigned j = 0; j < n; j++)
        for (unsigned s = 0; s <= moves; s++)
            way.cell[j][s] = n - 1 - j + s;
    add_paths(&p->paths, &way);
}

/* A cart with `moves` moves along a row of cells, and one that stands in the last of them and leaves late, by a long margin. Their records of the carts
   table. Where the first can't stand, it is late event by event, back along its row, and each of these takes a sweep: on a long way the passes are made. */
static inline void late_end(struct plan *p, unsigned moves, const char *first, const char *second) {
    static struct steps way;
    begin_plan(p);
    for (unsigned i = 0; i < moves; i++)
        add_road(&p->roads, i, i + 1, 1000000, 250000);
    add_road(&p->roads, moves, moves + 1, 100000000, 49999999);
    add(&p->carts, first);
    add(&p->carts, second);
    way.carts = 2;
    way.steps = moves + 1;
    for (unsigned s = 0; s <= moves; s++) {
        way.cell[0][s] = s;
        way.cell[1][s] = s < moves ? moves : moves + 1;
    }
    add_paths(&p->paths, &way);
}

/* Carts that take turns in one cell. Cell 0 has a road to the home of each cart, cells 1 to n; round by round, each cart in turn drives to cell 0 and
   home again, one step each, and when all is done cart 1 makes `more` moves between its home and cell 1000.
   Bounds: 2 for each cart, 3 for each of the 2 × rounds × n + more moves, and order bounds from each visit to cell 0 to each other cart that comes
   later: n × (n − 1) in each round but the last, n × (n − 1) ÷ 2 in the last. */
static inline void turns(struct plan *p, unsigned n, unsigned rounds, unsigned more) {
    static struct steps way;
    begin_plan(p);
    for (unsigned j = 1; j <= n; j++)
        add_road(&p->roads, 0, j, 1000000, 250000);
    add_road(&p->roads, 1, 1000, 1000000, 250000);
    add_carts(p, n, "250000,\r\n");
    way.carts = n;
    way.steps = rounds * n + 2 + more;
    for (unsigned j = 0; j < n; j++)
        for (unsigned s = 0; s < way.steps; s++) {
            unsigned turn = s - 1, after = rounds * n + 1;
            way.cell[j][s] = j + 1;
            if (s >= 1 && turn < rounds * n && turn % n == j)
                way.cell[j][s] = 0;
            if (j == 0 && s > after && (s - after) % 2 == 1)
                way.cell[j][s] = 1000;
        }
    add_paths(&p->paths, &way);
}

/* the bounds of such a plan */
static inline unsigned bounds_of_turns(unsigned n, unsigned rounds, unsigned more) {
    return 2 * n + 3 * (2 * rounds * n + more) + (rounds - 1) * n * (n - 1) + n * (n - 1) / 2;
}

#endif
