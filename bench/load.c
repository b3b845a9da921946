/* How long hegtalim_load takes, against a plain C parser that turns the same tables into numbers and checks nothing, and how that grows with the
   carts. Everything is measured in one run, all sides in turn, best of so many repetitions; what is compared are the ratios. A load clears its plan
   slice, judges the tables and stores them; the parser writes to arrays that are not cleared.
   Usage: load [REPETITIONS]. Fails where the two sides don't read the same plan. */
#define _POSIX_C_SOURCE 200809L
#include "../include/hegtalim.h"
#include "../tests/common/numbers.h"
#include "../tests/common/plans.h"
#include "clock.h"

/* ---- the two sides */

static struct plan plans[3];
static uint8_t slice[HEGTALIM_PLAN_NEED];
static struct numbers parsed, stored;
static uint64_t answer;

static void load_side(const struct plan *p) {
    answer = hegtalim_load(p->roads.bytes, p->roads.length, p->carts.bytes, p->carts.length, p->paths.bytes, p->paths.length, slice, sizeof slice);
}

static void parse_side(const struct plan *p) {
    parse(p->roads.bytes, p->roads.length, p->carts.bytes, p->carts.length, p->paths.bytes, p->paths.length, &parsed);
}

/* the plan that load holds has the numbers that the parser read, and as many as were written */
static void same_plan(const struct plan *p, unsigned carts) {
    load_side(p);
    parse_side(p);
    size_t n[3];
    for (unsigned i = 0; i < 3; i++)
        for (n[i] = 0; n[i] < 65536 && slice[65536 * i + n[i]] != 0; n[i]++)
            ;
    parse(slice, n[0], slice + 65536, n[1], slice + 131072, n[2], &stored);
    if (answer != 0 || parsed.roads != 1024 || parsed.carts != carts || parsed.cells != 128 * carts || memcmp(&parsed, &stored, sizeof parsed) != 0) {
        printf("%u carts: the two sides don't read the same plan (answer 0x%llx; %zu roads, %zu carts, %zu cells)\n", carts,
               (unsigned long long)answer, parsed.roads, parsed.carts, parsed.cells);
        exit(1);
    }
}

/* ---- times */

/* runs a side once; keeps the least time */
static void measure(void (*side)(const struct plan *), const struct plan *p, double *least) {
    double from = microseconds();
    side(p);
    double took = microseconds() - from;
    if (took < *least)
        *least = took;
}

int main(int argc, char **argv) {
    unsigned repetitions = argc > 1 ? (unsigned)strtoul(argv[1], NULL, 10) : 200;
    static const unsigned carts[] = {16, 32, 64};
    double load[3], plain[3];
    if (repetitions == 0)
        repetitions = 1;
    for (unsigned i = 0; i < 3; i++) {
        corridor(&plans[i], carts[i], 128, 21);
        same_plan(&plans[i], carts[i]);
        load[i] = plain[i] = 1e12;
    }
    for (unsigned k = 0; k < repetitions; k++)
        for (unsigned i = 0; i < 3; i++) {
            measure(load_side, &plans[i], &load[i]);
            measure(parse_side, &plans[i], &plain[i]);
        }
    printf("1,024 roads, 128 steps, best of %u\n", repetitions);
    for (unsigned i = 0; i < 3; i++)
        printf("%u carts, %zu bytes: load %.1f us, plain parse %.1f us, ratio %.1f\n", carts[i],
               plans[i].roads.length + plans[i].carts.length + plans[i].paths.length, load[i], plain[i], load[i] / plain[i]);
    printf("at the limits: load is %.1f times the plain parse\n", load[2] / plain[2]);
    printf("16 to 64 carts, the same steps: load grows %.2f times\n", load[2] / load[0]);
    return 0;
}
