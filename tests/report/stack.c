/* How much stack hegtalim_report uses: at most 65,536 bytes. The last line is 'N passed, M failed'. */
#define _DEFAULT_SOURCE
#include "../../include/hegtalim.h"
#include "../common/slice.h"
#include "../common/stack.h"

#define MOST 65536

static struct plan p;
static struct steps way;
static struct report log[LOG_PLACES], next;
static uint8_t held[HEGTALIM_PLAN_NEED], lent[HEGTALIM_PLAN_NEED];
static unsigned passed, failed;

/* the report that is next, in a slice that is `held` each time */
static uint64_t report(void) {
    memcpy(lent, held, sizeof lent);
    return hegtalim_report(lent, sizeof lent, next.cart, next.time);
}

static void measure(const char *name, unsigned expected) {
    if (measure_stack(name, report, expected, MOST))
        passed++;
    else
        failed++;
}

/* p with every point reported but the last, which is next */
static void fill(void) {
    size_t reports = every_report(&p, log) - 1;
    put_tables(held, sizeof held, &p);
    put_log(held, log, reports);
    next = log[reports];
}

int main(void) {
    times_at_limits(&p);
    put_tables(held, sizeof held, &p);
    next = (struct report){64, 5};
    measure("64 carts at the limits, the first report", 0);
    fill();
    measure("64 carts at the limits, the last report", 0);
    next.time--;
    measure("64 carts at the limits, a time below the clock", 12);
    next.cart = 1;
    measure("64 carts at the limits, a cart past its points", 11);
    to_and_fro(&p, &way, 2, 700, 682, 0);
    fill();
    measure("4,096 events, the last report", 0);
    turns(&p, 16, 24, 72);
    fill();
    measure("8,192 bounds, the last report", 0);
    held[LOG_CARTS] = 65;
    measure("no plan", 10);
    printf("%u passed, %u failed\n", passed, failed);
    return failed != 0;
}
