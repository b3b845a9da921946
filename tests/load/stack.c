/* How much stack hegtalim_load uses: at most 65,536 bytes. The last line is 'N passed, M failed'. */
#define _DEFAULT_SOURCE
#include "../../include/hegtalim.h"
#include "../common/stack.h"

#define MOST 65536

static struct plan p;
static uint8_t slice[HEGTALIM_PLAN_NEED];

static uint64_t load(void) {
    return hegtalim_load(p.roads.bytes, p.roads.length, p.carts.bytes, p.carts.length, p.paths.bytes, p.paths.length, slice, sizeof slice);
}

int main(void) {
    unsigned passed = 0;
    plan_at_limits(&p);
    passed += measure_stack("the plan at the limits", load, 0, MOST);
    turns(&p, 16, 24, 72);
    passed += measure_stack("8,192 bounds", load, 0, MOST);
    plan_at_limits(&p);
    p.paths.bytes[p.paths.length - 3] = 'x';
    passed += measure_stack("the last path malformed", load, 1 | 3 << 8 | (uint64_t)64 << 32, MOST);
    printf("%u passed, %u failed\n", passed, 3 - passed);
    return passed != 3;
}
