/* One timetable, for tests: the call made, and its answer and every byte of the three slices that it may write compared; a chain is followed from bound
   to bound. These slices lie unaligned between guard bytes, which must stay; the plan slice can't be written while it is lent, and ends where the next
   byte can't be read. */
#ifndef TIMED_H
#define TIMED_H

#include "held.h"

enum { TIMES, CHAIN_BOUNDS, CHAIN_DIRECTIONS, SLICES };
static const size_t need[SLICES] = {32768, 8192, 4096};
static const char *const slice_name[SLICES] = {"times", "chain bounds", "chain directions"};

static struct pages plan_pages;
static uint8_t memory[SLICES][GUARD + 32768 + MORE + GUARD];

/* what a place of a slice holds before a call; other bytes in each slice and turn */
static inline uint8_t came(unsigned slice, unsigned turn, size_t i) { return before(i + 83 * slice + 29 * turn); }

/* all places of a slice and its guards are as they came, but for the first `written` of the slice */
static inline int as_came(const char *name, unsigned slice, unsigned turn, size_t length, size_t written) {
    for (size_t i = 0; i < GUARD + length + GUARD; i++)
        if ((i < GUARD || i >= GUARD + written) && memory[slice][i] != came(slice, turn, i)) {
            printf("%s: %s slice of %zu: place %ld is %u; it came as %u\n", name, slice_name[slice], length, (long)i - GUARD, memory[slice][i],
                   came(slice, turn, i));
            return 0;
        }
    return 1;
}

static inline int are_times(const char *name) {
    for (unsigned e = 0; e < network.events; e++) {
        uint64_t time = get_number(memory[TIMES] + GUARD + 8 * e, 8);
        if (time != (uint64_t)solution.time[e]) {
            printf("%s: event %u at %llu; expected %lld\n", name, e, (unsigned long long)time, (long long)solution.time[e]);
            return 0;
        }
    }
    return 1;
}

/* the items written are a chain; and what is no chain is told from it: one without its last item, one that goes round twice, and one whose first
   item goes the other way */
static inline int is_chain(const char *name, size_t length) {
    static unsigned number[2 * MOST_EVENTS], direction[2 * MOST_EVENTS];
    if (length > MOST_EVENTS) {
        printf("%s: a chain of %zu items\n", name, length);
        return 0;
    }
    for (size_t i = 0; i < length; i++) {
        number[i] = number[length + i] = (unsigned)get_number(memory[CHAIN_BOUNDS] + GUARD + 2 * i, 2);
        direction[i] = direction[length + i] = memory[CHAIN_DIRECTIONS][GUARD + i];
    }
    const char *why = no_chain(&network, number, direction, length);
    if (why != NULL) {
        printf("%s: %zu items that are no chain: %s\n", name, length, why);
        return 0;
    }
    int told = no_chain(&network, number, direction, length - 1) != NULL && no_chain(&network, number, direction, 2 * length) != NULL;
    direction[0] = 1 - direction[0];
    if (!told || no_chain(&network, number, direction, length) == NULL) {
        printf("%s: what is no chain is taken for one\n", name);
        return 0;
    }
    return 1;
}

static uint64_t answer;

/* calls with a plan slice and slices of these lengths and compares answer, slices and guards with what must come, by network and solution;
   0 where they differ */
static inline int time_once(const char *name, unsigned turn, const uint8_t *plan, size_t plan_length, const size_t *length,
                            unsigned refusal) {
    for (unsigned s = 0; s < SLICES; s++)
        for (size_t i = 0; i < GUARD + length[s] + GUARD; i++)
            memory[s][i] = came(s, turn, i);
    const uint8_t *lent = lend(plan_pages, plan, plan_length);
    running = name;
    answer = hegtalim_timetable(lent, plan_length, memory[TIMES] + GUARD, length[TIMES], memory[CHAIN_BOUNDS] + GUARD, length[CHAIN_BOUNDS],
                                memory[CHAIN_DIRECTIONS] + GUARD, length[CHAIN_DIRECTIONS]);
    uint64_t value = answer >> 32, expected = refusal == 0 ? solution.passes : refusal == 13 ? value : 0;
    if (answer != (refusal | expected << 32)) {
        printf("%s: slices of %zu, %zu, %zu, %zu: answer 0x%llx; expected refusal %u, value %llu\n", name, plan_length, length[0], length[1], length[2],
               (unsigned long long)answer, refusal, (unsigned long long)expected);
        return 0;
    }
    if ((refusal == 0 && !are_times(name)) || (refusal == 13 && !is_chain(name, (size_t)value)))
        return 0;
    return as_came(name, TIMES, turn, length[TIMES], refusal == 0 ? 8 * (size_t)network.events : 0) &&
           as_came(name, CHAIN_BOUNDS, turn, length[CHAIN_BOUNDS], refusal == 13 ? 2 * (size_t)value : 0) &&
           as_came(name, CHAIN_DIRECTIONS, turn, length[CHAIN_DIRECTIONS], refusal == 13 ? (size_t)value : 0);
}

#endif
