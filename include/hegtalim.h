/* Hegtalim from C: the functions of libhegtalim.a, for x86-64. docs/CALLS.md says what each call gets, answers and leaves.
   A slice is passed as a pointer and the number of its bytes. Pointers are valid and never null, also where the number is 0, and a slice that
   is written overlaps no other. A call keeps no pointer and nothing else when it returns. */
#ifndef HEGTALIM_H
#define HEGTALIM_H

#include <stddef.h>
#include <stdint.h>

#ifdef __cplusplus
extern "C" {
#endif

/* The least number of bytes of a plan slice, in every call. A longer one is fine. */
#define HEGTALIM_PLAN_NEED 233472

/* The least numbers of bytes of a timetable's other slices: 8 an event, 2 and 1 an item of a chain. */
#define HEGTALIM_TIMES_NEED 32768
#define HEGTALIM_CHAIN_BOUNDS_NEED 8192
#define HEGTALIM_CHAIN_DIRECTIONS_NEED 4096

/* The greatest counts: bytes of a table, carts, events of a plan, items of a chain. */
#define HEGTALIM_MOST_TABLE_BYTES 65536
#define HEGTALIM_MOST_CARTS 64
#define HEGTALIM_MOST_EVENTS 4096
#define HEGTALIM_MOST_ITEMS 4096

/* The greatest time that a report may have, 10^12 milliseconds. */
#define HEGTALIM_MOST_TIME UINT64_C(1000000000000)

/* The parts of a call's answer. */
#define HEGTALIM_REFUSAL(answer) ((unsigned)((answer) & 0xff))    /* 0: none; enum hegtalim_refusal */
#define HEGTALIM_TABLE(answer) ((unsigned)((answer) >> 8 & 0xff)) /* 1 roads, 2 carts, 3 paths, 0 none */
/* A load's record: from 1, without the first line; 0 none. A timetable's number of passes, or of its chain's items (13). */
#define HEGTALIM_VALUE(answer) ((uint32_t)((answer) >> 32))

/* The refusals. 1 to 9 come from a load and name the table, 10 to 12 from the state, 13 from a timetable alone, 14 from any call. */
enum hegtalim_refusal {
    HEGTALIM_ACCEPTED = 0,
    HEGTALIM_LAYOUT = 1,      /* a byte, field count, number form or first line (record 0) breaks the layout */
    HEGTALIM_RANGE = 2,       /* a number is outside its range */
    HEGTALIM_ROAD_PAIR = 3,   /* a road from a cell to itself, or a second road for a pair */
    HEGTALIM_LIMIT = 4,       /* a count is over its limit, at the record that first passes it; for bytes, events and bounds record 0 */
    HEGTALIM_NO_CARTS = 5,    /* no carts (table 2, record 0) */
    HEGTALIM_PATH_COUNT = 6,  /* paths and carts differ in count (table 3, record 0) */
    HEGTALIM_OFF_ROAD = 7,    /* two successive cells are neither equal nor joined by a road */
    HEGTALIM_SAME_CELL = 8,   /* two carts are in one cell at one step: the higher record of the two */
    HEGTALIM_EXCHANGE = 9,    /* two carts exchange cells in one step: the higher record of the two */
    HEGTALIM_NO_PLAN = 10,    /* the plan slice holds bytes that no accepted load, with accepted reports since, leaves */
    HEGTALIM_NO_POINT = 11,   /* no such cart, or it has passed all its points */
    HEGTALIM_BAD_TIME = 12,   /* a time below the clock or over 10^12 */
    HEGTALIM_NO_TIMES = 13,   /* no times exist; the value is the length of the chain */
    HEGTALIM_TOO_SHORT = 14   /* a slice is shorter than its need */
};

/* Loads a plan: reads the bytes of roads.csv, carts.csv and paths.csv and judges them.
   Refusal 0: the plan slice holds the plan. 14: it is too short, and is as it came. 1 to 9: it is zero, every byte. */
uint64_t hegtalim_load(const uint8_t *roads, size_t roads_len, const uint8_t *carts, size_t carts_len,
                       const uint8_t *paths, size_t paths_len, uint8_t *plan, size_t plan_len);

/* Times the plan that is held. Numbers in slices are little-endian.
   Refusal 0: the times slice begins with the time of each event, in milliseconds, 8 bytes each. 13: no times exist; the chain slices begin with the
   items of a chain, the bound's number in 2 bytes, the direction in 1 (0 onward, 1 back); 10,000 + e is the bound that the reports add for event e.
   10: the plan slice holds no plan. 14: a slice is too short. Nothing else is written; the plan slice is only read. */
uint64_t hegtalim_timetable(const uint8_t *plan, size_t plan_len, uint8_t *times, size_t times_len,
                            uint8_t *chain_bounds, size_t chain_bounds_len, uint8_t *chain_directions, size_t chain_directions_len);

/* Reports that a cart, counted from 1, has passed its next point at a time in milliseconds. Its first entry counts as passed at 0.
   Refusal 0: the report is taken, and the plan slice holds it; the time is the clock from now on. 14: the plan slice is too short. 10: it holds no plan.
   11: there is no such cart, or it has passed all its points. 12: the time is below the clock, which is the greatest time taken so far and at first 0,
   or over 10^12. These four are judged in this order and change no byte. Table and value are 0. */
uint64_t hegtalim_report(uint8_t *plan, size_t plan_len, uint64_t cart, uint64_t time);

#ifdef __cplusplus
}
#endif

#endif
