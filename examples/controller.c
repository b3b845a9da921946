/* An example floor controller: loads a plan, prints its timetable, plays the reports of a file and prints the timetable after each that is taken.

   Usage: controller FOLDER REPORTS

   FOLDER has roads.csv, carts.csv and paths.csv; one that can't be opened counts as zero bytes. A line of REPORTS is `cart,time`, decimal numbers below
   2^64; it ends in LF or CR LF, the last may end without.

   What is printed, in lines that end in LF, with N for a number in decimal:
     load: held                                        the plan is accepted
     load: refused, N, table N, record N               it is not: the refusal, the table (1 roads, 2 carts, 3 paths) and the record
     timetable: N events, N passes                     followed by a line for each event:
       event N at N                                      its number and its time in milliseconds
     timetable: no times, a chain of N                 followed by a line for each item of the chain, from the bound of the least number on:
       bound N onward                                    from its event u to v
       bound N back                                      from v to u
     report: cart N at N: taken                        a timetable follows
     report: cart N at N: refused, N

   Exit status: 0; 1 where the load is refused; 2, with a message on stderr, where arguments are missing or REPORTS can't be read. */
#include <stdio.h>
#include <stdlib.h>
#include <string.h>

#include "../include/hegtalim.h"

/* what is lent to the calls */
struct table {
    size_t length;
    uint8_t bytes[HEGTALIM_MOST_TABLE_BYTES + 1]; /* room for one byte too many: a longer file is refused, not cut off */
};
static struct table roads, carts, paths;
static uint8_t plan[HEGTALIM_PLAN_NEED], times[HEGTALIM_TIMES_NEED], chain_bounds[HEGTALIM_CHAIN_BOUNDS_NEED],
    chain_directions[HEGTALIM_CHAIN_DIRECTIONS_NEED];

static _Noreturn void stop(const char *what, const char *why) {
    fprintf(stderr, "controller: %s: %s\n", what, why);
    exit(2);
}

/* ---- the plan */

static void read_table(const char *folder, const char *name, struct table *to) {
    char path[4096];
    int length = snprintf(path, sizeof path, "%s/%s", folder, name);
    if (length < 0 || (size_t)length >= sizeof path)
        stop(folder, "the name is too long");
    FILE *file = fopen(path, "rb");
    to->length = 0;
    if (file == NULL)
        return;
    to->length = fread(to->bytes, 1, sizeof to->bytes, file);
    fclose(file);
}

/* 1 where the plan is held */
static int load(const char *folder) {
    read_table(folder, "roads.csv", &roads);
    read_table(folder, "carts.csv", &carts);
    read_table(folder, "paths.csv", &paths);
    uint64_t answer =
        hegtalim_load(roads.bytes, roads.length, carts.bytes, carts.length, paths.bytes, paths.length, plan, sizeof plan);
    if (HEGTALIM_REFUSAL(answer) == HEGTALIM_ACCEPTED) {
        printf("load: held\n");
        return 1;
    }
    printf("load: refused, %u, table %u, record %u\n", HEGTALIM_REFUSAL(answer), HEGTALIM_TABLE(answer), (unsigned)HEGTALIM_VALUE(answer));
    return 0;
}

/* ---- timetables */

/* a little-endian number of n bytes */
static uint64_t number_at(const uint8_t *at, unsigned n) {
    uint64_t v = 0;
    for (unsigned i = n; i > 0; i--)
        v = v << 8 | at[i - 1];
    return v;
}

static void print_times(unsigned passes) {
    unsigned events = 0;
    while (events < HEGTALIM_MOST_EVENTS && number_at(times + 8 * events, 8) != UINT64_MAX)
        events++;
    printf("timetable: %u events, %u passes\n", events, passes);
    for (unsigned e = 0; e < events; e++)
        printf("  event %u at %llu\n", e, (unsigned long long)number_at(times + 8 * e, 8));
}

/* A chain is closed, so it may be read from any of its items on; a bound that it takes both ways is read onward first. */
static void print_chain(unsigned length) {
    unsigned first = 0, least = UINT32_MAX;
    for (unsigned i = 0; i < length; i++) {
        unsigned place = 2 * (unsigned)number_at(chain_bounds + 2 * i, 2) + chain_directions[i];
        if (place < least)
            first = i, least = place;
    }
    printf("timetable: no times, a chain of %u\n", length);
    for (unsigned k = 0; k < length; k++) {
        unsigned i = (first + k) % length;
        printf("  bound %u %s\n", (unsigned)number_at(chain_bounds + 2 * i, 2), chain_directions[i] == 0 ? "onward" : "back");
    }
}

static void print_timetable(void) {
    /* the call writes the events' places alone; no time is so great */
    memset(times, 0xff, sizeof times);
    uint64_t answer = hegtalim_timetable(plan, sizeof plan, times, sizeof times, chain_bounds, sizeof chain_bounds, chain_directions,
                                         sizeof chain_directions);
    switch (HEGTALIM_REFUSAL(answer)) {
    case HEGTALIM_ACCEPTED:
        print_times(HEGTALIM_VALUE(answer));
        break;
    case HEGTALIM_NO_TIMES:
        print_chain(HEGTALIM_VALUE(answer));
        break;
    default: /* 10 or 14: not with these slices, after a load that was accepted */
        stop("timetable", "the plan is gone");
    }
}

/* ---- reports */

/* a decimal number below 2^64, its first character in *c: 1, and *c is the character behind it; 0 where there is none */
static int read_number(FILE *file, int *c, uint64_t *to) {
    int digits = 0;
    for (*to = 0; *c >= '0' && *c <= '9'; *c = fgetc(file)) {
        unsigned digit = (unsigned)(*c - '0');
        if (*to > (UINT64_MAX - digit) / 10)
            return 0;
        *to = 10 * *to + digit;
        digits = 1;
    }
    return digits;
}

/* the next line of the reports: 1; 0 at their end */
static int read_report(const char *name, FILE *file, uint64_t *cart, uint64_t *time) {
    int c = fgetc(file), sound;
    if (c == EOF)
        return 0;
    sound = read_number(file, &c, cart) && c == ',';
    c = fgetc(file);
    sound = sound && read_number(file, &c, time);
    if (c == '\r')
        sound = sound && (c = fgetc(file)) == '\n';
    if (!sound || (c != '\n' && c != EOF))
        stop(name, "a line is not `cart,time`");
    return 1;
}

static void play(const char *name) {
    uint64_t cart, time;
    FILE *file = fopen(name, "rb");
    if (file == NULL)
        stop(name, "can't be opened");
    while (read_report(name, file, &cart, &time)) {
        unsigned refusal = HEGTALIM_REFUSAL(hegtalim_report(plan, sizeof plan, cart, time));
        printf("report: cart %llu at %llu: ", (unsigned long long)cart, (unsigned long long)time);
        if (refusal != HEGTALIM_ACCEPTED) {
            printf("refused, %u\n", refusal);
            continue;
        }
        printf("taken\n");
        print_timetable();
    }
    if (ferror(file))
        stop(name, "can't be read");
    fclose(file);
}

int main(int argc, char **argv) {
    if (argc != 3)
        stop("usage", "controller FOLDER REPORTS");
    if (!load(argv[1]))
        return 1;
    print_timetable();
    play(argv[2]);
    return 0;
}
