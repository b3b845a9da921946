/* What tests of calls share: counts, tables that are written out, and memory to lend. */
#ifndef LENT_H
#define LENT_H

#include <signal.h>
#include <sys/mman.h>
#include <unistd.h>

#include "plans.h"

static unsigned passed, failed;
static const char *running = "";

static inline void count(int ok) {
    if (ok)
        passed++;
    else
        failed++;
}

/* a read or write where there must be none */
static void stopped(int signal) {
    static const char said[] = ": stopped at a place that is not lent\n0 passed, 1 failed\n";
    (void)signal;
    if (write(1, running, strlen(running)) < 0 || write(1, said, sizeof said - 1) < 0)
        _exit(2);
    _exit(1);
}

static inline void begin_tests(void) {
    signal(SIGSEGV, stopped);
    signal(SIGBUS, stopped);
    setvbuf(stdout, NULL, _IOLBF, 0);
}

static inline int end_tests(void) {
    printf("%u passed, %u failed\n", passed, failed);
    return failed != 0;
}

/* ---- tables that are written out */

struct bytes {
    const void *at;
    size_t length;
};

static inline struct bytes bytes_of(const struct text *t) { return (struct bytes){t->bytes, t->length}; }

#define B(s) {s, sizeof(s) - 1}
#define ROADS "from,to,length,margin\r\n"
#define CARTS "fastest,slowest\r\n"
/* roads between cells 0 (A), 1 (B), .. */
#define AB "0,1,1000000,250000\r\n"
#define BC "1,2,1000000,250000\r\n"
#define CD "2,3,1000000,250000\r\n"
#define DE "3,4,1000000,250000\r\n"
#define CF "2,5,1000000,250000\r\n"
#define LINE ROADS AB BC CD DE
/* document 01's pair */
#define PAIR ROADS AB BC CD DE CF
#define PAIR_PATHS "0,1,2,3,4\r\n1,2,5,2,3\r\n"
#define FREE "250000,\r\n"
#define ONE CARTS FREE
#define TWO CARTS FREE FREE
#define THREE CARTS FREE FREE FREE
#define FOUR CARTS FREE FREE FREE FREE

/* ---- lent memory */

/* guard bytes on either side of a slice, and how much longer than its need the longer slices are */
#define GUARD 61
#define MORE 4099

/* what a slice holds before a call: no two neighbours alike, no zero */
static inline uint8_t before(size_t i) { return (uint8_t)(1 + i % 251); }

/* pages that end before one that can't be read */
struct pages {
    uint8_t *start;
    size_t length;
};

static inline struct pages new_pages(size_t least) {
    size_t page = (size_t)sysconf(_SC_PAGESIZE), n = (least + page - 1) / page * page;
    uint8_t *p = mmap(NULL, n + page, PROT_READ | PROT_WRITE, MAP_PRIVATE | MAP_ANONYMOUS, -1, 0);
    if (p == MAP_FAILED || mprotect(p + n, page, PROT_NONE) != 0) {
        perror("mmap");
        exit(2);
    }
    return (struct pages){p, n};
}

static inline void allow(struct pages p, int rights) {
    if (mprotect(p.start, p.length, rights) != 0) {
        perror("mprotect");
        exit(2);
    }
}

/* bytes at the end of their pages, where they can't be written */
static inline const uint8_t *lend(struct pages p, const void *bytes, size_t n) {
    uint8_t *at = p.start + p.length - n;
    allow(p, PROT_READ | PROT_WRITE);
    memset(p.start, ',', p.length - n);
    memcpy(at, bytes, n);
    allow(p, PROT_READ);
    return at;
}

#endif
