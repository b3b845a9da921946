/* A plain parser: turns the tables of a plan into numbers and checks nothing. Right on accepted tables alone. A load's time is measured against it, so
   its functions are not marked inline: marked so, gcc makes code of them that takes half as long again. */
#ifndef NUMBERS_H
#define NUMBERS_H

#include <stddef.h>
#include <stdint.h>
#include <string.h>

struct numbers {
    size_t roads, carts, cells;
    uint32_t road[1024][4], cart[64][2], cell[8192];
};

/* reads a number and skips what ends it: a comma, or CR LF */
static const uint8_t *read_number(const uint8_t *at, const uint8_t *end, uint32_t *n) {
    uint32_t v = 0;
    while (at < end && *at >= '0')
        v = 10 * v + (*at++ - '0');
    *n = v;
    return at < end && *at == '\r' ? at + 2 : at + 1;
}

static void parse(const uint8_t *roads, size_t roads_len, const uint8_t *carts, size_t carts_len, const uint8_t *paths, size_t paths_len,
                  struct numbers *to) {
    const uint8_t *at = roads + strlen("from,to,length,margin\r\n"), *end = roads + roads_len;
    for (to->roads = 0; at < end; to->roads++)
        for (unsigned i = 0; i < 4; i++)
            at = read_number(at, end, &to->road[to->roads][i]);
    at = carts + strlen("fastest,slowest\r\n"), end = carts + carts_len;
    for (to->carts = 0; at < end; to->carts++)
        for (unsigned i = 0; i < 2; i++)
            at = read_number(at, end, &to->cart[to->carts][i]);
    at = paths, end = paths + paths_len;
    for (to->cells = 0; at < end; to->cells++)
        at = read_number(at, end, &to->cell[to->cells]);
}

#endif
