/* Tests of hegtalim_load: tables with what document 01 says of them.
   Each case is loaded three times: into a slice one byte too short, which must be a 14 and leave the slice as it came, into one of the least length,
   and into a longer one. Slices lie at odd addresses between guard bytes, which must stay. Tables can't be written while they are lent, and end where
   the next byte can't be read: a call that writes a table or reads past it is stopped, and the tests with it. One line for each case that fails; the
   last line is 'N passed, M failed'. */
#define _DEFAULT_SOURCE
#include "../../include/hegtalim.h"
#include "../common/lent.h"

#define NEED 233472

static struct pages roads_pages, carts_pages, paths_pages;
static uint8_t memory[GUARD + NEED + MORE + GUARD], expected[sizeof memory];

/* ---- one case */

/* loads into a slice of n bytes and compares answer, slice and guards with what must come; 0 where they differ */
static int load_once(const char *name, struct bytes roads, struct bytes carts, struct bytes paths, size_t n, uint64_t answer) {
    size_t all = GUARD + n + GUARD;
    uint8_t *slice = expected + GUARD;
    for (size_t i = 0; i < all; i++)
        memory[i] = expected[i] = before(i);
    if ((answer & 0xff) != 14)
        memset(slice, 0, n);
    if (answer == 0) {
        memcpy(slice, roads.at, roads.length);
        memcpy(slice + 65536, carts.at, carts.length);
        memcpy(slice + 131072, paths.at, paths.length);
    }
    const uint8_t *r = lend(roads_pages, roads.at, roads.length), *c = lend(carts_pages, carts.at, carts.length),
                  *p = lend(paths_pages, paths.at, paths.length);
    running = name;
    uint64_t got = hegtalim_load(r, roads.length, c, carts.length, p, paths.length, memory + GUARD, n);
    if (got != answer) {
        printf("%s: slice of %zu: refusal %u, table %u, record %u (0x%llx); expected refusal %u, table %u, record %u\n", name, n,
               HEGTALIM_REFUSAL(got), HEGTALIM_TABLE(got), HEGTALIM_VALUE(got), (unsigned long long)got, HEGTALIM_REFUSAL(answer),
               HEGTALIM_TABLE(answer), HEGTALIM_VALUE(answer));
        return 0;
    }
    for (size_t i = 0; i < all; i++)
        if (memory[i] != expected[i]) {
            printf("%s: slice of %zu: place %ld is %u; expected %u\n", name, n, (long)i - GUARD, memory[i], expected[i]);
            return 0;
        }
    return 1;
}

static void check_bytes(const char *name, struct bytes roads, struct bytes carts, struct bytes paths, unsigned refusal, unsigned table, unsigned record) {
    uint64_t answer = refusal | (uint64_t)table << 8 | (uint64_t)record << 32;
    count(load_once(name, roads, carts, paths, NEED - 1, 14) && load_once(name, roads, carts, paths, NEED, answer) &&
          load_once(name, roads, carts, paths, NEED + MORE, answer));
}

static void check(const char *name, const struct plan *p, unsigned refusal, unsigned table, unsigned record) {
    check_bytes(name, bytes_of(&p->roads), bytes_of(&p->carts), bytes_of(&p->paths), refusal, table, record);
}

/* ---- cases that are written out */

/* a case of roads, of carts or of paths beside sound tables */
#define OF_ROADS(roads) B(roads), B(ONE), B("0,1\r\n")
#define OF_CARTS(carts) B(ROADS AB), B(carts), B("0,1\r\n")
#define OF_PATHS(paths) B(ROADS AB), B(ONE), B(paths)
/* a roads table, a carts table of one record */
#define ROAD(record) OF_ROADS(ROADS record "\r\n")
#define CART(record) OF_CARTS(CARTS record "\r\n")

static const struct {
    const char *name;
    struct bytes roads, carts, paths;
    unsigned refusal, table, record;
} cases[] = {
    /* document 01, "Plans with known times" */
    {"the pair", B(ROADS AB BC CD DE CF), B(CARTS "250000,\r\n62500,\r\n"), B("0,1,2,3,4\r\n1,2,5,2,3\r\n"), 0, 0, 0},
    {"the pair, slowest 80,000", B(ROADS AB BC CD DE CF), B(CARTS "250000,80000\r\n62500,\r\n"), B("0,1,2,3,4\r\n1,2,5,2,3\r\n"), 0, 0, 0},
    {"the pair, slowest 87,489", B(ROADS AB BC CD DE CF), B(CARTS "250000,87489\r\n62500,\r\n"), B("0,1,2,3,4\r\n1,2,5,2,3\r\n"), 0, 0, 0},
    {"the pair, slowest 87,490: no times, but a plan", B(ROADS AB BC CD DE CF), B(CARTS "250000,87490\r\n62500,\r\n"), B("0,1,2,3,4\r\n1,2,5,2,3\r\n"), 0, 0, 0},
    {"fastest and slowest 300,000: no times, but a plan", CART("300000,300000"), 0, 0, 0},
    {"one cart, one cell", OF_PATHS("0\r\n"), 0, 0, 0},
    {"one cart, A B", OF_PATHS("0,1\r\n"), 0, 0, 0},
    {"paths A B and B A", B(ROADS AB), B(TWO), B("0,1\r\n1,0\r\n"), 9, 3, 2},
    {"paths A and A", B(ROADS AB), B(TWO), B("0\r\n0\r\n"), 8, 3, 2},
    {"margin 500,000", ROAD("0,1,1000000,500000"), 2, 1, 1},
    {"margin 499,999", ROAD("0,1,1000000,499999"), 0, 0, 0},
    {"three carts round a triangle", B(ROADS AB BC "2,0,1000000,250000\r\n"), B(THREE), B("0,1\r\n1,2\r\n2,0\r\n"), 0, 0, 0},

    /* roads: first line */
    {"roads: zero bytes", OF_ROADS(""), 1, 1, 0},
    {"roads: CR LF alone", OF_ROADS("\r\n"), 1, 1, 0},
    {"roads: no first line", OF_ROADS(AB), 1, 1, 0},
    {"roads: an empty line first", OF_ROADS("\r\n" ROADS AB), 1, 1, 0},
    {"roads: first line with a capital", OF_ROADS("From,to,length,margin\r\n" AB), 1, 1, 0},
    {"roads: first line with a byte less", OF_ROADS("from,to,length,margi\r\n" AB), 1, 1, 0},
    {"roads: first line with a byte more", OF_ROADS("from,to,length,margins\r\n" AB), 1, 1, 0},
    {"roads: first line with a field more", OF_ROADS("from,to,length,margin,\r\n" AB), 1, 1, 0},
    {"roads: first line with a space", OF_ROADS("from,to,length, margin\r\n" AB), 1, 1, 0},
    {"roads: first line in quotes", OF_ROADS("\"from\",\"to\",\"length\",\"margin\"\r\n" AB), 1, 1, 0},
    {"roads: first line after a byte order mark", OF_ROADS("\xef\xbb\xbf" ROADS AB), 1, 1, 0},
    {"roads: first line of the carts", OF_ROADS(CARTS AB), 1, 1, 0},
    {"roads: first line ends in LF", OF_ROADS("from,to,length,margin\n" AB), 1, 1, 0},
    {"roads: first line ends in CR", OF_ROADS("from,to,length,margin\r" AB), 1, 1, 0},
    {"roads: first line ends in CR CR LF", OF_ROADS("from,to,length,margin\r\r\n" AB), 1, 1, 0},
    {"roads: first line ends in CR, no record", OF_ROADS("from,to,length,margin\r"), 1, 1, 0},
    {"roads: first line without CR LF, no road", B("from,to,length,margin"), B(ONE), B("0\r\n"), 0, 0, 0},
    {"roads: first line without CR LF, a road wanted", OF_ROADS("from,to,length,margin"), 7, 3, 1},
    {"roads: no road", B(ROADS), B(ONE), B("0\r\n"), 0, 0, 0},
    {"roads: first line twice", OF_ROADS(ROADS ROADS AB), 1, 1, 1},

    /* roads: layout */
    {"roads: last record without CR LF", OF_ROADS(ROADS "0,1,1000000,250000"), 0, 0, 0},
    {"roads: last record ends in CR", OF_ROADS(ROADS "0,1,1000000,250000\r"), 1, 1, 1},
    {"roads: last record ends in LF", OF_ROADS(ROADS "0,1,1000000,250000\n"), 1, 1, 1},
    {"roads: record ends in LF", OF_ROADS(ROADS "0,1,1000000,250000\n" BC), 1, 1, 1},
    {"roads: record ends in CR", OF_ROADS(ROADS "0,1,1000000,250000\r" BC), 1, 1, 1},
    {"roads: record ends in LF CR", OF_ROADS(ROADS "0,1,1000000,250000\n\r" BC), 1, 1, 1},
    {"roads: record ends in CR CR LF", OF_ROADS(ROADS "0,1,1000000,250000\r\r\n" BC), 1, 1, 1},
    {"roads: an empty line between", OF_ROADS(ROADS AB "\r\n" BC), 1, 1, 2},
    {"roads: an empty line after the first", OF_ROADS(ROADS "\r\n" AB), 1, 1, 1},
    {"roads: an empty line at the end", OF_ROADS(ROADS AB "\r\n"), 1, 1, 2},
    {"roads: a space at the end", OF_ROADS(ROADS AB " "), 1, 1, 2},
    {"roads: a zero byte at the end", OF_ROADS(ROADS AB "\0"), 1, 1, 2},
    {"roads: field missing", ROAD("0,1,1000000"), 1, 1, 1},
    {"roads: field too many", ROAD("0,1,1000000,250000,0"), 1, 1, 1},
    {"roads: comma at the end", ROAD("0,1,1000000,250000,"), 1, 1, 1},
    {"roads: comma at the start", ROAD(",0,1,1000000,250000"), 1, 1, 1},
    {"roads: semicolons", ROAD("0;1;1000000;250000"), 1, 1, 1},
    {"roads: only commas", ROAD(",,,"), 1, 1, 1},
    {"roads: empty from", ROAD(",1,1000000,250000"), 1, 1, 1},
    {"roads: empty to", ROAD("0,,1000000,250000"), 1, 1, 1},
    {"roads: empty length", ROAD("0,1,,250000"), 1, 1, 1},
    {"roads: empty margin", ROAD("0,1,1000000,"), 1, 1, 1},
    {"roads: leading zero in from", ROAD("00,1,1000000,250000"), 1, 1, 1},
    {"roads: leading zero in to", ROAD("0,01,1000000,250000"), 1, 1, 1},
    {"roads: leading zero in length", ROAD("0,1,01000000,250000"), 1, 1, 1},
    {"roads: leading zero in margin", ROAD("0,1,1000000,0250000"), 1, 1, 1},
    {"roads: plus sign", ROAD("0,+1,1000000,250000"), 1, 1, 1},
    {"roads: minus sign", ROAD("-0,1,1000000,250000"), 1, 1, 1},
    {"roads: space before a number", ROAD("0, 1,1000000,250000"), 1, 1, 1},
    {"roads: space after a number", ROAD("0,1 ,1000000,250000"), 1, 1, 1},
    {"roads: space after the last number", ROAD("0,1,1000000,250000 "), 1, 1, 1},
    {"roads: tab", ROAD("0,1,\t1000000,250000"), 1, 1, 1},
    {"roads: quotes", ROAD("0,\"1\",1000000,250000"), 1, 1, 1},
    {"roads: letter", ROAD("A,1,1000000,250000"), 1, 1, 1},
    {"roads: the byte before the digit 0", ROAD("0,1,1/00000,250000"), 1, 1, 1},
    {"roads: the byte after the digit 9", ROAD("0,1,1:00000,250000"), 1, 1, 1},
    {"roads: decimal point", ROAD("0,1,1000000.0,250000"), 1, 1, 1},
    {"roads: exponent", ROAD("0,1,1e6,250000"), 1, 1, 1},
    {"roads: base 16", ROAD("0,0x1,1000000,250000"), 1, 1, 1},
    {"roads: zero byte in a number", ROAD("0,1\0,1000000,250000"), 1, 1, 1},
    {"roads: byte 255 in a number", ROAD("0,1\xff,1000000,250000"), 1, 1, 1},
    {"roads: CR in a number", ROAD("0,1\r,1000000,250000"), 1, 1, 1},
    {"roads: LF in a number", ROAD("0,1\n,1000000,250000"), 1, 1, 1},
    {"roads: eleven digits", ROAD("0,1,10000000000,250000"), 1, 1, 1},
    {"roads: eleven digits in from", ROAD("10000000000,1,1000000,250000"), 1, 1, 1},
    {"roads: eleven digits in to", ROAD("0,10000000000,1000000,250000"), 1, 1, 1},
    {"roads: eleven digits in margin", ROAD("0,1,1000000,10000000000"), 1, 1, 1},
    {"roads: 2^64 + 1", ROAD("0,18446744073709551617,1000000,250000"), 1, 1, 1},
    {"roads: layout broken in the second record", OF_ROADS(ROADS AB "1,2,1000000\r\n" CD), 1, 1, 2},
    {"roads: layout broken in the last record, without CR LF", OF_ROADS(ROADS AB BC "2,3,1000000"), 1, 1, 3},

    /* roads: ranges */
    {"roads: from 65,534", ROAD("65534,1,1000000,250000\r\n0,1,1000000,250000"), 0, 0, 0},
    {"roads: from 65,535", ROAD("65535,1,1000000,250000"), 2, 1, 1},
    {"roads: to 65,534", ROAD("1,65534,1000000,250000\r\n0,1,1000000,250000"), 0, 0, 0},
    {"roads: to 65,535", ROAD("0,65535,1000000,250000"), 2, 1, 1},
    {"roads: cell 65,536", ROAD("65536,1,1000000,250000"), 2, 1, 1},
    {"roads: ten digits, from", ROAD("9999999999,1,1000000,250000"), 2, 1, 1},
    {"roads: ten digits, to", ROAD("0,9999999999,1000000,250000"), 2, 1, 1},
    {"roads: ten digits, length", ROAD("0,1,9999999999,250000"), 2, 1, 1},
    {"roads: ten digits, margin", ROAD("0,1,1000000,9999999999"), 2, 1, 1},
    {"roads: from 2^32", ROAD("4294967296,1,1000000,250000"), 2, 1, 1},
    {"roads: to 2^32 + 1", ROAD("0,4294967297,1000000,250000"), 2, 1, 1},
    {"roads: length 2^32 + 3", ROAD("0,1,4294967299,1"), 2, 1, 1},
    {"roads: margin 2^32 + 1", ROAD("0,1,1000000,4294967297"), 2, 1, 1},
    {"roads: margin 2^31 + 1", ROAD("0,1,1000000,2147483649"), 2, 1, 1},
    {"roads: margin 2^31", ROAD("0,1,1000000,2147483648"), 2, 1, 1},
    {"roads: length 0", ROAD("0,1,0,1"), 2, 1, 1},
    {"roads: length 1, margin 0", ROAD("0,1,1,0"), 2, 1, 1},
    {"roads: length 2, margin 0", ROAD("0,1,2,0"), 2, 1, 1},
    {"roads: length 2, margin 1", ROAD("0,1,2,1"), 2, 1, 1},
    {"roads: length 3, margin 0", ROAD("0,1,3,0"), 2, 1, 1},
    {"roads: length 3, margin 1", ROAD("0,1,3,1"), 0, 0, 0},
    {"roads: length 3, margin 2", ROAD("0,1,3,2"), 2, 1, 1},
    {"roads: length 4, margin 1", ROAD("0,1,4,1"), 0, 0, 0},
    {"roads: length 4, margin 2", ROAD("0,1,4,2"), 2, 1, 1},
    {"roads: length 5, margin 2", ROAD("0,1,5,2"), 0, 0, 0},
    {"roads: length 100,000,000, margin 1", ROAD("0,1,100000000,1"), 0, 0, 0},
    {"roads: length 100,000,001", ROAD("0,1,100000001,1"), 2, 1, 1},
    {"roads: length 100,000,000, margin 0", ROAD("0,1,100000000,0"), 2, 1, 1},
    {"roads: length 100,000,000, margin 49,999,999", ROAD("0,1,100000000,49999999"), 0, 0, 0},
    {"roads: length 100,000,000, margin 50,000,000", ROAD("0,1,100000000,50000000"), 2, 1, 1},
    {"roads: range broken in the third record", OF_ROADS(ROADS AB BC "2,65535,1000000,250000\r\n" DE), 2, 1, 3},

    /* roads: pairs */
    {"roads: a cell to itself", ROAD("1,1,1000000,250000"), 3, 1, 1},
    {"roads: cell 0 to itself", OF_ROADS(ROADS AB BC "0,0,1000000,250000\r\n"), 3, 1, 3},
    {"roads: a second road for a pair", OF_ROADS(ROADS AB AB), 3, 1, 2},
    {"roads: a second road for a pair, the other way round", OF_ROADS(ROADS AB "1,0,1000000,250000\r\n"), 3, 1, 2},
    {"roads: a second road of another length", OF_ROADS(ROADS AB BC CD "1,0,3,1\r\n" DE), 3, 1, 4},
    {"roads: a second road for the last pair", OF_ROADS(ROADS AB BC CD "3,2,1000000,250000\r\n"), 3, 1, 4},
    {"roads: two roads that share one cell each way", OF_ROADS(ROADS AB "1,3,1000000,250000\r\n3,0,1000000,250000\r\n"), 0, 0, 0},

    /* carts: first line */
    {"carts: zero bytes", OF_CARTS(""), 1, 2, 0},
    {"carts: CR LF alone", OF_CARTS("\r\n"), 1, 2, 0},
    {"carts: no first line", OF_CARTS(FREE), 1, 2, 0},
    {"carts: an empty line first", OF_CARTS("\r\n" ONE), 1, 2, 0},
    {"carts: first line the other way round", OF_CARTS("slowest,fastest\r\n" FREE), 1, 2, 0},
    {"carts: first line with a byte less", OF_CARTS("fastest,slowes\r\n" FREE), 1, 2, 0},
    {"carts: first line with a byte more", OF_CARTS("fastest,slowest \r\n" FREE), 1, 2, 0},
    {"carts: first line in capitals", OF_CARTS("FASTEST,SLOWEST\r\n" FREE), 1, 2, 0},
    {"carts: first line ends in LF", OF_CARTS("fastest,slowest\n" FREE), 1, 2, 0},
    {"carts: first line ends in CR", OF_CARTS("fastest,slowest\r" FREE), 1, 2, 0},
    {"carts: first line of the roads", OF_CARTS(ROADS FREE), 1, 2, 0},
    {"carts: first line twice", OF_CARTS(CARTS ONE), 1, 2, 1},

    /* carts: layout */
    {"carts: last record without CR LF", OF_CARTS(CARTS "250000,"), 0, 0, 0},
    {"carts: last record without CR LF, with a slowest speed", OF_CARTS(CARTS "250000,1000"), 0, 0, 0},
    {"carts: last record ends in CR", OF_CARTS(CARTS "250000,\r"), 1, 2, 1},
    {"carts: last record ends in LF", OF_CARTS(CARTS "250000,\n"), 1, 2, 1},
    {"carts: last record ends in CR, with a slowest speed", OF_CARTS(CARTS "250000,1000\r"), 1, 2, 1},
    {"carts: record ends in LF", OF_CARTS(CARTS "250000,\n250000,\r\n"), 1, 2, 1},
    {"carts: record ends in CR CR LF", OF_CARTS(CARTS "250000,\r\r\n"), 1, 2, 1},
    {"carts: an empty line between", OF_CARTS(CARTS FREE "\r\n" FREE), 1, 2, 2},
    {"carts: an empty line at the end", OF_CARTS(ONE "\r\n"), 1, 2, 2},
    {"carts: an empty line and no cart", OF_CARTS(CARTS "\r\n"), 1, 2, 1},
    {"carts: a zero byte at the end", OF_CARTS(ONE "\0"), 1, 2, 2},
    {"carts: field missing", CART("250000"), 1, 2, 1},
    {"carts: field too many", CART("250000,1000,"), 1, 2, 1},
    {"carts: field too many, the second empty", CART("250000,,1000"), 1, 2, 1},
    {"carts: empty fastest", CART(",1000"), 1, 2, 1},
    {"carts: both empty", CART(","), 1, 2, 1},
    {"carts: slowest a space", CART("250000, "), 1, 2, 1},
    {"carts: slowest empty quotes", CART("250000,\"\""), 1, 2, 1},
    {"carts: quotes", CART("\"250000\","), 1, 2, 1},
    {"carts: leading zero in fastest", CART("0250000,"), 1, 2, 1},
    {"carts: leading zero in slowest", CART("250000,01000"), 1, 2, 1},
    {"carts: slowest 00", CART("250000,00"), 1, 2, 1},
    {"carts: sign", CART("+250000,"), 1, 2, 1},
    {"carts: sign in slowest", CART("250000,-1000"), 1, 2, 1},
    {"carts: space", CART(" 250000,"), 1, 2, 1},
    {"carts: zero byte as slowest", CART("250000,\0"), 1, 2, 1},
    {"carts: eleven digits", CART("10000000000,"), 1, 2, 1},
    {"carts: eleven digits in slowest", CART("250000,10000000000"), 1, 2, 1},

    /* carts: ranges */
    {"carts: fastest 0", CART("0,"), 2, 2, 1},
    {"carts: fastest 999", CART("999,"), 2, 2, 1},
    {"carts: fastest 1,000", CART("1000,"), 0, 0, 0},
    {"carts: fastest 20,000,000", CART("20000000,"), 0, 0, 0},
    {"carts: fastest 20,000,001", CART("20000001,"), 2, 2, 1},
    {"carts: fastest 9,999,999,999", CART("9999999999,"), 2, 2, 1},
    {"carts: fastest 2^32 + 1,000", CART("4294968296,"), 2, 2, 1},
    {"carts: fastest and slowest out of range", CART("20000001,20000001"), 2, 2, 1},
    {"carts: slowest 0", CART("250000,0"), 2, 2, 1},
    {"carts: slowest 999", CART("250000,999"), 2, 2, 1},
    {"carts: slowest 1,000", CART("250000,1000"), 0, 0, 0},
    {"carts: fastest 1,000, slowest 999", CART("1000,999"), 2, 2, 1},
    {"carts: fastest 1,000, slowest 1,000", CART("1000,1000"), 0, 0, 0},
    {"carts: fastest 1,000, slowest 1,001", CART("1000,1001"), 2, 2, 1},
    {"carts: slowest as fastest", CART("250000,250000"), 0, 0, 0},
    {"carts: slowest above fastest", CART("250000,250001"), 2, 2, 1},
    {"carts: slowest and fastest 20,000,000", CART("20000000,20000000"), 0, 0, 0},
    {"carts: slowest 2^32 + 1,000", CART("250000,4294968296"), 2, 2, 1},
    {"carts: fastest 999, slowest 999", CART("999,999"), 2, 2, 1},
    {"carts: range broken in the second record", B(ROADS AB), B(CARTS FREE "250000,999\r\n" FREE), B("0\r\n1\r\n"), 2, 2, 2},

    /* no carts */
    {"no carts", OF_CARTS(CARTS), 5, 2, 0},
    {"no carts, first line without CR LF", OF_CARTS("fastest,slowest"), 5, 2, 0},
    {"no carts, no paths", B(ROADS AB), B(CARTS), B(""), 5, 2, 0},
    {"no carts, malformed paths", B(ROADS AB), B(CARTS), B("x"), 5, 2, 0},

    /* paths: layout */
    {"paths: last record without CR LF", OF_PATHS("0,1"), 0, 0, 0},
    {"paths: last record ends in CR", OF_PATHS("0,1\r"), 1, 3, 1},
    {"paths: last record ends in LF", OF_PATHS("0,1\n"), 1, 3, 1},
    {"paths: records end in LF", B(ROADS AB), B(TWO), B("0\n1\n"), 1, 3, 1},
    {"paths: records end in CR", B(ROADS AB), B(TWO), B("0\r1\r"), 1, 3, 1},
    {"paths: CR LF alone", OF_PATHS("\r\n"), 1, 3, 1},
    {"paths: CR alone", OF_PATHS("\r"), 1, 3, 1},
    {"paths: LF alone", OF_PATHS("\n"), 1, 3, 1},
    {"paths: an empty line between", B(ROADS AB), B(TWO), B("0\r\n\r\n1\r\n"), 1, 3, 2},
    {"paths: an empty line at the end", OF_PATHS("0,1\r\n\r\n"), 1, 3, 2},
    {"paths: a first line", OF_PATHS("0,1,2\r\nx,y\r\n"), 1, 3, 2},
    {"paths: a line of names", OF_PATHS("step,step\r\n0,1\r\n"), 1, 3, 1},
    {"paths: comma at the end", OF_PATHS("0,1,\r\n"), 1, 3, 1},
    {"paths: comma at the start", OF_PATHS(",0,1\r\n"), 1, 3, 1},
    {"paths: empty field", OF_PATHS("0,,1\r\n"), 1, 3, 1},
    {"paths: leading zero", OF_PATHS("0,01\r\n"), 1, 3, 1},
    {"paths: two zeros", OF_PATHS("00,1\r\n"), 1, 3, 1},
    {"paths: sign", OF_PATHS("0,+1\r\n"), 1, 3, 1},
    {"paths: space", OF_PATHS("0, 1\r\n"), 1, 3, 1},
    {"paths: space at the end", OF_PATHS("0,1 \r\n"), 1, 3, 1},
    {"paths: quotes", OF_PATHS("\"0\",1\r\n"), 1, 3, 1},
    {"paths: zero byte", OF_PATHS("0,1\0\r\n"), 1, 3, 1},
    {"paths: eleven digits", OF_PATHS("0,10000000000\r\n"), 1, 3, 1},
    {"paths: second record shorter", B(LINE), B(TWO), B("0,1\r\n2\r\n"), 1, 3, 2},
    {"paths: second record longer", B(LINE), B(TWO), B("0,1\r\n2,3,4\r\n"), 1, 3, 2},
    {"paths: third record shorter", B(LINE), B(THREE), B("0,1\r\n2,3\r\n4\r\n"), 1, 3, 3},

    /* paths: ranges */
    {"paths: cell 65,534", OF_PATHS("65534\r\n"), 0, 0, 0},
    {"paths: cell 65,535", OF_PATHS("65535\r\n"), 2, 3, 1},
    {"paths: last cell 65,535", OF_PATHS("0,1,65535\r\n"), 2, 3, 1},
    {"paths: cell 65,536", OF_PATHS("65536\r\n"), 2, 3, 1},
    {"paths: cell 2^32", OF_PATHS("4294967296,1\r\n"), 2, 3, 1},
    {"paths: cell 2^32 − 1", OF_PATHS("4294967295\r\n"), 2, 3, 1},
    {"paths: ten digits", OF_PATHS("0,9999999999\r\n"), 2, 3, 1},
    {"paths: range broken in the second record", B(ROADS AB), B(TWO), B("0,1\r\n1,65535\r\n"), 2, 3, 2},

    /* paths and carts differ in count */
    {"paths: zero bytes", OF_PATHS(""), 6, 3, 0},
    {"paths: one too few", B(ROADS AB), B(TWO), B("0\r\n"), 6, 3, 0},
    {"paths: one too many", OF_PATHS("0\r\n1\r\n"), 6, 3, 0},
    {"paths: one too many, malformed", OF_PATHS("0\r\nx\r\n"), 1, 3, 2},
    {"paths: one too many, of another width", OF_PATHS("0\r\n1,0\r\n"), 1, 3, 2},
    {"paths: one too many, out of range", OF_PATHS("0\r\n65535\r\n"), 2, 3, 2},

    /* 7: off the roads */
    {"off the roads", B(ROADS AB BC), B(ONE), B("0,2\r\n"), 7, 3, 1},
    {"off the roads at the last step", B(ROADS AB BC), B(ONE), B("0,1,2,0\r\n"), 7, 3, 1},
    {"off the roads, both cells on roads of others", B(ROADS AB CD), B(ONE), B("0,1,2,3\r\n"), 7, 3, 1},
    {"off the roads in the second record", B(ROADS AB BC CD), B(TWO), B("0,1\r\n3,1\r\n"), 7, 3, 2},
    {"off the roads: the lowest record before the earliest step", B(LINE), B(THREE), B("0,0,0,0\r\n1,1,1,3\r\n4,2,2,2\r\n"), 7, 3, 2},
    {"off the roads: no road at all", B(ROADS), B(ONE), B("0,1\r\n"), 7, 3, 1},
    {"a cell without a road, waited in", B(ROADS), B(ONE), B("7,7,7\r\n"), 0, 0, 0},
    {"roads driven both ways", B(LINE), B(ONE), B("0,1,2,3,4,3,2,1,0\r\n"), 0, 0, 0},
    {"roads written the other way round", B(ROADS "1,0,1000000,250000\r\n2,1,1000000,250000\r\n"), B(ONE), B("0,1,2,1,0\r\n"), 0, 0, 0},
    {"the last road of the table driven", B(LINE), B(ONE), B("3,4,4,3\r\n"), 0, 0, 0},

    /* 8: two carts in one cell */
    {"one cell at step 0", B(LINE), B(TWO), B("1,0\r\n1,2\r\n"), 8, 3, 2},
    {"one cell at the last step", B(LINE), B(TWO), B("0,0,1\r\n3,2,1\r\n"), 8, 3, 2},
    {"one cell: a cart that waits", B(LINE), B(TWO), B("1,1,1\r\n3,2,1\r\n"), 8, 3, 2},
    {"one cell: three carts", B(LINE), B(THREE), B("0\r\n0\r\n0\r\n"), 8, 3, 2},
    {"one cell: the higher record of the pair", B(LINE), B(FOUR), B("0\r\n1\r\n2\r\n0\r\n"), 8, 3, 4},
    {"one cell: the lowest of the higher records", B(LINE), B(FOUR), B("0\r\n1\r\n1\r\n0\r\n"), 8, 3, 3},
    {"one cell: the lowest of the higher records, pairs apart", B(LINE), B(FOUR), B("0\r\n0\r\n1\r\n1\r\n"), 8, 3, 2},
    {"one cell: the earliest step first", B(LINE), B(FOUR), B("0,0,1\r\n1,1,1\r\n4,3,3\r\n2,3,3\r\n"), 8, 3, 4},
    {"one cell at different steps", B(LINE), B(TWO), B("1,2,3\r\n0,1,2\r\n"), 0, 0, 0},

    /* 9: two carts exchange cells */
    {"exchange at the last step", B(LINE), B(TWO), B("0,1,2,3\r\n4,4,3,2\r\n"), 9, 3, 2},
    {"exchange in the middle", B(LINE), B(TWO), B("0,1,2,3\r\n2,2,1,0\r\n"), 9, 3, 2},
    {"exchange: the higher record of the pair", B(LINE), B(FOUR), B("0,1\r\n3,3\r\n4,4\r\n1,0\r\n"), 9, 3, 4},
    {"exchange: the lowest of the higher records", B(LINE), B(FOUR), B("0,1\r\n2,3\r\n3,2\r\n1,0\r\n"), 9, 3, 3},
    {"exchange: the earliest step first", B(LINE), B(FOUR), B("0,0,1\r\n1,1,0\r\n2,3,3\r\n3,2,2\r\n"), 9, 3, 4},
    {"a cart moves where another waits and leaves later", B(LINE), B(TWO), B("0,0,1\r\n1,2,2\r\n"), 0, 0, 0},
    {"two carts change places by way of a third cell", B(ROADS AB BC CD CF), B(TWO), B("1,1,1,2,3,3\r\n3,2,5,5,2,1\r\n"), 0, 0, 0},
    {"four carts round a ring of four", B(ROADS AB BC CD "3,0,1000000,250000\r\n"), B(FOUR), B("0,1\r\n1,2\r\n2,3\r\n3,0\r\n"), 0, 0, 0},

    /* the order of refusals */
    {"1 before 2 in a road", ROAD("65535,1,1000000,0250000"), 1, 1, 1},
    {"1 before 2 in a road: field count", ROAD("65535,1,1000000"), 1, 1, 1},
    {"1 before 3 in a road", ROAD("1,1,1000000,x"), 1, 1, 1},
    {"2 before 3 in a road", ROAD("1,1,1000000,500000"), 2, 1, 1},
    {"2 before 3: a cell out of range to itself", ROAD("65535,65535,1000000,250000"), 2, 1, 1},
    {"2 before 3 in a second road", OF_ROADS(ROADS AB "1,0,2,1\r\n"), 2, 1, 2},
    {"2 at record 1 before 1 at record 2", OF_ROADS(ROADS "0,1,2,1\r\n1,2\r\n"), 2, 1, 1},
    {"3 at record 2 before 1 at record 3", OF_ROADS(ROADS AB AB "x\r\n"), 3, 1, 2},
    {"1 before 2 in a cart", CART("999,x"), 1, 2, 1},
    {"1 before 2 in a cart: field count", CART("999"), 1, 2, 1},
    {"2 at cart 1 before 1 at cart 2", CART("999,\r\nx,"), 2, 2, 1},
    {"1 before 2 in a path", OF_PATHS("65535,x\r\n"), 1, 3, 1},
    {"1 before 2 in a path: width", B(ROADS AB), B(TWO), B("0,1\r\n65535\r\n"), 1, 3, 2},
    {"2 at path 1 before 1 at path 2", B(ROADS AB), B(TWO), B("65535\r\nx\r\n"), 2, 3, 1},
    {"roads before carts", B("x"), B("x"), B("x"), 1, 1, 0},
    {"the roads' last record before the carts' first line", B(ROADS AB AB), B(""), B(""), 3, 1, 2},
    {"carts before paths", B(ROADS AB), B("x"), B("x"), 1, 2, 0},
    {"the carts' last record before the paths' first", B(ROADS AB), B(CARTS FREE "999,\r\n"), B("x"), 2, 2, 2},
    {"5 before 6", B(ROADS AB), B(CARTS), B("0\r\n"), 5, 2, 0},
    {"6 before 7", B(ROADS AB), B(TWO), B("0,2\r\n"), 6, 3, 0},
    {"6 before 8", B(ROADS AB), B(THREE), B("0\r\n0\r\n"), 6, 3, 0},
    {"7 before 8", B(LINE), B(THREE), B("0,0\r\n0,0\r\n1,3\r\n"), 7, 3, 3},
    {"7 before 9", B(LINE), B(THREE), B("0,1,1\r\n1,0,0\r\n3,3,1\r\n"), 7, 3, 3},
    {"8 before 9, though at a later step", B(LINE), B(FOUR), B("0,1,1\r\n1,0,0\r\n4,4,3\r\n2,2,3\r\n"), 8, 3, 4},
};

/* ---- limits */

static struct plan p;

/* a plan of one cart in one cell */
static void begin_small(void) {
    begin_plan(&p);
    add(&p.carts, "250000,\r\n");
    add(&p.paths, "0\r\n");
}

/* its first n roads: 0 to 1, 1 to 2, .. */
static void add_roads(unsigned n) {
    for (unsigned i = 0; i < n; i++)
        add_road(&p.roads, i, i + 1, 3, 1);
}

static void roads_limit(void) {
    begin_small();
    add_roads(1024);
    check("1,024 roads", &p, 0, 0, 0);
    size_t n = p.roads.length;
    add(&p.roads, "2000,2001,3,1\r\n");
    check("1,025 roads", &p, 4, 1, 1025);
    add(&p.roads, "x\r\n");
    check("1,025 roads, and then a malformed one", &p, 4, 1, 1025);
    add_roads(1024);
    check("1,025 roads, and then many more", &p, 4, 1, 1025);
    p.roads.length = n;
    add(&p.roads, "2000,2001,3\r\n");
    check("1,025 roads, the last malformed", &p, 1, 1, 1025);
    p.roads.length = n;
    add(&p.roads, "2000,2001,3,2\r\n");
    check("1,025 roads, the last out of range", &p, 2, 1, 1025);
    p.roads.length = n;
    add(&p.roads, "1024,1023,3,1\r\n");
    check("1,025 roads, the last a second one", &p, 3, 1, 1025);
    p.roads.length = n;
    add(&p.roads, "2000,2000,3,1\r\n");
    check("1,025 roads, the last from a cell to itself", &p, 3, 1, 1025);
    p.roads.length = n;
    p.paths.length = 0;
    add(&p.paths, "1023,1024,1023,1022\r\n");
    check("the last of 1,024 roads driven", &p, 0, 0, 0);
    p.paths.length = 0;
    add(&p.paths, "1023,1024,1025\r\n");
    check("past the last of 1,024 roads", &p, 7, 3, 1);
    p.roads.length = n;
    add(&p.roads, "2000,2001,3,1\r\n");
    p.carts.length = 0;
    p.paths.length = 0;
    check("1,025 roads before the carts", &p, 4, 1, 1025);
}

static void carts_limit(void) {
    begin_plan(&p);
    add_carts(&p, 64, "250000,\r\n");
    for (unsigned j = 0; j < 64; j++) {
        add_number(&p.paths, j);
        add(&p.paths, "\r\n");
    }
    check("64 carts", &p, 0, 0, 0);
    size_t n = p.carts.length;
    add(&p.carts, "250000,\r\n");
    check("65 carts", &p, 4, 2, 65);
    add(&p.carts, "x\r\n");
    check("65 carts, and then a malformed one", &p, 4, 2, 65);
    p.carts.length = n;
    add(&p.carts, "250000\r\n");
    check("65 carts, the last malformed", &p, 1, 2, 65);
    p.carts.length = n;
    add(&p.carts, "250000,999\r\n");
    check("65 carts, the last out of range", &p, 2, 2, 65);
    p.carts.length = n;
    add(&p.carts, "250000,");
    check("65 carts, the last without CR LF", &p, 4, 2, 65);
    p.carts.length = n;
    add(&p.paths, "64\r\n");
    check("64 carts, 65 paths", &p, 6, 3, 0);
    add(&p.carts, "250000,\r\n");
    check("65 carts, 65 paths", &p, 4, 2, 65);
    p.paths.length = 0;
    add(&p.paths, "x");
    check("65 carts before the paths", &p, 4, 2, 65);
}

/* n carts that wait, each in the cell of its number, w cells each, but for the last record, which has `last` */
static void begin_waiting(unsigned n, unsigned w, unsigned last) {
    begin_plan(&p);
    add_carts(&p, n, "250000,\r\n");
    for (unsigned j = 0; j < n; j++)
        for (unsigned s = 0, all = j + 1 < n ? w : last; s < all; s++) {
            add_number(&p.paths, j);
            add(&p.paths, s + 1 < all ? "," : "\r\n");
        }
}

static void paths_limits(void) {
    begin_waiting(1, 1024, 1024);
    check("1,024 steps", &p, 0, 0, 0);
    begin_waiting(1, 1025, 1025);
    check("1,025 steps", &p, 4, 3, 1);
    p.paths.length -= 2;
    add(&p.paths, ",x\r\n");
    check("1,026 steps, the last malformed", &p, 1, 3, 1);
    begin_waiting(1, 1025, 1025);
    p.paths.length -= 2;
    add(&p.paths, ",65535\r\n");
    check("1,026 steps, the last out of range", &p, 2, 3, 1);
    begin_waiting(2, 1025, 1);
    check("1,025 steps, and then another width", &p, 4, 3, 1);
    begin_waiting(2, 1024, 1025);
    check("1,024 steps, and then 1,025", &p, 1, 3, 2);
    begin_waiting(8, 1024, 1024);
    check("8 × 1,024 path cells", &p, 0, 0, 0);
    begin_waiting(9, 1024, 1024);
    check("9 × 1,024 path cells", &p, 4, 3, 9);
    begin_waiting(9, 1024, 1023);
    check("9 × 1,024 path cells but one", &p, 1, 3, 9);
    begin_waiting(10, 1024, 1024);
    check("10 × 1,024 path cells", &p, 4, 3, 9);
    begin_waiting(9, 910, 910);
    check("9 × 910 path cells", &p, 0, 0, 0);
    begin_waiting(9, 911, 911);
    check("9 × 911 path cells", &p, 4, 3, 9);
    begin_waiting(64, 128, 128);
    check("64 × 128 path cells", &p, 0, 0, 0);
    begin_waiting(64, 129, 129);
    check("64 × 129 path cells", &p, 4, 3, 64);
    begin_waiting(64, 128, 128);
    p.paths.length -= 2;
    check("64 × 128 path cells, the last without CR LF", &p, 0, 0, 0);
    begin_waiting(64, 128, 128);
    for (unsigned s = 0; s < 128; s++)
        add(&p.paths, s < 127 ? "64," : "64\r\n");
    check("64 carts, 65 × 128 path cells", &p, 4, 3, 65);
    /* more path records than there may be carts: the limit is that of the cells */
    begin_plan(&p);
    add(&p.carts, "250000,\r\n");
    for (unsigned j = 0; j < 8192; j++)
        add(&p.paths, "0\r\n");
    check("one cart, 8,192 path cells", &p, 6, 3, 0);
    size_t n = p.paths.length;
    add(&p.paths, "0\r\n");
    check("one cart, 8,193 path cells", &p, 4, 3, 8193);
    add(&p.paths, "x\r\n");
    check("one cart, 8,193 path cells, and then a malformed record", &p, 4, 3, 8193);
    p.paths.length = n;
    add(&p.paths, "x\r\n");
    check("one cart, 8,193 path records, the last malformed", &p, 1, 3, 8193);
    p.paths.length = n;
    add(&p.paths, "65535\r\n");
    check("one cart, 8,193 path records, the last out of range", &p, 2, 3, 8193);
}

/* makes a text n bytes long with copies of s and a part of it */
static void fill(struct text *t, const char *s, size_t n) {
    size_t k = strlen(s);
    while (t->length < n)
        add_bytes(t, s, n - t->length < k ? n - t->length : k);
}

static void bytes_limits(void) {
    begin_small();
    fill(&p.roads, "0,1,3,1\r\n", 23 + 9);
    fill(&p.roads, "7", 65536);
    check("roads: 65,536 bytes, the second record too long", &p, 1, 1, 2);
    add(&p.roads, "7");
    check("roads: 65,537 bytes", &p, 4, 1, 0);
    p.carts.length = p.paths.length = 0;
    fill(&p.carts, "x", 65537);
    fill(&p.paths, "x", 65537);
    check("three tables of 65,537 bytes", &p, 4, 1, 0);
    p.roads.length = 0;
    fill(&p.roads, "x", 65536);
    check("roads: 65,536 bytes, no first line", &p, 1, 1, 0);
    add(&p.roads, "x");
    check("roads: 65,537 bytes, no first line", &p, 4, 1, 0);

    begin_small();
    for (unsigned i = 0; p.roads.length < 65536 - 40; i++)
        add_road(&p.roads, i, i + 1, 100000000, 49999999);
    check("roads: more than 65,000 bytes, all sound but too many", &p, 4, 1, 1025);
    fill(&p.roads, "\r\n", 65537);
    check("roads: 65,537 bytes, all sound but too many", &p, 4, 1, 0);

    begin_small();
    p.roads.length = 0;
    add(&p.roads, "x");
    fill(&p.carts, "x", 65537);
    check("carts: 65,537 bytes, after malformed roads", &p, 1, 1, 0);
    begin_small();
    fill(&p.carts, "7", 65536);
    check("carts: 65,536 bytes, the second record too long", &p, 1, 2, 2);
    add(&p.carts, "7");
    check("carts: 65,537 bytes", &p, 4, 2, 0);
    p.carts.length = 0;
    fill(&p.carts, "x", 65537);
    check("carts: 65,537 bytes, no first line", &p, 4, 2, 0);
    p.paths.length = 0;
    fill(&p.paths, "x", 65537);
    check("carts and paths: 65,537 bytes", &p, 4, 2, 0);

    begin_small();
    p.carts.length -= strlen("250000,\r\n");
    fill(&p.paths, "x", 65537);
    check("paths: 65,537 bytes, after no carts", &p, 5, 2, 0);
    begin_small();
    fill(&p.paths, "7", 65536);
    check("paths: 65,536 bytes, the second record too long", &p, 1, 3, 2);
    add(&p.paths, "7");
    check("paths: 65,537 bytes", &p, 4, 3, 0);
    p.paths.length = 0;
    fill(&p.paths, "0,", 65535);
    check("paths: 32,768 cells in 65,535 bytes", &p, 4, 3, 1);
    add(&p.paths, "0");
    check("paths: 65,536 bytes, the last cell with a leading zero", &p, 1, 3, 1);
    p.paths.length = 65535;
    p.paths.bytes[65534] = '1';
    add(&p.paths, "2");
    check("paths: 32,768 cells in 65,536 bytes", &p, 4, 3, 1);
    p.paths.length = 0;
    fill(&p.paths, "0\r\n", 65536);
    check("paths: 65,536 bytes of records of one cell", &p, 4, 3, 8193);
    fill(&p.paths, "0\r\n", 65537);
    check("paths: 65,537 bytes of records of one cell", &p, 4, 3, 0);
}

static struct steps way;

static void write_paths(void) {
    p.paths.length = 0;
    add_paths(&p.paths, &way);
}

/* events: 2 + carts + 3 × moves, so that 4,096 can be had with 2, 5, .. 62 carts and 4,097 with 3, 6, .. 63 */
static void events_limit(void) {
    to_and_fro(&p, &way, 2, 700, 682, 0);
    check("4,096 events", &p, 0, 0, 0);
    to_and_fro(&p, &way, 2, 700, 682, 1);
    check("4,099 events", &p, 4, 3, 0);
    to_and_fro(&p, &way, 3, 700, 454, 1);
    check("4,094 events", &p, 0, 0, 0);
    to_and_fro(&p, &way, 3, 700, 454, 2);
    check("4,097 events", &p, 4, 3, 0);
    to_and_fro(&p, &way, 4, 700, 341, 0);
    check("4,098 events", &p, 4, 3, 0);
    to_and_fro(&p, &way, 4, 700, 340, 3);
    check("4,095 events", &p, 0, 0, 0);
    to_and_fro(&p, &way, 62, 128, 21, 42);
    check("4,096 events, 62 carts", &p, 0, 0, 0);
    to_and_fro(&p, &way, 62, 128, 21, 43);
    check("4,099 events, 62 carts", &p, 4, 3, 0);
    to_and_fro(&p, &way, 63, 128, 21, 20);
    check("4,094 events, 63 carts", &p, 0, 0, 0);
    to_and_fro(&p, &way, 63, 128, 21, 21);
    check("4,097 events, 63 carts", &p, 4, 3, 0);
    to_and_fro(&p, &way, 64, 128, 127, 0);
    check("a move at every step of 64 × 128 path cells", &p, 4, 3, 0);
    to_and_fro(&p, &way, 8, 1024, 1023, 0);
    check("a move at every step of 8 × 1,024 path cells", &p, 4, 3, 0);
    to_and_fro(&p, &way, 1, 1024, 1023, 0);
    check("a move at every step of 1,024", &p, 0, 0, 0);
    plan_at_limits(&p);
    check("1,024 roads, 64 carts, 8,192 path cells, 4,095 events", &p, 0, 0, 0);
    p.roads.length -= 2;
    p.carts.length -= 2;
    p.paths.length -= 2;
    check("the same, no table ended by CR LF", &p, 0, 0, 0);
    corridor(&p, 64, 128, 22);
    check("4,287 events, 64 carts", &p, 4, 3, 0);

    /* 7, 8 and 9 come first: two carts in cells 0 and 2 that make too many moves, and then one step that must not be */
    to_and_fro(&p, &way, 2, 700, 690, 0);
    check("4,144 events", &p, 4, 3, 0);
    way.cell[1][699] = 0;
    write_paths();
    check("7 before the events", &p, 7, 3, 2);
    add(&p.roads, "0,2,1000000,250000\r\n");
    check("8 before the events", &p, 8, 3, 2);
    way.cell[0][699] = 2;
    write_paths();
    check("9 before the events", &p, 9, 3, 2);
}

static void bounds_limit(void) {
    static const struct {
        const char *name;
        unsigned carts, rounds, more, bounds, refusal, table;
    } known[] = {
        {"8,189 bounds", 16, 24, 71, 8189, 0, 0},  {"8,190 bounds", 18, 20, 9, 8190, 0, 0},  {"8,192 bounds", 16, 24, 72, 8192, 0, 0},
        {"8,193 bounds", 18, 20, 10, 8193, 4, 3},  {"8,195 bounds", 16, 24, 73, 8195, 4, 3}, {"8,312 bounds", 16, 25, 0, 8312, 4, 3},
        {"7,976 bounds", 16, 24, 0, 7976, 0, 0},   {"300 bounds", 12, 1, 46, 300, 0, 0},
    };
    for (size_t i = 0; i < sizeof known / sizeof *known; i++) {
        turns(&p, known[i].carts, known[i].rounds, known[i].more);
        if (bounds_of_turns(known[i].carts, known[i].rounds, known[i].more) != known[i].bounds) {
            printf("%s: the plan has %u\n", known[i].name, bounds_of_turns(known[i].carts, known[i].rounds, known[i].more));
            failed++;
            continue;
        }
        check(known[i].name, &p, known[i].refusal, known[i].table, 0);
    }
}

/* ---- slices */

static void short_slices(void) {
    static const size_t lengths[] = {0, 1, 65535, 65536, 131072, 196608, 200704, 233470, 233471};
    static const struct {
        const char *name;
        struct bytes roads, carts, paths;
    } tables[] = {
        {"14, a sound plan", B(ROADS AB), B(ONE), B("0,1\r\n")},
        {"14, zero bytes", B(""), B(""), B("")},
        {"14 before 1", B("x"), B("x"), B("x")},
        {"14 before 9", B(ROADS AB), B(TWO), B("0,1\r\n1,0\r\n")},
    };
    for (size_t i = 0; i < sizeof tables / sizeof *tables; i++)
        for (size_t k = 0; k < sizeof lengths / sizeof *lengths; k++)
            count(load_once(tables[i].name, tables[i].roads, tables[i].carts, tables[i].paths, lengths[k], 14));
    p.roads.length = 0;
    fill(&p.roads, "x", 65537);
    count(load_once("14 before 4", bytes_of(&p.roads), tables[0].carts, tables[0].paths, NEED - 1, 14));
}

/* a refused load leaves nothing of the plan that was held, an accepted one nothing of the plan before it */
static void load_again(void) {
    running = "loads one after the other";
    static uint8_t slice[NEED + 1], once[NEED + 1];
    struct bytes roads = B(ROADS AB), carts = B(ONE), one = B("0,1\r\n"), bad = B("0,2\r\n");
    memset(once, 255, sizeof once);
    hegtalim_load(roads.at, roads.length, carts.at, carts.length, one.at, one.length, once, sizeof once);
    plan_at_limits(&p);
    hegtalim_load(p.roads.bytes, p.roads.length, p.carts.bytes, p.carts.length, p.paths.bytes, p.paths.length, slice, sizeof slice);
    uint64_t answer = hegtalim_load(roads.at, roads.length, carts.at, carts.length, one.at, one.length, slice, sizeof slice);
    int ok = answer == 0 && memcmp(slice, once, sizeof slice) == 0;
    if (!ok)
        printf("a small plan loaded over a large one: answer 0x%llx, or a slice that differs\n", (unsigned long long)answer);
    count(ok);
    hegtalim_load(p.roads.bytes, p.roads.length, p.carts.bytes, p.carts.length, p.paths.bytes, p.paths.length, slice, sizeof slice);
    answer = hegtalim_load(roads.at, roads.length, carts.at, carts.length, bad.at, bad.length, slice, sizeof slice);
    memset(once, 0, sizeof once);
    ok = answer == (7 | 3 << 8 | (uint64_t)1 << 32) && memcmp(slice, once, sizeof slice) == 0;
    if (!ok)
        printf("a refused load over a plan: answer 0x%llx, or a slice that is not zero\n", (unsigned long long)answer);
    count(ok);
}

int main(void) {
    begin_tests();
    roads_pages = new_pages(sizeof p.roads.bytes);
    carts_pages = new_pages(sizeof p.carts.bytes);
    paths_pages = new_pages(sizeof p.paths.bytes);
    for (size_t i = 0; i < sizeof cases / sizeof *cases; i++)
        check_bytes(cases[i].name, cases[i].roads, cases[i].carts, cases[i].paths, cases[i].refusal, cases[i].table, cases[i].record);
    roads_limit();
    carts_limit();
    paths_limits();
    bytes_limits();
    events_limit();
    bounds_limit();
    short_slices();
    load_again();
    return end_tests();
}
