/* Document 01, "Plans with known times". */
#pragma once

#include "known.hpp"

/* roads between cells A..F, 0..5: AB, BC, CD, DE, CF */
inline const std::string floor_of_pair =
    roads_line + "\r\n0,1,1000000,250000\r\n1,2,1000000,250000\r\n2,3,1000000,250000\r\n3,4,1000000,250000\r\n2,5,1000000,250000\r\n";

/* the pair, with cart 1 as given */
inline Case pair_of(const std::string &first) {
    return {{floor_of_pair, carts_line + "\r\n" + first + "\r\n62500,\r\n", "0,1,2,3,4\r\n1,2,5,2,3\r\n"}, {}, {}, 0};
}

/* one cart on that floor, and its reports */
inline Case one_of(const std::string &cart, const std::string &path, const std::vector<Report> &reports) {
    return {{floor_of_pair, carts_line + "\r\n" + cart + "\r\n", path + "\r\n"}, reports, {}, 0};
}

inline Case two_of(const std::string &paths) { return {{floor_of_pair, carts_line + "\r\n250000,\r\n250000,\r\n", paths}, {}, {}, 0}; }

inline Case with_margin(const std::string &margin) {
    return {{roads_line + "\r\n0,1,1000000," + margin + "\r\n", carts_line + "\r\n250000,\r\n", "0,1\r\n"}, {}, {}, 0};
}

inline Case triangle() {
    return {{roads_line + "\r\n0,1,1000000,250000\r\n1,2,1000000,250000\r\n2,0,1000000,250000\r\n", carts_line + "\r\n250000,\r\n250000,\r\n250000,\r\n",
             "0,1\r\n1,2\r\n2,0\r\n"},
            {},
            {},
            0};
}

inline std::vector<Known> starred() {
    const Outcome no_times{false}, some_times{true};
    return {
        {"the pair", pair_of("250000,"), {}, {}, Outcome{true, 28, 32, 14, {{13, 29000}, {27, 64000}}}},
        {"the pair, slowest 80,000",
         pair_of("250000,80000"),
         {},
         {},
         Outcome{true, 28, 32, 0, {{1, 0}, {2, 1250}, {3, 7500}, {4, 10625}, {5, 13750}, {6, 20000}, {27, 64000}}}},
        {"the pair, slowest 87,489", pair_of("250000,87489"), {}, {}, some_times},
        {"the pair, slowest 87,490", pair_of("250000,87490"), {}, {}, no_times},
        {"fastest and slowest 300,000", one_of("300000,300000", "0,1", {}), {}, {}, no_times},
        {"one cart, path A", one_of("250000,", "0", {}), {}, {}, Outcome{true, 3, 2, 2, {{0, 0}, {1, 0}, {2, 0}}}},
        {"paths A B and B A", two_of("0,1\r\n1,0\r\n"), {9, paths_table, 2}, {}, {}},
        {"paths A and A", two_of("0\r\n0\r\n"), {8, paths_table, 2}, {}, {}},
        {"margin 500,000", with_margin("500000"), {2, roads_table, 1}, {}, {}},
        {"margin 499,999", with_margin("499999"), {}, {}, some_times},
        {"one cart, path A B", one_of("250000,", "0,1", {}), {}, {}, Outcome{true, 6, 5, 0, {{1, 0}, {2, 1000}, {3, 3000}, {4, 4000}, {5, 4000}}}},
        {"event 2 reported at 1500", one_of("250000,", "0,1", {{1, 1500}}), {}, {0}, Outcome{true, 6, 5, 0, {{3, 3500}, {4, 4500}, {5, 4500}}}},
        {"event 2 reported at 500", one_of("250000,", "0,1", {{1, 500}}), {}, {0}, no_times},
        {"500, 499, 500", one_of("250000,", "0,1", {{1, 500}, {1, 499}, {1, 500}}), {}, {0, 12, 0}, no_times},
        {"three carts round a triangle", triangle(), {}, {}, some_times},
    };
}
