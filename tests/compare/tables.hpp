/* What is handed in: the bytes of three tables, and reports. */
#pragma once

#include <cstdint>
#include <string>
#include <vector>

struct Tables {
    std::string roads, carts, paths;
};

struct Report {
    uint64_t cart, time;
};

/* document 01, "At most .." */
constexpr size_t most_bytes = 65536, most_roads = 1024, most_carts = 64, most_steps = 1024, most_path_cells = 8192, most_events = 4096, most_bounds = 8192;
constexpr uint64_t most_cell = 65534, most_length = 100000000, least_speed = 1000, most_speed = 20000000, most_time = 1000000000000;

inline const std::string roads_line = "from,to,length,margin", carts_line = "fastest,slowest";
