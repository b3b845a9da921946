/* Cases in folders: three tables with what the program timetable must print of them, and cases that are kept to be tried again. */
#pragma once

#include <filesystem>
#include <fstream>
#include <sstream>

#include "trial.hpp"

inline void write_file(const std::filesystem::path &file, const std::string &bytes) { std::ofstream(file, std::ios::binary) << bytes; }

/* a file that can't be opened counts as zero bytes */
inline std::string read_file(const std::filesystem::path &file) {
    std::ostringstream bytes;
    bytes << std::ifstream(file, std::ios::binary).rdbuf();
    return bytes.str();
}

inline void write_tables_to(const std::filesystem::path &folder, const Tables &tables) {
    std::filesystem::create_directories(folder);
    write_file(folder / "roads.csv", tables.roads);
    write_file(folder / "carts.csv", tables.carts);
    write_file(folder / "paths.csv", tables.paths);
}

/* ---- what the program prints */

inline std::string printed_times(const Network &network, const std::vector<int64_t> &times) {
    std::string text = "event,cart,cell,time\r\n";
    for (size_t i = 0; i < times.size(); i++) {
        const Event &event = network.events[i];
        text += std::to_string(i) + "," + std::to_string(event.cart) + "," + (event.cart == 0 ? "" : std::to_string(event.cell)) + "," +
                std::to_string(times[i]) + "\r\n";
    }
    return text;
}

inline std::string printed_refusal(const Refusal &refusal) {
    std::string place = refusal.table == 0 ? "," : std::to_string(refusal.table) + "," + std::to_string(refusal.record);
    return "refusal,table,record\r\n" + std::to_string(refusal.number) + "," + place + "\r\n";
}

/* tables, and times.csv or refusal.csv */
inline void write_program_case(const std::filesystem::path &folder, const Tables &tables) {
    write_tables_to(folder, tables);
    Reading reading = read_tables(tables);
    if (reading.refusal.number != 0) {
        write_file(folder / "refusal.csv", printed_refusal(reading.refusal));
        return;
    }
    Graph::Solution solution = solve(reading.network.events.size(), Book(reading.network).bounds(reading.network));
    if (solution.exists)
        write_file(folder / "times.csv", printed_times(reading.network, solution.times));
    else
        write_file(folder / "refusal.csv", printed_refusal({13, 0, 0}));
}

/* ---- cases that are kept: beside the tables the reports, the changes, one list to a line, and how much longer the plan slice is */

inline void keep(const std::filesystem::path &folder, const Case &kept, const std::string &why) {
    write_tables_to(folder, kept.tables);
    std::ostringstream reports, changes;
    for (const Report &report : kept.reports)
        reports << report.cart << " " << report.time << "\n";
    for (const Changes &list : kept.changes) {
        for (const Change &change : list)
            changes << change.place << " " << unsigned(change.byte) << " ";
        changes << "\n";
    }
    write_file(folder / "reports", reports.str());
    write_file(folder / "changes", changes.str());
    write_file(folder / "more", std::to_string(kept.more) + "\n");
    write_file(folder / "why", why + "\n");
}

inline Case kept_in(const std::filesystem::path &folder) {
    Case kept{{read_file(folder / "roads.csv"), read_file(folder / "carts.csv"), read_file(folder / "paths.csv")}, {}, {}, 0};
    std::istringstream reports(read_file(folder / "reports")), changes(read_file(folder / "changes")), more(read_file(folder / "more"));
    for (Report report; reports >> report.cart >> report.time;)
        kept.reports.push_back(report);
    for (std::string line; std::getline(changes, line);) {
        std::istringstream numbers(line);
        kept.changes.emplace_back();
        unsigned byte;
        for (size_t place; numbers >> place >> byte;)
            kept.changes.back().push_back({place, static_cast<uint8_t>(byte)});
    }
    more >> kept.more;
    return kept;
}
