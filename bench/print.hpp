/* Tables of what was measured, as Markdown. */
#pragma once

#include "subject.hpp"
#include "words.hpp"

using Cells = std::vector<std::string>;

/* one time over the other, and the name of the less */
inline std::string ratio(const std::string &first, double first_time, const std::string &second, double second_time) {
    return three_digits(first_time / second_time) + " " + (first_time < second_time ? first : second);
}

/* characters: all bytes but those that go on with one */
inline size_t width(const std::string &text) {
    return static_cast<size_t>(std::count_if(text.begin(), text.end(), [](char byte) { return (byte & 0xc0) != 0x80; }));
}

inline void print_cells(const Cells &cells, const std::vector<size_t> &widths) {
    for (size_t i = 0; i < cells.size(); i++)
        std::printf("| %s%s ", cells[i].c_str(), std::string(widths[i] - width(cells[i]), ' ').c_str());
    std::printf("|\n");
}

/* the first row is the heading */
inline void print_table(const std::string &title, const std::vector<Cells> &rows) {
    std::vector<size_t> widths(rows[0].size(), 3);
    for (const Cells &row : rows)
        for (size_t i = 0; i < row.size(); i++)
            widths[i] = std::max(widths[i], width(row[i]));
    std::printf("\n%s\n\n", title.c_str());
    print_cells(rows[0], widths);
    for (size_t length : widths)
        std::printf("|%s", std::string(length + 2, '-').c_str());
    std::printf("|\n");
    for (size_t i = 1; i < rows.size(); i++)
        print_cells(rows[i], widths);
}

inline void print_times(const std::string &title, const std::vector<Row> &rows) {
    std::vector<Cells> all{
        {"plan", "events", "bounds", "passes", "whole", "judging", "engine", "LEMON", "Boost", "LEMON/engine", "engine/Boost", "whole/Boost"}};
    for (const Row &row : rows) {
        const Times &t = row.times;
        all.push_back({row.name, count(row.events), count(row.bounds), count(row.passes), duration(t.whole), duration(t.judging), duration(t.engine),
                       duration(t.lemon), duration(t.boost), ratio("LEMON", t.lemon, "engine", t.engine), ratio("engine", t.engine, "Boost", t.boost),
                       ratio("whole", t.whole, "Boost", t.boost)});
    }
    print_table(title, all);
}

inline Cells growth(const Row &from, const Row &to) {
    auto factor = [](double a, double b) { return three_digits(b / a); };
    auto count_factor = [&](size_t a, size_t b) { return factor(static_cast<double>(a), static_cast<double>(b)); };
    const Times &a = from.times, &b = to.times;
    return {count(from.size) + " to " + count(to.size),
            count_factor(from.size, to.size),
            count_factor(from.events, to.events),
            count_factor(from.bounds, to.bounds),
            count_factor(from.passes, to.passes),
            factor(a.whole, b.whole),
            factor(a.judging, b.judging),
            factor(a.engine, b.engine),
            factor(a.lemon, b.lemon),
            factor(a.boost, b.boost)};
}

/* from each row to the next, and over the last two of these together */
inline void print_growth(const std::string &title, const std::string &what, const std::vector<Row> &rows) {
    std::vector<Cells> all{{"from, to", what, "events", "bounds", "passes", "whole", "judging", "engine", "LEMON", "Boost"}};
    for (size_t i = 1; i < rows.size(); i++)
        all.push_back(growth(rows[i - 1], rows[i]));
    all.push_back(growth(rows[rows.size() - 3], rows.back()));
    print_table(title, all);
}
