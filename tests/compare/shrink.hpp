/* A case that differs made smaller, as long as it still differs. */
#pragma once

#include <chrono>
#include <functional>

#include "damage.hpp"

/* whether a case still shows what it was kept for */
using Shows = std::function<bool(const Case &)>;

class Shrinking {
    Case smallest;
    Shows shows;
    std::chrono::steady_clock::time_point end;

    bool accept(const Case &smaller) {
        if (std::chrono::steady_clock::now() > end || !shows(smaller))
            return false;
        smallest = smaller;
        return true;
    }

    /* leaves out runs of a list's items, long runs first */
    template <class List> bool leave_out(List Case::*list) {
        bool any = false;
        for (size_t run = (smallest.*list).size(); run > 0; run /= 2)
            for (size_t from = 0; from + run <= (smallest.*list).size();) {
                Case smaller = smallest;
                auto begin = (smaller.*list).begin() + static_cast<long>(from);
                (smaller.*list).erase(begin, begin + static_cast<long>(run));
                if (accept(smaller))
                    any = true;
                else
                    from += run;
            }
        return any;
    }

    /* leaves out runs of a table's records */
    bool leave_out_records(std::string Tables::*table, bool first_line) {
        bool any = false;
        size_t first = first_line ? 1 : 0;
        for (size_t run = split(smallest.tables.*table).size(); run > 0; run /= 2)
            for (size_t from = first;;) {
                Records records = split(smallest.tables.*table);
                if (from + run > records.size())
                    break;
                records.erase(records.begin() + static_cast<long>(from), records.begin() + static_cast<long>(from + run));
                Case smaller = smallest;
                smaller.tables.*table = unite(records);
                if (accept(smaller))
                    any = true;
                else
                    from += run;
            }
        return any;
    }

    /* a cart with its path and its reports; those behind it move up */
    bool leave_out_cart(size_t cart) {
        Records carts = split(smallest.tables.carts), paths = split(smallest.tables.paths);
        if (cart >= carts.size() || cart > paths.size())
            return false;
        Case smaller = smallest;
        carts.erase(carts.begin() + static_cast<long>(cart));
        paths.erase(paths.begin() + static_cast<long>(cart - 1));
        smaller.tables.carts = unite(carts);
        smaller.tables.paths = unite(paths);
        auto gone = [&](const Report &report) { return report.cart == cart; };
        smaller.reports.erase(std::remove_if(smaller.reports.begin(), smaller.reports.end(), gone), smaller.reports.end());
        for (Report &report : smaller.reports)
            report.cart -= report.cart > cart;
        return accept(smaller);
    }

    bool leave_out_carts() {
        bool any = false;
        for (size_t cart = split(smallest.tables.carts).size(); cart-- > 1;)
            any |= leave_out_cart(cart);
        return any;
    }

    /* the paths without so many steps from one on */
    bool leave_out_steps(size_t from, size_t run) {
        Records paths = split(smallest.tables.paths);
        for (std::vector<std::string> &path : paths) {
            if (from + run > path.size() || run == path.size())
                return false;
            path.erase(path.begin() + static_cast<long>(from), path.begin() + static_cast<long>(from + run));
        }
        Case smaller = smallest;
        smaller.tables.paths = unite(paths);
        return accept(smaller);
    }

    bool leave_out_any_steps() {
        bool any = false;
        Records paths = split(smallest.tables.paths);
        for (size_t run = paths.empty() ? 0 : paths[0].size(); run > 0; run /= 2)
            for (size_t from = 0; from < split(smallest.tables.paths)[0].size();) {
                if (leave_out_steps(from, run))
                    any = true;
                else
                    from += run;
            }
        return any;
    }

    bool least_slice() {
        Case smaller = smallest;
        smaller.more = 0;
        return smallest.more > 0 && accept(smaller);
    }

  public:
    Shrinking(const Case &shown, Shows shows, std::chrono::seconds most) : smallest(shown), shows(shows), end(std::chrono::steady_clock::now() + most) {}

    Case run() {
        for (bool any = true; any;) {
            any = leave_out(&Case::changes) | leave_out(&Case::reports) | least_slice();
            any |= leave_out_carts() | leave_out_any_steps();
            any |= leave_out_records(&Tables::roads, true) | leave_out_records(&Tables::paths, false);
        }
        return smallest;
    }
};
