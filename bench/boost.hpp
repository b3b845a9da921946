/* Boost's Bellman-Ford on the same arcs. It goes over the arcs in turn and uses a sum in the pass that finds it, so it gives times and no pass number. */
#pragma once

#include <limits>

#include <boost/graph/bellman_ford_shortest_paths.hpp>
#include <boost/graph/compressed_sparse_row_graph.hpp>

#include "../tests/compare/solver.hpp"

class BoostGraph {
    struct Cost {
        int64_t cost;
    };
    using Rows = boost::compressed_sparse_row_graph<boost::directedS, boost::no_property, Cost, boost::no_property>;

    Rows graph;

    static Rows built(size_t events, const std::vector<Arc> &arcs) {
        std::vector<std::pair<size_t, size_t>> ends;
        std::vector<Cost> costs;
        for (const Arc &arc : arcs) {
            ends.emplace_back(arc.from, arc.to);
            costs.push_back({arc.cost});
        }
        return Rows(boost::edges_are_sorted, ends.begin(), ends.end(), costs.begin(), events);
    }

  public:
    BoostGraph(size_t events, const std::vector<Bound> &bounds) : graph(built(events, arcs_of(bounds))) {}

    /* the times; none where there are no times */
    std::vector<int64_t> solve() const {
        size_t events = num_vertices(graph);
        std::vector<int64_t> sums(events, std::numeric_limits<int64_t>::max());
        sums[0] = 0;
        bool exist = boost::bellman_ford_shortest_paths(graph, events, boost::weight_map(get(&Cost::cost, graph)).distance_map(sums.data()));
        if (!exist)
            return {};
        for (int64_t &sum : sums)
            sum = -sum;
        return sums;
    }
};
