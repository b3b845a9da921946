/* The second solver: LEMON's Bellman-Ford, whose rounds are document 01's passes. It looks for least sums, so every weight is handed over with its sign
   changed. */
#pragma once

#include <algorithm>

#include <lemon/bellman_ford.h>
#include <lemon/static_graph.h>

#include "network.hpp"

/* what can be followed: forward adds lo, backward subtracts hi, hi none is not followed */
struct Arc {
    int from, to;
    int64_t cost; /* the sign changed */
};

inline std::vector<Arc> arcs_of(const std::vector<Bound> &bounds) {
    std::vector<Arc> arcs;
    for (const Bound &bound : bounds) {
        int from = static_cast<int>(bound.from), to = static_cast<int>(bound.to);
        arcs.push_back({from, to, -bound.lo});
        if (bound.hi)
            arcs.push_back({to, from, *bound.hi});
    }
    std::stable_sort(arcs.begin(), arcs.end(), [](const Arc &a, const Arc &b) { return a.from < b.from; });
    return arcs;
}

/* LEMON's graph of a network */
class Graph {
    lemon::StaticDigraph graph;
    lemon::StaticDigraph::ArcMap<int64_t> costs;
    using Search = lemon::BellmanFord<lemon::StaticDigraph, lemon::StaticDigraph::ArcMap<int64_t>>;

  public:
    struct Solution {
        bool exists;
        unsigned passes;
        std::vector<int64_t> times;
    };

    Graph(size_t events, const std::vector<Bound> &bounds) : costs(graph) {
        std::vector<Arc> arcs = arcs_of(bounds);
        std::vector<std::pair<int, int>> ends;
        for (const Arc &arc : arcs)
            ends.emplace_back(arc.from, arc.to);
        graph.build(static_cast<int>(events), ends.begin(), ends.end());
        for (size_t i = 0; i < arcs.size(); i++)
            costs.set(graph.arc(static_cast<int>(i)), arcs[i].cost);
    }

    /* The passes are the rounds before the first that changes nothing. Where the sums still change after as many rounds as there are events, a walk round
       and round makes them as great as you like, and there are no times. */
    Solution solve() const {
        Search search(graph, costs);
        search.init();
        search.addSource(graph.node(0));
        unsigned rounds = 0, events = static_cast<unsigned>(graph.nodeNum());
        while (rounds < events && !search.processNextRound())
            rounds++;
        if (rounds == events)
            return {false, 0, {}};
        std::vector<int64_t> times;
        for (unsigned event = 0; event < events; event++)
            times.push_back(-search.dist(graph.node(static_cast<int>(event))));
        return {true, rounds, times};
    }
};

inline Graph::Solution solve(size_t events, const std::vector<Bound> &bounds) { return Graph(events, bounds).solve(); }
