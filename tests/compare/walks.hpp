/* Carts that walk on a floor, step by step, and never collide. */
#pragma once

#include <numeric>

#include "floors.hpp"

/* by cart, then by step: the place */
using Walks = std::vector<std::vector<size_t>>;

class Walkers {
    static constexpr size_t nobody = SIZE_MAX;

    Random &random;
    const Floor &floor;
    std::vector<size_t> now, before; /* by cart */
    std::vector<size_t> standing;    /* by place: who stands there, or has gone there in this step */

    /* a neighbour that is free, the place that the cart comes from only if there is no other */
    size_t free_neighbour(size_t cart) {
        std::vector<size_t> free;
        for (size_t place : floor.neighbours[now[cart]])
            if (standing[place] == nobody && place != before[cart])
                free.push_back(place);
        if (free.empty() && standing[before[cart]] == nobody)
            free.push_back(before[cart]);
        return free.empty() ? now[cart] : random.one_of(free);
    }

    void go(size_t cart, size_t place) {
        if (place == now[cart])
            return;
        standing[now[cart]] = nobody;
        standing[place] = cart;
        before[cart] = now[cart];
        now[cart] = place;
    }

  public:
    Walkers(Random &random, const Floor &floor, size_t carts) : random(random), floor(floor), now(floor.size()), standing(floor.size(), nobody) {
        std::iota(now.begin(), now.end(), 0);
        random.shuffle(now);
        now.resize(carts);
        before = now;
        for (size_t cart = 0; cart < carts; cart++)
            standing[now[cart]] = cart;
    }

    const std::vector<size_t> &places() const { return now; }

    /* each cart that does not wait goes to a place that is empty when its turn comes; the number of moves, at most so many */
    size_t step(unsigned percent_waits, size_t most_moves) {
        std::vector<size_t> turn(now.size());
        std::iota(turn.begin(), turn.end(), 0);
        random.shuffle(turn);
        size_t moves = 0;
        for (size_t cart : turn)
            if (moves < most_moves && !random.chance(percent_waits)) {
                size_t place = free_neighbour(cart);
                moves += place != now[cart];
                go(cart, place);
            }
        return moves;
    }

    /* all carts on the floor's cycle go on by one place, into cells that are left in the same step; the number of moves */
    size_t turn_round() {
        std::vector<size_t> moved(floor.size(), nobody);
        size_t moves = 0, n = floor.cycle.size();
        for (size_t i = 0; i < n; i++)
            moved[floor.cycle[(i + 1) % n]] = standing[floor.cycle[i]];
        for (size_t place : floor.cycle) {
            standing[place] = moved[place];
            if (moved[place] == nobody)
                continue;
            before[moved[place]] = now[moved[place]];
            now[moved[place]] = place;
            moves++;
        }
        return moves;
    }
};

/* so many carts and steps, with no more than so many moves in all */
inline Walks walk(Random &random, const Floor &floor, size_t carts, size_t steps, unsigned percent_waits, size_t most_moves) {
    Walkers walkers(random, floor, carts);
    Walks walks(carts);
    for (size_t step = 0; step < steps; step++) {
        if (step > 0) {
            bool round = floor.cycle.size() > 2 && most_moves >= carts && random.chance(40);
            most_moves -= round ? walkers.turn_round() : walkers.step(percent_waits, most_moves);
        }
        for (size_t cart = 0; cart < carts; cart++)
            walks[cart].push_back(walkers.places()[cart]);
    }
    return walks;
}
