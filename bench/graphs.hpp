// The graphs that are measured: five kinds, at any size, the same ones for the same seed on every machine. Vertices are numbered at random, so that no number tells
// where a vertex stands. But for the tree and the line there are so many edges a vertex as are asked for: four make at 4,096 vertices 16,384, the most that a build of
// form 1 takes, and five at 200,000 vertices 1,000,000, the most of form 2.
#pragma once
#include <algorithm>
#include <cmath>
#include <cstdint>
#include <numeric>
#include <string>
#include <utility>
#include <vector>

using Numbers = std::vector<uint32_t>;

struct Graph {
    uint32_t n;
    Numbers from, to;
};

// A source of numbers with a fixed start (splitmix64).
class Chance {
    uint64_t state;

  public:
    explicit Chance(uint64_t seed) : state(seed) {}

    uint32_t below(uint32_t bound) {
        uint64_t z = state += 0x9e3779b97f4a7c15;
        z = (z ^ (z >> 30)) * 0xbf58476d1ce4e5b9;
        z = (z ^ (z >> 27)) * 0x94d049bb133111eb;
        return (z ^ (z >> 31)) % bound;
    }

    Numbers order(uint32_t n) {
        Numbers order(n);
        std::iota(order.begin(), order.end(), 0);
        for (uint32_t i = n; i > 1; i--) std::swap(order[i - 1], order[below(i)]);
        return order;
    }
};

const std::vector<std::string> KINDS = {"dag", "loops", "tree", "layers", "line"};

// A graph over the positions 0 to n-1, whose edges lead upwards but for the loops; then each position gets its vertex.
inline Graph graph(const std::string &kind, uint32_t n, uint32_t each, Chance &chance) {
    Graph g{n, {}, {}};
    auto edge = [&](uint32_t u, uint32_t v) { g.from.push_back(u), g.to.push_back(v); };
    auto upwards = [&] {
        uint32_t u = chance.below(n), v = chance.below(n - 1);
        v += v >= u;
        edge(std::min(u, v), std::max(u, v));
    };
    if (kind == "dag") // a random acyclic graph
        while (g.from.size() < each * n) upwards();
    if (kind == "loops") { // the same over runs of one to four positions that are closed to loops
        for (uint32_t at = 0, next; at < n; at = next) {
            next = std::min(n, at + 1 + chance.below(4));
            for (uint32_t v = at; v < next; v++) edge(v, v + 1 < next ? v + 1 : at);
        }
        while (g.from.size() < each * n) upwards();
    }
    if (kind == "tree") // one parent, and one in ten has a second
        for (uint32_t v = 1; v < n; v++) {
            edge(chance.below(v), v);
            if (chance.below(10) == 0) edge(chance.below(v), v);
        }
    if (kind == "layers") { // as many layers as a layer has vertices; edges from each vertex into the next layer
        uint32_t wide = std::sqrt(n);
        for (uint32_t v = 0; v + 2 * wide <= n; v++)
            for (uint32_t i = 0; i < each; i++) edge(v, v - v % wide + wide + chance.below(wide));
    }
    if (kind == "line")
        for (uint32_t v = 1; v < n; v++) edge(v - 1, v);
    Numbers vertex = chance.order(n);
    for (auto *ends : {&g.from, &g.to})
        for (uint32_t &v : *ends) v = vertex[v];
    return g;
}
