// The pairs that are asked at large sizes.
#pragma once
#include "peers.hpp"

struct Pairs {
    Numbers sources, targets;
};

// Pairs of two different vertices: any, or those that a path joins, or those that none does. The latter two from some sources, as each takes a search.
inline Pairs choose(const std::string &which, Search &search, uint32_t n, uint32_t count, Chance &chance) {
    const uint32_t a_source = which == "mixed" ? 1 : std::max(1u, count / 400);
    Pairs ordered;
    while (ordered.sources.size() < count) {
        uint32_t u = chance.below(n);
        Numbers targets;
        if (which == "mixed") targets = {chance.below(n)};
        else {
            search.reaches(u, n); // no vertex, so all that is reached is found
            for (uint32_t v = 0; v < n; v++)
                if (v != u && (search.stamp[v] == search.now) == (which == "reachable")) targets.push_back(v);
        }
        for (uint32_t i = 0; i < a_source && !targets.empty(); i++) {
            uint32_t v = targets[chance.below(targets.size())];
            if (u != v) ordered.sources.push_back(u), ordered.targets.push_back(v);
        }
    }
    Pairs pairs;
    for (uint32_t i : chance.order(ordered.sources.size())) pairs.sources.push_back(ordered.sources[i]), pairs.targets.push_back(ordered.targets[i]);
    return pairs;
}
