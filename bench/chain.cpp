// Measures chains beside depth-first searches in C++ over GRAIL's groups, plain and pruned by its labels, on the same graphs, orders and reachable pairs. The searches follow the
// library's rule, each step to the lowest child that reaches the target, so all chains are compared step by step: the first difference ends it with an error.
//
//     chain all | quick
//
// prints the figures (measure.hpp) of one chain with its check, and without it, at 4,096 vertices in form 1 and at 200,000 in form 2, under two orders; and as `count` how many
// groups a chain names.
#include "measure.hpp"
#include "pairs.hpp"
#include <drobisten.h>

extern "C" {
// drobisten_chain in a copy whose check of the contents says yes and does nothing (bench/run makes it)
drobisten_chained unchecked_chain(const uint8_t *index, size_t index_len, uint8_t *marks, size_t marks_len, uint32_t *work, size_t work_len, uint32_t *steps, size_t steps_len,
                                  uint32_t source, uint32_t target);
}

const int ORDERS = 2;

// What a chain has to be, whatever rule is followed: from the source's group to the target's, each step a child of the one before.
static bool leads(const Groups &g, uint32_t u, uint32_t v, const uint32_t *steps, uint32_t count) {
    auto child = [&](uint32_t from, uint32_t to) {
        const int *item = g.children.item.data(), p = g.place[from];
        return std::binary_search(item + g.children.start[p], item + g.children.start[p + 1], g.place[to]);
    };
    for (uint32_t i = 1; i < count; i++)
        if (!child(steps[i - 1], steps[i])) return false;
    return count > 0 && steps[0] == (uint32_t)g.list[g.place[u]] && steps[count - 1] == (uint32_t)g.list[g.place[v]];
}

template <class Number> static void chains(Where w, Grail &grail, Search &search, Bytes &index, const Pairs &pairs, const Pairs &mixed) {
    const size_t checked = 4, alone = 16;
    Bytes marks(w.n), scratch;
    Numbers work(sizeof(Number) == 2 ? 0 : 16 * w.n + 4 * grail.groups.children.item.size() + 64), steps(w.n), theirs(w.n);
    auto by = [&](auto call, uint32_t u, uint32_t v) { return call(index.data(), index.size(), marks.data(), w.n, work.data(), work.size(), steps.data(), w.n, u, v); };
    auto first = [&](size_t count, auto call) {
        return [&, count, call] {
            for (size_t i = 0; i < count; i++) sink = call(pairs.sources[i], pairs.targets[i]);
        };
    };
    auto cut = [&](uint32_t u, uint32_t v) {
        memset(marks.data(), 0, w.n); // as the check would leave them
        return by(unchecked_chain, u, v);
    };
    auto check = [&](uint32_t u, uint32_t v) { return Stored<Number>(index.data()).sound(scratch) ? grail.chain(u, v, false, theirs.data()) : 0; };
    w.pairs = "checked";
    measure(w, checked, {{"ours", first(checked, [&](uint32_t u, uint32_t v) { return by(drobisten_chain, u, v).steps; })}, {"check", first(checked, check)}});
    w.pairs = "alone";
    measure(w, alone, {{"ours", first(alone, [&](uint32_t u, uint32_t v) { return cut(u, v).steps; })},
                       {"search", first(alone, [&](uint32_t u, uint32_t v) { return grail.chain(u, v, false, theirs.data()); })},
                       {"pruned", first(alone, [&](uint32_t u, uint32_t v) { return grail.chain(u, v, true, theirs.data()); })}});
    // the rule's chain, and a chain at all; some of them with the check too
    double count = 0;
    auto compare = [&](const Pairs &some) {
        for (size_t i = 0; i < some.sources.size(); i++) {
            uint32_t u = some.sources[i], v = some.targets[i];
            drobisten_chained a = cut(u, v);
            must(a.refusal == 0 && search.reaches(u, v) == (a.yes == 1) && (a.yes == 1) == (a.steps > 0), "breadth-first search answers otherwise");
            must(!a.yes || leads(grail.groups, u, v, steps.data(), a.steps), "the chain does not lead from source to target");
            for (bool pruned : {false, true})
                must(a.steps == grail.chain(u, v, pruned, theirs.data()) && std::equal(theirs.begin(), theirs.begin() + a.steps, steps.begin()), "the search finds another chain");
            if (i >= checked) continue;
            drobisten_chained b = by(drobisten_chain, u, v);
            must(!memcmp(&a, &b, sizeof a) && std::equal(theirs.begin(), theirs.begin() + a.steps, steps.begin()), "the copy without the check answers otherwise");
        }
    };
    compare(pairs), compare(mixed);
    for (size_t i = 0; i < alone; i++) count += cut(pairs.sources[i], pairs.targets[i]).steps;
    figure({"count", w.kind, w.n, w.d, "steps"}, "ours", count / alone);
    // the copy without the check has none: it goes by an index whose last place by rank under the second order is wrong, which no chain reads and every check finds
    index.back() ^= 0x80;
    must(by(drobisten_chain, 0, 1).refusal == DROBISTEN_CONTENTS, "unsound contents are taken");
    must(cut(0, 1).refusal == 0, "the copy without the check checks");
}

template <class Number> static void measure_at(uint32_t n, uint32_t each) {
    for (const std::string &kind : KINDS) {
        Chance chance(n);
        Graph g = graph(kind, n, each, chance);
        Numbers orders = chance.order(n), second = chance.order(n);
        orders.insert(orders.end(), second.begin(), second.end());
        Grail grail;
        grail.build(g, orders, ORDERS);
        Bytes index = stored_form(grail, sizeof(Number) / 2);
        Search search;
        search.build(g);
        Pairs pairs = choose("reachable", search, n, 100, chance), mixed = choose("mixed", search, n, 20, chance);
        chains<Number>({"chain", kind.c_str(), n, ORDERS, ""}, grail, search, index, pairs, mixed);
    }
}

static void *measure_all(void *) {
    measure_at<uint16_t>(quick ? 1000 : 4096, 4);
    measure_at<uint32_t>(quick ? 1000 : 200000, 5);
    return nullptr;
}

int main(int words, char **word) { run(words, word, measure_all); }
