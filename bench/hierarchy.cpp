// Measures questions on plain hierarchies: those of form 4 beside those of form 2 on the same hierarchy under the same order, and beside a plain C++ test of the two intervals.
// All answers are compared: the first difference ends it with an error.
//
//     hierarchy all | quick
//
// prints the figures (measure.hpp) of one question with its check, and of one among many in a loop, in a copy in which neither the contents are checked nor words cleared; and as
// `size` the bytes of both images and of the labels in them.
#include "measure.hpp"
#include "peers.hpp"
#include <drobisten.h>

extern "C" {
// drobisten_question and drobisten_question_hierarchy in a copy that neither checks the contents nor clears words (bench/run makes it)
drobisten_asked unchecked_question(const uint8_t *index, size_t index_len, uint8_t *marks, size_t marks_len, uint32_t *work, size_t work_len, uint32_t source, uint32_t target);
drobisten_asked unchecked_question_hierarchy(const uint8_t *index, size_t index_len, uint8_t *marks, size_t marks_len, uint32_t *work, size_t work_len, uint32_t source,
                                             uint32_t target);
// what that copy calls to clear words; no question on a hierarchy leaves a mark or a word, so nothing is to be cleared
void *unchecked_memset(void *at, int, size_t) { return at; }
}

// A hierarchy over the positions 0 to n-1, each but the first with one parent before it; then each position gets its vertex.
static Graph hierarchy(const std::string &kind, uint32_t n, Chance &chance) {
    Graph g{n, {}, {}};
    auto parent = [&](uint32_t v) { return kind == "line" ? v - 1 : kind == "broad" ? chance.below(1 + v / 64) : chance.below(v); };
    for (uint32_t v = 1; v < n; v++) g.from.push_back(parent(v)), g.to.push_back(v);
    Numbers vertex = chance.order(n);
    for (auto *ends : {&g.from, &g.to})
        for (uint32_t &v : *ends) v = vertex[v];
    return g;
}

// The test alone, on the stored pairs: the places are looked up, s and e of both are compared.
struct Pairs {
    const uint32_t *names, *groups, *labels;
    uint32_t n, k;
    explicit Pairs(const Bytes &index) {
        const uint32_t *header = (const uint32_t *)index.data();
        n = header[1], k = header[2];
        names = header + header[5] / 4, groups = header + header[6] / 4, labels = header + header[10] / 4;
    }
    uint32_t place(uint32_t v) const { return n == k ? names[v] : std::lower_bound(groups, groups + k, names[v]) - groups; }
    bool reaches(uint32_t u, uint32_t v) const {
        uint32_t x = place(u), t = place(v);
        return x == t || (labels[2 * x] <= labels[2 * t] && labels[2 * t + 1] <= labels[2 * x + 1]);
    }
};

int main(int words, char **word) {
    std::string what = words == 2 ? word[1] : "";
    must(what == "all" || what == "quick", "all or quick?");
    quick = what == "quick";
    const uint32_t count = quick ? 500 : 4096;
    for (uint32_t n : quick ? std::vector<uint32_t>{500} : std::vector<uint32_t>{4096, 200000})
        for (const char *kind : {"forest", "broad", "line"}) {
            Chance chance(n);
            Graph g = hierarchy(kind, n, chance);
            Grail grail;
            grail.build(g, chance.order(n), 1);
            const Bytes two = stored_form(grail, 2);
            Bytes marks(n), four(two.size());
            Numbers work(16 * n + 4 * grail.groups.children.item.size() + 64);
            drobisten_counted turned = drobisten_to_hierarchy(two.data(), two.size(), marks.data(), n, work.data(), work.size(), four.data(), four.size());
            must(turned.refusal == 0, "a hierarchy is refused");
            four.resize(turned.count);
            Where w{"size", kind, n, 1, "-"};
            figure(w, "two", two.size());
            figure(w, "four", four.size());
            const Pairs plain(four);
            for (const char *pairs : {"mixed", "reachable"}) {
                // any two vertices, or a vertex and one below it on its way up
                Numbers parent(n, n), sources, targets;
                for (size_t i = 0; i < g.to.size(); i++) parent[g.to[i]] = g.from[i];
                while (sources.size() < count) {
                    uint32_t v = chance.below(n), u = chance.below(n);
                    if (pairs[0] == 'r') {
                        u = v;
                        for (uint32_t steps = 1 + chance.below(kind[0] == 'l' ? 64 : 8); steps > 0 && parent[u] < n; steps--) u = parent[u];
                        if (u == v) continue;
                    }
                    sources.push_back(u), targets.push_back(v);
                }
                auto loop = [&](auto call, const Bytes &index) {
                    return [&, call] {
                        uint32_t sum = 0;
                        for (uint32_t i = 0; i < count; i++) sum += call(index.data(), index.size(), marks.data(), n, work.data(), work.size(), sources[i], targets[i]).yes;
                        sink = sum;
                    };
                };
                auto test = [&] {
                    uint32_t sum = 0;
                    for (uint32_t i = 0; i < count; i++) sum += plain.reaches(sources[i], targets[i]);
                    sink = sum;
                };
                for (uint32_t i = 0; i < count; i++) {
                    std::fill(marks.begin(), marks.end(), 0);
                    auto a = unchecked_question(two.data(), two.size(), marks.data(), n, work.data(), work.size(), sources[i], targets[i]);
                    auto b = unchecked_question_hierarchy(four.data(), four.size(), marks.data(), n, work.data(), work.size(), sources[i], targets[i]);
                    must(a.refusal == 0 && b.refusal == 0 && a.yes == b.yes && a.reason == b.reason && a.opened == 0 && b.opened == 0 && a.labelling == b.labelling, "the forms answer differently");
                    must(b.yes == plain.reaches(sources[i], targets[i]), "the peer answers differently");
                }
                w = Where{"loop", kind, n, 1, pairs};
                measure(w, count, {{"two", loop(unchecked_question, two)}, {"four", loop(unchecked_question_hierarchy, four)}, {"plain", test}});
                w.measure = "whole";
                auto once = [&](auto call, const Bytes &index) {
                    return [&, call] { sink = call(index.data(), index.size(), marks.data(), n, work.data(), work.size(), sources[0], targets[0]).yes; };
                };
                measure(w, 1, {{"two", once(drobisten_question, two)}, {"four", once(drobisten_question_hierarchy, four)}});
            }
        }
}
