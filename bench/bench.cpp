// Measures the library beside its peers (peers.hpp) on the same graphs, orders and pairs, and compares all that they answer: the first difference ends it with an error.
// This is stored form 1, through the C host's calls; region.cpp is form 2.
//
//     bench all | build | monday | quick
//
// prints the figures (measure.hpp) of one build, one opening and one question with its check, at four sizes with four edges a vertex each; and at the smallest and the largest of
// one question without it, alone and among all pairs of two lists. `build` measures builds and openings alone, `monday` the call for all pairs of two lists alone; `quick` is one
// small size with few repetitions, and serves to see that all agree.
#include "measure.hpp"
#include "peers.hpp"
#include <drobisten.h>
#include <map>

extern "C" {
// the library's own drobisten_ask_all and drobisten_ask, in a copy whose check of the contents says yes and does nothing (bench/run makes it)
drobisten_asked_all unchecked_ask_all(const uint8_t *index, size_t index_len, uint8_t *marks, size_t marks_len, const uint32_t *sources, size_t sources_len,
                                      const uint32_t *targets, size_t targets_len, uint32_t *answers, size_t answers_len);
drobisten_asked unchecked_ask(const uint8_t *index, size_t index_len, uint8_t *marks, size_t marks_len, uint32_t source, uint32_t target);
}

using Pairs = std::vector<std::pair<uint32_t, uint32_t>>;

// A graph with all that is made of it.
struct Case {
    Graph graph;
    Search search;
    Closure closure;
    std::map<std::string, Pairs> pairs;
    Grail grail;
    Bytes index;
};

// Several graphs of a size are measured in turn, as a processor learns the branches of a small one by heart.
using Cases = std::vector<Case>;

template <class F> static std::function<void()> each(Cases &cases, F one) {
    return [&cases, one] {
        for (Case &c : cases) one(c);
    };
}

// ---------------------------------------------------------------- build and open

static void build(Where w, Cases &cases, const Numbers &orders) {
    const uint32_t n = w.n, most_edges = 16384;
    Numbers work(16 * n + 4 * most_edges + 64);
    Bytes out(50 + 8 * n + 2 * most_edges + 8 * w.d * n);
    Closure closure;
    auto ours = [&](const Case &c) {
        const Numbers &from = c.graph.from, &to = c.graph.to;
        size_t needed = 16 * n + 4 * from.size() + 64;
        drobisten_counted r = drobisten_build(from.data(), from.size(), to.data(), to.size(), orders.data(), orders.size(), work.data(), needed, out.data(), out.size(), 1, n, w.d);
        must(r.refusal == 0, "a build is refused");
        return r.count;
    };
    w.measure = "build", w.pairs = "-";
    measure(w, cases.size(), {{"ours", each(cases, ours)},
                              {"grail", each(cases, [&](Case &c) { c.grail.build(c.graph, orders, w.d); })},
                              {"closure", each(cases, [&](Case &c) { closure.build(c.graph); })}});
    for (Case &c : cases) {
        c.index.assign(out.begin(), out.begin() + ours(c));
        must(c.index == stored_form(c.grail, 1), "the peer builds another index");
    }
}

static void open(Where w, Cases &cases) {
    Bytes marks(w.n), scratch;
    Grail loaded;
    auto ours = [&](const Case &c) { must(drobisten_open(c.index.data(), c.index.size(), marks.data(), w.n).refusal == 0, "an index is refused"); };
    auto check = [&](const Case &c) { must(Stored<uint16_t>(c.index.data()).sound(scratch), "the peer refuses an index"); };
    auto load = [&](const Case &c) { Stored<uint16_t>(c.index.data()).load(loaded); };
    auto pass = [&](const Case &c) {
        const uint16_t *numbers = (const uint16_t *)c.index.data();
        uint32_t sum = 0;
        for (size_t i = 0; i < c.index.size() / 2; i++) sum += numbers[i];
        sink = sum;
    };
    w.measure = "open", w.pairs = "-";
    measure(w, cases.size(), {{"ours", each(cases, ours)}, {"check", each(cases, check)}, {"load", each(cases, load)}, {"pass", each(cases, pass)}});
    for (const Case &c : cases) {
        load(c);
        must(stored_form(loaded, 1) == c.index, "the peer loads another index");
    }
}

// The peer's check and the library's on damaged contents.
static void damage(const Bytes &index, Chance &chance) {
    Bytes marks(4096), scratch;
    for (int i = 0; i < 100; i++) {
        Bytes bad = index;
        uint16_t *field = (uint16_t *)&bad[48 + 2 * chance.below((index.size() - 48) / 2)];
        *field = chance.below(2) ? chance.below(4096) : *field + 1 - 2 * chance.below(2);
        uint32_t refusal = drobisten_open(bad.data(), bad.size(), marks.data(), marks.size()).refusal;
        must(refusal == (Stored<uint16_t>(bad.data()).sound(scratch) ? 0 : 15), "the peer judges damaged contents otherwise");
    }
}

// ---------------------------------------------------------------- questions

// Pairs of two different vertices: any, or those that a path joins, or those that none does.
static Pairs choose(const std::string &which, const Closure &closure, uint32_t n, size_t count, Chance &chance) {
    Pairs pairs;
    while (pairs.size() < count) {
        uint32_t u = chance.below(n), v = chance.below(n);
        if (which == "reachable") { // any source, then any of what it reaches
            Numbers reached;
            for (v = 0; v < n; v++)
                if (v != u && closure.reaches(u, v)) reached.push_back(v);
            if (reached.empty()) continue;
            v = reached[chance.below(reached.size())];
        }
        if (u != v && (which == "mixed" || closure.reaches(u, v) == (which == "reachable"))) pairs.push_back({u, v});
    }
    return pairs;
}

static drobisten_asked ask(const Case &c, Bytes &marks, uint32_t u, uint32_t v) {
    return drobisten_ask(c.index.data(), c.index.size(), marks.data(), c.graph.n, u, v);
}

// The marks are 0 before, as the check would leave them.
static drobisten_asked ask_alone(const Case &c, Bytes &marks, uint32_t u, uint32_t v) {
    return unchecked_ask(c.index.data(), c.index.size(), marks.data(), c.graph.n, u, v);
}

// The next pair of each graph in turn, a check for each question.
static void asks(Where w, Cases &cases) {
    Bytes marks(w.n), alone(w.n), scratch;
    size_t turn = 0;
    auto pair = [&](const Case &c) {
        const Pairs &pairs = c.pairs.at(w.pairs);
        return pairs[turn++ % pairs.size()];
    };
    auto ours = [&](const Case &c) {
        auto [u, v] = pair(c);
        sink = ask(c, marks, u, v).yes;
    };
    auto check = [&](Case &c) {
        auto [u, v] = pair(c);
        sink = Stored<uint16_t>(c.index.data()).sound(scratch) && c.grail.reaches(u, v);
    };
    w.measure = "ask";
    measure(w, cases.size(), {{"ours", each(cases, ours)}, {"check", each(cases, check)}});
    for (Case &c : cases)
        for (int i = 0; i < 20; i++) {
            auto [u, v] = pair(c);
            alone.assign(w.n, 0);
            drobisten_asked a = ask(c, marks, u, v), b = ask_alone(c, alone, u, v);
            must(a.refusal == 0 && !memcmp(&a, &b, sizeof a) && marks == alone, "a question alone gets another answer than with the check");
            must(c.grail.reaches(u, v) == (a.yes == 1), "GRAIL answers otherwise");
        }
}

// All pairs of one graph, whose index is known to be sound; for breadth-first search, which is slow, the first thousand.
static void questions(Where w, Case &c) {
    const Pairs &pairs = c.pairs.at(w.pairs);
    const size_t few = std::min<size_t>(pairs.size(), 1000);
    Bytes marks(w.n);
    auto first = [&](size_t count, auto answer) {
        return [&pairs, count, answer] {
            uint32_t yes = 0;
            for (size_t i = 0; i < count; i++) yes += answer(pairs[i].first, pairs[i].second);
            sink = yes;
        };
    };
    // a question that opened nothing has left the marks at 0
    auto ours = [&](uint32_t u, uint32_t v) {
        drobisten_asked r = ask_alone(c, marks, u, v);
        if (r.opened) memset(marks.data(), 0, w.n);
        return r.yes;
    };
    auto grail = [&](uint32_t u, uint32_t v) { return c.grail.reaches(u, v); };
    auto search = [&](uint32_t u, uint32_t v) { return c.search.reaches(u, v); };
    auto closure = [&](uint32_t u, uint32_t v) { return c.closure.reaches(u, v); };
    w.measure = "question";
    measure(w, pairs.size(), {{"ours", first(pairs.size(), ours)}, {"grail", first(pairs.size(), grail)}, {"closure", first(pairs.size(), closure)}});
    measure(w, few, {{"search", first(few, search)}});
    double opened = 0;
    for (size_t i = 0; i < pairs.size(); i++) {
        auto [u, v] = pairs[i];
        marks.assign(w.n, 0);
        drobisten_asked r = ask_alone(c, marks, u, v);
        bool yes = r.yes;
        must(r.refusal == 0 && grail(u, v) == yes && (uint32_t)c.grail.opened == r.opened, "GRAIL answers otherwise");
        must(closure(u, v) == yes, "the closure answers otherwise");
        must(i >= few || search(u, v) == yes, "breadth-first search answers otherwise");
        opened += r.opened;
    }
    w.measure = "opened";
    figure(w, "ours", opened / pairs.size());
}

// All pairs of one graph in one call, the check cut; the whole call on no pairs is what the check and the rest of a call cost.
static void monday(Where w, Case &c) {
    const Pairs &pairs = c.pairs.at(w.pairs);
    const size_t few = std::min<size_t>(pairs.size(), 1000);
    Bytes marks(w.n);
    Numbers sources, targets, answers(6 * pairs.size()), theirs(6 * pairs.size());
    for (auto [u, v] : pairs) sources.push_back(u), targets.push_back(v);
    auto ours = [&] { // the marks are 0 before, as the check would leave them
        memset(marks.data(), 0, w.n);
        sink = unchecked_ask_all(c.index.data(), c.index.size(), marks.data(), w.n, sources.data(), sources.size(), targets.data(), targets.size(), answers.data(),
                                 answers.size()).count;
    };
    auto call = [&] { sink = drobisten_ask_all(c.index.data(), c.index.size(), marks.data(), w.n, sources.data(), 0, targets.data(), 0, answers.data(), 0).refusal; };
    auto each_pair = [&](size_t count, auto answer) {
        return [&pairs, count, answer] {
            uint32_t yes = 0;
            for (size_t i = 0; i < count; i++) yes += answer(pairs[i].first, pairs[i].second);
            sink = yes;
        };
    };
    w.measure = "monday";
    measure(w, pairs.size(), {{"ours", ours}, {"grail", [&] { c.grail.ask_all(sources, targets, theirs.data()); }},
                              {"closure", each_pair(pairs.size(), [&](uint32_t u, uint32_t v) { return c.closure.reaches(u, v); })}});
    must(answers == theirs, "GRAIL answers the pairs otherwise");
    measure(w, few, {{"search", each_pair(few, [&](uint32_t u, uint32_t v) { return c.search.reaches(u, v); })}});
    measure(w, 1, {{"call", call}});
}

// The copy without the check has none: it answers over a labelling whose last place by rank is wrong, which no question reads and every check finds.
static void check_is_cut(Case c) {
    Bytes marks(c.graph.n);
    c.index.back() ^= 0x80;
    must(ask(c, marks, 0, 1).refusal == DROBISTEN_CONTENTS, "unsound contents are answered");
    must(ask_alone(c, marks, 0, 1).refusal == 0, "the copy without the check checks");
}

// ---------------------------------------------------------------- all of it

int main(int words, char **word) {
    std::string what = words == 2 ? word[1] : "";
    must(what == "all" || what == "build" || what == "monday" || what == "quick", "all, build, monday or quick?");
    quick = what == "quick";
    const std::vector<const char *> any = {"mixed"}, each_kind = {"reachable", "unreachable", "mixed"};
    for (const std::string &kind : KINDS) {
        for (uint32_t n : quick ? Numbers{500} : what == "monday" ? Numbers{500, 4096} : Numbers{500, 1000, 2000, 4096}) {
            const bool middle = n == 1000 || n == 2000;
            const auto &kinds = middle ? any : each_kind;
            Chance chance(n);
            Cases cases(what == "monday" ? 1 : quick ? 2 : 8192 / n);
            for (Case &c : cases) {
                c.graph = graph(kind, n, 4, chance);
                c.search.build(c.graph), c.closure.build(c.graph);
                if (what == "build") continue;
                for (const char *which : kinds) c.pairs[which] = choose(which, c.closure, n, &c == &cases[0] && !quick && !middle ? 20000 : 100, chance);
            }
            for (int d : {1, 2, 5}) {
                Where w{"", kind.c_str(), n, d, ""};
                Numbers orders;
                for (int j = 0; j < d; j++) {
                    Numbers order = chance.order(n);
                    orders.insert(orders.end(), order.begin(), order.end());
                }
                if (what == "monday") {
                    cases[0].grail.build(cases[0].graph, orders, d);
                    cases[0].index = stored_form(cases[0].grail, 1);
                } else {
                    build(w, cases, orders);
                    open(w, cases);
                    damage(cases[0].index, chance);
                    if (what == "build") continue;
                    check_is_cut(cases[0]);
                }
                for (const char *which : kinds) {
                    w.pairs = which;
                    if (what != "monday") asks(w, cases);
                    if (middle) continue;
                    if (what != "monday") questions(w, cases[0]);
                    monday(w, cases[0]);
                }
            }
        }
    }
}
