// Measures questions over an index and the edges added beside it, beside a plain C++ search over both lists. All answers are compared: the first difference ends it with an
// error.
//
//     added all | quick
//
// prints the figures (measure.hpp) of one question with its check, and without it, with 0, 1, 16 and 256 added edges (the figures' d), at 4,096 vertices in form 1 and at
// 200,000 in form 2, under two orders; and as `sweeps` how many sweeps a question makes. Random edges join any two vertices, and sixteen random pairs are asked one after the
// other, in form 2 four of them with the check. Climbing edges each open the next one from below, and are added the other way round, so that a round over them finds one: the worst that
// there is.
#include "measure.hpp"
#include "peers.hpp"
#include <drobisten.h>
#include <pthread.h>

extern "C" {
// drobisten_ask_added in a copy whose check of the contents says yes and does nothing (bench/run makes it)
drobisten_said unchecked_ask_added(const uint8_t *index, size_t index_len, uint8_t *marks, size_t marks_len, uint32_t *work, size_t work_len, drobisten_added added, uint32_t source, uint32_t target);
}

// Breadth-first search over the edges of a graph and the added ones, which are hung at their sources for each question.
struct Both {
    Search search;
    Ints head, next;

    void build(const Graph &g) {
        search.build(g);
        head.assign(g.n, -1);
        next.resize(256);
    }

    bool reaches(const drobisten_added &added, uint32_t u, uint32_t v) {
        for (uint32_t i = 0; i < added.count; i++) next[i] = head[added.sources[i]], head[added.sources[i]] = i;
        bool yes = u == v || found(added, u, v);
        for (uint32_t i = 0; i < added.count; i++) head[added.sources[i]] = -1;
        return yes;
    }

  private:
    bool found(const drobisten_added &added, int u, int v) {
        Ints &queue = search.queue, &stamp = search.stamp;
        int first = 0, last = 0, now = ++search.now;
        auto meet = [&](int y) {
            if (stamp[y] != now) stamp[y] = now, queue[last++] = y;
            return y == v;
        };
        queue[last++] = u, stamp[u] = now;
        while (first < last) {
            int x = queue[first++];
            for (int i = search.edges.start[x]; i < search.edges.start[x + 1]; i++)
                if (meet(search.edges.item[i])) return true;
            for (int i = head[x]; i >= 0; i = next[i])
                if (meet(added.targets[i])) return true;
        }
        return false;
    }
};

// How many sweeps a question makes: one, and one more for each round over the added edges in which one leads out.
static int sweeps(const Groups &g, const drobisten_added &added, uint32_t u, uint32_t v) {
    Ints marked(g.k), stack;
    auto mark = [&](int p) {
        if (!marked[p]) marked[p] = 1, stack.push_back(p);
    };
    mark(g.place[u]);
    for (int count = 1;; count++) {
        while (!stack.empty()) {
            int p = stack.back();
            stack.pop_back();
            for (int i = g.children.start[p]; i < g.children.start[p + 1]; i++) mark(g.children.item[i]);
        }
        if (marked[g.place[v]]) return count;
        for (uint32_t i = 0; i < added.count; i++)
            if (marked[g.place[added.sources[i]]]) mark(g.place[added.targets[i]]);
        if (stack.empty()) return count;
    }
}

struct Questions {
    drobisten_added added;
    Numbers sources, targets;
};

static Questions random_edges(uint32_t n, uint32_t count, Chance &chance) {
    Questions q{};
    q.added.count = count;
    for (uint32_t i = 0; i < count; i++) q.added.sources[i] = chance.below(n), q.added.targets[i] = chance.below(n);
    for (int i = 0; i < 16; i++) q.sources.push_back(chance.below(n)), q.targets.push_back(chance.below(n));
    return q;
}

// No group reaches one of its own level or of a higher one, so going up through groups by their levels no added edge but the next leads out of what is reached.
static Questions climbing_edges(const Groups &g, uint32_t count) {
    Ints rising(g.k);
    std::iota(rising.begin(), rising.end(), 0);
    std::stable_sort(rising.begin(), rising.end(), [&](int p, int q) { return g.level[p] < g.level[q]; });
    auto stop = [&](uint32_t i) { return (uint32_t)g.list[rising[(size_t)i * (g.k - 1) / count]]; };
    Questions q{};
    q.added.count = count;
    for (uint32_t i = 0; i < count; i++) q.added.sources[count - 1 - i] = stop(i), q.added.targets[count - 1 - i] = stop(i + 1);
    q.sources = {stop(0)}, q.targets = {stop(count)};
    return q;
}

template <class Number> static void ask(Where w, const Grail &grail, const Bytes &index, Both &both, const Questions &q) {
    Bytes marks(w.n), scratch;
    Numbers work(sizeof(Number) == 2 ? 0 : 16 * w.n + 4 * grail.groups.children.item.size() + 64);
    const size_t count = q.sources.size();
    auto by = [&](auto call, size_t i) { return call(index.data(), index.size(), marks.data(), w.n, work.data(), work.size(), q.added, q.sources[i], q.targets[i]); };
    auto alone = [&](size_t i) {
        memset(marks.data(), 0, w.n); // as the check would leave them
        return by(unchecked_ask_added, i);
    };
    auto search = [&](size_t i) { return both.reaches(q.added, q.sources[i], q.targets[i]); };
    auto first = [&](size_t pairs, auto question) {
        return [&, pairs, question] {
            for (size_t i = 0; i < pairs; i++) sink = question(i);
        };
    };
    const size_t checked = sizeof(Number) == 2 ? count : std::min<size_t>(count, 4);
    measure(w, checked, {{"ours", first(checked, [&](size_t i) { return by(drobisten_ask_added, i).yes; })},
                         {"check", first(checked, [&](size_t i) { return Stored<Number>(index.data()).sound(scratch) && search(i); })}});
    measure(w, count, {{"alone", first(count, [&](size_t i) { return alone(i).yes; })}, {"search", first(count, search)}});
    double made = 0;
    for (size_t i = 0; i < count; i++) {
        drobisten_said a = by(drobisten_ask_added, i), b = alone(i);
        must(a.refusal == 0 && b.refusal == 0 && a.yes == b.yes, "the copy without the check answers otherwise");
        must(search(i) == (a.yes == 1), "the search answers otherwise");
        made += sweeps(grail.groups, q.added, q.sources[i], q.targets[i]);
    }
    figure({"sweeps", w.kind, w.n, w.d, w.pairs}, "ours", made / count);
}

template <class Number> static void measure_at(uint32_t n, uint32_t each) {
    for (const std::string kind : {"dag", "loops", "layers", "line"}) {
        Chance chance(n);
        Graph g = graph(kind, n, each, chance);
        Numbers orders = chance.order(n), second = chance.order(n);
        orders.insert(orders.end(), second.begin(), second.end());
        Grail grail;
        grail.build(g, orders, 2);
        const Bytes index = stored_form(grail, sizeof(Number) / 2);
        Both both;
        both.build(g);
        for (uint32_t count : {0, 1, 16, 256}) {
            Where w{"added", kind.c_str(), n, (int)count, "random"};
            ask<Number>(w, grail, index, both, random_edges(n, count, chance));
            w.pairs = "climbing";
            if (count) ask<Number>(w, grail, index, both, climbing_edges(grail.groups, count));
        }
    }
}

static void *measure_all(void *) {
    measure_at<uint16_t>(quick ? 1000 : 4096, 4);
    measure_at<uint32_t>(quick ? 1000 : 200000, 5);
    return nullptr;
}

// The peers nest a call for each level of a line, so they are run on a large stack.
int main(int words, char **word) {
    std::string what = words == 2 ? word[1] : "";
    must(what == "all" || what == "quick", "all or quick?");
    quick = what == "quick";
    pthread_attr_t large;
    pthread_t thread;
    must(!pthread_attr_init(&large) && !pthread_attr_setstacksize(&large, 1 << 29), "no stack of 512 MB");
    must(!pthread_create(&thread, &large, measure_all, nullptr) && !pthread_join(thread, nullptr), "no thread");
}
