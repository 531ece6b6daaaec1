// Measures exception lists beside the walk, on the same graphs, orders and pairs, and compares all that they answer and store: the first difference ends it with an error.
//
//     exceptions all | quick
//
// prints the figures (measure.hpp) of one building, one opening, one pair inside the call that checks index and lists once, and one pair inside the call for all pairs by
// the walk, the checks of both cut; and as `entries` how many exceptions there are and the bytes that they take. The peer makes the same lists in C++ on arrays of ints, without any
// check. `quick` is one small size with few repetitions.
#include "measure.hpp"
#include "peers.hpp"
#include <drobisten.h>

extern "C" {
// drobisten_ask_all_exceptions with the checks cut, and drobisten_batch, all pairs by the walk
drobisten_asked_all unchecked_ask_all_exceptions(const uint8_t *index, size_t index_len, const uint8_t *lists, size_t lists_len, uint8_t *marks, size_t marks_len,
                                                 const uint32_t *sources, size_t sources_len, const uint32_t *targets, size_t targets_len, uint32_t *answers, size_t answers_len);
drobisten_asked_all unchecked_batch(const uint8_t *index, size_t index_len, uint8_t *marks, size_t marks_len, uint32_t *work, size_t work_len, const uint32_t *sources,
                                      size_t sources_len, const uint32_t *targets, size_t targets_len, uint32_t *answers, size_t answers_len);
}

struct Case {
    Graph graph;
    Grail grail;
    Bytes index, lists, marks;
};

// The lists as the document tells: of each group what it contains in every labelling and does not reach, rising; an entry is twice the place, and under one labelling one
// more where a child contains it.
struct Lists {
    std::vector<uint32_t> numbers;

    void build(const Grail &a) {
        const Groups &g = a.groups;
        const int k = g.k, d = a.d;
        reached.assign(k, -1);
        ranked.resize(k);
        for (int p = 0; p < k; p++) ranked[a.labels[p * d].e - 1] = p;
        entries.clear();
        numbers.assign(k + 3, 0);
        for (int x = 0; x < k; x++) {
            const Label &own = a.labels[x * d];
            reached[x] = x;
            found.clear();
            for (int r = own.e - 1; r >= own.s - 1; r--) {
                int y = ranked[r];
                if (reached[y] == x)
                    for (int i = g.children.start[y]; i < g.children.start[y + 1]; i++) reached[g.children.item[i]] = x;
                else if (contains(a, x, y)) found.push_back(y);
            }
            std::sort(found.begin(), found.end());
            for (int y : found) entries.push_back(2 * y + (d == 1 && indirect(a, x, y)));
            numbers[x + 3] = entries.size();
        }
        numbers[0] = k, numbers[1] = entries.size();
        numbers.insert(numbers.end(), entries.begin(), entries.end());
    }

  private:
    Ints reached, ranked, found;
    std::vector<uint32_t> entries;

    static bool contains(const Grail &a, int x, int y) {
        const Label *p = &a.labels[x * a.d], *q = &a.labels[y * a.d];
        for (int j = 0; j < a.d; j++)
            if (q[j].s < p[j].s || p[j].e < q[j].e) return false;
        return true;
    }

    static bool indirect(const Grail &a, int x, int y) {
        const Rows &children = a.groups.children;
        for (int i = children.start[x]; i < children.start[x + 1]; i++)
            if (contains(a, children.item[i], y)) return true;
        return false;
    }
};

static void lists(Where w, Case &c) {
    Lists theirs;
    theirs.build(c.grail);
    c.lists.assign(4 * theirs.numbers.size(), 0);
    auto ours = [&] {
        drobisten_counted r = drobisten_build_exceptions(c.index.data(), c.index.size(), c.marks.data(), w.n, c.lists.data(), c.lists.size());
        must(r.refusal == 0 && r.count == c.lists.size(), "building lists is refused");
    };
    auto open = [&] { must(drobisten_open_exceptions(c.index.data(), c.index.size(), c.lists.data(), c.lists.size(), c.marks.data(), w.n).refusal == 0, "lists are refused"); };
    auto bare = [&] { must(drobisten_open(c.index.data(), c.index.size(), c.marks.data(), w.n).refusal == 0, "an index is refused"); };
    w.measure = "lists", w.pairs = "-";
    measure(w, 1, {{"ours", ours}, {"peer", [&] { theirs.build(c.grail); }}, {"open", open}, {"index", bare}});
    must(!memcmp(c.lists.data(), theirs.numbers.data(), c.lists.size()), "the peer makes other lists");
    w.measure = "entries";
    figure(w, "ours", theirs.numbers[1]);
    figure(w, "bytes", c.lists.size());
    for (int i = 0; i < 20; i++) {
        Bytes bad = c.lists;
        bad[i * 37 % bad.size()] ^= 1 << i % 8;
        must(drobisten_open_exceptions(c.index.data(), c.index.size(), bad.data(), bad.size(), c.marks.data(), w.n).refusal == 20, "damaged lists are taken");
    }
}

// All pairs in one call, by the lists and by the walk, the checks cut; once with them.
static void pairs(Where w, Case &c, const Numbers &sources, const Numbers &targets) {
    const size_t count = sources.size();
    Numbers three(3 * count), six(6 * count), checked(3 * count);
    auto by_lists = [&] {
        sink = unchecked_ask_all_exceptions(c.index.data(), c.index.size(), c.lists.data(), c.lists.size(), c.marks.data(), w.n, sources.data(), count, targets.data(), count,
                                            three.data(), three.size()).count;
    };
    auto by_walk = [&] {
        std::fill(c.marks.begin(), c.marks.end(), 0);
        sink = unchecked_batch(c.index.data(), c.index.size(), c.marks.data(), w.n, nullptr, 0, sources.data(), count, targets.data(), count, six.data(), six.size()).count;
    };
    w.measure = "pairs";
    measure(w, count, {{"lists", by_lists}, {"walk", by_walk}});
    drobisten_asked_all whole = drobisten_ask_all_exceptions(c.index.data(), c.index.size(), c.lists.data(), c.lists.size(), c.marks.data(), w.n, sources.data(), count, targets.data(),
                                                         count, checked.data(), checked.size());
    must(whole.refusal == 0 && checked == three, "the call answers otherwise with its checks");
    for (size_t i = 0; i < count; i++) must(three[3 * i] == 0 && three[3 * i + 2] == six[6 * i + 2], "the lists answer otherwise than the walk");
    for (size_t i = 0; i < 3; i++) {
        drobisten_said one = drobisten_ask_exceptions(c.index.data(), c.index.size(), c.lists.data(), c.lists.size(), c.marks.data(), w.n, sources[i], targets[i]);
        must(one.refusal == 0 && one.yes == three[3 * i + 2], "a single question by the lists is answered otherwise");
    }
}

int main(int words, char **word) {
    std::string what = words == 2 ? word[1] : "";
    must(what == "all" || what == "quick", "all or quick?");
    quick = what == "quick";
    for (const std::string &kind : KINDS)
        for (uint32_t n : quick ? Numbers{300} : Numbers{512, 4096}) {
            Chance chance(n);
            Case c;
            c.graph = graph(kind, n, 4, chance);
            c.marks.assign(n, 0);
            const uint32_t count = quick ? 500 : 20000;
            Numbers sources(count), targets(count);
            for (uint32_t i = 0; i < count; i++) sources[i] = chance.below(n), targets[i] = chance.below(n);
            for (int d : {1, 2, 5}) {
                Numbers orders;
                for (int j = 0; j < d; j++) {
                    Numbers order = chance.order(n);
                    orders.insert(orders.end(), order.begin(), order.end());
                }
                c.grail.build(c.graph, orders, d);
                c.index = stored_form(c.grail, 1);
                Where w{"", kind.c_str(), n, d, "mixed"};
                lists(w, c);
                pairs(w, c, sources, targets);
            }
        }
}
