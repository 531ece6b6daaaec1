// Measures stored form 2 up to its bounds, 200,000 vertices and 1,000,000 edges, beside the same peers (peers.hpp) on the same graphs, orders and pairs, and compares all
// that they answer: the first difference ends it with an error.
//
//     region all | build | quick [FILE]
//
// prints the figures (measure.hpp) of one build, one opening and one question with its check, at four sizes with five edges a vertex each; at the smallest and the largest of
// one list with its check, and of one list and one pair without it; and as `memory` the bytes that a build and an opening take beside what they are given. `build` measures
// builds and openings alone; `quick` is one small size with few repetitions. With a Matrix Market file it is the graph of that file that is measured, and as `shape` what it is like.
#include "measure.hpp"
#include "pairs.hpp"
#include <drobisten.h>
#include <malloc.h>
#include <map>
#include <new>

extern "C" {
// drobisten_batch and drobisten_list in a copy whose check of the contents says yes and does nothing (bench/run makes it)
drobisten_asked_all unchecked_batch(const uint8_t *index, size_t index_len, uint8_t *marks, size_t marks_len, uint32_t *work, size_t work_len, const uint32_t *sources,
                                      size_t sources_len, const uint32_t *targets, size_t targets_len, uint32_t *answers, size_t answers_len);
drobisten_counted unchecked_list(const uint8_t *index, size_t index_len, uint8_t *marks, size_t marks_len, uint32_t *work, size_t work_len, uint32_t *out, size_t out_len,
                       uint32_t vertex);
}

using Index = Stored<uint32_t>;

const uint32_t FORM = 2, EDGES_A_VERTEX = 5, MOST_EDGES = 1000000;

// ---------------------------------------------------------------- memory of the peers: what is allocated, and the most of it

static size_t allocated, most_allocated;

[[gnu::noinline]] void *operator new(size_t size) {
    void *p = malloc(size);
    must(p, "there is not enough memory");
    allocated += malloc_usable_size(p);
    most_allocated = std::max(most_allocated, allocated);
    return p;
}

[[gnu::noinline]] void operator delete(void *p) noexcept {
    allocated -= malloc_usable_size(p);
    free(p);
}

[[gnu::noinline]] void operator delete(void *p, size_t) noexcept { operator delete(p); }

template <class F> static double bytes_of(F work) {
    size_t before = allocated;
    most_allocated = allocated;
    work();
    return most_allocated - before;
}

// ---------------------------------------------------------------- a graph, and what is made of it

struct Region {
    Graph graph;
    Search search;
    std::map<std::string, Pairs> pairs;
    Grail grail;
    Bytes index, marks;
    Numbers words;
};

// ---------------------------------------------------------------- what is measured

static void build(Where w, Region &r, const Numbers &orders) {
    const uint32_t n = w.n;
    const Numbers &from = r.graph.from, &to = r.graph.to;
    Numbers work(16 * n + 4 * from.size() + 64);
    Bytes out(52 + 16 * n + 4 * from.size() + 16 * w.d * n);
    uint32_t total = 0;
    auto ours = [&] {
        drobisten_counted a = drobisten_build(from.data(), from.size(), to.data(), to.size(), orders.data(), orders.size(), work.data(), work.size(), out.data(), out.size(), FORM, n, w.d);
        must(a.refusal == 0, "a build is refused");
        total = a.count;
    };
    w.measure = "build", w.pairs = "-";
    measure(w, 1, {{"ours", ours}, {"grail", [&] { r.grail.build(r.graph, orders, w.d); }}});
    r.index.assign(out.begin(), out.begin() + total);
    must(r.index == stored_form(r.grail, FORM), "the peer builds another index");
    r.marks.assign(n, 7);
    r.words.assign(16 * n + 4 * Index(r.index.data()).c + 64, 7);
    w.measure = "memory", w.pairs = "build";
    figure(w, "ours", 4.0 * work.size() + total);
    figure(w, "grail", bytes_of([&] { Grail().build(r.graph, orders, w.d); }));
}

static void open(Where w, Region &r) {
    Bytes scratch;
    Grail loaded;
    auto ours = [&] {
        must(drobisten_inspect(r.index.data(), r.index.size(), r.marks.data(), w.n, r.words.data(), r.words.size()).refusal == 0, "an index is refused");
    };
    auto check = [&] { must(Index(r.index.data()).sound(scratch), "the peer refuses an index"); };
    auto load = [&] { Index(r.index.data()).load(loaded); };
    auto pass = [&] {
        const uint32_t *numbers = (const uint32_t *)r.index.data();
        uint32_t sum = 0;
        for (size_t i = 0; i < r.index.size() / 4; i++) sum += numbers[i];
        sink = sum;
    };
    auto cleared = [&] { // what the words lent with form 2 cost: they are 0 afterwards
        check();
        memset(r.words.data(), 0, 4 * r.words.size());
        sink = r.words[sink % r.words.size()];
    };
    w.measure = "open", w.pairs = "-";
    measure(w, 1, {{"ours", ours}, {"check", check}, {"cleared", cleared}, {"load", load}, {"pass", pass}});
    must(stored_form(loaded, FORM) == r.index, "the peer loads another index");
    w.measure = "memory", w.pairs = "open";
    figure(w, "ours", r.index.size() + w.n + 4.0 * r.words.size());
    figure(w, "check", r.index.size() + w.n);
    figure(w, "grail", r.index.size() + bytes_of([&] {
                           Grail fresh;
                           Index(r.index.data()).load(fresh);
                       }));
}

// The peer's check and the library's on damaged contents.
static void damage(Region &r, Chance &chance) {
    Bytes scratch, bad = r.index;
    for (int i = 0; i < (quick ? 100 : 10); i++) {
        uint32_t *field = (uint32_t *)&bad[48 + 4 * chance.below((bad.size() - 48) / 4)], old = *field;
        *field = chance.below(2) ? chance.below(r.graph.n) : *field + 1 - 2 * chance.below(2);
        uint32_t refusal = drobisten_inspect(bad.data(), bad.size(), r.marks.data(), r.marks.size(), r.words.data(), r.words.size()).refusal;
        must(refusal == (Index(bad.data()).sound(scratch) ? 0 : 15), "the peer judges damaged contents otherwise");
        *field = old;
    }
}

// The next of the mixed pairs, a check for each question.
static void ask(Where w, Region &r) {
    const Pairs &pairs = r.pairs.at("mixed");
    Bytes scratch;
    size_t turn = 0;
    auto ours = [&] {
        size_t i = turn++ % pairs.sources.size();
        sink = drobisten_question(r.index.data(), r.index.size(), r.marks.data(), w.n, r.words.data(), r.words.size(), pairs.sources[i], pairs.targets[i]).yes;
    };
    auto check = [&] {
        size_t i = turn++ % pairs.sources.size();
        sink = Index(r.index.data()).sound(scratch) && r.grail.reaches(pairs.sources[i], pairs.targets[i]);
    };
    w.measure = "ask", w.pairs = "mixed";
    measure(w, 1, {{"ours", ours}, {"check", check}});
    for (size_t i = 0; i < 3; i++) {
        uint32_t u = pairs.sources[i], v = pairs.targets[i];
        drobisten_asked a = drobisten_question(r.index.data(), r.index.size(), r.marks.data(), w.n, r.words.data(), r.words.size(), u, v);
        must(a.refusal == 0 && r.grail.reaches(u, v) == (a.yes == 1), "GRAIL answers otherwise");
        must(r.search.reaches(u, v) == (a.yes == 1), "breadth-first search answers otherwise");
    }
}

// The lists of the sources of the mixed pairs: with the check, and without it. A run makes the lists of several, since some vertices reach much and others nothing.
static void list(Where w, Region &r) {
    const size_t checked = 4, alone = 16;
    const Numbers &vertices = r.pairs.at("mixed").sources;
    Numbers out(w.n), theirs(w.n);
    Bytes scratch;
    auto first = [&](size_t count, auto call) {
        return [&, count, call] {
            for (size_t i = 0; i < count; i++) sink = call(vertices[i]);
        };
    };
    auto ours = [&](uint32_t vertex) {
        return drobisten_list(r.index.data(), r.index.size(), r.marks.data(), w.n, r.words.data(), r.words.size(), out.data(), w.n, vertex).count;
    };
    auto check = [&](uint32_t vertex) { return Index(r.index.data()).sound(scratch) ? r.grail.list(vertex, theirs.data()) : 0; };
    auto cut = [&](uint32_t vertex) {
        memset(r.marks.data(), 0, w.n); // as the check would leave them
        return unchecked_list(r.index.data(), r.index.size(), r.marks.data(), w.n, r.words.data(), r.words.size(), out.data(), w.n, vertex);
    };
    w.measure = "list", w.pairs = "checked";
    measure(w, checked, {{"ours", first(checked, ours)}, {"check", first(checked, check)}});
    w.pairs = "alone";
    measure(w, alone, {{"ours", first(alone, [&](uint32_t v) { return cut(v).count; })}, {"grail", first(alone, [&](uint32_t v) { return r.grail.list(v, theirs.data()); })}});
    double count = 0;
    for (size_t i = 0; i < alone; i++) {
        out.assign(w.n, 7), theirs.assign(w.n, 7);
        drobisten_counted a = cut(vertices[i]);
        must(a.refusal == 0 && a.count == r.grail.list(vertices[i], theirs.data()), "GRAIL lists more or fewer");
        must(std::equal(out.begin(), out.begin() + a.count, theirs.begin()), "GRAIL lists others");
        count += a.count;
    }
    w.measure = "count";
    figure(w, "ours", count / alone);
}

// All pairs in one call, the check cut; the same on no pairs is what a call costs without them, and the whole call on no pairs is that and the check. As many pairs as there
// are vertices, or fewer where they take more than some tenths of a second.
static void monday(Where w, Region &r) {
    const Pairs &all = r.pairs.at(w.pairs);
    Numbers few(all.sources.begin(), all.sources.begin() + 100), few_targets(all.targets.begin(), all.targets.begin() + 100), answers(6 * all.sources.size());
    double a_pair = once({"", [&] { r.grail.ask_all(few, few_targets, answers.data()); }}, 1) / 100;
    size_t count = std::min<size_t>(all.sources.size(), std::max<size_t>(200, 0.25 / a_pair));
    Numbers sources(all.sources.begin(), all.sources.begin() + count), targets(all.targets.begin(), all.targets.begin() + count), theirs(6 * count);
    answers.resize(6 * count);
    auto ours = [&](size_t pairs) {
        memset(r.marks.data(), 0, w.n); // as the check would leave them
        drobisten_asked_all a = unchecked_batch(r.index.data(), r.index.size(), r.marks.data(), w.n, r.words.data(), r.words.size(), sources.data(), pairs, targets.data(),
                                                  pairs, answers.data(), 6 * pairs);
        must(a.refusal == 0, "pairs are refused");
    };
    auto call = [&] { sink = drobisten_batch(r.index.data(), r.index.size(), r.marks.data(), w.n, r.words.data(), r.words.size(), sources.data(), 0, targets.data(), 0, answers.data(), 0).refusal; };
    const size_t searched = std::min<size_t>(count, 50);
    auto search = [&] {
        for (size_t i = 0; i < searched; i++) sink = r.search.reaches(sources[i], targets[i]);
    };
    w.measure = "monday";
    measure(w, count, {{"ours", [&] { ours(count); }}, {"grail", [&] { r.grail.ask_all(sources, targets, theirs.data()); }}});
    measure(w, 1, {{"no pairs", [&] { ours(0); }}, {"call", call}});
    measure(w, searched, {{"search", search}});
    ours(count);
    must(answers == theirs, "GRAIL answers the pairs otherwise");
    double opened = 0;
    for (size_t i = 0; i < count; i++) opened += answers[6 * i + 4];
    for (size_t i = 0; i < searched; i++) must(r.search.reaches(sources[i], targets[i]) == (answers[6 * i + 2] == 1), "breadth-first search answers otherwise");
    w.measure = "opened";
    figure(w, "ours", opened / count);
    w.measure = "count";
    figure(w, "ours", count);
}

// The copy without the check has none: it answers over a labelling whose last place by rank is wrong, which no question reads and every check finds.
static void check_is_cut(Region &r) {
    uint32_t zero = 0, answer[6];
    r.index.back() ^= 0x80;
    must(drobisten_batch(r.index.data(), r.index.size(), r.marks.data(), r.marks.size(), r.words.data(), r.words.size(), &zero, 1, &zero, 1, answer, 6).refusal == 15,
         "unsound contents are answered");
    must(unchecked_batch(r.index.data(), r.index.size(), r.marks.data(), r.marks.size(), r.words.data(), r.words.size(), &zero, 1, &zero, 1, answer, 6).refusal == 0,
         "the copy without the check checks");
    r.index.back() ^= 0x80;
}

// ---------------------------------------------------------------- all of it

static bool builds; // and openings alone
static const char *file; // whose graph is measured, or none

// The graph of the file.
static Graph from_file() {
    Bytes text;
    FILE *in = fopen(file, "rb");
    must(in, "the file cannot be read");
    for (int byte; (byte = getc(in)) != EOF;) text.push_back(byte);
    fclose(in);
    Graph g{0, Numbers(MOST_EDGES), Numbers(MOST_EDGES)};
    drobisten_matrix read = drobisten_read_matrix(text.data(), text.size(), g.from.data(), MOST_EDGES, g.to.data(), MOST_EDGES);
    must(read.refusal == 0, "the file is no Matrix Market file of our subset");
    g.n = read.n, g.from.resize(read.edges), g.to.resize(read.edges);
    return g;
}

// What the graph is like: its edges, its groups, the vertices of the largest, child entries, and levels.
static void shape(Where w, const Region &r) {
    const Groups &g = r.grail.groups;
    Ints members(g.k);
    for (int p : g.place) members[p]++;
    w.measure = "shape", w.d = 0;
    auto tell = [&](const char *what, double value) { w.pairs = what, figure(w, "graph", value); };
    tell("edges", r.graph.from.size());
    tell("groups", g.k);
    tell("largest", *std::max_element(members.begin(), members.end()));
    tell("children", g.children.item.size());
    tell("levels", 1 + *std::max_element(g.level.begin(), g.level.end()));
}

// At a size in the middle builds, openings and single questions alone.
static void measure_graph(const std::string &kind, Graph graph, bool middle, Chance &chance) {
    const uint32_t n = graph.n;
    Region r;
    r.graph = std::move(graph);
    r.search.build(r.graph);
    for (const char *which : {"reachable", "unreachable", "mixed"})
        if (!builds && (!middle || which[0] == 'm')) r.pairs[which] = choose(which, r.search, n, quick ? 300 : std::max(20000u, n), chance);
    for (int d : {1, 2, 5}) {
        Where w{"", kind.c_str(), n, d, ""};
        Numbers orders;
        for (int j = 0; j < d; j++) {
            Numbers order = chance.order(n);
            orders.insert(orders.end(), order.begin(), order.end());
        }
        build(w, r, orders);
        open(w, r);
        damage(r, chance);
        if (builds) continue;
        check_is_cut(r);
        ask(w, r);
        if (middle) continue;
        list(w, r);
        for (const char *which : {"reachable", "unreachable", "mixed"}) {
            w.pairs = which;
            monday(w, r);
        }
    }
    if (file) shape({"", kind.c_str(), n, 0, ""}, r);
}

static void *measure_all(void *) {
    if (file) {
        Chance chance(0);
        measure_graph("file", from_file(), false, chance);
        return nullptr;
    }
    for (const std::string &kind : KINDS)
        for (uint32_t n : quick ? Numbers{500} : Numbers{4096, 16000, 60000, 200000}) {
            Chance chance(n);
            Graph g = graph(kind, n, EDGES_A_VERTEX, chance);
            measure_graph(kind, std::move(g), n == 16000 || n == 60000, chance);
        }
    return nullptr;
}

int main(int words, char **word) {
    builds = words >= 2 && std::string(word[1]) == "build";
    if (words == 3) file = word[2];
    run(std::min(words, 2), word, measure_all);
}
