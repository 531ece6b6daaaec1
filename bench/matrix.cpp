// Measures reading a Matrix Market text beside C++ readers by from_chars that make the same checks: one that has to do with the two lent lists, as ours has, and goes
// through the entries twice, and one that keeps the entries in memory of its own until the last line is seen. What they read is compared: a difference ends it with an error.
//
//     matrix all | quick
//
// prints the figures (measure.hpp) of one entry, and as `bytes` how many bytes an entry takes.
#include "graphs.hpp"
#include "measure.hpp"
#include <charconv>
#include <cstring>
#include <drobisten.h>
#include <string>

static const std::string HEADER = "%%MatrixMarket matrix coordinate pattern general\n";

// A decimal of 1 to 7 digits without needless zeros, with this byte behind it.
static inline bool number(const char *&p, const char *last, char behind, uint32_t &x) {
    auto [end, error] = std::from_chars(p, last, x);
    if (error != std::errc() || end == last || *end != behind || end - p > 7 || (*p == '0' && end - p > 1)) return false;
    p = end + 1;
    return true;
}

static inline bool entry(const char *&p, const char *last, uint32_t n, uint32_t &u, uint32_t &v) {
    return number(p, last, ' ', u) && number(p, last, '\n', v) && 1 <= u && u <= n && 1 <= v && v <= n;
}

// What a text says, or its first bad line; where no line is bad, `line` is 0.
struct Reader {
    const char *p, *last;
    uint32_t n = 0, entries = 0;
    size_t line = 0;

    explicit Reader(const std::string &text) : p(text.data()), last(p + text.size()) {
        line = 1;
        if (text.compare(0, HEADER.size(), HEADER) != 0) return;
        p += HEADER.size();
        for (line = 2; p < last && *p == '%'; line++) {
            const char *end = (const char *)memchr(p, '\n', last - p);
            if (!end) return;
            p = end + 1;
        }
        uint32_t columns;
        if (number(p, last, ' ', n) && number(p, last, ' ', columns) && number(p, last, '\n', entries) && columns == n) line++;
        else entries = 0, last = p;
    }

    // Gives every entry to `take`. Whether all are there, and no line more.
    template <class Take> bool all(Take take) {
        for (uint32_t i = 0, u, v; i < entries; i++, line++) {
            if (!entry(p, last, n, u, v)) return false;
            take(i, u - 1, v - 1);
        }
        return line > 2 && p == last;
    }
};


static bool lent(const std::string &text, Numbers &sources, Numbers &targets) {
    Reader first(text), second = first;
    if (!first.all([](uint32_t, uint32_t, uint32_t) {}) || sources.size() < first.entries || targets.size() < first.entries) return false;
    if (first.n > 200000 || first.entries > 1000000) return false;
    return second.all([&](uint32_t i, uint32_t u, uint32_t v) { sources[i] = u, targets[i] = v; });
}

static bool kept(const std::string &text, Numbers &sources, Numbers &targets) {
    static Numbers us, vs;
    Reader reader(text);
    us.resize(reader.entries), vs.resize(reader.entries);
    if (!reader.all([&](uint32_t i, uint32_t u, uint32_t v) { us[i] = u, vs[i] = v; })) return false;
    if (sources.size() < us.size() || targets.size() < vs.size() || reader.n > 200000 || us.size() > 1000000) return false;
    memcpy(sources.data(), us.data(), 4 * us.size());
    memcpy(targets.data(), vs.data(), 4 * vs.size());
    return true;
}

int main(int words, char **word) {
    std::string what = words == 2 ? word[1] : "";
    must(what == "all" || what == "quick", "all or quick?");
    quick = what == "quick";
    const uint32_t edges = quick ? 1000 : 1000000;
    for (uint32_t n : {9u, 4096u, 200000u}) {
        Chance chance(n);
        std::string text = HEADER + "% a comment\n" + std::to_string(n) + " " + std::to_string(n) + " " + std::to_string(edges) + "\n";
        const size_t front = text.size();
        for (uint32_t i = 0; i < edges; i++) text += std::to_string(chance.below(n) + 1) + " " + std::to_string(chance.below(n) + 1) + "\n";
        Numbers sources(edges), targets(edges), us(edges), vs(edges), ks(edges), ls(edges);
        auto ours = [&] {
            drobisten_matrix r = drobisten_read_matrix((const uint8_t *)text.data(), text.size(), sources.data(), edges, targets.data(), edges);
            must(r.refusal == 0 && r.n == n && r.edges == edges, "a text is refused");
        };
        Where w{"matrix", "read", n, 1, "entries"};
        measure(w, edges, {{"ours", ours},
                           {"lent", [&] { must(lent(text, us, vs), "the peer in lent memory refuses a text"); }},
                           {"kept", [&] { must(kept(text, ks, ls), "the peer with memory of its own refuses a text"); }}});
        must(sources == us && targets == vs && sources == ks && targets == ls, "another edge list is read");
        figure(w, "bytes", double(text.size() - front) / edges);
    }
}
