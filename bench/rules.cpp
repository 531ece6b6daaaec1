// Measures the rule desk's call on a table of records beside a plain C++ program that does the same by search: breadth-first from all changed vertices together, over the
// edges, then one pass over the table. Both are given the same graphs, changed vertices and tables, and all records are compared: the first difference ends it with an error.
//
//     rules all | quick
//
// prints the figures (measure.hpp) of one call with its check on records, and without it on parallel lists, under two orders: 4,096 vertices in form 1 and 200,000 in form 2,
// each with 1, 100 and all vertices changed and tables of 1,000 and 1,000,000 records. `quick` is one small size in each form with few repetitions.
#include "measure.hpp"
#include "peers.hpp"
#include <drobisten.h>

extern "C" {
// drobisten_settle_lists in a copy whose check of the contents says yes and does nothing (bench/run makes it; the call on records has its check within itself, so it cannot be cut there)
drobisten_rules_settled unchecked_settle_lists(const uint8_t *index, size_t index_len, const uint32_t *changed, size_t changed_len, uint8_t *marks, size_t marks_len,
                                               uint32_t *work, size_t work_len, const uint32_t *vertices, size_t vertices_len, uint32_t *states, size_t states_len);
}

using Table = std::vector<drobisten_rule>;

// The same table as parallel lists.
struct Lists {
    Numbers vertices, states;

    explicit Lists(const Table &table) {
        for (const drobisten_rule &r : table) vertices.push_back(r.vertex), states.push_back(r.state);
    }
};

const int ORDERS = 2;

struct Desk {
    uint32_t form;
    Graph graph;
    Search search;
    Bytes index, marks, scratch;
    Numbers words;

    uint32_t settle(const Numbers &changed, Table &table) {
        return drobisten_settle_rules(index.data(), index.size(), changed.data(), changed.size(), marks.data(), marks.size(), words.data(), words.size(), table.data(),
                                      table.size())
            .refusal;
    }

    template <class Call> uint32_t settle(Call call, const Numbers &changed, Lists &table) {
        return call(index.data(), index.size(), changed.data(), changed.size(), marks.data(), marks.size(), words.data(), words.size(), table.vertices.data(),
                    table.vertices.size(), table.states.data(), table.states.size())
            .refusal;
    }

    bool sound() { return form == 1 ? Stored<uint16_t>(index.data()).sound(scratch) : Stored<uint32_t>(index.data()).sound(scratch); }

    // What the library does, by search.
    void by_search(const Numbers &changed, Table &table) {
        search.from_all(changed);
        for (drobisten_rule &r : table) r.state = turned(r.vertex, r.state);
    }

    void by_search(const Numbers &changed, Lists &table) {
        search.from_all(changed);
        for (size_t i = 0; i < table.states.size(); i++) table.states[i] = turned(table.vertices[i], table.states[i]);
    }

  private:
    uint32_t turned(uint32_t vertex, uint32_t state) const {
        if (vertex >= graph.n) return DROBISTEN_UNKNOWN;
        return search.stamp[vertex] == search.now ? (uint32_t)DROBISTEN_SUSPECT : state;
    }
};

// Records of any vertices, one in twenty of them n or more, and of all states.
static Table rules(uint32_t count, uint32_t n, Chance &chance) {
    Table table;
    for (uint32_t i = 0; i < count; i++) table.push_back({i, chance.below(n + n / 20), chance.below(3)});
    return table;
}

static bool same(const Table &a, const Table &b) { return a.size() == b.size() && !memcmp(a.data(), b.data(), sizeof(drobisten_rule) * a.size()); }

static void settle(Where w, Desk &desk, const Numbers &changed, const Table &table) {
    Table ours = table, theirs = table;
    Lists alone(table), listed(table);
    auto records = [&] { must(desk.settle(changed, ours) == 0, "a table is refused"); };
    auto lists = [&] { must(desk.settle(unchecked_settle_lists, changed, alone) == 0, "lists are refused"); };
    auto search = [&] { desk.by_search(changed, theirs); };
    auto search_lists = [&] { desk.by_search(changed, listed); };
    records(), lists(), search(), search_lists();
    must(same(ours, theirs), "search settles another table");
    must(alone.states == listed.states && alone.states == Lists(theirs).states, "search settles other lists");
    measure(w, 1, {{"ours", records}, {"check", [&] { must(desk.sound(), "the peer refuses an index"), search(); }}, {"search", search}, {"alone", lists}, {"lists", search_lists}});
}

// The copy without the check has none: it settles by an index whose last place by rank is wrong, which no sweep reads and every check finds.
static void check_is_cut(Desk &desk) {
    Lists none({});
    desk.index.back() ^= 0x80;
    must(desk.settle(drobisten_settle_lists, {}, none) == DROBISTEN_CONTENTS, "unsound contents are taken");
    must(desk.settle(unchecked_settle_lists, {}, none) == 0, "the copy without the check checks");
    desk.index.back() ^= 0x80;
}

static void *measure_all(void *) {
    for (const std::string &kind : KINDS)
        for (uint32_t form : {1, 2}) {
            const uint32_t n = quick ? 500 : form == 1 ? 4096 : 200000;
            Chance chance(n);
            Desk desk{form, graph(kind, n, form == 1 ? 4 : 5, chance), {}, {}, {}, {}, {}};
            Numbers orders, vertices = chance.order(n);
            for (int j = 0; j < ORDERS; j++) {
                Numbers order = chance.order(n);
                orders.insert(orders.end(), order.begin(), order.end());
            }
            Grail grail;
            grail.build(desk.graph, orders, ORDERS);
            desk.search.build(desk.graph);
            desk.index = stored_form(grail, form);
            desk.marks.assign(n, 0); // as the check leaves them, and the call
            desk.words.assign(16 * n + 4 * grail.groups.children.item.size() + 64, 7);
            check_is_cut(desk);
            for (uint32_t records : {1000, quick ? 2000 : 1000000}) {
                const Table table = rules(records, n, chance);
                for (uint32_t count : {1u, 100u, n}) {
                    const std::string which = (count == n ? "all" : std::to_string(count)) + " of " + std::to_string(records);
                    settle({"rules", kind.c_str(), n, ORDERS, which.c_str()}, desk, Numbers(vertices.begin(), vertices.begin() + count), table);
                }
            }
        }
    return nullptr;
}

int main(int words, char **word) { run(words, word, measure_all); }
