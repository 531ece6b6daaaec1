// Measures the conversions between stored forms 1 and 2 beside copying the larger of the two images, and beside a plain C++ program that widens and narrows the numbers. All
// that they write is compared: the first difference ends it with an error.
//
//     convert all | quick
//
// prints the figures (measure.hpp) of one conversion with its check, and without it, at 4,096 vertices, the most of form 1.
#include "measure.hpp"
#include "peers.hpp"
#include <drobisten.h>

extern "C" {
// drobisten_convert_up and drobisten_convert_down in a copy whose check of the contents says yes and does nothing (bench/run makes it)
drobisten_counted unchecked_convert_up(const uint8_t *index, size_t index_len, uint8_t *marks, size_t marks_len, uint8_t *out, size_t out_len);
drobisten_counted unchecked_convert_down(const uint8_t *index, size_t index_len, uint8_t *marks, size_t marks_len, uint32_t *work, size_t work_len, uint8_t *out, size_t out_len);
}

// An index of one width written in the other, unchecked: the header, then number after number.
template <class From, class To> static void plain(const Bytes &index, uint32_t form, Bytes &out) {
    Stored<From> s(index.data());
    uint32_t *header = (uint32_t *)out.data(), at = 48, n = s.n, k = s.k;
    const uint32_t sizes[6] = {n, k, k, k + 1, s.c, 4 * s.d * k};
    memcpy(header, index.data(), 20);
    header[0] = form;
    for (int i = 0; i < 6; i++) header[5 + i] = at, at += sizeof(To) * sizes[i];
    header[11] = at;
    const From *from = (const From *)(index.data() + 48);
    To *to = (To *)(out.data() + 48);
    for (size_t i = 0; i < (index.size() - 48) / sizeof(From); i++) to[i] = (To)from[i];
}

static void *measure_all(void *) {
    const uint32_t n = quick ? 500 : 4096;
    for (const std::string &kind : KINDS) {
        Chance chance(n);
        Graph g = graph(kind, n, 4, chance);
        for (int d : {1, 2, 5}) {
            Numbers orders;
            for (int j = 0; j < d; j++) {
                Numbers order = chance.order(n);
                orders.insert(orders.end(), order.begin(), order.end());
            }
            Grail grail;
            grail.build(g, orders, d);
            const Bytes one = stored_form(grail, 1), two = stored_form(grail, 2);
            Bytes marks(n), narrow(one.size()), wide(two.size()), theirs(two.size()), scratch;
            Numbers work(16 * n + 4 * grail.groups.children.item.size() + 64);
            auto up = [&](auto call) { return [&, call] { must(call(one.data(), one.size(), marks.data(), n, wide.data(), wide.size()).refusal == 0, "an index is refused"); }; };
            auto down = [&](auto call) {
                return [&, call] { must(call(two.data(), two.size(), marks.data(), n, work.data(), work.size(), narrow.data(), narrow.size()).refusal == 0, "an index is refused"); };
            };
            auto copy = [&] {
                memcpy(theirs.data(), two.data(), two.size());
                sink = theirs[sink % theirs.size()];
            };
            auto check = [&](bool sound) { must(sound, "the peer refuses an index"); };
            Where w{"convert", kind.c_str(), n, d, "up"};
            measure(w, 1, {{"ours", up(drobisten_convert_up)}, {"check", [&] { check(Stored<uint16_t>(one.data()).sound(scratch)), plain<uint16_t, uint32_t>(one, 2, theirs); }},
                           {"alone", up(unchecked_convert_up)}, {"plain", [&] { plain<uint16_t, uint32_t>(one, 2, theirs); }}, {"copy", copy}});
            must(wide == two && theirs == two, "another form 2 is written");
            w.pairs = "down";
            measure(w, 1, {{"ours", down(drobisten_convert_down)}, {"check", [&] { check(Stored<uint32_t>(two.data()).sound(scratch)), plain<uint32_t, uint16_t>(two, 1, theirs); }},
                           {"alone", down(unchecked_convert_down)}, {"plain", [&] { plain<uint32_t, uint16_t>(two, 1, theirs); }}, {"copy", copy}});
            must(narrow == one, "another form 1 is written");
        }
    }
    return nullptr;
}

int main(int words, char **word) { run(words, word, measure_all); }
