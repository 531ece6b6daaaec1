/* Orders by chance, from a seed: the same seed gives the same index on every machine, and the same as the independent program's. Nothing rests on them being
 * orders at all: a build refuses what is none. */
#include "tool.h"
#include <errno.h>
#include <stdlib.h>

/* splitmix64: the next of its numbers */
static uint64_t next(uint64_t *state) {
    uint64_t z = *state += 0x9e3779b97f4a7c15u;
    z = (z ^ (z >> 30)) * 0xbf58476d1ce4e5b9u;
    z = (z ^ (z >> 27)) * 0x94d049bb133111ebu;
    return z ^ (z >> 31);
}

/* d orders of n vertices, one behind the other, each shuffled from the last position down */
numbers seeded_orders(const char *seed, uint32_t n, uint32_t d) {
    char *end = NULL;
    errno = 0;
    uint64_t state = strtoull(seed, &end, 10);
    if (*seed < '0' || *seed > '9' || *end != '\0' || errno != 0) cannot("--seed takes a number of 64 bits, not %s", seed);
    numbers orders = {memory((size_t)n * d, sizeof(uint32_t)), (size_t)n * d};
    for (uint32_t j = 0; j < d; j++) {
        uint32_t *order = orders.numbers + (size_t)j * n;
        for (uint32_t v = 0; v < n; v++) order[v] = v;
        for (uint32_t last = n; last-- > 1;) {
            uint32_t at = (uint32_t)(next(&state) % ((uint64_t)last + 1)), v = order[last];
            order[last] = order[at];
            order[at] = v;
        }
    }
    return orders;
}
