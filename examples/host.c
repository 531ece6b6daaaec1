/* A host of the library: opens a stored index and asks it.
 *
 *     gcc -Wall -Wextra -pedantic -Iinclude examples/host.c target/staticlib/libdrobisten.a -o host
 *     ./host INDEX [SOURCE TARGET]..
 *
 * It prints the index's counts, then a line for each pair: q, source, target, then yes or no, the reason, the groups opened and the labelling that decided; or
 * `refused`, the refusal's number and its extra number. It ends with 0 where the index opens, with 1 where it is refused, and with 2 where it cannot be read
 * or asked. */
#include <drobisten.h>
#include <stdio.h>
#include <stdlib.h>

/* the bytes of a file, their number in *size; NULL where it cannot be read */
static uint8_t *whole_file(const char *path, size_t *size) {
    size_t room = 1 << 16;
    uint8_t *bytes = malloc(room);
    FILE *file = fopen(path, "rb");
    *size = 0;
    while (bytes && file) {
        *size += fread(bytes + *size, 1, room - *size, file);
        if (*size < room) break;
        uint8_t *more = realloc(bytes, room *= 2);
        if (!more) free(bytes);
        bytes = more;
    }
    int bad = !file || ferror(file);
    if (file) fclose(file);
    if (!bad) return bytes;
    free(bytes);
    return NULL;
}

/* a decimal number of 32 bits; 0 where the word is none */
static int vertex(const char *word, uint32_t *number) {
    char *end;
    unsigned long long value = strtoull(word, &end, 10);
    *number = (uint32_t)value;
    return *word >= '0' && *word <= '9' && *end == '\0' && value <= UINT32_MAX;
}

static void print(uint32_t source, uint32_t target, drobisten_asked a) {
    printf("q %u %u ", source, target);
    if (a.refusal)
        printf("refused %u %u\n", a.refusal, a.extra);
    else
        printf("%s %u %u %u\n", a.yes ? "yes" : "no", a.reason, a.opened, a.labelling);
}

int main(int words, char **word) {
    if (words < 2 || words % 2 != 0) {
        fprintf(stderr, "usage: %s INDEX [SOURCE TARGET]..\n", word[0]);
        return 2;
    }
    size_t size;
    uint8_t *index = whole_file(word[1], &size);
    if (!index) {
        fprintf(stderr, "%s: cannot be read\n", word[1]);
        return 2;
    }
    /* without marks, an index whose header passes is refused with its n, unless that is 0 */
    uint8_t none[1];
    uint8_t *marks = none;
    drobisten_opened o = drobisten_open(index, size, marks, 0);
    if (o.refusal == DROBISTEN_MARKS) {
        size_t n = o.extra;
        marks = malloc(n);
        if (!marks) return 2;
        o = drobisten_open(index, size, marks, n);
    }
    if (o.refusal) {
        printf("refused %u %u\n", o.refusal, o.extra);
        return 1;
    }
    printf("n %u k %u c %u d %u\n", o.n, o.k, o.c, o.d);
    /* all pairs in one call, which checks the index once more and for all of them */
    size_t pairs = (size_t)(words - 2) / 2;
    uint32_t *sources = malloc((pairs + 1) * sizeof *sources), *targets = malloc((pairs + 1) * sizeof *targets);
    drobisten_asked *answers = malloc((pairs + 1) * sizeof *answers);
    if (!sources || !targets || !answers) return 2;
    for (size_t i = 0; i < pairs; i++) {
        char **pair = word + 2 + 2 * i;
        if (!vertex(pair[0], &sources[i]) || !vertex(pair[1], &targets[i])) {
            fprintf(stderr, "%s %s: no pair of vertices\n", pair[0], pair[1]);
            return 2;
        }
    }
    drobisten_asked_all r = drobisten_ask_all(index, size, marks, o.n, sources, pairs, targets, pairs, (uint32_t *)answers, 6 * pairs);
    if (r.refusal) return 2;
    for (size_t i = 0; i < r.count; i++) print(sources[i], targets[i], answers[i]);
    free(answers);
    free(targets);
    free(sources);
    if (marks != none) free(marks);
    free(index);
    return 0;
}
