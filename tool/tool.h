/* What the parts of the command share: files, numbers, words, memory to lend. No rule of the documents stands here or in any file beside it: what is right
 * is decided by the proved calls of include/drobisten.h. */
#ifndef TOOL_H
#define TOOL_H

#include <drobisten.h>
#include <stdbool.h>
#include <stdio.h>

/* How the command ends. */
enum { DONE = 0, SAYS_NO = 1, IS_REFUSED = 2, CANNOT = 3 };

/* What any call may be lent at most: a mark for each vertex, the words beside an index, and the words of a build (include/drobisten.h, MEMORY). */
#define MOST_VERTICES 200000u
#define MOST_EDGES 1000000u
#define MOST_WORDS (16u * MOST_VERTICES + 4u * MOST_EDGES + 64u)

/* Bytes of our own, of which `size` are in use. */
typedef struct {
    uint8_t *bytes;
    size_t size;
} buffer;

/* Numbers of our own, of which `count` are in use. */
typedef struct {
    uint32_t *numbers;
    size_t count;
} numbers;

/* What people call the vertices: line i is vertex i's. Without a file there are none. */
typedef struct {
    char **lines;
    size_t count;
} labels;

/* An index with what the calls on it are lent. */
typedef struct {
    buffer index;
    uint8_t *marks;
    uint32_t *words;
} lent;

/* a lent index as the first arguments of a call */
#define LENT(l) (l).index.bytes, (l).index.size, (l).marks, MOST_VERTICES, (l).words, MOST_WORDS

/* The words of the command line. A word that was not given is NULL. */
typedef struct {
    const char *words[3];
    int count;
    const char *out, *labellings, *seed, *orders, *form, *pairs, *exceptions, *added, *changed, *labels;
    bool turned, hierarchy, from_one;
} options;

/* Ends the command where a file, a word or memory fails: one sentence on standard error. */
_Noreturn void cannot(const char *format, ...);

/* files.c */
void *memory(size_t count, size_t size);
buffer read_file(const char *path);
void write_file(const char *path, const void *bytes, size_t size);

/* words.c */
bool number_word(const char *word, uint32_t *number);
uint32_t vertex_word(const options *o, const labels *names, const char *word);
numbers read_numbers(const options *o, const char *path, size_t a_line);
labels read_labels(const char *path);
void show_vertex(FILE *to, const options *o, const labels *names, uint32_t vertex, const char *between);
void put_text(FILE *to, const char *text, int most);
int refused(uint32_t number, uint64_t extra);
const char *reason_words(uint32_t reason);
void work_begins(const char *doing);
void work_ends(void);

/* orders.c */
numbers seeded_orders(const char *seed, uint32_t n, uint32_t d);

/* rules.c */
int rules(const options *o);

/* draw.c */
int draw(const options *o);

/* main.c */
lent open_file(const char *path);
uint32_t form_of(const buffer *index);

#endif
