/* Lends the library's calls: a request, a row of bytes, names a call, its numbers and its buffers; the reply is what the call returned and what every writable
 * buffer holds afterwards. Each buffer is lent flush against a page that nothing may touch, so a read or a write one element past its length ends this process, and
 * with it the test. Requests come through a pipe (outside/pipe.c), or from the program that this is linked with. */
#define _DEFAULT_SOURCE
#include <drobisten.h>
#include <pthread.h>
#include <stdlib.h>
#include <string.h>
#include <sys/mman.h>
#include <unistd.h>
#include "serve.h"

/* the layout that the header states */
_Static_assert(sizeof(drobisten_opened) == 24, "drobisten_opened is 24 bytes");
_Static_assert(sizeof(drobisten_asked) == 24 && offsetof(drobisten_asked, labelling) == 20, "drobisten_asked is 24 bytes, labelling its last four");
_Static_assert(sizeof(drobisten_rule) == 12 && offsetof(drobisten_rule, vertex) == 4 && offsetof(drobisten_rule, state) == 8, "drobisten_rule is 12 bytes, three numbers");
_Static_assert(sizeof(drobisten_rules_settled) == 16 && offsetof(drobisten_rules_settled, extra) == 8, "drobisten_rules_settled is 16 bytes, extra its last eight");

/* what a request asks for, and of whom: the calls that Rattle code makes, the C host's, which are lent no words, or those on a turned index or a plain hierarchy */
enum { OPEN = 1, ASK = 2, LIST = 3, BUILD = 4, ASK_MANY = 5, RUN = 6, ASK_ALL = 7, CONVERT_UP = 8, CONVERT_DOWN = 9, CHAIN = 10, ADD = 22, ASK_ADDED = 23, SETTLE_LISTS = 11, SETTLE_RULES = 12, READ_MATRIX = 18, WRITE_MATRIX = 19,
       BUILD_LISTS = 14, OPEN_LISTS = 15, ASK_LISTS = 16, ASK_ALL_LISTS = 17, TO_HIERARCHY = 20, FROM_HIERARCHY = 21 };
enum { ORDINARY = 0, HOST = 1, TURNED = 2, HIERARCHY = 3 };

/* the bytes that a run is lent for its output, and what they hold before it */
enum { MOST_OUTPUT = 338582, PATTERN = 0xa5 };

/* what is left of the request, and the reply so far */
static struct { const uint8_t *at; size_t left; } request;
static struct { uint8_t *bytes; size_t size, room; } reply;

static void take(void *to, size_t size) {
    if (request.left < size) exit(2);
    memcpy(to, request.at, size);
    request.at += size;
    request.left -= size;
}

static uint32_t number(void) {
    uint32_t x;
    take(&x, 4);
    return x;
}

static void give(const void *from, size_t size) {
    while (reply.room - reply.size < size) {
        reply.room = 2 * reply.room + 4096;
        if (!(reply.bytes = realloc(reply.bytes, reply.room))) exit(3);
    }
    memcpy(reply.bytes + reply.size, from, size);
    reply.size += size;
}

/* so many bytes and behind them a page that nothing may touch; the size is a number of pages */
static uint8_t *fenced(size_t size, size_t page) {
    uint8_t *room = mmap(NULL, size + page, PROT_READ | PROT_WRITE, MAP_PRIVATE | MAP_ANONYMOUS, -1, 0);
    if (room == MAP_FAILED || mprotect(room + size, page, PROT_NONE)) exit(3);
    return room;
}

/* a lent buffer: `size` bytes that end where the forbidden page begins. Small ones stand in rooms that are kept from request to request, and `room` is then NULL. */
typedef struct { uint8_t *at, *room; size_t size, whole, length; } lent;

enum { KEPT = 6, KEPT_BYTES = 1 << 19 };
static uint8_t *kept[KEPT];
static unsigned in_use;

static lent room(size_t length, size_t element) {
    size_t page = (size_t)sysconf(_SC_PAGESIZE);
    lent b = {.length = length, .size = length * element};
    if (b.size <= KEPT_BYTES && in_use < KEPT) {
        if (!kept[in_use]) kept[in_use] = fenced(KEPT_BYTES, page);
        b.at = kept[in_use++] + KEPT_BYTES - b.size;
        return b;
    }
    size_t pages = (b.size + page - 1) / page * page;
    b.whole = pages + page;
    b.room = fenced(pages, page);
    b.at = b.room + pages - b.size;
    return b;
}

static lent buffer(size_t element) {
    lent b = room(number(), element);
    take(b.at, b.size);
    return b;
}

static uint32_t *words(lent b) { return (uint32_t *)b.at; }

static void done(lent b) {
    if (b.room) munmap(b.room, b.whole);
}

static void give_back(lent b) {
    give(b.at, b.size);
    done(b);
}

/* does a job on a thread whose stack has so many bytes, 16 KB being the least that pthreads allow, and lies above a page that nothing may touch: a job that takes more
 * ends this process; 0 asks for this process's own stack */
static void on_stack(uint32_t bytes, void *(*work)(void *), void *job) {
    if (!bytes) {
        work(job);
        return;
    }
    size_t page = (size_t)sysconf(_SC_PAGESIZE);
    uint8_t *room = mmap(NULL, page + bytes, PROT_READ | PROT_WRITE, MAP_PRIVATE | MAP_ANONYMOUS, -1, 0);
    pthread_attr_t small;
    pthread_t thread;
    if (room == MAP_FAILED || mprotect(room, page, PROT_NONE)) exit(3);
    if (pthread_attr_init(&small) || pthread_attr_setstack(&small, room + page, bytes)) exit(3);
    if (pthread_create(&thread, &small, work, job) || pthread_join(thread, NULL)) exit(3);
    munmap(room, page + bytes);
}

/* a call on stored bytes: what it is lent, and what it returned */
typedef struct {
    uint32_t face, source, target;
    lent index, marks, work, sources, targets, changed, vertices, out;
    drobisten_added added;
    union { drobisten_opened opened; drobisten_asked asked; drobisten_asked_all all; drobisten_counted listed, converted; drobisten_chained chained; drobisten_said over; drobisten_rules_settled settled; } r;
} asking;

static void *open_index(void *job) {
    asking *a = job;
    a->r.opened = a->face == HOST ? drobisten_open(a->index.at, a->index.length, a->marks.at, a->marks.length)
                                  : (a->face == TURNED      ? drobisten_inspect_turned
                                     : a->face == HIERARCHY ? drobisten_inspect_hierarchy
                                                            : drobisten_inspect)(a->index.at, a->index.length, a->marks.at, a->marks.length, words(a->work), a->work.length);
    return NULL;
}

static void *ask(void *job) {
    asking *a = job;
    a->r.asked = a->face == HOST ? drobisten_ask(a->index.at, a->index.length, a->marks.at, a->marks.length, a->source, a->target)
                                 : (a->face == TURNED      ? drobisten_question_turned
                                    : a->face == HIERARCHY ? drobisten_question_hierarchy
                                                           : drobisten_question)(a->index.at, a->index.length, a->marks.at, a->marks.length, words(a->work),
                                                                                 a->work.length, a->source, a->target);
    return NULL;
}

static void *ask_all(void *job) {
    asking *a = job;
    a->r.all = a->face == HOST ? drobisten_ask_all(a->index.at, a->index.length, a->marks.at, a->marks.length, words(a->sources), a->sources.length,
                                                   words(a->targets), a->targets.length, words(a->out), a->out.length)
                               : drobisten_batch(a->index.at, a->index.length, a->marks.at, a->marks.length, words(a->work), a->work.length, words(a->sources),
                                               a->sources.length, words(a->targets), a->targets.length, words(a->out), a->out.length);
    return NULL;
}

static void *list(void *job) {
    asking *a = job;
    a->r.listed = (a->face == TURNED ? drobisten_list_turned : drobisten_list)(a->index.at, a->index.length, a->marks.at, a->marks.length, words(a->work),
                                                                       a->work.length, words(a->out), a->out.length, a->source);
    return NULL;
}

static void *chain(void *job) {
    asking *a = job;
    a->r.chained = drobisten_chain(a->index.at, a->index.length, a->marks.at, a->marks.length, words(a->work), a->work.length, words(a->out), a->out.length, a->source, a->target);
    return NULL;
}

static void *ask_added(void *job) {
    asking *a = job;
    a->r.over = drobisten_ask_added(a->index.at, a->index.length, a->marks.at, a->marks.length, words(a->work), a->work.length, a->added, a->source, a->target);
    return NULL;
}

/* a table of rules: its vertices and its states, or its records */
static void *settle_lists(void *job) {
    asking *a = job;
    a->r.settled = drobisten_settle_lists(a->index.at, a->index.length, words(a->changed), a->changed.length, a->marks.at, a->marks.length, words(a->work), a->work.length,
                                      words(a->vertices), a->vertices.length, words(a->out), a->out.length);
    return NULL;
}

static void *settle_rules(void *job) {
    asking *a = job;
    a->r.settled = drobisten_settle_rules(a->index.at, a->index.length, words(a->changed), a->changed.length, a->marks.at, a->marks.length, words(a->work), a->work.length,
                                          (drobisten_rule *)a->out.at, a->out.length);
    return NULL;
}

/* form 1 turned into form 2, which is lent no words, and back */
static void *convert_up(void *job) {
    asking *a = job;
    a->r.converted = drobisten_convert_up(a->index.at, a->index.length, a->marks.at, a->marks.length, a->out.at, a->out.length);
    return NULL;
}

static void *convert_down(void *job) {
    asking *a = job;
    a->r.converted = drobisten_convert_down(a->index.at, a->index.length, a->marks.at, a->marks.length, words(a->work), a->work.length, a->out.at, a->out.length);
    return NULL;
}

/* form 2 turned into form 4, and back */
static void *to_hierarchy(void *job) {
    asking *a = job;
    a->r.converted = drobisten_to_hierarchy(a->index.at, a->index.length, a->marks.at, a->marks.length, words(a->work), a->work.length, a->out.at, a->out.length);
    return NULL;
}

static void *from_hierarchy(void *job) {
    asking *a = job;
    a->r.converted = drobisten_from_hierarchy(a->index.at, a->index.length, a->marks.at, a->marks.length, words(a->work), a->work.length, a->out.at, a->out.length);
    return NULL;
}

/* what every call on stored bytes is lent */
static void take_index(asking *a) {
    a->index = buffer(1);
    a->marks = buffer(1);
    a->work = buffer(4);
}

static void give_marks(asking *a) {
    done(a->index);
    give_back(a->marks);
    give_back(a->work);
}

static void serve_open(uint32_t face, uint32_t stack) {
    asking a = {.face = face};
    take_index(&a);
    on_stack(stack, open_index, &a);
    give(&a.r.opened, sizeof a.r.opened);
    give_marks(&a);
}

static void serve_ask(uint32_t face, uint32_t stack) {
    asking a = {.face = face};
    a.source = number();
    a.target = number();
    take_index(&a);
    on_stack(stack, ask, &a);
    give(&a.r.asked, sizeof a.r.asked);
    give_marks(&a);
}

/* One index, many questions, the same marks and words before each. Of each question its answer, the marks, how many words at the front are 0, and how many behind them are
 * not as they were. */
static void serve_ask_many(uint32_t face) {
    asking a = {.face = face};
    take_index(&a);
    lent pairs = buffer(4);
    uint8_t *marks = malloc(a.marks.size + 1), *work = malloc(a.work.size + 1);
    if (!marks || !work) exit(3);
    memcpy(marks, a.marks.at, a.marks.size);
    memcpy(work, a.work.at, a.work.size);
    for (size_t i = 0; i + 1 < pairs.length; i += 2) {
        memcpy(a.marks.at, marks, a.marks.size);
        memcpy(a.work.at, work, a.work.size);
        a.source = words(pairs)[i];
        a.target = words(pairs)[i + 1];
        ask(&a);
        uint32_t left[2] = {0, 0};
        while (left[0] < a.work.length && words(a.work)[left[0]] == 0) left[0]++;
        for (size_t w = left[0]; w < a.work.length; w++) left[1] += words(a.work)[w] != ((uint32_t *)work)[w];
        give(&a.r.asked, sizeof a.r.asked);
        give(a.marks.at, a.marks.size);
        give(left, sizeof left);
    }
    free(marks);
    free(work);
    done(a.index);
    done(a.marks);
    done(a.work);
    done(pairs);
}

/* all pairs in one call */
static void serve_ask_all(uint32_t face, uint32_t stack) {
    asking a = {.face = face};
    take_index(&a);
    a.sources = buffer(4);
    a.targets = buffer(4);
    a.out = buffer(4);
    on_stack(stack, ask_all, &a);
    uint32_t numbers[3] = {a.r.all.refusal, (uint32_t)a.r.all.extra, (uint32_t)a.r.all.count};
    give(numbers, sizeof numbers);
    done(a.sources);
    done(a.targets);
    give_marks(&a);
    give_back(a.out);
}

static void serve_list(uint32_t face, uint32_t stack) {
    asking a = {.face = face};
    a.source = number();
    take_index(&a);
    a.out = buffer(4);
    on_stack(stack, list, &a);
    give(&a.r.listed, sizeof a.r.listed);
    give_marks(&a);
    give_back(a.out);
}

static void serve_chain(uint32_t stack) {
    asking a = {.face = ORDINARY};
    a.source = number();
    a.target = number();
    take_index(&a);
    a.out = buffer(4);
    on_stack(stack, chain, &a);
    give(&a.r.chained, sizeof a.r.chained);
    give_marks(&a);
    give_back(a.out);
}

static void serve_ask_added(uint32_t stack) {
    asking a = {.face = ORDINARY};
    a.source = number();
    a.target = number();
    take(&a.added, sizeof a.added);
    take_index(&a);
    on_stack(stack, ask_added, &a);
    give(&a.r.over, sizeof a.r.over);
    give_marks(&a);
}

static void serve_add(void) {
    drobisten_added added;
    uint32_t ends[3];
    take(&added, sizeof added);
    take(ends, sizeof ends);
    drobisten_taken r = drobisten_add(added, ends[0], ends[1], ends[2]);
    give(&r, sizeof r);
}

/* over parallel lists, of which only the states are written, or over records */
static void serve_settle(uint32_t stack, int lists) {
    asking a = {.face = ORDINARY};
    take_index(&a);
    a.changed = buffer(4);
    if (lists) a.vertices = buffer(4);
    a.out = buffer(lists ? 4 : sizeof(drobisten_rule));
    on_stack(stack, lists ? settle_lists : settle_rules, &a);
    uint32_t numbers[2] = {a.r.settled.refusal, (uint32_t)a.r.settled.extra};
    give(numbers, sizeof numbers);
    done(a.changed);
    if (lists) done(a.vertices);
    give_marks(&a);
    give_back(a.out);
}

static void serve_convert(uint32_t stack, void *(*convert)(void *)) {
    asking a = {.face = ORDINARY};
    take_index(&a);
    a.out = buffer(1);
    on_stack(stack, convert, &a);
    give(&a.r.converted, sizeof a.r.converted);
    give_marks(&a);
    give_back(a.out);
}

typedef struct { uint32_t face, form, n, d; lent sources, targets, orders, work, out; drobisten_counted r; } building;

static void *build(void *job) {
    building *b = job;
    b->r = b->face == ORDINARY ? drobisten_build(words(b->sources), b->sources.length, words(b->targets), b->targets.length, words(b->orders), b->orders.length,
                                                 words(b->work), b->work.length, b->out.at, b->out.length, b->form, b->n, b->d)
                               : (b->face == TURNED ? drobisten_build_turned : drobisten_build_hierarchy)(words(b->sources), b->sources.length, words(b->targets),
                                                                                                          b->targets.length, words(b->orders), b->orders.length,
                                                                                                          words(b->work), b->work.length, b->out.at, b->out.length,
                                                                                                          b->n, b->d);
    return NULL;
}

/* the builds of a turned index and of a plain hierarchy are told no form: the number that comes in its place is not looked at */
static void serve_build(uint32_t face, uint32_t stack) {
    building b;
    b.face = face;
    b.form = number();
    b.n = number();
    b.d = number();
    b.sources = buffer(4);
    b.targets = buffer(4);
    b.orders = buffer(4);
    b.work = buffer(4);
    b.out = buffer(1);
    on_stack(stack, build, &b);
    give(&b.r, sizeof b.r);
    done(b.sources);
    done(b.targets);
    done(b.orders);
    give_back(b.work);
    give_back(b.out);
}

/* a Matrix Market text read into two lists, or written from them */
typedef struct { uint32_t n; lent text, sources, targets; drobisten_matrix read; drobisten_counted written; } matrix;

static void *read_matrix(void *job) {
    matrix *m = job;
    m->read = drobisten_read_matrix(m->text.at, m->text.length, words(m->sources), m->sources.length, words(m->targets), m->targets.length);
    return NULL;
}

static void *write_matrix(void *job) {
    matrix *m = job;
    m->written = drobisten_write_matrix(words(m->sources), m->sources.length, words(m->targets), m->targets.length, m->text.at, m->text.length, m->n);
    return NULL;
}

static void serve_read_matrix(uint32_t stack) {
    matrix m;
    m.text = buffer(1);
    m.sources = buffer(4);
    m.targets = buffer(4);
    on_stack(stack, read_matrix, &m);
    uint32_t numbers[4] = {m.read.refusal, (uint32_t)m.read.extra, m.read.n, (uint32_t)m.read.edges};
    give(numbers, sizeof numbers);
    done(m.text);
    give_back(m.sources);
    give_back(m.targets);
}

static void serve_write_matrix(uint32_t stack) {
    matrix m;
    m.n = number();
    m.sources = buffer(4);
    m.targets = buffer(4);
    m.text = buffer(1);
    on_stack(stack, write_matrix, &m);
    give(&m.written, sizeof m.written);
    done(m.sources);
    done(m.targets);
    give_back(m.text);
}

/* exception lists: what they stand beside, and the marks */
static void take_beside(asking *a) {
    a->index = buffer(1);
    a->marks = buffer(1);
}

static void serve_build_lists(void) {
    asking a = {.face = ORDINARY};
    take_beside(&a);
    a.out = buffer(1);
    drobisten_counted r = drobisten_build_exceptions(a.index.at, a.index.length, a.marks.at, a.marks.length, a.out.at, a.out.length);
    give(&r, sizeof r);
    done(a.index);
    give_back(a.marks);
    give_back(a.out);
}

static void serve_open_lists(void) {
    asking a = {.face = ORDINARY};
    take_beside(&a);
    lent lists = buffer(1);
    drobisten_lists r = drobisten_open_exceptions(a.index.at, a.index.length, lists.at, lists.length, a.marks.at, a.marks.length);
    give(&r, sizeof r);
    done(a.index);
    done(lists);
    give_back(a.marks);
}

static void serve_ask_lists(void) {
    asking a = {.face = ORDINARY};
    a.source = number();
    a.target = number();
    take_beside(&a);
    lent lists = buffer(1);
    drobisten_said r = drobisten_ask_exceptions(a.index.at, a.index.length, lists.at, lists.length, a.marks.at, a.marks.length, a.source, a.target);
    give(&r, sizeof r);
    done(a.index);
    done(lists);
    give_back(a.marks);
}

static void serve_ask_all_lists(void) {
    asking a = {.face = ORDINARY};
    take_beside(&a);
    lent lists = buffer(1);
    a.sources = buffer(4);
    a.targets = buffer(4);
    a.out = buffer(4);
    drobisten_asked_all r = drobisten_ask_all_exceptions(a.index.at, a.index.length, lists.at, lists.length, a.marks.at, a.marks.length, words(a.sources), a.sources.length,
                                                     words(a.targets), a.targets.length, words(a.out), a.out.length);
    uint32_t numbers[3] = {r.refusal, (uint32_t)r.extra, (uint32_t)r.count};
    give(numbers, sizeof numbers);
    done(a.index);
    done(lists);
    done(a.sources);
    done(a.targets);
    give_back(a.marks);
    give_back(a.out);
}

/* How many bytes are printed, whether any behind them is not as it was, and the bytes printed. The output keeps its room, and what was printed is written over afterwards. */
static void serve_run(void) {
    static uint8_t before[MOST_OUTPUT];
    static lent out;
    lent text = buffer(1);
    if (!out.at) {
        in_use = KEPT;
        out = room(MOST_OUTPUT, 1);
        memset(before, PATTERN, MOST_OUTPUT);
        memcpy(out.at, before, MOST_OUTPUT);
    }
    uint32_t r[2] = {(uint32_t)drobisten_run(text.at, text.length, out.at), 0};
    r[1] = memcmp(out.at + r[0], before + r[0], MOST_OUTPUT - r[0]) != 0;
    give(r, sizeof r);
    give(out.at, r[0]);
    memcpy(out.at, before, r[1] ? MOST_OUTPUT : r[0]);
    done(text);
}

size_t serve(const uint8_t *asked, size_t size, const uint8_t **said) {
    request.at = asked;
    request.left = size;
    reply.size = 0;
    in_use = 0;
    uint32_t call = number(), face = number(), stack = number();
    switch (call) {
    case OPEN: serve_open(face, stack); break;
    case ASK: serve_ask(face, stack); break;
    case ASK_MANY: serve_ask_many(face); break;
    case ASK_ALL: serve_ask_all(face, stack); break;
    case LIST: serve_list(face, stack); break;
    case BUILD: serve_build(face, stack); break;
    case CHAIN: serve_chain(stack); break;
    case ADD: serve_add(); break;
    case ASK_ADDED: serve_ask_added(stack); break;
    case SETTLE_LISTS: serve_settle(stack, 1); break;
    case SETTLE_RULES: serve_settle(stack, 0); break;
    case CONVERT_UP: serve_convert(stack, convert_up); break;
    case CONVERT_DOWN: serve_convert(stack, convert_down); break;
    case READ_MATRIX: serve_read_matrix(stack); break;
    case WRITE_MATRIX: serve_write_matrix(stack); break;
    case BUILD_LISTS: serve_build_lists(); break;
    case OPEN_LISTS: serve_open_lists(); break;
    case ASK_LISTS: serve_ask_lists(); break;
    case ASK_ALL_LISTS: serve_ask_all_lists(); break;
    case TO_HIERARCHY: serve_convert(stack, to_hierarchy); break;
    case FROM_HIERARCHY: serve_convert(stack, from_hierarchy); break;
    case RUN: serve_run(); break;
    default: exit(4);
    }
    *said = reply.bytes;
    return reply.size;
}
