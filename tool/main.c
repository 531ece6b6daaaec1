/* drobisten: a stored reachability index as files. Reads files, lends memory, makes one proved call of include/drobisten.h for each command, a picture's several, and
 * prints what it answers. Of an index it reads the form alone, to choose the call; docs/TOOL.md is its manual. */
#include "tool.h"
#include <stdlib.h>
#include <string.h>

/* the form that stands in an index's first four bytes; 0 where there are fewer */
uint32_t form_of(const buffer *index) {
    const uint8_t *b = index->bytes;
    return index->size < 4 ? 0 : b[0] | (uint32_t)b[1] << 8 | (uint32_t)b[2] << 16 | (uint32_t)b[3] << 24;
}

/* an index file, with the most that any call on it is lent; pages that no call touches cost nothing */
lent open_file(const char *path) {
    lent l = {read_file(path), memory(MOST_VERTICES, 1), memory(MOST_WORDS, sizeof(uint32_t))};
    return l;
}

static uint32_t number_option(const char *name, const char *word, uint32_t otherwise) {
    uint32_t number = otherwise;
    if (word && !number_word(word, &number)) cannot("%s takes a number, not %s", name, word);
    return number;
}

/* an edge list that was read from a Matrix Market file */
typedef struct {
    drobisten_matrix read;
    uint32_t *sources, *targets;
} edges;

static edges read_edges(const char *path) {
    edges e = {{0}, memory(MOST_EDGES, sizeof(uint32_t)), memory(MOST_EDGES, sizeof(uint32_t))};
    buffer text = read_file(path);
    work_begins("reading the edges");
    e.read = drobisten_read_matrix(text.bytes, text.size, e.sources, MOST_EDGES, e.targets, MOST_EDGES);
    work_ends();
    free(text.bytes);
    return e;
}

static int build(const options *o) {
    if (o->turned && o->hierarchy) cannot("an index is turned or a hierarchy's, not both");
    if (o->seed && o->orders) cannot("orders come from a seed or from a file, not both");
    if (o->form && (o->turned || o->hierarchy)) cannot("--turned is form 3 and --hierarchy form 4: leave --form out");
    uint32_t d = number_option("-d", o->labellings, o->hierarchy ? 1 : 2), form = number_option("--form", o->form, 2);
    edges e = read_edges(o->words[0]);
    if (e.read.refusal) return refused(e.read.refusal, e.read.extra);
    uint32_t n = e.read.n;
    size_t m = e.read.edges;
    numbers orders = o->orders ? read_numbers(o, o->orders, 1) : seeded_orders(o->seed ? o->seed : "0", n, d > 5 ? 5 : d);
    size_t words = 16 * (size_t)n + 4 * m + 64, room = 52 + 16 * (size_t)n + 4 * m + 16 * (size_t)(d > 5 ? 5 : d) * n;
    uint32_t *work = memory(words, sizeof(uint32_t));
    uint8_t *out = memory(room, 1);
    work_begins("building the index");
    drobisten_counted r = o->turned      ? drobisten_build_turned(e.sources, m, e.targets, m, orders.numbers, orders.count, work, words, out, room, n, d)
                          : o->hierarchy ? drobisten_build_hierarchy(e.sources, m, e.targets, m, orders.numbers, orders.count, work, words, out, room, n, d)
                                         : drobisten_build(e.sources, m, e.targets, m, orders.numbers, orders.count, work, words, out, room, form, n, d);
    work_ends();
    if (r.refusal) return refused(r.refusal, r.extra);
    write_file(o->out, out, r.count);
    printf("built form %u n %u edges %zu d %u bytes %u", o->turned ? 3 : o->hierarchy ? 4 : form, n, m, d, r.count);
    if (o->orders) printf(" orders %s\n", o->orders);
    else printf(" seed %s\n", o->seed ? o->seed : "0");
    return DONE;
}

static drobisten_opened inspect(lent *l) {
    uint32_t form = form_of(&l->index);
    work_begins("checking the index");
    drobisten_opened r = form == 3 ? drobisten_inspect_turned(LENT(*l)) : form == 4 ? drobisten_inspect_hierarchy(LENT(*l)) : drobisten_inspect(LENT(*l));
    work_ends();
    return r;
}

static int check(const options *o) {
    lent l = open_file(o->words[0]);
    drobisten_opened r = inspect(&l);
    if (r.refusal) return refused(r.refusal, r.extra);
    printf("form %u n %u k %u c %u d %u\n", form_of(&l.index), r.n, r.k, r.c, r.d);
    return DONE;
}

/* one answered pair on a line, as the text program prints it */
static void say_pair(const options *o, uint32_t source, uint32_t target, drobisten_asked a) {
    uint32_t one = o->from_one ? 1 : 0;
    printf("q %u %u ", source + one, target + one);
    if (a.refusal) printf("refused %u %u\n", a.refusal, a.extra);
    else printf("%s %u %u %u\n", a.yes ? "yes" : "no", a.reason, a.opened, a.labelling);
}

/* yes or no without a reason, on a line */
static int say(const options *o, uint32_t source, uint32_t target, drobisten_said r) {
    uint32_t one = o->from_one ? 1 : 0;
    if (r.refusal) return refused(r.refusal, r.extra);
    printf("q %u %u %s\n", source + one, target + one, r.yes ? "yes" : "no");
    return r.yes ? DONE : SAYS_NO;
}

/* sources and targets of a file of pairs */
typedef struct {
    uint32_t *sources, *targets;
    size_t count;
} pairs;

static pairs read_pairs(const options *o, const char *path) {
    numbers both = read_numbers(o, path, 2);
    pairs p = {memory(both.count / 2, sizeof(uint32_t)), memory(both.count / 2, sizeof(uint32_t)), both.count / 2};
    for (size_t i = 0; i < p.count; i++) {
        p.sources[i] = both.numbers[2 * i];
        p.targets[i] = both.numbers[2 * i + 1];
    }
    free(both.numbers);
    return p;
}

static int ask_pairs(const options *o, lent *l) {
    pairs p = read_pairs(o, o->pairs);
    drobisten_asked *answers = memory(p.count, sizeof *answers);
    work_begins("asking all pairs");
    drobisten_asked_all r = drobisten_batch(LENT(*l), p.sources, p.count, p.targets, p.count, (uint32_t *)answers, 6 * p.count);
    work_ends();
    if (r.refusal) return refused(r.refusal, r.extra);
    for (size_t i = 0; i < p.count; i++) say_pair(o, p.sources[i], p.targets[i], answers[i]);
    return DONE;
}

static int ask_pairs_by_exceptions(const options *o, lent *l, const buffer *lists) {
    pairs p = read_pairs(o, o->pairs);
    drobisten_said *answers = memory(p.count, sizeof *answers);
    uint32_t one = o->from_one ? 1 : 0;
    work_begins("checking the exception lists");
    drobisten_asked_all r = drobisten_ask_all_exceptions(l->index.bytes, l->index.size, lists->bytes, lists->size, l->marks, MOST_VERTICES, p.sources, p.count, p.targets, p.count,
                                                         (uint32_t *)answers, 3 * p.count);
    work_ends();
    if (r.refusal) return refused(r.refusal, r.extra);
    for (size_t i = 0; i < p.count; i++) {
        printf("q %u %u ", p.sources[i] + one, p.targets[i] + one);
        if (answers[i].refusal) printf("refused %u %u\n", answers[i].refusal, answers[i].extra);
        else puts(answers[i].yes ? "yes" : "no");
    }
    return DONE;
}

/* the edges of a file go into the call's state as they stand; how many there may be, and between which vertices, is for the call to refuse */
static int ask_over_added(const options *o, lent *l, uint32_t source, uint32_t target) {
    drobisten_added state = {0};
    const size_t most = sizeof state.sources / sizeof *state.sources;
    pairs p = read_pairs(o, o->added);
    for (size_t i = 0; i < p.count && i < most; i++) {
        state.sources[i] = p.sources[i];
        state.targets[i] = p.targets[i];
    }
    state.count = (uint32_t)(p.count <= most ? p.count : most + 1);
    work_begins("asking over the added edges");
    drobisten_said r = drobisten_ask_added(LENT(*l), state, source, target);
    work_ends();
    return say(o, source, target, r);
}

static int ask(const options *o) {
    if (o->count != (o->pairs ? 1 : 3)) cannot("ask takes INDEX U V, or INDEX --pairs FILE");
    if (o->added && (o->pairs || o->exceptions)) cannot("--added goes with a single question alone");
    lent l = open_file(o->words[0]);
    labels names = read_labels(o->labels);
    buffer lists = {NULL, 0};
    if (o->exceptions) lists = read_file(o->exceptions);
    if (o->pairs) return o->exceptions ? ask_pairs_by_exceptions(o, &l, &lists) : ask_pairs(o, &l);

    uint32_t form = form_of(&l.index), source = vertex_word(o, &names, o->words[1]), target = vertex_word(o, &names, o->words[2]);
    if (o->added) return ask_over_added(o, &l, source, target);
    if (o->exceptions) return say(o, source, target, drobisten_ask_exceptions(l.index.bytes, l.index.size, lists.bytes, lists.size, l.marks, MOST_VERTICES, source, target));
    work_begins("asking");
    drobisten_asked a = form == 3   ? drobisten_question_turned(LENT(l), source, target)
                        : form == 4 ? drobisten_question_hierarchy(LENT(l), source, target)
                                    : drobisten_question(LENT(l), source, target);
    work_ends();
    if (a.refusal) return refused(a.refusal, a.extra);
    say_pair(o, source, target, a);
    return a.yes ? DONE : SAYS_NO;
}

/* the vertices of a list, one a line */
static int list_by(const options *o, drobisten_counted call(const uint8_t *, size_t, uint8_t *, size_t, uint32_t *, size_t, uint32_t *, size_t, uint32_t)) {
    lent l = open_file(o->words[0]);
    labels names = read_labels(o->labels);
    uint32_t *out = memory(MOST_VERTICES, sizeof(uint32_t)), vertex = vertex_word(o, &names, o->words[1]);
    work_begins("listing");
    drobisten_counted r = call(LENT(l), out, MOST_VERTICES, vertex);
    work_ends();
    if (r.refusal) return refused(r.refusal, r.extra);
    for (uint32_t i = 0; i < r.count; i++) {
        show_vertex(stdout, o, &names, out[i], "\t");
        putchar('\n');
    }
    return DONE;
}

static int list(const options *o) { return list_by(o, drobisten_list); }

static int upstream(const options *o) { return list_by(o, drobisten_list_turned); }

static int chain(const options *o) {
    lent l = open_file(o->words[0]);
    labels names = read_labels(o->labels);
    uint32_t *steps = memory(MOST_VERTICES, sizeof(uint32_t)), source = vertex_word(o, &names, o->words[1]), target = vertex_word(o, &names, o->words[2]);
    work_begins("seeking the chain");
    drobisten_chained r = drobisten_chain(LENT(l), steps, MOST_VERTICES, source, target);
    work_ends();
    if (r.refusal) return refused(r.refusal, r.extra);
    for (uint32_t i = 0; i < r.steps; i++) {
        if (i > 0) fputs(names.count ? " -> " : " ", stdout);
        show_vertex(stdout, o, &names, steps[i], " ");
    }
    puts(r.yes ? "" : "no");
    return r.yes ? DONE : SAYS_NO;
}

/* 1 to 2, 2 to 1, 2 to 4 and 4 to 2: the call is chosen by the form that is wanted, and from which form it goes is for the call to refuse */
static int convert(const options *o) {
    lent l = open_file(o->words[0]);
    uint32_t to = number_option("--form", o->form, 0);
    size_t room = 4 * l.index.size + 64;
    uint8_t *out = memory(room, 1);
    drobisten_counted r = {0};
    work_begins("converting the index");
    if (to == 1) r = drobisten_convert_down(LENT(l), out, room);
    else if (to == 2 && form_of(&l.index) == 4) r = drobisten_from_hierarchy(LENT(l), out, room);
    else if (to == 2) r = drobisten_convert_up(l.index.bytes, l.index.size, l.marks, MOST_VERTICES, out, room);
    else if (to == 4) r = drobisten_to_hierarchy(LENT(l), out, room);
    else cannot("--form takes 1, 2 or 4: an index is converted from 1 to 2, 2 to 1, 2 to 4 or 4 to 2");
    work_ends();
    if (r.refusal) return refused(r.refusal, r.extra);
    write_file(o->out, out, r.count);
    printf("converted from form %u to form %u bytes %u\n", form_of(&l.index), to, r.count);
    return DONE;
}

static int exceptions(const options *o) {
    lent l = open_file(o->words[0]);
    /* 3 numbers, a start for each of 4,096 groups, and at most 4,096 entries for each */
    size_t room = 4 * (4096 + 3 + (size_t)4096 * 4096);
    uint8_t *out = memory(room, 1);
    work_begins("finding the exceptions");
    drobisten_counted r = drobisten_build_exceptions(l.index.bytes, l.index.size, l.marks, MOST_VERTICES, out, room);
    work_ends();
    if (r.refusal) return refused(r.refusal, r.extra);
    write_file(o->out, out, r.count);
    printf("exception lists bytes %u\n", r.count);
    return DONE;
}

static int tidy(const options *o) {
    edges e = read_edges(o->words[0]);
    if (e.read.refusal) return refused(e.read.refusal, e.read.extra);
    size_t room = 128 + 16 * (size_t)e.read.edges;
    uint8_t *out = memory(room, 1);
    drobisten_counted r = drobisten_write_matrix(e.sources, e.read.edges, e.targets, e.read.edges, out, room, e.read.n);
    if (r.refusal) return refused(r.refusal, r.extra);
    write_file(o->out, out, r.count);
    return DONE;
}

/* which options a command takes */
enum { OUT = 1, D = 2, SEED = 4, ORDERS = 8, FORM = 16, TURNED = 32, HIERARCHY = 64, PAIRS = 128, EXCEPTIONS = 256, ADDED = 512, CHANGED = 1024, LABELS = 2048, FROM_ONE = 4096 };

static const struct {
    const char *name;
    int (*run)(const options *);
    int least, most;      /* words behind the command */
    unsigned takes, must; /* options that it takes, and those that it must be given */
    const char *help;
} commands[] = {
    {"build", build, 1, 1, OUT | D | SEED | ORDERS | FORM | TURNED | HIERARCHY | FROM_ONE, OUT,
     "drobisten build EDGES.mtx -o INDEX [-d D] [--seed S | --orders FILE] [--form 1|2] [--turned | --hierarchy]\n"
     "\n"
     "Builds a stored index of the edges in a Matrix Market file and writes it whole.\n"
     "The file: `%%MatrixMarket matrix coordinate pattern general`, comments starting with %, `N N ENTRIES`,\n"
     "then one `SOURCE TARGET` a line, counted from 1. Single spaces, no blank lines.\n"
     "\n"
     "  -d D           how many orders, 1 to 5 (2; 1 for a hierarchy). More orders never open more groups\n"
     "  --seed S       orders by chance from this number (0); the same seed gives the same index\n"
     "  --orders FILE  the orders themselves, a vertex a line, one order behind the other\n"
     "  --form 1|2     1: up to 4,096 vertices, half the size, for the small sites; 2: up to 200,000 (2)\n"
     "  --turned       an index of the turned edges, for `upstream`\n"
     "  --hierarchy    only where no group is a child of two others: a smaller index, questions that open nothing\n"
     "  --from-one     vertices in the file of orders count from 1\n"},
    {"check", check, 1, 1, 0, 0,
     "drobisten check INDEX\n"
     "\n"
     "Says the form, the vertices n, groups k, child entries c and labellings d of an index, or why it is none.\n"
     "An index opens only if some edges and orders give exactly its bytes.\n"},
    {"ask", ask, 1, 3, PAIRS | EXCEPTIONS | ADDED | LABELS | FROM_ONE, 0,
     "drobisten ask INDEX U V [--exceptions LISTS | --added PAIRS]\n"
     "drobisten ask INDEX --pairs FILE|- [--exceptions LISTS]\n"
     "\n"
     "Does U feed V? Prints `q U V yes REASON OPENED LABELLING` or `q U V no ..`. With a turned index: is U fed by V?\n"
     "\n"
     "  --pairs FILE        all pairs of a file, `U V` a line, in one call; - is standard input\n"
     "  --exceptions LISTS  by exception lists (form 1): opens no group, gives no reason\n"
     "  --added PAIRS       over up to 256 edges more, `U V` a line; gives no reason\n"
     "  --labels FILE       line i is what people call vertex i: U and V may be labels\n"
     "  --from-one          vertices count from 1\n"
     "\n"
     "Reasons: 1 one group, 2 inner interval, 3 level, 4 outer interval, 5 and 6 the walk.\n"
     "Ends with 0 for yes, 1 for no; with --pairs 0.\n"},
    {"list", list, 2, 2, LABELS | FROM_ONE, 0,
     "drobisten list INDEX U [--labels FILE] [--from-one]\n"
     "\n"
     "All that U feeds, rising, a vertex a line; U itself only where it is in a loop with another.\n"},
    {"upstream", upstream, 2, 2, LABELS | FROM_ONE, 0,
     "drobisten upstream TURNED V [--labels FILE] [--from-one]\n"
     "\n"
     "All that feeds V, from an index that was built with --turned; as `list` otherwise.\n"},
    {"chain", chain, 3, 3, LABELS | FROM_ONE, 0,
     "drobisten chain INDEX U V [--labels FILE] [--from-one]\n"
     "\n"
     "The groups from U's to V's, by name, each a child of the one before; or `no`.\n"
     "Ends with 0 for a chain, 1 for no.\n"},
    {"convert", convert, 1, 1, OUT | FORM, OUT | FORM,
     "drobisten convert INDEX --form 1|2|4 -o OUT\n"
     "\n"
     "The same index in another form: 1 to 2, 2 to 1, 2 to 4, 4 to 2. There and back gives the same bytes.\n"},
    {"exceptions", exceptions, 1, 1, OUT, OUT,
     "drobisten exceptions INDEX -o LISTS\n"
     "\n"
     "The exception lists of a form 1 index, for `ask --exceptions`.\n"},
    {"rules", rules, 2, 2, OUT | CHANGED | FROM_ONE, CHANGED,
     "drobisten rules INDEX TABLE.csv --changed FILE [-o OUT.csv]\n"
     "\n"
     "Every record that a changed vertex reaches becomes suspect, records of vertices that are not there unknown.\n"
     "The table has lines `RULE,VERTEX,STATE`, state being fresh, suspect, unknown or a number; it is written back whole,\n"
     "or to OUT.csv. FILE has the changed vertices, one a line.\n"},
    {"tidy", tidy, 1, 1, OUT, OUT,
     "drobisten tidy IN.mtx -o OUT.mtx\n"
     "\n"
     "Reads a Matrix Market file and writes it again, without comments.\n"},
    {"draw", draw, 3, 3, OUT | LABELS | FROM_ONE, OUT,
     "drobisten draw INDEX U V -o PICTURE.svg [--labels FILE] [--from-one]\n"
     "\n"
     "A picture of the answer: on a yes the groups between U and V by level, with the chain as the spine;\n"
     "on a no what the walk opened, or the two intervals that decided.\n"},
};
enum { COMMANDS = sizeof commands / sizeof *commands };

static int usage(FILE *to) {
    fputs("drobisten COMMAND ..: does this thing feed that rule?\n\n", to);
    for (int i = 0; i < COMMANDS; i++) fprintf(to, "  %.*s\n", (int)strcspn(commands[i].help, "\n"), commands[i].help);
    fputs("\n`drobisten COMMAND --help` tells each. Ends with 0 done or yes, 1 no, 2 refused (`refused NUMBER EXTRA`), 3 usage or file.\n", to);
    return to == stdout ? DONE : CANNOT;
}

/* an option by its word: where its value goes, or which switch it is */
typedef struct {
    const char *word;
    unsigned which;
    const char **value;
    bool *flag;
} option;

/* what a command printed is there, or the command failed */
static int printed(int status) {
    if (fflush(stdout) != 0 || ferror(stdout)) cannot("standard output cannot be written");
    return status;
}

int main(int count, char **words) {
    options o = {0};
    const option known[] = {
        {"-o", OUT, &o.out, NULL},           {"-d", D, &o.labellings, NULL},       {"--seed", SEED, &o.seed, NULL},
        {"--orders", ORDERS, &o.orders, NULL}, {"--form", FORM, &o.form, NULL},      {"--pairs", PAIRS, &o.pairs, NULL},
        {"--exceptions", EXCEPTIONS, &o.exceptions, NULL}, {"--added", ADDED, &o.added, NULL}, {"--changed", CHANGED, &o.changed, NULL},
        {"--labels", LABELS, &o.labels, NULL}, {"--turned", TURNED, NULL, &o.turned}, {"--hierarchy", HIERARCHY, NULL, &o.hierarchy},
        {"--from-one", FROM_ONE, NULL, &o.from_one},
    };
    enum { KNOWN = sizeof known / sizeof *known };
    if (count < 2) return usage(stderr);
    if (strcmp(words[1], "--help") == 0 || strcmp(words[1], "help") == 0) return printed(usage(stdout));
    int c = 0;
    while (c < COMMANDS && strcmp(commands[c].name, words[1]) != 0) c++;
    if (c == COMMANDS) cannot("there is no command %s; `drobisten --help` tells those there are", words[1]);
    unsigned given = 0;
    for (int i = 2; i < count; i++) {
        if (strcmp(words[i], "--help") == 0) {
            fputs(commands[c].help, stdout);
            return printed(DONE);
        }
        if (words[i][0] != '-' || !words[i][1]) {
            if (o.count == commands[c].most) cannot("one word too many: %s; `drobisten %s --help` tells how it goes", words[i], words[1]);
            o.words[o.count++] = words[i];
            continue;
        }
        int k = 0;
        while (k < KNOWN && strcmp(known[k].word, words[i]) != 0) k++;
        if (k == KNOWN || !(commands[c].takes & known[k].which)) cannot("%s takes no %s; `drobisten %s --help` tells what it takes", words[1], words[i], words[1]);
        if (given & known[k].which) cannot("%s is given twice", words[i]);
        given |= known[k].which;
        if (known[k].flag) *known[k].flag = true;
        else if (++i < count) *known[k].value = words[i];
        else cannot("%s wants a value", words[i - 1]);
    }
    if (o.count < commands[c].least || (commands[c].must & ~given)) {
        fputs(commands[c].help, stderr);
        return CANNOT;
    }
    return printed(commands[c].run(&o));
}
