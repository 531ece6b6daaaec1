/* Words and numbers that people read and write: vertices, lists of them, labels, refusals and reasons in plain sentences, the line that says what takes long. */
#define _GNU_SOURCE
#include "tool.h"
#include <signal.h>
#include <stdlib.h>
#include <string.h>
#include <sys/time.h>
#include <unistd.h>

/* a decimal number of 32 bits */
bool number_word(const char *word, uint32_t *number) {
    uint64_t value = 0;
    if (!*word) return false;
    for (; *word; word++) {
        if (*word < '0' || *word > '9') return false;
        value = 10 * value + (uint64_t)(*word - '0');
        if (value > UINT32_MAX) return false;
    }
    *number = (uint32_t)value;
    return true;
}

/* a vertex as it was given: a number, counted from 1 where that is asked, or one of the labels. Vertex 0 counted from 1 is no vertex, and comes out as the greatest
 * number, which every call refuses. */
uint32_t vertex_word(const options *o, const labels *names, const char *word) {
    uint32_t number = 0, found = 0;
    if (number_word(word, &number)) return number - (o->from_one ? 1 : 0);
    for (size_t i = 0; names && i < names->count; i++) {
        if (strcmp(names->lines[i], word) != 0) continue;
        number = (uint32_t)i;
        found++;
    }
    if (found > 1) cannot("%u vertices have the label %s: give the number", found, word);
    if (found == 0) cannot("%s is no vertex number%s", word, names && names->count ? " and no label" : "");
    return number;
}

/* The numbers of a file, `a_line` to each line, single spaces between them; vertices, so from 1 where that is asked. */
numbers read_numbers(const options *o, const char *path, size_t a_line) {
    buffer text = read_file(path);
    numbers list = {memory(text.size / 2 + a_line, sizeof(uint32_t)), 0};
    size_t at = 0, line = 0;
    while (at < text.size) {
        line++;
        for (size_t i = 0; i < a_line; i++) {
            uint64_t value = 0;
            size_t from = at;
            while (at < text.size && text.bytes[at] >= '0' && text.bytes[at] <= '9' && value <= UINT32_MAX) value = 10 * value + (uint64_t)(text.bytes[at++] - '0');
            uint8_t next = at < text.size ? text.bytes[at] : '\n';
            if (at == from || value > UINT32_MAX || next != (i + 1 == a_line ? '\n' : ' ')) cannot("%s: line %zu is not %s", path, line, a_line == 2 ? "two numbers with a space between" : "one number");
            at++;
            list.numbers[list.count++] = (uint32_t)value - (o->from_one ? 1 : 0);
        }
    }
    free(text.bytes);
    return list;
}

/* the lines of a file, one for each vertex from the first on; a line may end as Windows ends it */
labels read_labels(const char *path) {
    labels names = {NULL, 0};
    if (!path) return names;
    buffer text = read_file(path);
    size_t lines = 0, start = 0;
    for (size_t i = 0; i < text.size; i++) lines += text.bytes[i] == '\n';
    names.lines = memory(lines + 1, sizeof(char *));
    for (size_t i = 0; i <= text.size; i++) {
        if (i < text.size ? text.bytes[i] != '\n' : start == i) continue;
        size_t length = i - start;
        if (length > 0 && text.bytes[i - 1] == '\r') length--;
        char *line = memory(length + 1, 1);
        memcpy(line, text.bytes + start, length);
        names.lines[names.count++] = line;
        start = i + 1;
    }
    free(text.bytes);
    return names;
}

/* a vertex as people count and call it */
void show_vertex(FILE *to, const options *o, const labels *names, uint32_t vertex, const char *between) {
    fprintf(to, "%u", vertex + (o->from_one ? 1 : 0));
    if (vertex < names->count) fprintf(to, "%s%s", between, names->lines[vertex]);
}

/* how many bytes the UTF-8 character at the front has; 0 where it is none that XML takes */
static int character(const uint8_t *c) {
    if (c[0] >= 0x20 && c[0] < 0x7f) return 1;
    if (c[0] >= 0xc2 && c[0] < 0xe0) return (c[1] & 0xc0) == 0x80 && (c[0] > 0xc2 || c[1] >= 0xa0) ? 2 : 0;
    if (c[0] >= 0xe0 && c[0] < 0xf0 && (c[1] & 0xc0) == 0x80 && (c[2] & 0xc0) == 0x80) {
        uint32_t value = (uint32_t)(c[0] & 15) << 12 | (uint32_t)(c[1] & 63) << 6 | (c[2] & 63);
        return value >= 0x800 && (value < 0xd800 || value > 0xdfff) && value < 0xfffe ? 3 : 0;
    }
    if (c[0] >= 0xf0 && c[0] < 0xf5 && (c[1] & 0xc0) == 0x80 && (c[2] & 0xc0) == 0x80 && (c[3] & 0xc0) == 0x80) {
        uint32_t value = (uint32_t)(c[0] & 7) << 18 | (uint32_t)(c[1] & 63) << 12;
        return value >= 0x10000 && value < 0x110000 ? 4 : 0;
    }
    return 0;
}

/* about how wide a character is in a plain font, in hundredths of its size; rather too much than too little */
static int wide(uint8_t c, int bytes) {
    if (bytes > 2 || strchr("mwMW@%", c)) return 100;
    if (strchr("fijlrtI .,:;'|!()[]/-", c)) return 42;
    return c >= 'A' && c <= 'Z' ? 78 : 64;
}

/* Text for a picture: markup escaped, bytes that are no text as ?, and where it is wider than `most` hundredths of the letters' size, its middle left out. */
void put_text(FILE *to, const char *text, int most) {
    int all = 0, put = 0, bytes;
    for (const uint8_t *c = (const uint8_t *)text; *c; c += bytes ? bytes : 1) {
        bytes = character(c);
        all += wide(*c, bytes);
    }
    int front = all > most ? (most - 84) * 3 / 5 : all, back = most - 84 - front;
    bool cut = false;
    for (const uint8_t *c = (const uint8_t *)text; *c; c += bytes ? bytes : 1) {
        bytes = character(c);
        int left = all - put;
        put += wide(*c, bytes);
        if (put > front && left > back) {
            if (!cut) fputs("..", to);
            cut = true;
        } else if (*c == '&') fputs("&amp;", to);
        else if (*c == '<') fputs("&lt;", to);
        else if (*c == '>') fputs("&gt;", to);
        else if (*c == '"') fputs("&quot;", to);
        else if (bytes == 0) fputc('?', to);
        else fwrite(c, 1, (size_t)bytes, to);
    }
}

/* What each refusal asks people to do. %llu is the extra number. */
static const struct {
    uint32_t number;
    const char *sentence;
} sentences[] = {
    {1, "the graph has more vertices than this form takes: build it with --form 2, or split it"},
    {2, "there are not as many sources as targets: each line of the file needs both"},
    {3, "the graph has more edges than this form takes: build it with --form 2, or split it"},
    {4, "the number of orders does not fit: give -d from 1 to 5, and 1 for a hierarchy"},
    {5, "the file of orders does not hold d times n numbers: one line for each position of each order"},
    {6, "the call was lent too little memory (it wants %llu words): tell those who maintain this program"},
    {7, "edge %llu (counted from 0) leads from or to a vertex that is not there: correct that line"},
    {8, "order %llu (counted from 0) does not name each vertex once: correct the file of orders"},
    {9, "the output would take %llu bytes, more than there was room for: tell those who maintain this program"},
    {10, "the file is too short to be an index: make it anew or copy it again"},
    {11, "this command does not take form %llu: `drobisten check` shows an index's form, `drobisten convert` changes it"},
    {12, "the file's header does not fit its length and counts: it was cut or altered; copy it again"},
    {13, "the call was lent too few marks (it wants %llu): tell those who maintain this program"},
    {14, "the vertex at position %llu of those given, counted from 0, is not in the index: `drobisten check` shows how many there are"},
    {15, "no edges and orders give this index: the file was altered; copy it again or build it anew"},
    {16, "the file has %llu edges, more than an index takes: split it"},
    {18, "line %llu of the Matrix Market file is not as it must be: see `drobisten build --help`"},
    {19, "the index is too large for form 1: keep it in form 2"},
    {20, "these exception lists do not belong to this index: make them anew with `drobisten exceptions`"},
    {21, "more than 256 edges were added: build the index anew"},
    {22, "the graph is no plain hierarchy: group %llu is a child of two groups; build it without --hierarchy"},
};

/* what refusal 11 asks for where the number is no form at all */
static const char no_form[] = "there is no form %llu: give an index that `drobisten build` made, or --form 1 or 2";

/* `refused N X` for programs, and a sentence for people */
int refused(uint32_t number, uint64_t extra) {
    const char *sentence = "this program knows no such refusal: tell those who maintain it";
    for (size_t i = 0; i < sizeof sentences / sizeof *sentences; i++)
        if (sentences[i].number == number) sentence = sentences[i].sentence;
    if (number == 11 && (extra == 0 || extra > 4)) sentence = no_form;
    printf("refused %u %llu\n", number, (unsigned long long)extra);
    const char *at = strstr(sentence, "%llu");
    if (at) fprintf(stderr, "drobisten: %.*s%llu%s\n", (int)(at - sentence), sentence, (unsigned long long)extra, at + 4);
    else fprintf(stderr, "drobisten: %s\n", sentence);
    return IS_REFUSED;
}

/* the six reasons of an answer */
const char *reason_words(uint32_t reason) {
    static const char *const words[] = {
        "no reason",
        "both are in one group",
        "the source's inner interval holds the target",
        "the source's level is not above the target's",
        "the source's outer interval does not hold the target's",
        "the walk found it",
        "the walk did not find it",
    };
    return words[reason <= 6 ? reason : 0];
}

/* what the command is doing, for the line that is printed once it has taken a second */
static char line[96];
static volatile sig_atomic_t line_length;

static void a_second_passed(int signal) {
    (void)signal;
    ssize_t put = write(STDERR_FILENO, line, (size_t)line_length);
    (void)put;
}

void work_begins(const char *doing) {
    struct sigaction then = {0};
    struct itimerval second = {{0, 0}, {1, 0}};
    line_length = snprintf(line, sizeof line, "drobisten: %s ..\n", doing);
    then.sa_handler = a_second_passed;
    then.sa_flags = SA_RESTART;
    sigaction(SIGALRM, &then, NULL);
    setitimer(ITIMER_REAL, &second, NULL);
}

void work_ends(void) {
    struct itimerval never = {{0, 0}, {0, 0}};
    setitimer(ITIMER_REAL, &never, NULL);
}
