/* The picture of an answer. What is between source and target, the chain and what the walk opened come from proved calls; where groups stand and how large they
 * are is read off the checked bytes (docs/STORED-FORM.md), so that a slip here is a wrong picture and no wrong answer. The same input gives the same bytes. */
#define _GNU_SOURCE
#include "tool.h"
#include <stdlib.h>
#include <string.h>

/* a box and the space between boxes, the space around them, and how many there are at most: boxes, rows of one level, boxes beside each other */
enum { BOX = 148, HIGH = 38, ACROSS = 28, DOWN = 48, LEFT = 112, TOP = 60, MOST_BOXES = 150, MOST_ROWS = 80, MOST_COLUMNS = 5 };
/* sizes of letters, and the narrowest picture */
enum { LETTERS = 14, TITLE = 19, NARROWEST = 760 };

/* the sections of a checked index, and how its numbers are read */
typedef struct {
    const uint8_t *bytes;
    uint32_t width, n, k, names, groups, levels, starts, children, labels;
} sections;

static uint32_t little(const uint8_t *at, uint32_t width) {
    uint32_t value = 0;
    for (uint32_t i = width; i-- > 0;) value = value << 8 | at[i];
    return value;
}

static uint32_t number(const sections *s, uint32_t offset, uint32_t i) { return little(s->bytes + offset + (size_t)s->width * i, s->width); }

static sections sections_of(const buffer *index) {
    uint32_t h[12];
    for (int i = 0; i < 12; i++) h[i] = little(index->bytes + 4 * i, 4);
    sections s = {index->bytes, h[0] == 1 ? 2 : 4, h[1], h[2], h[5], h[6], h[7], h[8], h[9], h[10]};
    return s;
}

/* the place of the group with this name */
static uint32_t place_of(const sections *s, uint32_t name) {
    uint32_t from = 0, to = s->k;
    while (to - from > 1) {
        uint32_t half = from + (to - from) / 2;
        if (number(s, s->groups, half) <= name) from = half;
        else to = half;
    }
    return from;
}

/* a group of the picture and where it stands */
typedef struct {
    uint32_t place, level;
    int kind, x, y;
} box;

/* what a group is in the picture */
enum { LEFT_OUT = 0, PLAIN = 1, ON_CHAIN = 2, END = 3 };

/* all that the picture is drawn from */
typedef struct {
    const options *o;
    labels names;
    sections s;
    drobisten_asked answer;
    uint32_t source, target; /* places */
    uint8_t *kinds;          /* by place */
    uint32_t *sizes;         /* by place */
    box *boxes;              /* by level from above, the chain's first in each */
    uint32_t count, rows;
    uint32_t lines, columns; /* of boxes */
    const box **at;          /* the box of a place, where it is drawn */
} picture;

static int lower_later(const void *a, const void *b) {
    const box *p = a, *q = b;
    if (p->level != q->level) return p->level > q->level ? -1 : 1;
    if ((p->kind >= ON_CHAIN) != (q->kind >= ON_CHAIN)) return p->kind >= ON_CHAIN ? -1 : 1;
    return p->place < q->place ? -1 : p->place > q->place;
}

/* what a vertex is called: its label, or its number */
static void put_name(FILE *to, const picture *p, uint32_t vertex, int most) {
    if (vertex < p->names.count && *p->names.lines[vertex]) put_text(to, p->names.lines[vertex], most);
    else fprintf(to, "%u", vertex + (p->o->from_one ? 1 : 0));
}

/* a box with its name, its size where that is over one, and up to twenty members behind the pointer */
static void put_box(FILE *to, const picture *p, const box *b) {
    const sections *s = &p->s;
    uint32_t name = number(s, s->groups, b->place), size = p->sizes[b->place], shown = 0;
    char times[16] = "";
    int length = size > 1 ? snprintf(times, sizeof times, " x %u", size) : 0;
    fprintf(to, "<g class=\"box%d\"><title>group %u:", b->kind, name + (p->o->from_one ? 1 : 0));
    for (uint32_t v = name; v < s->n && shown < 20; v++) {
        if (number(s, s->names, v) != name) continue;
        fputs(shown++ ? ", " : " ", to);
        put_name(to, p, v, 8000);
    }
    if (size > shown) fprintf(to, " and %u more", size - shown);
    fprintf(to, "</title><rect x=\"%d\" y=\"%d\" width=\"%d\" height=\"%d\" rx=\"5\"/>", b->x, b->y, BOX, HIGH);
    fprintf(to, "<text x=\"%d\" y=\"%d\">", b->x + BOX / 2, b->y + HIGH / 2 + 5);
    put_name(to, p, name, 100 * (BOX - 10) / LETTERS - 64 * length);
    fprintf(to, "%s</text></g>\n", times);
}

/* a bar over the ranks from one to another */
static void put_bar(FILE *to, const char *class, const picture *p, uint32_t from, uint32_t end, int y, int width) {
    double unit = (double)(width - 2 * LEFT) / p->s.k, wide = (end - from + 1) * unit;
    fprintf(to, "<rect class=\"%s\" x=\"%.1f\" y=\"%d\" width=\"%.1f\" height=\"16\"/>\n", class, LEFT + (from - 1) * unit, y, wide < 2 ? 2 : wide);
}

/* the strip of ranks of the deciding labelling, with the two intervals that decided as bars: the source's inner one and the target's e, or the two outer ones */
static void put_strip(FILE *to, const picture *p, int y, int width) {
    const sections *s = &p->s;
    bool inner = p->answer.reason == 2;
    uint32_t triples = s->labels + s->width * 4 * s->k * (p->answer.labelling - 1);
    uint32_t low = number(s, triples, 3 * p->source + (inner ? 1 : 0)), high = number(s, triples, 3 * p->source + 2);
    uint32_t from = number(s, triples, 3 * p->target + (inner ? 2 : 0)), end = number(s, triples, 3 * p->target + 2);
    fprintf(to, "<text class=\"side\" x=\"%d\" y=\"%d\">labelling %u, ranks 1 to %u</text>\n", LEFT, y, p->answer.labelling, s->k);
    fprintf(to, "<rect class=\"ranks\" x=\"%d\" y=\"%d\" width=\"%d\" height=\"44\"/>\n", LEFT, y + 8, width - 2 * LEFT);
    fprintf(to, "<text class=\"side\" x=\"20\" y=\"%d\">source</text>\n<text class=\"side\" x=\"20\" y=\"%d\">target</text>\n", y + 25, y + 45);
    put_bar(to, "from", p, low, high, y + 12, width);
    put_bar(to, "to", p, from, end, y + 32, width);
    fprintf(to, "<text class=\"side\" x=\"%d\" y=\"%d\">the source's %s interval is %u to %u, the target's ", LEFT, y + 70, inner ? "inner" : "outer", low, high);
    if (inner) fprintf(to, "rank %u</text>\n", end);
    else fprintf(to, "%u to %u</text>\n", from, end);
}

static const char style[] =
    "<style>text{font:14px sans-serif;text-anchor:middle;fill:#111}.side{text-anchor:start}.paper{stroke:none}.title{font-size:19px;text-anchor:start}rect{fill:#fff;stroke:#555}"
    ".box1 rect{stroke:#0072b2}.box2 rect,.box3 rect{stroke:#d55e00;stroke-width:3}.more rect{stroke-dasharray:4 3}path{fill:none;stroke:#0072b2;stroke-width:1.2}"
    "path.chain{stroke:#d55e00;stroke-width:4}.ranks{fill:#f3f3f3}.from{fill:#0072b2}.to{fill:#d55e00}</style>\n";

/* all groups between: those that the source feeds and that feed the target; and of them the chain */
static void between(picture *p, lent *l, uint32_t source, uint32_t target) {
    const sections *s = &p->s;
    uint32_t *out = memory(s->n, sizeof *out), *from = memory(s->k, sizeof *from), *to = memory(s->k, sizeof *to), asked = 0;
    drobisten_counted below = drobisten_list(LENT(*l), out, s->n, source);
    for (uint32_t i = 0; i < below.count; i++) p->kinds[place_of(s, number(s, s->names, out[i]))] = PLAIN;
    for (uint32_t q = 0; q < s->k; q++) {
        if (p->kinds[q] == LEFT_OUT) continue;
        from[asked] = number(s, s->groups, q);
        to[asked++] = target;
    }
    drobisten_asked *answers = memory(asked, sizeof *answers);
    drobisten_batch(LENT(*l), from, asked, to, asked, (uint32_t *)answers, 6 * (size_t)asked);
    for (uint32_t i = 0; i < asked; i++) p->kinds[place_of(s, from[i])] = answers[i].yes ? PLAIN : LEFT_OUT;
    drobisten_chained chain = drobisten_chain(LENT(*l), out, s->n, source, target);
    for (uint32_t i = 0; i < chain.steps; i++) p->kinds[place_of(s, out[i])] = ON_CHAIN;
}

/* the groups of the picture: those between, or those that the walk opened; and the two ends */
static void choose(picture *p, lent *l, uint32_t source, uint32_t target) {
    const sections *s = &p->s;
    for (uint32_t v = 0; v < s->n; v++) p->sizes[place_of(s, number(s, s->names, v))]++;
    for (uint32_t q = 0; q < s->k; q++) p->kinds[q] = p->answer.yes ? LEFT_OUT : l->marks[number(s, s->groups, q)];
    if (p->answer.yes) between(p, l, source, target);
    p->kinds[p->source] = p->kinds[p->target] = END;
    for (uint32_t q = 0; q < s->k; q++) {
        if (p->kinds[q] == LEFT_OUT) continue;
        box *b = p->boxes + p->count++;
        b->place = q;
        b->level = number(s, s->levels, q);
        b->kind = p->kinds[q];
    }
    qsort(p->boxes, p->count, sizeof *p->boxes, lower_later);
    for (uint32_t i = 0; i < p->count; i++) p->rows += i == 0 || p->boxes[i].level != p->boxes[i - 1].level;
}

/* where a column stands: the middle, then left and right of it in turn */
static int column(uint32_t i) { return (int)((i + 1) / 2) * (i % 2 ? -1 : 1) * (BOX + ACROSS); }

/* Sets a level's groups from above, in lines of few boxes, so many of them as boxes and one box for the others. In a picture of a chain, a line without a group of the
 * chain leaves its middle free for the chain's own line. */
static void set_level(FILE *to, picture *p, box *first, uint32_t shown, uint32_t more) {
    uint32_t at = p->answer.yes && first->kind < ON_CHAIN;
    for (uint32_t j = 0; j < shown + (more > 0); j++) {
        if (at == MOST_COLUMNS) {
            at = p->answer.yes;
            p->lines++;
        }
        int x = column(at++), y = TOP + (int)p->lines * (HIGH + DOWN);
        if (j == 0) first->y = y;
        if (p->columns < at) p->columns = at;
        if (j < shown) {
            first[j].x = x;
            first[j].y = y;
            p->at[first[j].place] = first + j;
        } else {
            fprintf(to, "<g class=\"more\"><rect x=\"%d\" y=\"%d\" width=\"%d\" height=\"%d\" rx=\"5\"/><text x=\"%d\" y=\"%d\">+ %u group%s</text></g>\n", x, y, BOX, HIGH, x + BOX / 2,
                    y + HIGH / 2 + 5, more, more == 1 ? "" : "s");
        }
    }
    p->lines++;
}

/* Sets the rows from above: those in the middle of very many are left out, and in a picture of very many groups all but the chain's and the ends. */
static void set_rows(FILE *to, picture *p) {
    uint32_t row = 0, half = MOST_ROWS / 2, end;
    for (uint32_t i = 0; i < p->count; i = end, row++) {
        for (end = i; end < p->count && p->boxes[end].level == p->boxes[i].level; end++) {}
        uint32_t shown = p->count > MOST_BOXES ? 0 : end - i;
        while (i + shown < end && p->boxes[i + shown].kind >= ON_CHAIN) shown++;
        if (p->rows > MOST_ROWS && row == half) {
            fprintf(to, "<text x=\"%d\" y=\"%d\">+ %u level%s</text>\n", BOX / 2, TOP + (int)p->lines++ * (HIGH + DOWN) + HIGH / 2, p->rows - MOST_ROWS, p->rows - MOST_ROWS == 1 ? "" : "s");
        }
        if (p->rows <= MOST_ROWS || row < half || row >= p->rows - half) set_level(to, p, p->boxes + i, shown, end - i - shown);
    }
}

/* An edge to each child that is drawn; those of the chain, from one of its groups to the next, are thick. An edge to the next line is a curve; one that goes further
 * goes down beside a column, so that no box hides it. */
static void put_edges(FILE *to, const picture *p) {
    const sections *s = &p->s;
    int lane = 0;
    for (uint32_t i = 0; i < p->count; i++) {
        const box *from = p->at[p->boxes[i].place];
        if (!from) continue;
        uint32_t next = i + 1;
        while (next < p->count && p->boxes[next].kind < ON_CHAIN) next++;
        for (uint32_t j = number(s, s->starts, from->place); j < number(s, s->starts, from->place + 1); j++) {
            const box *child = p->at[number(s, s->children, j)];
            if (!child) continue;
            bool step = p->answer.yes && from->kind >= ON_CHAIN && child == p->boxes + next;
            int x1 = from->x + BOX / 2, y1 = from->y + HIGH, x2 = child->x + BOX / 2, y2 = child->y, half = DOWN / 2;
            fprintf(to, "<path%s d=\"M%d %d", step ? " class=\"chain\"" : "", x1, y1);
            if (!step && y2 - y1 > DOWN) {
                int side = x1 == x2 ? lane % 2 * 2 - 1 : x1 > x2 ? 1 : -1, x = x2 + side * (BOX + ACROSS) / 2 + (lane % 5 - 2) * 4;
                fprintf(to, "C%d %d %d %d %d %dV%d", x1, y1 + half, x, y1 + half, x, y1 + DOWN, y2 - DOWN);
                x1 = x;
                lane++;
            }
            fprintf(to, "C%d %d %d %d %d %d\"/>\n", x1, y2 - half, x2, y2 - half, x2, y2);
        }
    }
}

/* the rows with their edges, and around them title, footer and, where intervals decided, the strip */
static void put_picture(FILE *to, picture *p, uint32_t source, uint32_t target) {
    char *rows = NULL;
    size_t size = 0;
    FILE *inside = open_memstream(&rows, &size);
    if (!inside) cannot("there is no memory for the picture");
    set_rows(inside, p);
    put_edges(inside, p);
    for (uint32_t i = 0; i < p->count; i++)
        if (p->at[p->boxes[i].place]) put_box(inside, p, p->boxes + i);
    if (fclose(inside) != 0) cannot("there is no memory for the picture");

    drobisten_asked a = p->answer;
    int width = 2 * LEFT + (int)(p->columns | 1) * (BOX + ACROSS), foot = TOP + (int)p->lines * (HIGH + DOWN), strip = a.reason == 2 || a.reason == 4 ? 90 : 0;
    if (width < NARROWEST) width = NARROWEST;
    int height = foot + strip + 56, name = (100 * (width - 40) / TITLE - 64 * 12) / 2;
    fprintf(to, "<svg xmlns=\"http://www.w3.org/2000/svg\" width=\"%d\" height=\"%d\" viewBox=\"0 0 %d %d\">\n", width, height, width, height);
    fprintf(to, "%s<rect class=\"paper\" width=\"%d\" height=\"%d\"/>\n<text class=\"title\" x=\"20\" y=\"34\">", style, width, height);
    put_name(to, p, source, name);
    fputs(" feeds ", to);
    put_name(to, p, target, name);
    fprintf(to, ": %s</text>\n", a.yes ? "yes" : "no");
    for (uint32_t i = 0; i < p->count; i++)
        if (p->boxes[i].y && (i == 0 || p->boxes[i].level != p->boxes[i - 1].level)) fprintf(to, "<text class=\"side\" x=\"20\" y=\"%d\">level %u</text>\n", p->boxes[i].y + HIGH / 2 + 5, p->boxes[i].level);
    fprintf(to, "<g transform=\"translate(%d 0)\">\n%s</g>\n", width / 2 - BOX / 2, rows);
    free(rows);
    if (strip) put_strip(to, p, foot + 8, width);
    fprintf(to, "<text class=\"side\" x=\"20\" y=\"%d\">Reason %u: %s. %u group%s opened", height - 34, a.reason, reason_words(a.reason), a.opened, a.opened == 1 ? "" : "s");
    if (a.labelling) fprintf(to, ", labelling %u", a.labelling);
    fprintf(to, ".</text>\n<text class=\"side\" x=\"20\" y=\"%d\">%sIndex: ", height - 14, a.yes && p->source != p->target ? "Thick: a chain. " : "");
    put_text(to, p->o->words[0], 100 * (width - 220) / LETTERS);
    fputs("</text>\n</svg>\n", to);
}

int draw(const options *o) {
    lent l = open_file(o->words[0]);
    picture p = {.o = o, .names = read_labels(o->labels)};
    uint32_t source = vertex_word(o, &p.names, o->words[1]), target = vertex_word(o, &p.names, o->words[2]);
    work_begins("drawing");
    p.answer = drobisten_question(LENT(l), source, target);
    if (p.answer.refusal) {
        work_ends();
        return refused(p.answer.refusal, p.answer.extra);
    }
    p.s = sections_of(&l.index);
    p.source = place_of(&p.s, number(&p.s, p.s.names, source));
    p.target = place_of(&p.s, number(&p.s, p.s.names, target));
    p.kinds = memory(p.s.k, 1);
    p.sizes = memory(p.s.k, sizeof *p.sizes);
    p.boxes = memory(p.s.k, sizeof *p.boxes);
    p.at = memory(p.s.k, sizeof *p.at);
    choose(&p, &l, source, target);
    char *whole = NULL;
    size_t size = 0;
    FILE *to = open_memstream(&whole, &size);
    if (!to) cannot("there is no memory for the picture");
    put_picture(to, &p, source, target);
    if (fclose(to) != 0) cannot("there is no memory for the picture");
    work_ends();
    write_file(o->out, whole, size);
    free(whole);
    return p.answer.yes ? DONE : SAYS_NO;
}
