/* Drobisten: does this vertex feed that one? Builds, opens and asks stored reachability indexes, for programs in C. This page is the manual.
 *
 * The calls take plain numbers and buffers that the caller lends. They allocate nothing, keep nothing between calls, and always return: whatever is lent, the
 * result is an answer or a refusal with its number. That they return and leave what this page says is proved (crates/face and the crates face_.. and rules_table:
 * each function's contract there equates what C is given with the definitions; docs/CONTRACTS.md has every call with what it refuses, when, and what it leaves).
 *
 *     static uint8_t marks[4096];                     a byte for each vertex, of which there are at most 4,096 in form 1
 *     drobisten_opened o = drobisten_open(index, index_len, marks, sizeof marks);
 *     drobisten_asked a = drobisten_ask(index, index_len, marks, sizeof marks, 3, 2);
 *     if (a.refusal == 0) printf("%s\n", a.yes ? "yes" : "no");
 *
 * examples/host.c is a whole program on form 1; tool/ is the command `drobisten`, a program over all of the calls.
 *
 * LINKING. `tool/library` proves the library and writes target/staticlib/libdrobisten.a, x86-64 code for Linux that needs nothing but libc's memset and memcpy:
 *
 *     gcc -Iinclude examples/host.c target/staticlib/libdrobisten.a -o host
 *
 * A program is compiled with the header of its archive. A call writes its struct where the caller has made room for its own; an object file that was compiled with a
 * header whose struct is shorter has the bytes behind it written over.
 *
 * FORMS. An index is a row of bytes whose first four say its form (docs/STORED-FORM.md):
 *
 *     1   up to 4,096 vertices and 16,384 edges, numbers of 16 bits; needs no words beside it
 *     2   up to 200,000 vertices and 1,000,000 edges, numbers of 32 bits
 *     3   as 2, of the turned edges: asked what feeds a vertex
 *     4   as 2 but smaller, of a plain hierarchy, in which no group is a child of two others: a question opens no group
 *
 * drobisten_open, drobisten_ask and drobisten_ask_all are the small host's: form 1 alone, and no words. So are the calls on exception lists. The calls whose names end in
 * _turned take form 3 alone, drobisten_inspect_hierarchy and drobisten_question_hierarchy form 4; drobisten_convert_up takes form 1, drobisten_convert_down and
 * drobisten_to_hierarchy form 2, drobisten_from_hierarchy form 4; all others on an index take forms 1 and 2.
 *
 * MEMORY. Every buffer is a pointer and a length, counted in its own elements. A buffer that is only read may overlap another such; one that is written overlaps none;
 * no pointer is NULL, even where its length is 0. Nothing is asked of what they hold, nor of how pointers to bytes are aligned. Nothing outside them is touched, and
 * a buffer declared const is never written. `marks` is a byte for each vertex; what they hold at the call changes nothing. `work` beside an index is 16n + 4c + 64
 * numbers for forms 2 to 4, and may be empty for form 1; of a build it is 16n + 4 x edges + 64 numbers. A mark for each of 200,000 vertices and 7,200,064 words
 * serve every call.
 *
 * AFTERWARDS. Where a call says no more, it leaves
 *
 *     marks   refusal 10 to 14 or 6: as they were; otherwise the first n bytes are 0; those behind the first n are always as they were
 *     work    refusal 10 to 14 or 6: as they were; otherwise those needed are 0; those behind them are always as they were
 *     out     any refusal: as it was; otherwise the answer stands at its front and what is behind that is as it was
 *
 * THREADS. Calls share nothing. Any number may run at the same time on the same index, each with marks and words of its own, as long as nobody writes to the index.
 *
 * TIME. Every call on an index checks its bytes anew, unless the header, a length or a vertex refuses it. It goes a fixed number of times through the n names, and
 * for each of the d labellings through the k groups and the c child entries; it also looks up each group once, by halving, among the children of another.
 * A question then takes at most k openings and c tries of a child, with at most d labellings read a try; a list, a chain, added edges and rules a few passes more.
 * Many questions in one call (drobisten_batch) check once. A build is linear in n, the edges and d. docs/FIGURES.md has the figures.
 *
 * STACK. The walk of a question on form 1 nests once for each level of the index that it goes down, 384 bytes each time: 1.6 MB for an index that is one line of
 * 4,096 groups, and a few hundred bytes for a flat one; of the other forms it goes in the lent words, and on form 4 there is none. Many questions in one
 * call take 16 KB more, for a table; a chain at most 128 KB; drobisten_run 162 KB; drobisten_add 4 KB; a build 1 KB. Everything else is loops (docs/CONTRACTS.md, "Stack").
 */
#ifndef DROBISTEN_H
#define DROBISTEN_H

#include <stddef.h>
#include <stdint.h>

#ifdef __cplusplus
extern "C" {
#endif

/* Why a call refuses. Each call names those that it gives in its order of checking, and gives the first that applies. `extra` is the extra number; it is 0 where the
 * line names none. */
enum {
    DROBISTEN_MANY_VERTICES = 1, /* n is over the form's bound */
    DROBISTEN_LISTS = 2,         /* sources and targets differ in length */
    DROBISTEN_MANY_EDGES = 3,    /* more edges than the form's bound */
    DROBISTEN_LABELLINGS = 4,    /* d is not 1 to 5; for a hierarchy, not 1 */
    DROBISTEN_ORDER_LIST = 5,    /* orders is not d times n long */
    DROBISTEN_WORDS = 6,         /* work is too short; extra: the words needed */
    DROBISTEN_EDGE = 7,          /* an end of an edge is n or more; extra: the position of the first such edge, from 0; for drobisten_add 0 */
    DROBISTEN_ORDER = 8,         /* an order does not name every vertex once; extra: the position of the first such order, from 0 */
    DROBISTEN_OUTPUT = 9,        /* out is too short; extra: the bytes needed */
    DROBISTEN_SHORT = 10,        /* the index has fewer bytes than a header, which is 48 */
    DROBISTEN_FORM = 11,         /* a form that the call does not take; extra: the form found */
    DROBISTEN_HEADER = 12,       /* n or c over the form's bound, k over n, d not 1 to 5, in form 4 not 1, an offset or the total not as these give, or bytes not of that total */
    DROBISTEN_MARKS = 13,        /* marks are shorter than n; extra: n */
    DROBISTEN_VERTEX = 14,       /* a vertex is n or more; extra: 0 where it is the source or the one vertex, 1 where it is the target alone; in a batch it refuses its own
                                    pair only; in a list of changed vertices extra is the position of the first such, from 0 */
    DROBISTEN_CONTENTS = 15,     /* no edge list and no orders yield these bytes; in form 4, none of a plain hierarchy */
    DROBISTEN_ROOM = 16,         /* a list is too short; extra: the numbers that it has to take, for answers the number of pairs */
    DROBISTEN_TEXT = 18,         /* a line of a Matrix Market text is bad; extra: the line, from 1 */
    DROBISTEN_BEYOND = 19,       /* the index is beyond the bounds of the form that it is to be turned into */
    DROBISTEN_OTHER_LISTS = 20,  /* the exception lists are not those of the index */
    DROBISTEN_MANY_ADDED = 21,   /* 256 edges are added already, or more than 256 stand */
    DROBISTEN_NO_HIERARCHY = 22  /* a group is a child of two others; extra: the smallest name of such a group */
};

/* What a call returns: a refusal and its extra number; or refusal 0, extra 0 and the numbers of the answer, which are 0 with a refusal. */

/* of opening: 24 bytes, six numbers of 4 in this order */
typedef struct {
    uint32_t refusal;
    uint32_t extra;
    uint32_t n; /* vertices, numbered 0 to n - 1 */
    uint32_t k; /* groups: sets of vertices that reach each other */
    uint32_t c; /* child entries: pairs of groups with an edge from the one into the other */
    uint32_t d; /* labellings, 1 to 5 */
} drobisten_opened;

/* of a question: 24 bytes, six numbers of 4 in this order */
typedef struct {
    uint32_t refusal;
    uint32_t extra;
    uint32_t yes;       /* 1: a path of zero or more edges leads from source to target; 0: none does */
    uint32_t reason;    /* the first that holds of
                           1 yes: source and target are in one group
                           2 yes: in some labelling the source's inner interval contains the target's e
                           3 no: the source's level is not above the target's
                           4 no: in some labelling the source's outer interval does not contain the target's
                           5 yes: the walk from the source's group found the target's
                           6 no: it did not */
    uint32_t opened;    /* the groups that the walk opened; 0 under reasons 1 to 4 */
    uint32_t labelling; /* at byte 20: the first labelling, counted from 1, whose interval settled the answer: under reasons 2 and 4 that of the source's group,
                           under 5 the inner interval of the child that ended the walk; 0 under 1, 3 and 6 */
} drobisten_asked;

/* of many questions */
typedef struct {
    uint32_t refusal;
    size_t extra;
    size_t count; /* the number of pairs */
} drobisten_asked_all;

/* of a call that answers one number: 12 bytes */
typedef struct {
    uint32_t refusal;
    uint32_t extra;
    uint32_t count; /* bytes of an index or a text, or vertices of a list */
} drobisten_counted;

/* of a chain: 16 bytes */
typedef struct {
    uint32_t refusal;
    uint32_t extra;
    uint32_t yes;   /* 1: source reaches target; 0: it does not */
    uint32_t steps; /* how many groups the chain names; 0 on a no */
} drobisten_chained;

/* of a question without a reason: 12 bytes */
typedef struct {
    uint32_t refusal;
    uint32_t extra;
    uint32_t yes;
} drobisten_said;

/* of a Matrix Market text */
typedef struct {
    uint32_t refusal;
    size_t extra;
    uint32_t n;
    size_t edges;
} drobisten_matrix;


/* BUILDING. Edges lead from sources[i] to targets[i], among vertices 0 to n - 1, in any order, with repeats and loops or none. `orders` are d orders of the n vertices,
 * one behind the other; any will do, and more of them never make a question open more groups. */

/* Builds an index of form 1 or 2 into `out`; count: its bytes, at most 52 + 16n + 4 x edges + 16dn.
 * Refuses 11 (form is neither 1 nor 2), 1, 2, 3, 4, 5, 6, 7, 8, 9. work afterwards: as it was up to 7 and 11; otherwise those needed are 0. */
drobisten_counted drobisten_build(const uint32_t *sources, size_t sources_len, const uint32_t *targets, size_t targets_len, const uint32_t *orders, size_t orders_len,
                                  uint32_t *work, size_t work_len, uint8_t *out, size_t out_len, uint32_t form, uint32_t n, uint32_t d);

/* Builds an index of form 3, of the edges turned round. Refuses 1, 2, 3, 4, 5, 6, 7, 8, 9. */
drobisten_counted drobisten_build_turned(const uint32_t *sources, size_t sources_len, const uint32_t *targets, size_t targets_len, const uint32_t *orders, size_t orders_len,
                                         uint32_t *work, size_t work_len, uint8_t *out, size_t out_len, uint32_t n, uint32_t d);

/* Builds an index of form 4, of a plain hierarchy under one order. Refuses 1, 2, 3, 4 (d is not 1), 5, 6, 7, 8, 22, 9. */
drobisten_counted drobisten_build_hierarchy(const uint32_t *sources, size_t sources_len, const uint32_t *targets, size_t targets_len, const uint32_t *orders,
                                            size_t orders_len, uint32_t *work, size_t work_len, uint8_t *out, size_t out_len, uint32_t n, uint32_t d);

/* Reads a Matrix Market text, `%%MatrixMarket matrix coordinate pattern general`, comments, `N N ENTRIES`, then a `ROW COLUMN` a line, from 1: every entry is an edge, and
 * its ends are stored from 0. Refuses 18, 16 (sources or targets shorter than the entries), 1, 3 (by the bounds of form 2). Both lists are as they were with a refusal, and
 * behind the entries always. */
drobisten_matrix drobisten_read_matrix(const uint8_t *text, size_t text_len, uint32_t *sources, size_t sources_len, uint32_t *targets, size_t targets_len);

/* Writes an edge list as such a text, which reads back to the same n and edges; count: its bytes. Refuses 1, 2, 3 (by the bounds of form 2), 7, 9. */
drobisten_counted drobisten_write_matrix(const uint32_t *sources, size_t sources_len, const uint32_t *targets, size_t targets_len, uint8_t *out, size_t out_len, uint32_t n);

/* Turn an index of form 1 into form 2, and one of form 2 into form 1 where it fits; count: its bytes. There and back gives the same bytes.
 * The first refuses 10, 11, 12, 13, 15, 9; the second 10, 11, 12, 13, 6, 15, 19, 9. */
drobisten_counted drobisten_convert_up(const uint8_t *index, size_t index_len, uint8_t *marks, size_t marks_len, uint8_t *out, size_t out_len);
drobisten_counted drobisten_convert_down(const uint8_t *index, size_t index_len, uint8_t *marks, size_t marks_len, uint32_t *work, size_t work_len, uint8_t *out,
                                         size_t out_len);

/* Turn an index of form 2 into form 4, where it has one labelling and is a plain hierarchy, and one of form 4 into form 2; count: its bytes.
 * The first refuses 10, 11, 12, 13, 6, 15, 4, 22, 9; the second 10, 11, 12, 13, 6, 15, 9. */
drobisten_counted drobisten_to_hierarchy(const uint8_t *index, size_t index_len, uint8_t *marks, size_t marks_len, uint32_t *work, size_t work_len, uint8_t *out,
                                         size_t out_len);
drobisten_counted drobisten_from_hierarchy(const uint8_t *index, size_t index_len, uint8_t *marks, size_t marks_len, uint32_t *work, size_t work_len, uint8_t *out,
                                           size_t out_len);


/* OPENING: is it sound, and how large is it? Gives refusal 0 with n, k, c and d exactly where some edge list and d orders yield these very bytes. Lent no marks (marks_len
 * 0), it refuses an index whose header passes with 13, and so tells its n, unless that is 0. Refuses 10, 11, 12, 13, 6, 15. */
drobisten_opened drobisten_open(const uint8_t *index, size_t index_len, uint8_t *marks, size_t marks_len);
drobisten_opened drobisten_inspect(const uint8_t *index, size_t index_len, uint8_t *marks, size_t marks_len, uint32_t *work, size_t work_len);
drobisten_opened drobisten_inspect_turned(const uint8_t *index, size_t index_len, uint8_t *marks, size_t marks_len, uint32_t *work, size_t work_len);
drobisten_opened drobisten_inspect_hierarchy(const uint8_t *index, size_t index_len, uint8_t *marks, size_t marks_len, uint32_t *work, size_t work_len);


/* ASKING: does a path of zero or more edges lead from source to target? Of a turned index: is source fed by target? The index need not have been opened before.
 * Refuses 10, 11, 12, 13, 6, 14, 15.
 *
 * marks afterwards   refusal 0: of the first n bytes, byte i is 1 where i names an opened group (the name of a group is its smallest vertex) and 0 elsewhere;
 *                    so `opened` of them are 1
 */
drobisten_asked drobisten_ask(const uint8_t *index, size_t index_len, uint8_t *marks, size_t marks_len, uint32_t source, uint32_t target);
drobisten_asked drobisten_question(const uint8_t *index, size_t index_len, uint8_t *marks, size_t marks_len, uint32_t *work, size_t work_len, uint32_t source, uint32_t target);
drobisten_asked drobisten_question_turned(const uint8_t *index, size_t index_len, uint8_t *marks, size_t marks_len, uint32_t *work, size_t work_len, uint32_t source,
                                          uint32_t target);
drobisten_asked drobisten_question_hierarchy(const uint8_t *index, size_t index_len, uint8_t *marks, size_t marks_len, uint32_t *work, size_t work_len, uint32_t source,
                                             uint32_t target);

/* All pairs of two lists: the index is checked once, and then pair i, from sources[i] to targets[i], gets what a question gives it. Pair i has six of `answers`, from
 * 6 * i on: refusal, extra, yes, reason, opened, labelling, laid out as a drobisten_asked. So an array of these can be lent:
 *
 *     drobisten_asked answers[PAIRS];
 *     drobisten_ask_all(index, index_len, marks, marks_len, sources, PAIRS, targets, PAIRS, (uint32_t *)answers, 6 * PAIRS);
 *
 * Refuses 10, 11, 12, 13, 6, 15, 2, 16 (less than 6 answers a pair). A vertex that is n or more is refused in its own pair's answer, with 14.
 *
 * marks afterwards   refusal 0: the first n bytes are as a question leaves them for the last pair that was not refused, or 0 if there was none
 */
drobisten_asked_all drobisten_ask_all(const uint8_t *index, size_t index_len, uint8_t *marks, size_t marks_len, const uint32_t *sources, size_t sources_len,
                                      const uint32_t *targets, size_t targets_len, uint32_t *answers, size_t answers_len);
drobisten_asked_all drobisten_batch(const uint8_t *index, size_t index_len, uint8_t *marks, size_t marks_len, uint32_t *work, size_t work_len, const uint32_t *sources,
                                    size_t sources_len, const uint32_t *targets, size_t targets_len, uint32_t *answers, size_t answers_len);


/* LISTS AND CHAINS. */

/* All vertices other than the given one that it reaches, rising, and the vertex itself where it is in a loop with another; of a turned index all that reach it.
 * Refuses 10, 11, 12, 13, 6, 14, 15, 16. n numbers of `out` always do. */
drobisten_counted drobisten_list(const uint8_t *index, size_t index_len, uint8_t *marks, size_t marks_len, uint32_t *work, size_t work_len, uint32_t *out, size_t out_len,
                                 uint32_t vertex);
drobisten_counted drobisten_list_turned(const uint8_t *index, size_t index_len, uint8_t *marks, size_t marks_len, uint32_t *work, size_t work_len, uint32_t *out, size_t out_len,
                                        uint32_t vertex);

/* The names of the groups from source's to target's, each a child of the one before; a no writes nothing. Refuses 10, 11, 12, 13, 6, 14, 15, 16. n steps always do. */
drobisten_chained drobisten_chain(const uint8_t *index, size_t index_len, uint8_t *marks, size_t marks_len, uint32_t *work, size_t work_len, uint32_t *steps, size_t steps_len,
                                  uint32_t source, uint32_t target);


/* EXCEPTION LISTS, for the small sites: of every group of an index of form 1 those whose intervals lie in its own in every labelling though it does not reach them. A
 * question by them opens no group. They are a row of bytes beside the index: 32-bit numbers, k, how many entries there are, k + 1 starts, and the entries. Every call
 * sees first that they are those of the index, which takes far longer than one question's walk: they are for many pairs in one call. */

/* Builds the lists of an index; count: their bytes, 4(k + 3 + entries). Refuses 10, 11, 12, 13, 15, 9. */
drobisten_counted drobisten_build_exceptions(const uint8_t *index, size_t index_len, uint8_t *marks, size_t marks_len, uint8_t *out, size_t out_len);

/* 16 bytes */
typedef struct {
    uint32_t refusal;
    uint32_t extra;
    uint32_t groups;  /* k */
    uint32_t entries; /* of all lists together */
} drobisten_lists;

/* Are these the lists of the index? Refuses 10, 11, 12, 13, 15, 20. */
drobisten_lists drobisten_open_exceptions(const uint8_t *index, size_t index_len, const uint8_t *lists, size_t lists_len, uint8_t *marks, size_t marks_len);

/* A question by the lists: yes or no, without a reason. Refuses 10, 11, 12, 13, 15, 20, 14; marks afterwards: with 14 too the first n bytes are 0. */
drobisten_said drobisten_ask_exceptions(const uint8_t *index, size_t index_len, const uint8_t *lists, size_t lists_len, uint8_t *marks, size_t marks_len, uint32_t source,
                                        uint32_t target);

/* All pairs of two lists: index and lists are checked once. Pair i has three of `answers`, from 3 * i on, laid out as a drobisten_said.
 * Refuses 10, 11, 12, 13, 15, 20, 2, 16 (less than 3 answers a pair). A vertex that is n or more is refused in its own pair's answer, with 14. */
drobisten_asked_all drobisten_ask_all_exceptions(const uint8_t *index, size_t index_len, const uint8_t *lists, size_t lists_len, uint8_t *marks, size_t marks_len,
                                                 const uint32_t *sources, size_t sources_len, const uint32_t *targets, size_t targets_len, uint32_t *answers,
                                                 size_t answers_len);


/* ADDED EDGES, kept beside an index between two builds: 2,052 bytes, which go in and out by value; begin with all 0. */
typedef struct {
    uint32_t sources[256];
    uint32_t targets[256];
    uint32_t count; /* how many stand, 0 to 256; the pairs behind them may be anything */
} drobisten_added;

/* what adding one comes to: a refusal, or 0 and 0; and the added edges afterwards, which a refusal leaves as they were */
typedef struct {
    uint32_t refusal;
    uint32_t extra;
    drobisten_added state;
} drobisten_taken;

/* Adds an edge beside an index of n vertices. Refuses 7 (an end is n or more), 21. */
drobisten_taken drobisten_add(drobisten_added state, uint32_t n, uint32_t from, uint32_t to);

/* A question over the edges of the index and the added ones together: yes or no, without a reason. Refuses 10, 11, 12, 13, 6, 14, 15, 21, 7. */
drobisten_said drobisten_ask_added(const uint8_t *index, size_t index_len, uint8_t *marks, size_t marks_len, uint32_t *work, size_t work_len, drobisten_added state,
                                   uint32_t source, uint32_t target);


/* RULES, each resting on a vertex, and what a retrain has changed. A rule record: 12 bytes, three numbers of 4 in this order. */
typedef struct {
    uint32_t rule;   /* the rule's number: any; it is never looked at */
    uint32_t vertex; /* the vertex that the rule rests on: any number */
    uint32_t state;  /* one of the three below, or any other number, which is kept like a state that nothing touches */
} drobisten_rule;

enum {
    DROBISTEN_FRESH = 0,
    DROBISTEN_SUSPECT = 1, /* a changed vertex reaches the record's vertex */
    DROBISTEN_UNKNOWN = 2  /* the record's vertex is n or more */
};

/* 16 bytes, `extra` its last eight */
typedef struct {
    uint32_t refusal;
    size_t extra;
} drobisten_rules_settled;

/* Settles a table of rules, given the vertices that a retrain has changed: a record whose vertex is n or more becomes unknown, also where no vertex is changed; one
 * whose vertex a changed vertex reaches, by a path of zero or more edges, becomes suspect; all others keep their state. A list of at least one changed vertex, all in
 * range, gives the same table as calls for one of them at a time, in any order. The index is checked once and swept once, from all changed vertices together, and the
 * table is gone through once. Changed vertices and records come in any order, with repeats or none at all. Rule numbers and vertices are never written.
 * Refuses 10, 11, 12, 13, 6, 14 (a changed vertex), 15; any refusal leaves the table as it was. */
drobisten_rules_settled drobisten_settle_rules(const uint8_t *index, size_t index_len, const uint32_t *changed, size_t changed_len, uint8_t *marks, size_t marks_len,
                                               uint32_t *work, size_t work_len, drobisten_rule *rules, size_t rules_len);

/* The same over the vertices and the states as two lists; a state for which there is no vertex is kept. */
drobisten_rules_settled drobisten_settle_lists(const uint8_t *index, size_t index_len, const uint32_t *changed, size_t changed_len, uint8_t *marks, size_t marks_len,
                                               uint32_t *work, size_t work_len, const uint32_t *vertices, size_t vertices_len, uint32_t *states, size_t states_len);


/* THE TEXT PROGRAM: a text of edges, orders and questions in, the lines of its answers out (docs/CONTRACTS.md, "run"). Returns how many bytes it wrote; `out` has
 * DROBISTEN_MOST_OUTPUT of them. A bad text or a build that is refused gives one line, `refused`, the number and the extra number. */
enum { DROBISTEN_MOST_OUTPUT = 338582 };
size_t drobisten_run(const uint8_t *text, size_t text_len, uint8_t out[DROBISTEN_MOST_OUTPUT]);

#ifdef __cplusplus
}
#endif

#endif
