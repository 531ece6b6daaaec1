/* The rule desk's table as a CSV file: a line for each record, `rule,vertex,state`, with the state in words. It is read, settled by one call and written back whole. */
#include "tool.h"
#include <stdlib.h>
#include <string.h>

static const char *const states[] = {"fresh", "suspect", "unknown"};
static const char heading[] = "rule,vertex,state\n";

/* the number in front of `end`, which is passed over */
static bool field(const char **at, char end, uint32_t *number) {
    char word[12];
    size_t length = 0;
    while (**at >= '0' && **at <= '9' && length < 11) word[length++] = *(*at)++;
    word[length] = '\0';
    return *(*at)++ == end && number_word(word, number);
}

/* a state, as one of the three words or as a number, and the end of its line */
static bool state_field(const char **at, uint32_t *state) {
    for (uint32_t s = 0; s < 3; s++) {
        size_t length = strlen(states[s]);
        if (strncmp(*at, states[s], length) != 0 || (*at)[length] != '\n') continue;
        *at += length + 1;
        *state = s;
        return true;
    }
    return field(at, '\n', state);
}

int rules(const options *o) {
    lent l = open_file(o->words[0]);
    buffer text = read_file(o->words[1]);
    numbers changed = read_numbers(o, o->changed, 1);
    uint32_t one = o->from_one ? 1 : 0;

    char *table = memory(text.size + 2, 1);
    memcpy(table, text.bytes, text.size);
    if (text.size > 0 && table[text.size - 1] != '\n') table[text.size++] = '\n';
    size_t lines = 0, count = 0;
    for (size_t i = 0; i < text.size; i++) lines += table[i] == '\n';
    drobisten_rule *records = memory(lines, sizeof *records);
    const char *at = table;
    bool headed = strncmp(at, heading, sizeof heading - 1) == 0;
    if (headed) at += sizeof heading - 1;
    while (at < table + text.size) {
        drobisten_rule *r = records + count++;
        if (!field(&at, ',', &r->rule) || !field(&at, ',', &r->vertex) || !state_field(&at, &r->state))
            cannot("%s: line %zu is not rule,vertex,state", o->words[1], count + (headed ? 1 : 0));
        r->vertex -= one;
    }

    work_begins("settling the rules");
    drobisten_rules_settled s = drobisten_settle_rules(l.index.bytes, l.index.size, changed.numbers, changed.count, l.marks, MOST_VERTICES, l.words, MOST_WORDS, records, count);
    work_ends();
    if (s.refusal) return refused(s.refusal, s.extra);

    size_t size = 0, room = sizeof heading + 36 * count;
    char *out = memory(room, 1);
    if (headed) size += (size_t)snprintf(out, room, "%s", heading);
    for (size_t i = 0; i < count; i++) {
        drobisten_rule r = records[i];
        size += (size_t)snprintf(out + size, room - size, "%u,%u,", r.rule, r.vertex + one);
        if (r.state < 3) size += (size_t)snprintf(out + size, room - size, "%s\n", states[r.state]);
        else size += (size_t)snprintf(out + size, room - size, "%u\n", r.state);
    }
    write_file(o->out ? o->out : o->words[1], out, size);
    return DONE;
}
