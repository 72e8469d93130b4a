// The proved planner, called as firmware calls it: a line in, and an answer in text out; or a plan by portions.
#include "cabinet.h"
#include <string.h>

void answer_line(Tables *t, const char *line, uint32_t *work, Answer *answer) {
    answer->reply = hulmeide_call(t, (const uint8_t *)line, strlen(line), answer->text, sizeof answer->text, 0, work, cells_of(t));
}

size_t fill_portion(Tables *t, size_t most, uint32_t *work, Answer *answer) {
    struct hulmeide_portion_reply reply = hulmeide_portion(t, most, answer->text, sizeof answer->text, 0, work, cells_of(t));
    answer->reply = (struct hulmeide_reply){reply.number, reply.count};
    return reply.filled;
}

// The number that ends at the next comma or line feed. `at` is left after that byte.
static unsigned next_number(const uint8_t *text, size_t *at) {
    unsigned number = 0;
    while (text[*at] >= '0' && text[*at] <= '9')
        number = number * 10 + (unsigned)(text[(*at)++] - '0');
    (*at)++;
    return number;
}

// The run read off an accepted plan or check, whose lines after the first are "load,mark,state,load rule,row rule".
Outcome shown(const Answer *answer) {
    Outcome out = {0};
    const uint8_t *text = answer->text;
    const uint8_t *first_end = memchr(text, '\n', answer->reply.count);
    out.found = answer->reply.number == HULMEIDE_ACCEPTED;
    if (!out.found || first_end == NULL)
        return out;
    size_t at = (size_t)(first_end - text) + 1;
    while (at < answer->reply.count) {
        unsigned k = next_number(text, &at) - 1;
        if (next_number(text, &at) == 1)
            out.run.set = hulmeide_with_load(out.run.set, k + 1);
        out.run.states[k] = (uint8_t)next_number(text, &at);
        out.run.load_rules[k] = (uint8_t)next_number(text, &at);
        out.run.row_rules[k] = (uint8_t)next_number(text, &at);
    }
    return out;
}
