/* The examples of docs/FORMAT.md, line by line from standard input, with the answers that the calls give: a form for an expression, a value for a form and
 * an assignment, a decision for two forms, an answer for a log, the next state for a state and a step. Every other line is written as it was read. */
#include "kalzunbi.h"

#include <inttypes.h>
#include <stdio.h>
#include <string.h>

#define LINE 16384

struct bytes {
    uint8_t at[KALZUNBI_LOG_MAX + 1];
    size_t length;
};

static struct bytes table, expression, form, assignment, first, second, log_bytes, state, step;

/* bytes in hexadecimal with blanks between them; what is no such byte ends them */
static void read_bytes(struct bytes *b, const char *text)
{
    unsigned byte;
    int used;
    for (b->length = 0; b->length < sizeof b->at && sscanf(text, " %2x%n", &byte, &used) == 1; text += used)
        b->at[b->length++] = (uint8_t)byte;
}

static void write_bytes(const char *key, const struct bytes *b)
{
    printf("%s", key);
    for (size_t i = 0; i < b->length; i++)
        printf(" %02X", b->at[i]);
    printf("\n");
}

static void give_form(void)
{
    int64_t length = kalzunbi_reduce(table.at, table.length, expression.at, expression.length, form.at, sizeof form.at);
    if (length < 0) {
        printf("form: R%" PRId64 "\n", -length);
        return;
    }
    form.length = (size_t)length;
    write_bytes("form:", &form);
}

static void give_value(void)
{
    int64_t v[KALZUNBI_VALUES];
    int64_t refused = kalzunbi_value(table.at, table.length, form.at, form.length, assignment.at, assignment.length, v, KALZUNBI_VALUES);
    if (refused < 0)
        printf("value: R%" PRId64 "\n", -refused);
    else
        printf("value: %" PRId64 " %" PRId64 " %" PRId64 "\n", v[0], v[1], v[2]);
}

static void give_decision(void)
{
    static uint8_t work[KALZUNBI_WORK];
    static struct bytes buffer;
    int64_t decided = kalzunbi_decide(table.at, table.length, first.at, first.length, second.at, second.length, buffer.at, sizeof buffer.at, work, sizeof work);
    buffer.length = 3 * table.length;
    if (decided < 0)
        printf("decision: R%" PRId64 "\n", -decided);
    else if (decided == 0)
        printf("decision: holds\n");
    else
        write_bytes("decision: differs", &buffer);
}

static void give_answer(void)
{
    uint64_t places[3];
    int64_t checked = kalzunbi_check(table.at, table.length, log_bytes.at, log_bytes.length, places, 3);
    if (checked < 0)
        printf("answer: R%" PRId64 " %" PRId64 "\n", KALZUNBI_CHECK_NUMBER(checked), KALZUNBI_CHECK_STEP(checked));
    else
        printf("answer: accepted %" PRIu64 " %" PRIu64 " %" PRIu64 "\n", places[0], places[1], places[2]);
}

static void give_next(void)
{
    static struct bytes next;
    int64_t length = kalzunbi_add(state.at, state.length, step.at, step.length, next.at, sizeof next.at);
    next.length = length < 0 ? 0 : (size_t)length;
    if (length < 0)
        printf("next: R%" PRId64 "\n", -length);
    else
        write_bytes("next:", &next);
}

/* a table begins an example */
static void take(const char *key, const char *text)
{
    struct bytes *read = !strcmp(key, "table:") ? &table : !strcmp(key, "expression:") ? &expression : !strcmp(key, "form:") ? &form
                       : !strcmp(key, "assignment:") ? &assignment : !strcmp(key, "first:") ? &first : !strcmp(key, "second:") ? &second
                       : !strcmp(key, "log:") ? &log_bytes : !strcmp(key, "state:") ? &state : !strcmp(key, "step:") ? &step : NULL;
    if (read == &table)
        expression.length = form.length = assignment.length = first.length = second.length = log_bytes.length = 0;
    if (read == &form && expression.length > 0)
        give_form();
    else if (read) {
        read_bytes(read, text);
        write_bytes(key, read);
    } else if (!strcmp(key, "value:"))
        give_value();
    else if (!strcmp(key, "decision:"))
        give_decision();
    else if (!strcmp(key, "next:"))
        give_next();
    else
        give_answer();
}

int main(void)
{
    static char line[LINE];
    while (fgets(line, sizeof line, stdin)) {
        char *text = strchr(line, ' ');
        if (!text)
            return 1;
        *text = '\0';
        take(line, text + 1);
    }
    return 0;
}
