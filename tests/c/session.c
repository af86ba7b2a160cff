/*
 * The session program over the archive: one call a line from standard input, one reply a line to standard output, as
 * the manual has it under "The session program".
 */
#include <inttypes.h>
#include <stdio.h>
#include <stdlib.h>
#include <string.h>

#include "calls.h"

enum { MOST_LINE = 80 };

static uint16_t table[ROW_TABLE_WORDS(ROW_MOST_CELLS)];
static struct row_queue queue;
static uint16_t scratch[ROW_SCRATCH_WORDS(ROW_MOST_CELLS)];

/* A session has no texts. */
static const struct loan lent = {
    .table = table,
    .table_words = ROW_TABLE_WORDS(ROW_MOST_CELLS),
    .queue = &queue,
    .scratch = scratch,
    .scratch_words = ROW_SCRATCH_WORDS(ROW_MOST_CELLS),
};

/* The calls of a session, by their names there. */
static const struct name {
    const char *text;
    enum code code;
    unsigned operands;
} names[] = {
    {"fresh", FRESH, 1},
    {"car", CAR, 1},
    {"cdr", CDR, 1},
    {"cons", CONS, 2},
    {"setl", SET_LEFT, 2},
    {"setr", SET_RIGHT, 2},
    {"up", UP, 2},
    {"down", DOWN, 2},
    {"step", STEP, 0},
};

/* The next line, which may contain any bytes: false where there is none. Of a long line one byte too many is kept. */
static bool read_line(char *line, size_t *length)
{
    int byte = getchar();

    if (byte == EOF)
        return false;
    for (*length = 0; byte != EOF && byte != '\n'; byte = getchar()) {
        if (*length <= MOST_LINE)
            line[(*length)++] = (char)byte;
    }
    return true;
}

/* A space, then 0 to 65,535 in base ten without leading zeros: where it ends, or null. */
static const char *read_operand(const char *at, const char *end, uint16_t *operand)
{
    uint32_t value = 0;
    const char *digits;

    if (at == end || *at != ' ')
        return NULL;
    for (digits = ++at; at < end && *at >= '0' && *at <= '9'; at++) {
        value = value * 10 + (uint32_t)(*at - '0');
        if (value > UINT16_MAX || (at > digits && *digits == '0'))
            return NULL;
    }
    *operand = (uint16_t)value;
    return at > digits ? at : NULL;
}

static const struct name *name_of(const char *line, size_t length)
{
    const char *space = memchr(line, ' ', length);
    size_t own = space == NULL ? length : (size_t)(space - line);
    size_t i;

    for (i = 0; i < sizeof names / sizeof names[0]; i++) {
        if (strlen(names[i].text) == own && memcmp(names[i].text, line, own) == 0)
            return &names[i];
    }
    return NULL;
}

/* The call of a line: false where the line is bad. */
static bool read_call(const char *line, size_t length, struct call *call)
{
    const struct name *name = length > MOST_LINE ? NULL : name_of(line, length);
    const char *end = line + length;
    const char *at;

    if (name == NULL)
        return false;
    *call = (struct call){name->code, 0, 0};
    at = line + strlen(name->text);
    if (name->operands > 0)
        at = read_operand(at, end, &call->p);
    if (name->operands > 1 && at != NULL)
        at = read_operand(at, end, &call->q);
    return at == end;
}

static void write_reply(uint64_t number, struct row_reply reply)
{
    switch (reply.tag) {
    case ROW_VALUE:
        printf("%" PRIu64 " OK %u\n", number, reply.number);
        break;
    case ROW_APPLIED:
        printf("%" PRIu64 " OK %zu\n", number, reply.count);
        break;
    case ROW_REFUSED:
        printf("%" PRIu64 " NO %u\n", number, reply.number);
        break;
    default:
        printf("%" PRIu64 " IDLE\n", number);
    }
}

static void serve(uint64_t number, struct call call)
{
    size_t cells = table[0];
    struct row_reply reply = make_call(&lent, call);

    if (!reply_fits(call.code, reply, cells, 0)) {
        fprintf(stderr, "session: line %" PRIu64 ": tag %u, number %u, count %zu is no reply to this call\n", number,
                reply.tag, reply.number, reply.count);
        exit(EXIT_FAILURE);
    }
    write_reply(number, reply);
}

int main(void)
{
    char line[MOST_LINE + 1];
    size_t length;
    uint64_t number = 0;
    struct call call;

    while (read_line(line, &length)) {
        number++;
        if (read_call(line, length, &call))
            serve(number, call);
        else
            printf("%" PRIu64 " BAD\n", number);
    }
    if (ferror(stdin) || fflush(stdout) != 0 || ferror(stdout)) {
        fputs("session: reading or writing failed\n", stderr);
        return EXIT_FAILURE;
    }
    return EXIT_SUCCESS;
}
