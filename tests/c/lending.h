/* A call on guarded memory: what it may only read can be read only, and its reply must be one that it may give. */
#ifndef LENDING_H
#define LENDING_H

#include <signal.h>

#include "calls.h"
#include "guarded.h"

/* Where a program is, for messages. */
static char whereabouts[64];

static inline void fail(const char *what)
{
    fflush(stdout);
    fprintf(stderr, "%s: %s\n", whereabouts, what);
    exit(EXIT_FAILURE);
}

static inline void tell_touch(int number)
{
    static const char what[] = ": memory that was not lent was touched\n";

    (void)number;
    if (write(STDERR_FILENO, whereabouts, strlen(whereabouts)) < 0 || write(STDERR_FILENO, what, sizeof what - 1) < 0)
        _exit(2);
    _exit(EXIT_FAILURE);
}

/* From here on the touch of a guard page, or the writing of what can be read only, ends the program with a message. */
static inline void watch_touches(void)
{
    if (signal(SIGSEGV, tell_touch) == SIG_ERR || signal(SIGBUS, tell_touch) == SIG_ERR)
        system_failed("signal");
}

/* All that a call may be lent. */
struct store {
    struct guarded table, queue, scratch, text, buffer;
};

static inline struct row_queue *queue_of(const struct store *store)
{
    return (struct row_queue *)(void *)store->queue.bytes;
}

/* C as it stands in the table, of any length. */
static inline size_t cells_in(const struct store *store)
{
    return word_count(&store->table) == 0 ? 0 : words_of(&store->table)[0];
}

static inline struct loan loan_of(const struct store *store)
{
    return (struct loan){
        .table = words_of(&store->table),
        .table_words = word_count(&store->table),
        .queue = queue_of(store),
        .scratch = words_of(&store->scratch),
        .scratch_words = word_count(&store->scratch),
        .text = store->text.bytes,
        .text_bytes = store->text.length,
        .buffer = store->buffer.bytes,
        .buffer_bytes = store->buffer.length,
    };
}

/* What the call's parameters have as const. */
static inline void allow_writing_of_const(struct store *store, enum code code, bool allowed)
{
    if (code == AUDIT || code == WRITE_TEXT) {
        allow_writing(&store->table, allowed);
        allow_writing(&store->queue, allowed);
    }
    if (code == READ_TEXT)
        allow_writing(&store->text, allowed);
}

static inline bool all_filling_stands(const struct store *store)
{
    return filling_stands(&store->table) && filling_stands(&store->queue) && filling_stands(&store->scratch) &&
           filling_stands(&store->text) && filling_stands(&store->buffer);
}

static inline struct row_reply make_guarded_call(struct store *store, struct call call)
{
    struct loan lent = loan_of(store);
    size_t cells = cells_in(store);
    struct row_reply reply;

    allow_writing_of_const(store, call.code, false);
    reply = make_call(&lent, call);
    allow_writing_of_const(store, call.code, true);
    if (!reply_fits(call.code, reply, cells, store->buffer.length))
        fail("a reply that this call may not give");
    if (!all_filling_stands(store))
        fail("bytes beside what was lent were written");
    return reply;
}

#endif
