/* The twelve calls by their codes in reference/FORMAT.md, and what each may reply on any store. */
#ifndef CALLS_H
#define CALLS_H

#include <stdbool.h>

#include "row_store.h"

enum code { FRESH, CAR, CDR, CONS, SET_LEFT, SET_RIGHT, UP, DOWN, STEP, AUDIT, READ_TEXT, WRITE_TEXT, CODES };

/* The operands are p and q of reference/FORMAT.md; of a writing p is the word. */
struct call {
    enum code code;
    uint16_t p, q;
};

/* All that a call may be lent; each takes what it needs. */
struct loan {
    uint16_t *table;
    size_t table_words;
    struct row_queue *queue;
    uint16_t *scratch;
    size_t scratch_words;
    const uint8_t *text;
    size_t text_bytes;
    uint8_t *buffer;
    size_t buffer_bytes;
};

static inline struct row_reply make_call(const struct loan *lent, struct call call)
{
    uint16_t *table = lent->table;
    size_t words = lent->table_words;
    struct row_queue *queue = lent->queue;

    switch (call.code) {
    case FRESH:
        return row_fresh(table, words, queue, call.p);
    case CAR:
        return row_car(table, words, queue, call.p);
    case CDR:
        return row_cdr(table, words, queue, call.p);
    case CONS:
        return row_cons(table, words, queue, call.p, call.q);
    case SET_LEFT:
        return row_set_left(table, words, queue, call.p, call.q);
    case SET_RIGHT:
        return row_set_right(table, words, queue, call.p, call.q);
    case UP:
        return row_up(table, words, queue, call.p, call.q);
    case DOWN:
        return row_down(table, words, queue, call.p, call.q);
    case STEP:
        return row_step(table, words, queue, lent->scratch, lent->scratch_words);
    case AUDIT:
        return row_audit(table, words, queue, lent->scratch, lent->scratch_words);
    case READ_TEXT:
        return row_read_text(table, words, queue, lent->text, lent->text_bytes);
    case WRITE_TEXT:
        return row_write_text(table, words, queue, call.p, lent->buffer, lent->buffer_bytes);
    case CODES:
        break;
    }
    return (struct row_reply){0, 0, 0};
}

#define NO(number) (1u << (number))

/* The refusals that a call's questions give, as sets of numbers. */
static const unsigned refusals_of[CODES] = {
    [FRESH] = NO(1) | NO(3),
    [CAR] = NO(1) | NO(4) | NO(5) | NO(6) | NO(7) | NO(9),
    [CDR] = NO(1) | NO(4) | NO(5) | NO(6) | NO(7) | NO(9),
    [CONS] = NO(1) | NO(4) | NO(14) | NO(6) | NO(7) | NO(8) | NO(10),
    [SET_LEFT] = NO(1) | NO(4) | NO(5) | NO(14) | NO(6) | NO(7) | NO(10),
    [SET_RIGHT] = NO(1) | NO(4) | NO(5) | NO(14) | NO(6) | NO(7) | NO(10),
    [UP] = NO(1) | NO(3) | NO(4) | NO(5) | NO(6) | NO(7) | NO(9),
    [DOWN] = NO(1) | NO(3) | NO(4) | NO(5) | NO(6) | NO(7),
    [STEP] = NO(1) | NO(2),
    [AUDIT] = NO(1) | NO(2),
    [READ_TEXT] = NO(1) | NO(11) | NO(12) | NO(14) | NO(7) | NO(8),
    [WRITE_TEXT] = NO(1) | NO(4) | NO(6) | NO(12) | NO(13),
};

/* Those that the promise allows besides, on a store that is not sound: the manual has them in brackets. */
static inline unsigned allowed_refusals(enum code code)
{
    return refusals_of[code] | (code >= CAR && code <= DOWN ? NO(9) | NO(10) : 0);
}

static inline bool is_cell_of(size_t cells, unsigned word)
{
    return word >= 1 && word <= cells;
}

/* The number of an accepted row call, fresh or text read. A read or a replace may find any word in a damaged store. */
static inline bool value_fits(enum code code, unsigned number, size_t cells)
{
    switch (code) {
    case FRESH:
    case UP:
    case DOWN:
        return number == 0;
    case CAR:
    case CDR:
    case SET_LEFT:
    case SET_RIGHT:
        return true;
    case CONS:
        return is_cell_of(cells, number);
    case READ_TEXT:
        return number == ROW_NIL || is_cell_of(cells, number) || ROW_IS_ATOM(number);
    default:
        return false;
    }
}

/*
 * Whether a call may reply this: the tag is one of its tags, the number and the count are within their ranges, and the
 * words that the tag does not use are 0. Lent were a store with this C and a buffer with so many bytes of room.
 */
static inline bool reply_fits(enum code code, struct row_reply reply, size_t cells, size_t room)
{
    switch (reply.tag) {
    case ROW_VALUE:
        return value_fits(code, reply.number, cells) && reply.count == 0;
    case ROW_REFUSED:
        return reply.number < 32 && (allowed_refusals(code) & NO(reply.number)) != 0 && reply.count == 0;
    case ROW_IDLE:
        return code == STEP && reply.number == 0 && reply.count == 0;
    case ROW_APPLIED:
        return code == STEP && reply.count <= cells;
    case ROW_SOUND:
        return code == AUDIT && reply.number == 0 && reply.count == 0;
    case ROW_BROKEN:
        return code == AUDIT && reply.number >= ROW_RULE_CELLS && reply.number <= ROW_RULE_REACHED && reply.count == 0;
    case ROW_TEXT:
        return code == WRITE_TEXT && reply.number == 0 && reply.count >= 1 && reply.count <= room;
    default:
        return false;
    }
}

#endif
