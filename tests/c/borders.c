/*
 * Each number that the header names, met by the library: a constant at its border and one past it, and each tag, refusal
 * (but the seat roster's), rule and kind by a call that must reply it. The cases are those of document 01 and of the requests A4, A5 and A6.
 */
#include <stdio.h>
#include <stdlib.h>
#include <string.h>

#include "row_store.h"

static uint16_t table[ROW_TABLE_WORDS(ROW_MOST_CELLS)];
static struct row_queue queue;
static uint16_t scratch[ROW_SCRATCH_WORDS(ROW_MOST_CELLS)];
static size_t words; /* of the table, as lent */

static void expect(const char *what, struct row_reply reply, unsigned tag, unsigned number, size_t count)
{
    if (reply.tag != tag || reply.number != number || reply.count != count) {
        fprintf(stderr, "%s: tag %u, number %u, count %zu, and not %u, %u, %zu\n", what, reply.tag, reply.number, reply.count,
                tag, number, count);
        exit(EXIT_FAILURE);
    }
}

static void value(const char *what, struct row_reply reply, unsigned word)
{
    expect(what, reply, ROW_VALUE, word, 0);
}

static void refused(const char *what, struct row_reply reply, enum row_refusal refusal)
{
    expect(what, reply, ROW_REFUSED, refusal, 0);
}

static struct row_reply fresh(unsigned cells)
{
    words = ROW_TABLE_WORDS(cells);
    return row_fresh(table, words, &queue, (uint16_t)cells);
}

static struct row_reply cons(unsigned x, unsigned y)
{
    return row_cons(table, words, &queue, (uint16_t)x, (uint16_t)y);
}

static struct row_reply up(unsigned x, unsigned n)
{
    return row_up(table, words, &queue, (uint16_t)x, (uint16_t)n);
}

static struct row_reply down(unsigned x, unsigned n)
{
    return row_down(table, words, &queue, (uint16_t)x, (uint16_t)n);
}

static struct row_reply step(void)
{
    return row_step(table, words, &queue, scratch, ROW_SCRATCH_WORDS(table[0]));
}

static struct row_reply audit(void)
{
    return row_audit(table, words, &queue, scratch, ROW_SCRATCH_WORDS(table[0]));
}

static struct row_reply read_text(const char *text, size_t bytes)
{
    return row_read_text(table, words, &queue, (const uint8_t *)text, bytes);
}

/* A store of so many cells whose first is held once, has nil and the atom of 7, and waits for nothing. */
static void one_cell(unsigned cells)
{
    value("fresh", fresh(cells), 0);
    value("cons", cons(ROW_NIL, ROW_ATOM(7)), 1);
    expect("step", step(), ROW_APPLIED, ROW_KIND_CONS, 0);
}

static void sizes(void)
{
    value("the largest C", fresh(ROW_MOST_CELLS), 0);
    refused("a larger C", row_fresh(table, words, &queue, ROW_MOST_CELLS + 1), ROW_NUMBER_OUT_OF_RANGE);
    refused("a table one word short", row_fresh(table, ROW_TABLE_WORDS(5) - 1, &queue, 5), ROW_STORE_OUT_OF_RANGE);
    value("a table just long enough", row_fresh(table, ROW_TABLE_WORDS(5), &queue, 5), 0);
    words = ROW_TABLE_WORDS(5);
    value("cons", cons(ROW_NIL, ROW_NIL), 1);
    refused("a scratch one word short", row_step(table, words, &queue, scratch, ROW_SCRATCH_WORDS(5) - 1),
            ROW_SCRATCH_TOO_SHORT);
    expect("a scratch just long enough", row_step(table, words, &queue, scratch, ROW_SCRATCH_WORDS(5)), ROW_APPLIED,
           ROW_KIND_CONS, 0);
    expect("no packet waits", step(), ROW_IDLE, 0, 0);
}

static void operands(void)
{
    one_cell(3);
    refused("a word past the cells", cons(4, ROW_NIL), ROW_ILLEGAL_WORD);
    refused("the word below the atoms", cons(ROW_FIRST_ATOM - 1, ROW_NIL), ROW_ILLEGAL_WORD);
    refused("a read of an atom", row_car(table, words, &queue, ROW_FIRST_ATOM), ROW_NOT_A_CELL);
    refused("a free cell", cons(2, ROW_NIL), ROW_NOT_HELD);
    refused("n is 0", up(1, 0), ROW_NUMBER_OUT_OF_RANGE);
    refused("n is past the ceiling", up(1, ROW_CEILING + 1), ROW_NUMBER_OUT_OF_RANGE);
    refused("a clipped reading", cons(ROW_ATOM(ROW_CLIP), ROW_NIL), ROW_CLIPPED_READING);
    value("the largest reading that is not", cons(ROW_ATOM(ROW_CLIP - 1), ROW_NIL), 2);
    value("it is read", row_car(table, words, &queue, 2), ROW_ATOM(ROW_CLIP - 1));
}

static void ceilings(void)
{
    unsigned cells;

    one_cell(3);
    value("holds up to the ceiling", up(1, ROW_CEILING - 1), 0);
    refused("one hold more", up(1, 1), ROW_HELD_COUNT_TOO_HIGH);
    one_cell(ROW_MOST_CELLS);
    for (cells = 1; cells < ROW_MOST_CELLS; cells++) {
        value("up", up(1, 1), 0);
        value("a pointer more", cons(1, ROW_NIL), cells + 1);
        expect("step", step(), ROW_APPLIED, ROW_KIND_UP, 0);
        expect("step", step(), ROW_APPLIED, ROW_KIND_CONS, 0);
    }
    value("up", up(1, 1), 0);
    refused("a pointer past the ceiling", row_set_right(table, words, &queue, 2, 1), ROW_TOO_MANY_POINTERS);
    refused("no cell free", cons(ROW_NIL, ROW_NIL), ROW_NO_FREE_CELL);
}

static void slots(void)
{
    unsigned i;

    one_cell(3);
    for (i = 0; i < ROW_SLOTS; i++)
        value("up", up(1, 1), 0);
    refused("a packet more", up(1, 1), ROW_QUEUE_FULL);
}

static void kinds(void)
{
    one_cell(3);
    value("up", up(1, 3), 0);
    expect("an up is taken", step(), ROW_APPLIED, ROW_KIND_UP, 0);
    value("down", down(1, 1), 0);
    expect("a down is taken", step(), ROW_APPLIED, ROW_KIND_DOWN, 0);
    value("cdr", row_cdr(table, words, &queue, 1), ROW_ATOM(7));
    expect("a read is taken", step(), ROW_APPLIED, ROW_KIND_READ, 0);
    value("left", row_set_left(table, words, &queue, 1, ROW_ATOM(8)), ROW_NIL);
    expect("a replace of the left is taken", step(), ROW_APPLIED, ROW_KIND_REPLACE_LEFT, 0);
    value("right", row_set_right(table, words, &queue, 1, ROW_NIL), ROW_ATOM(7));
    expect("a replace of the right is taken", step(), ROW_APPLIED, ROW_KIND_REPLACE_RIGHT, 0);
    value("down", down(1, 2), 0);
    expect("the last hold was given up", step(), ROW_APPLIED, ROW_KIND_DOWN, 1);
}

/* One cell's word changed: 0 is its left, 1 its right, then root count, cell count, state and name count. */
static struct row_reply audit_with(unsigned cell, unsigned field, uint16_t word)
{
    one_cell(3);
    table[ROW_TABLE_WORDS(cell - 1) + field] = word;
    return audit();
}

static void rules(void)
{
    one_cell(3);
    expect("a sound store", audit(), ROW_SOUND, 0, 0);
    expect("a state that is none", audit_with(1, 4, 2), ROW_BROKEN, ROW_RULE_CELLS, 0);
    expect("the free list ends early", audit_with(2, 0, 0), ROW_BROKEN, ROW_RULE_FREE_CHAIN, 0);
    expect("a name that no packet gives", audit_with(1, 5, 1), ROW_BROKEN, ROW_RULE_PACKETS, 0);
    expect("a pointer that no field has", audit_with(1, 3, 1), ROW_BROKEN, ROW_RULE_POINTERS, 0);
    expect("a cell in use without a hold", audit_with(1, 2, 0), ROW_BROKEN, ROW_RULE_REACHED, 0);
}

static char long_text[ROW_MOST_TEXT + 1];

static void texts(void)
{
    uint8_t buffer[8];
    char deep[2 * (ROW_MOST_OPEN + 1)];

    one_cell(ROW_SLOTS);
    memset(long_text, ' ', sizeof long_text);
    memcpy(long_text, "()", 2);
    value("a text of the most bytes", read_text(long_text, ROW_MOST_TEXT), ROW_NIL);
    refused("a byte more", read_text(long_text, ROW_MOST_TEXT + 1), ROW_NOT_IN_NOTATION);
    memset(deep, '(', ROW_MOST_OPEN + 1);
    memset(deep + ROW_MOST_OPEN + 1, ')', ROW_MOST_OPEN + 1);
    refused("a bracket more", read_text(deep, sizeof deep), ROW_TOO_DEEP);
    /* Each list but the innermost, (), has one pair: the last cell made is the outermost's. */
    value("the most brackets open", read_text(deep + 1, sizeof deep - 2), 1 + ROW_MOST_OPEN - 1);
    expect("its text fits no eight bytes", row_write_text(table, words, &queue, ROW_MOST_OPEN, buffer, sizeof buffer), ROW_REFUSED,
           ROW_BUFFER_TOO_SHORT, 0);
    expect("that of the first cell does", row_write_text(table, words, &queue, 1, buffer, sizeof buffer), ROW_TEXT, 0, 8);
    if (memcmp(buffer, "(() . 7)", 8) != 0) {
        fprintf(stderr, "the text of the first cell is another\n");
        exit(EXIT_FAILURE);
    }
}

int main(void)
{
    sizes();
    operands();
    ceilings();
    slots();
    kinds();
    rules();
    texts();
    puts("the library replies every number of the header where it should");
    return EXIT_SUCCESS;
}
