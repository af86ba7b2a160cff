/*
 * K1, the first of the store's worked cases, from C: a cell that points to another and to itself is given up, and the
 * step that takes the last packet frees both. Every reply, and the whole table at the end, must be that of the case.
 */
#include <stdio.h>
#include <stdlib.h>

#include "row_store.h"

enum { CELLS = 3 };

static uint16_t table[ROW_TABLE_WORDS(CELLS)];
static struct row_queue queue;
static uint16_t scratch[ROW_SCRATCH_WORDS(CELLS)];

static void expect(const char *call, struct row_reply reply, unsigned tag, unsigned number, size_t count)
{
    if (reply.tag != tag || reply.number != number || reply.count != count) {
        fprintf(stderr, "K1: %s replied tag %u, number %u, count %zu, and not %u, %u, %zu\n", call, reply.tag,
                reply.number, reply.count, tag, number, count);
        exit(EXIT_FAILURE);
    }
}

static void expect_step(unsigned kind, size_t freed)
{
    expect("step", row_step(table, ROW_TABLE_WORDS(CELLS), &queue, scratch, CELLS), ROW_APPLIED, kind, freed);
}

static void expect_table(const uint16_t *words)
{
    size_t i;

    for (i = 0; i < ROW_TABLE_WORDS(CELLS); i++) {
        if (table[i] != words[i]) {
            fprintf(stderr, "K1: word %zu of the table is %u, and not %u\n", i, table[i], words[i]);
            exit(EXIT_FAILURE);
        }
    }
}

int main(void)
{
    const size_t words = ROW_TABLE_WORDS(CELLS);
    const uint16_t at_the_end[ROW_TABLE_WORDS(CELLS)] = {
        3, 1, 3,          /* three cells; the free list goes from 1 to 2 to 3 */
        2, 0, 0, 0, 0, 0, /* cell 1 */
        3, 0, 0, 0, 0, 0, /* cell 2 */
        0, 0, 0, 0, 0, 0, /* cell 3 */
    };

    expect("fresh 3", row_fresh(table, words, &queue, CELLS), ROW_VALUE, 0, 0);
    expect("cons 0 32775", row_cons(table, words, &queue, ROW_NIL, ROW_ATOM(7)), ROW_VALUE, 1, 0);
    expect("cons 1 0", row_cons(table, words, &queue, 1, ROW_NIL), ROW_VALUE, 2, 0);
    expect("up 2 1", row_up(table, words, &queue, 2, 1), ROW_VALUE, 0, 0);
    expect("setr 2 2", row_set_right(table, words, &queue, 2, 2), ROW_VALUE, 0, 0);
    expect("down 2 1", row_down(table, words, &queue, 2, 1), ROW_VALUE, 0, 0);
    expect_step(ROW_KIND_CONS, 0);
    expect_step(ROW_KIND_CONS, 0);
    expect_step(ROW_KIND_UP, 0);
    expect_step(ROW_KIND_REPLACE_RIGHT, 0);
    expect_step(ROW_KIND_DOWN, 2);
    expect("step", row_step(table, words, &queue, scratch, CELLS), ROW_IDLE, 0, 0);
    expect_table(at_the_end);
    puts("K1: 12 replies and the table are as they should be");
    return EXIT_SUCCESS;
}
