/*
 * A row program to copy from: the last eight readings of a seat, in a ring of cells. Each cell has a reading in its
 * left field, nil at first, and the next cell in its right field. The program holds the cell with the oldest reading,
 * which the next one overwrites. Clipped readings are counted and not kept.
 */
#include <stdio.h>
#include <stdlib.h>

#include "row_store.h"

enum { CELLS = 16, RING = 8 };

static uint16_t table[ROW_TABLE_WORDS(CELLS)];
static struct row_queue queue;
static uint16_t scratch[ROW_SCRATCH_WORDS(CELLS)];

static unsigned packets_taken;
static size_t cells_freed;

/* What the converter gives, one reading after the other. It clips at 4,095. */
static const uint16_t converter[] = {
    812,  815,  811,  4095, 809,  2210, 2254, 2261, 4095, 4095, 2258, 2249, 2263,
    1904, 1877, 1880, 0,    0,    3,    1,    4094, 3990, 4095, 3712, 3705, 3698, 3701,
    3699, 3702, 3700, 3695, 1210, 1204, 1199, 4095, 1201, 1203, 1198, 1202, 1200,
};
enum { READINGS = sizeof converter / sizeof converter[0] };

static const char *const refusals[] = {
    [ROW_STORE_OUT_OF_RANGE] = "store out of range",
    [ROW_SCRATCH_TOO_SHORT] = "scratch too short",
    [ROW_NUMBER_OUT_OF_RANGE] = "number out of range",
    [ROW_ILLEGAL_WORD] = "illegal word",
    [ROW_NOT_A_CELL] = "not a cell",
    [ROW_NOT_HELD] = "not held",
    [ROW_QUEUE_FULL] = "queue full",
    [ROW_NO_FREE_CELL] = "no free cell",
    [ROW_HELD_COUNT_TOO_HIGH] = "held count too high",
    [ROW_TOO_MANY_POINTERS] = "too many pointers",
    [ROW_NOT_IN_NOTATION] = "not in notation",
    [ROW_TOO_DEEP] = "too deep",
    [ROW_BUFFER_TOO_SHORT] = "buffer too short",
    [ROW_CLIPPED_READING] = "clipped reading",
};

/* A reply that this program has no answer to. */
static void stop(const char *call, struct row_reply reply)
{
    if (reply.tag == ROW_REFUSED && reply.number > 0 && reply.number <= ROW_CLIPPED_READING)
        fprintf(stderr, "readings: %s was refused with %u, %s\n", call, reply.number, refusals[reply.number]);
    else
        fprintf(stderr, "readings: %s replied tag %u, number %u, count %zu\n", call, reply.tag, reply.number,
                reply.count);
    exit(EXIT_FAILURE);
}

/* The word of an accepted call. */
static uint16_t accepted(const char *call, struct row_reply reply)
{
    if (reply.tag != ROW_VALUE)
        stop(call, reply);
    return reply.number;
}

static int refused_with(struct row_reply reply, enum row_refusal refusal)
{
    return reply.tag == ROW_REFUSED && reply.number == refusal;
}

static void step_until_idle(void)
{
    for (;;) {
        struct row_reply reply = row_step(table, ROW_TABLE_WORDS(CELLS), &queue, scratch, ROW_SCRATCH_WORDS(CELLS));

        if (reply.tag == ROW_IDLE)
            return;
        if (reply.tag != ROW_APPLIED)
            stop("step", reply);
        packets_taken++;
        cells_freed += reply.count;
    }
}

/* Before each row call: a slot will be empty, so that none of them is refused with 7. */
static void make_room(void)
{
    if (queue.count >= ROW_SLOTS / 2)
        step_until_idle();
}

/* The row calls. Each refusal but the one that the caller has an answer to ends the program. */
static uint16_t cons(uint16_t left, uint16_t right)
{
    struct row_reply reply;

    make_room();
    reply = row_cons(table, ROW_TABLE_WORDS(CELLS), &queue, left, right);
    if (refused_with(reply, ROW_NO_FREE_CELL)) {
        /* Cells may have been given up whose packets still wait. */
        step_until_idle();
        reply = row_cons(table, ROW_TABLE_WORDS(CELLS), &queue, left, right);
    }
    return accepted("cons", reply);
}

static uint16_t car(uint16_t cell)
{
    make_room();
    return accepted("car", row_car(table, ROW_TABLE_WORDS(CELLS), &queue, cell));
}

static uint16_t cdr(uint16_t cell)
{
    make_room();
    return accepted("cdr", row_cdr(table, ROW_TABLE_WORDS(CELLS), &queue, cell));
}

static void set_right(uint16_t cell, uint16_t word)
{
    make_room();
    accepted("set_right", row_set_right(table, ROW_TABLE_WORDS(CELLS), &queue, cell, word));
}

static void up(uint16_t cell, uint16_t holds)
{
    make_room();
    accepted("up", row_up(table, ROW_TABLE_WORDS(CELLS), &queue, cell, holds));
}

static void down(uint16_t cell, uint16_t holds)
{
    make_room();
    accepted("down", row_down(table, ROW_TABLE_WORDS(CELLS), &queue, cell, holds));
}

/* A ring of so many cells without readings: one of them, held once. The others live on by the pointers to them. */
static uint16_t make_ring(unsigned cells)
{
    uint16_t last = cons(ROW_NIL, ROW_NIL);
    uint16_t first = last;
    unsigned made;

    up(last, 1); /* one hold to chain it with, one to close the ring with */
    for (made = 1; made < cells; made++)
        first = cons(ROW_NIL, first); /* gives up the hold of the old first, gains one of the new */
    set_right(last, first);           /* gives up the hold of the first, keeps that of the last */
    return last;
}

struct taken {
    unsigned kept, clipped, overwritten;
};

/* Puts a reading over the oldest: the cell that is the oldest then, held in place of the one before. */
static uint16_t take_reading(uint16_t oldest, uint16_t reading, struct taken *taken)
{
    struct row_reply reply;

    make_room();
    reply = row_set_left(table, ROW_TABLE_WORDS(CELLS), &queue, oldest, ROW_ATOM(reading));
    if (refused_with(reply, ROW_CLIPPED_READING)) {
        taken->clipped++; /* it tells no weight: go on with the next one */
        return oldest;
    }
    if (ROW_IS_ATOM(accepted("set_left", reply)))
        taken->overwritten++;
    taken->kept++;
    return cdr(oldest); /* moves the hold on to the next cell */
}

/* The readings, oldest first. It goes once around the ring, so that the hold is where it was. */
static void report(uint16_t oldest)
{
    uint16_t cell = oldest;

    printf("oldest first:");
    do {
        uint16_t word;

        up(cell, 1); /* car gives up one hold, cdr the other */
        word = car(cell);
        if (ROW_IS_ATOM(word))
            printf(" %u", ROW_ATOM_VALUE(word));
        cell = cdr(cell);
    } while (cell != oldest);
    printf("\n");
}

static void let_go(uint16_t ring)
{
    down(ring, 1);
    step_until_idle();
    printf("let go: %zu cells freed, %u packets taken in all\n", cells_freed, packets_taken);
}

static void audit(void)
{
    struct row_reply reply = row_audit(table, ROW_TABLE_WORDS(CELLS), &queue, scratch, ROW_SCRATCH_WORDS(CELLS));

    if (reply.tag == ROW_BROKEN) {
        fprintf(stderr, "readings: rule S%u is broken\n", reply.number);
        exit(EXIT_FAILURE);
    }
    if (reply.tag != ROW_SOUND)
        stop("audit", reply);
    printf("audit: sound\n");
}

int main(void)
{
    struct taken taken = {0, 0, 0};
    uint16_t oldest;
    size_t i;

    accepted("fresh", row_fresh(table, ROW_TABLE_WORDS(CELLS), &queue, CELLS));
    oldest = make_ring(RING);
    for (i = 0; i < READINGS; i++)
        oldest = take_reading(oldest, converter[i], &taken);
    printf("%d readings: %u kept, %u clipped, %u overwritten\n", READINGS, taken.kept, taken.clipped,
           taken.overwritten);
    report(oldest);
    let_go(oldest);
    audit();
    return EXIT_SUCCESS;
}
