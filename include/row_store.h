/*
 * The row controller's cell store, for programs in C and C++ on x86-64: the twelve calls of docs/MANUAL.md, whose words
 * these are. Link target/staticlib/libc_store.a, which ./staticlib proves and makes; it needs memcpy and memset, and
 * nothing else. examples/c/ has two programs, and run.sh there builds them.
 *
 * A store is a table and a queue, which belong together. You own both and lend them to each call; the library keeps
 * nothing between calls, so that a program may have several stores. Before a first row_fresh nothing need be true of
 * what they contain. From there on leave the writing to the calls; read what you like, such as the queue's count.
 *
 * What is assumed of the caller. The proof rests on it, and nothing checks it:
 *
 *   - a length is true: so many words or bytes may be read there, and written where the pointer is not const;
 *   - no pointer is null, also where its length is 0, and each is aligned for its type;
 *   - what is lent has been written before; zeroed memory will do;
 *   - nothing lent to a call overlaps anything else lent to it;
 *   - nobody else reads or writes what is lent before the call returns: one call at a time on a store;
 *   - the stack is deep enough for the call.
 *
 * What is given for that, whatever words, numbers and contents are lent, however damaged the store is:
 *
 *   - every call ends with a reply;
 *   - a refusal changes nothing that was lent;
 *   - nothing past the lengths is read or written, and nothing is written past the table's last cell (of row_fresh the
 *     new table's), past the first C words of the scratch, or past the text in the buffer;
 *   - reply, table, queue, scratch and buffer are what the store's one contract says, `Promise` in
 *     crates/machine/specs/Promise.antt. On a sound store that is exactly one reply and one store, and every store that
 *     calls make from an accepted fresh is sound. On a damaged one see the manual, "What you can rely on".
 */
#ifndef ROW_STORE_H
#define ROW_STORE_H

#include <stddef.h>
#include <stdint.h>

/* Words. 0 is nil, 1 to C is a cell, 32,768 to 65,535 is an atom of value word - 32,768. No other word is legal. */
#define ROW_NIL 0
#define ROW_FIRST_ATOM 32768
#define ROW_ATOM(value) ((uint16_t)(ROW_FIRST_ATOM + (value)))     /* the atom of a value, 0 to 32,767 */
#define ROW_ATOM_VALUE(word) ((uint16_t)((word) - ROW_FIRST_ATOM)) /* the value of an atom */
#define ROW_IS_ATOM(word) ((word) >= ROW_FIRST_ATOM)

#define ROW_CLIP 4095        /* an atom of this value or more is a clipped reading: no call puts it into a cell */
#define ROW_CEILING 4095     /* the most holds of a cell, pointers to it, and n of row_up and row_down */
#define ROW_MOST_CELLS 4096  /* the largest C */
#define ROW_SLOTS 64         /* of the queue */
#define ROW_MOST_TEXT 4096   /* bytes of a text that is read */
#define ROW_MOST_OPEN 32     /* brackets of a text that are open together */

/*
 * The table: C, first free cell, last free cell, then six words for each cell: left, right, root count, cell count,
 * state, name count. Cell x begins at word 3 + 6 * (x - 1). The table may be longer than its cells need.
 */
#define ROW_TABLE_WORDS(c) (3 + 6 * (size_t)(c))

/* The scratch, which row_step and row_audit work in. It may contain anything, and need not be the same each time. */
#define ROW_SCRATCH_WORDS(c) ((size_t)(c))

/* The queue: 64 slots, each with a kind and words a, b, c; the place of the oldest packet; how many packets wait. */
struct row_queue {
    uint16_t kinds[ROW_SLOTS];
    uint16_t a[ROW_SLOTS];
    uint16_t b[ROW_SLOTS];
    uint16_t c[ROW_SLOTS];
    uint16_t place;
    uint16_t count;
};

/* What a call replies. The tag says what the other two numbers are; those that it does not use are 0. */
struct row_reply {
    uint16_t tag;
    uint16_t number;
    size_t count;
};

/* No tag is 0, so that a zeroed reply that nobody filled in tells nothing. */
enum row_tag {
    ROW_VALUE = 1,   /* number: the new cell, the word read or detached, the word of a text read; else 0 */
    ROW_REFUSED = 2, /* number: the refusal's, of enum row_refusal */
    ROW_IDLE = 3,    /* no packet waits */
    ROW_APPLIED = 4, /* number: the kind of the packet taken, of enum row_kind; count: the cells freed */
    ROW_SOUND = 5,
    ROW_BROKEN = 6,  /* number: the first rule broken, of enum row_rule */
    ROW_TEXT = 7     /* count: the bytes of the text, which is now the front of the buffer */
};

/* Refusals, by the number of the question that got a "no". The manual has the questions, and what to do. */
enum row_refusal {
    ROW_STORE_OUT_OF_RANGE = 1,   /* C, a free end, the queue's place or count; the table is too short */
    ROW_SCRATCH_TOO_SHORT = 2,    /* fewer than C words */
    ROW_NUMBER_OUT_OF_RANGE = 3,  /* C is 1 to 4,096, n is 1 to 4,095 */
    ROW_ILLEGAL_WORD = 4,         /* an operand is not nil, a cell of this table or an atom */
    ROW_NOT_A_CELL = 5,           /* x is an atom, or nil where the call is no read */
    ROW_NOT_HELD = 6,             /* a cell is held less often than the call names it */
    ROW_QUEUE_FULL = 7,           /* no slot is empty, or fewer than the text has pairs: step */
    ROW_NO_FREE_CELL = 8,         /* or fewer than the text has pairs: give up holds, step until idle */
    ROW_HELD_COUNT_TOO_HIGH = 9,  /* a held count would pass 4,095 */
    ROW_TOO_MANY_POINTERS = 10,   /* the pointers to a cell would pass 4,095 */
    ROW_NOT_IN_NOTATION = 11,     /* the text is not in the notation, or has more than 4,096 bytes */
    ROW_TOO_DEEP = 12,            /* more than 32 brackets of the text are open together */
    ROW_BUFFER_TOO_SHORT = 13,    /* the text does not fit the buffer */
    ROW_CLIPPED_READING = 14,     /* an atom that was to be put into a cell has a value of 4,095 or more */
    ROW_SEAT_OUT_OF_RANGE = 15    /* a seat outside 1 to 600: the seat roster's, and no call here replies it */
};

/* The audit's rules S1 to S5, by what each is about. */
enum row_rule {
    ROW_RULE_CELLS = 1,
    ROW_RULE_FREE_CHAIN = 2,
    ROW_RULE_PACKETS = 3,
    ROW_RULE_POINTERS = 4,
    ROW_RULE_REACHED = 5
};

/* What a packet is of. On a damaged store a step may tell another number. */
enum row_kind {
    ROW_KIND_READ = 1,
    ROW_KIND_CONS = 2,
    ROW_KIND_REPLACE_LEFT = 3,
    ROW_KIND_UP = 4,
    ROW_KIND_DOWN = 5,
    ROW_KIND_REPLACE_RIGHT = 6
};

/* The archive is made for this layout. */
#ifdef __cplusplus
#define ROW_LAYOUT(fact) static_assert(fact, #fact)
#else
#define ROW_LAYOUT(fact) _Static_assert(fact, #fact)
#endif
ROW_LAYOUT(sizeof(struct row_queue) == 516);
ROW_LAYOUT(offsetof(struct row_queue, kinds) == 0);
ROW_LAYOUT(offsetof(struct row_queue, a) == 128);
ROW_LAYOUT(offsetof(struct row_queue, b) == 256);
ROW_LAYOUT(offsetof(struct row_queue, c) == 384);
ROW_LAYOUT(offsetof(struct row_queue, place) == 512);
ROW_LAYOUT(offsetof(struct row_queue, count) == 514);
ROW_LAYOUT(sizeof(struct row_reply) == 16);
ROW_LAYOUT(offsetof(struct row_reply, tag) == 0);
ROW_LAYOUT(offsetof(struct row_reply, number) == 2);
ROW_LAYOUT(offsetof(struct row_reply, count) == 8);
#undef ROW_LAYOUT

/*
 * The calls. "Asks" lists the questions in the order in which they are asked, by refusal number: the first "no" is the
 * reply, and nothing lent changes. A number in brackets is asked too but never fails on a sound store.
 *
 * A hold is a row program's right to use a cell, counted from calls and replies alone; a cell with a hold is held.
 * Nil and atoms have no holds: where an operand or a reply is one, question 6 asks nothing of it and no hold moves.
 *
 * A row call writes fields and queues a packet; the counts follow when a step takes the packet. A read of nil queues
 * none, a text read one for each of its pairs. Nobody steps for you: with 64 packets waiting the queue is full.
 */
#ifdef __cplusplus
extern "C" {
#endif

/*
 * fresh C: makes a store of C cells out of any table that is long enough, and any queue.
 * Asks: 3 (C is 1 to 4,096), 1 (of it only whether the table has 3 + 6 * C words).
 * Reply: ROW_VALUE 0.
 * Writes: the header, cells 1 to C as a free list in this order, and an empty queue.
 * Holds: set to 0 for every cell. Whatever was held is gone.
 */
struct row_reply row_fresh(uint16_t *table, size_t table_words, struct row_queue *queue, uint16_t c);

/*
 * car x, cdr x: read the left or the right field of x.
 * Asks: 1, 4 (x is legal), 5 (x is a cell), 6 (x is held), 7, 9, [10]. Of nil: 1 and 4 alone.
 * Reply: ROW_VALUE with the word read; of nil, 0.
 * Writes: name counts. Queues kind 1. Of nil: nothing at all.
 * Holds: gives up one of x, gains one of the word read. To keep x, make row_up of x by 1 first.
 */
struct row_reply row_car(uint16_t *table, size_t table_words, struct row_queue *queue, uint16_t x);
struct row_reply row_cdr(uint16_t *table, size_t table_words, struct row_queue *queue, uint16_t x);

/*
 * cons x y: makes a new cell with left x and right y.
 * Asks: 1, 4 (x and y are legal), 14 (neither is a clipped reading), 6 (each that is a cell is held; held twice where
 *       both are one cell), 7, 8 (a cell is free), [9], 10.
 * Reply: ROW_VALUE with the new cell, which is the first free cell.
 * Writes: takes that cell off the free list, and its words; name counts. Queues kind 2.
 * Holds: gives up one of x and one of y, two where both are one cell; gains one of the new cell.
 */
struct row_reply row_cons(uint16_t *table, size_t table_words, struct row_queue *queue, uint16_t x, uint16_t y);

/*
 * replace left of x by y, replace right of x by y: puts y into a field of x.
 * Asks: 1, 4 (x and y are legal), 5 (x is a cell), 14 (y is no clipped reading), 6 (x is held, and y if it is a cell;
 *       held twice where both are one cell), 7, [9], 10.
 * Reply: ROW_VALUE with the word detached, which is what the field held before.
 * Writes: the field, name counts. Queues kind 3 (left) or 6 (right).
 * Holds: gives up one of y and keeps that of x. It gains no hold of the word detached: a later step may free that cell.
 */
struct row_reply row_set_left(uint16_t *table, size_t table_words, struct row_queue *queue, uint16_t x, uint16_t y);
struct row_reply row_set_right(uint16_t *table, size_t table_words, struct row_queue *queue, uint16_t x, uint16_t y);

/*
 * up x n: gains n further holds of x.
 * Asks: 1, 3 (n is 1 to 4,095), 4 (x is legal), 5 (x is a cell), 6 (x is held at least once), 7, 9, [10].
 * Reply: ROW_VALUE 0.
 * Writes: the name count of x. Queues kind 4.
 * Holds: gains n of x.
 */
struct row_reply row_up(uint16_t *table, size_t table_words, struct row_queue *queue, uint16_t x, uint16_t n);

/*
 * down x n: gives up n holds of x.
 * Asks: 1, 3 (n is 1 to 4,095), 4 (x is legal), 5 (x is a cell), 6 (x is held at least n times), 7, [9], [10].
 * Reply: ROW_VALUE 0.
 * Writes: the name count of x. Queues kind 5.
 * Holds: gives up n of x.
 */
struct row_reply row_down(uint16_t *table, size_t table_words, struct row_queue *queue, uint16_t x, uint16_t n);

/*
 * step: takes the oldest packet, makes its count changes, and frees every cell in use that is not reached then. Freed
 * cells join the free list at its front, in ascending order.
 * Asks: 1, 2 (the scratch has C words or more), also where no packet waits.
 * Reply: ROW_IDLE; or ROW_APPLIED with the kind of the packet and how many cells were freed.
 * Writes: counts, freed cells, free ends; the queue loses its oldest packet; the first C words of the scratch become 0.
 *         Idle changes nothing, not even the scratch.
 * Holds: none moved.
 */
struct row_reply row_step(uint16_t *table, size_t table_words, struct row_queue *queue, uint16_t *scratch,
                          size_t scratch_words);

/*
 * audit: looks at the whole store, at any time, with packets waiting or without.
 * Asks: 1, 2 (the scratch has C words or more).
 * Reply: ROW_SOUND; or ROW_BROKEN with the number of the first rule broken.
 * Writes: the first C words of the scratch become 0, whatever it replies. Table and queue stand.
 * Holds: none moved.
 */
struct row_reply row_audit(const uint16_t *table, size_t table_words, const struct row_queue *queue, uint16_t *scratch,
                           size_t scratch_words);

/*
 * read a text: builds the tree that a text means, by cons. The text is a run of bytes; no 0 need stand behind it.
 * Asks: 1, 11 (the text is in the notation and has at most 4,096 bytes), 12 (at most 32 brackets are open together),
 *       14 (no atom in it is a clipped reading), 7 (a slot is empty for each of its pairs), 8 (a cell is free for
 *       each).
 * Reply: ROW_VALUE with the word: nil, the atom, or the cell of the text's first pair.
 * Writes: what a cons writes and queues, for each pair. Without pairs: nothing at all.
 * Holds: gains one of the word replied. The cells below it live on by the pointers to them.
 */
struct row_reply row_read_text(uint16_t *table, size_t table_words, struct row_queue *queue, const uint8_t *text,
                               size_t text_bytes);

/*
 * write a word: puts the text of the tree that a word opens out into at the front of the buffer, and no 0 behind it.
 * Asks: 1, 4 (the word is legal), 6 (a cell is held at least once), then 12 (at most 32 brackets are open together) or
 *       13 (the text fits the buffer), by which is met first as the text goes into the buffer byte by byte; 12 where
 *       both meet at one bracket.
 * Reply: ROW_TEXT with the text's bytes. A text of n pairs has at most 5 + 10 * n; a ring is refused.
 * Writes: nothing in the store, and nothing is queued. The buffer's bytes past the text stand.
 * Holds: none moved.
 */
struct row_reply row_write_text(const uint16_t *table, size_t table_words, const struct row_queue *queue, uint16_t word,
                                uint8_t *buffer, size_t buffer_bytes);

#ifdef __cplusplus
}
#endif

#endif
