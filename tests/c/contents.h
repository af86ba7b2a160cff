/*
 * The contents that garbage.c lends, chosen at random: mostly such as get past the first questions, with all borders
 * among them.
 */
#ifndef CONTENTS_H
#define CONTENTS_H

#include <stdbool.h>
#include <stdio.h>

#include "row_store.h"

enum {
    MOST_TABLE = ROW_TABLE_WORDS(ROW_MOST_CELLS) + 100,
    MOST_SCRATCH = ROW_MOST_CELLS + 100,
    MOST_BYTES = 20000,
    MOST_KNOWN = 6,
};

/* What the next call is to be lent. */
static struct contents {
    size_t table_words, scratch_words, text_bytes, buffer_bytes;
    uint16_t table[MOST_TABLE];
    struct row_queue queue;
    uint16_t scratch[MOST_SCRATCH];
    uint8_t text[MOST_BYTES];
    uint8_t buffer[MOST_BYTES];
} now;

/* C as the table is meant to have it, and cells that calls replied last. */
static unsigned meant_cells;
static uint16_t known[MOST_KNOWN];

/* Chance. */

static uint64_t random_state;

static inline uint64_t draw(void)
{
    uint64_t x = random_state += 0x9e3779b97f4a7c15;

    x = (x ^ (x >> 30)) * 0xbf58476d1ce4e5b9;
    x = (x ^ (x >> 27)) * 0x94d049bb133111eb;
    return x ^ (x >> 31);
}

static inline unsigned below(size_t n)
{
    return (unsigned)(draw() % n);
}

static inline unsigned within(unsigned low, unsigned high)
{
    return low + below((size_t)high - low + 1);
}

static inline bool one_in(unsigned n)
{
    return below(n) == 0;
}

/* Words and numbers. */

static inline uint16_t border_word(void)
{
    static const uint16_t borders[] = {
        0, 1, 63, 64, 65, 4094, 4095, 4096, 4097, 32767, 32768, 36862, 36863, 65534, 65535,
    };

    return borders[below(sizeof borders / sizeof borders[0])];
}

static inline uint16_t any_cell(void)
{
    return (uint16_t)within(1, meant_cells);
}

static inline uint16_t any_word(void)
{
    unsigned chance = below(8);

    if (chance == 0)
        return (uint16_t)draw();
    if (chance == 1)
        return border_word();
    if (chance == 2)
        return (uint16_t)(meant_cells + below(2));
    if (chance == 3)
        return ROW_ATOM(below(5000));
    return chance == 4 ? (uint16_t)below(4) : any_cell();
}

/* A cell with a root count, if there is one near by. */
static inline uint16_t rooted_cell(void)
{
    unsigned cell = any_cell();

    for (unsigned left = 20; left > 0; left--, cell = cell % meant_cells + 1) {
        size_t root_count = ROW_TABLE_WORDS(cell - 1) + 2;

        if (root_count < now.table_words && now.table[root_count] > 0)
            break;
    }
    return (uint16_t)cell;
}

/* A word to be used as a cell: mostly one that may well be held. */
static inline uint16_t any_x(void)
{
    unsigned chance = below(16);

    if (chance == 0)
        return any_word();
    if (chance == 1)
        return ROW_NIL;
    if (chance == 2)
        return any_cell();
    return chance < 5 ? known[below(MOST_KNOWN)] : rooted_cell();
}

/* A word to be put into a cell: mostly one that takes no hold, for else none would be left soon. */
static inline uint16_t any_y(void)
{
    unsigned chance = below(16);

    if (chance == 0)
        return any_word();
    if (chance < 5)
        return any_x();
    return chance < 9 ? ROW_ATOM(below(one_in(10) ? 32768 : ROW_CLIP)) : ROW_NIL;
}

static inline uint16_t any_n(void)
{
    return one_in(10) ? border_word() : (uint16_t)within(1, one_in(3) ? 200 : 3);
}

/* Sizes and lengths. */

static inline unsigned any_size(void)
{
    unsigned chance = below(20);

    if (chance == 0)
        return within(1000, ROW_MOST_CELLS);
    if (chance == 1)
        return within(100, 999);
    return chance < 9 ? within(9, 99) : within(1, 8);
}

/* About what is needed: mostly just that, also more, one less, nothing, or anything. */
static inline size_t any_length(size_t needed, size_t most)
{
    unsigned chance = below(40);

    if (chance == 0)
        return needed - (needed > 0);
    if (chance == 1)
        return 0;
    if (chance == 2)
        return below(needed + 1);
    if (chance == 3)
        return below(8);
    if (chance == 4)
        return needed + below(most - needed + 1);
    return chance < 9 ? needed + below(10) : needed;
}

static inline void choose_scratch(void)
{
    now.scratch_words = any_length(meant_cells, MOST_SCRATCH);
    for (size_t i = 0; i < now.scratch_words; i++)
        now.scratch[i] = (uint16_t)draw();
}

static inline void choose_lengths(void)
{
    meant_cells = any_size();
    now.table_words = any_length(ROW_TABLE_WORDS(meant_cells), MOST_TABLE);
    choose_scratch();
    for (size_t i = 0; i < MOST_KNOWN; i++)
        known[i] = any_cell();
}

/* Texts and buffers. */

static inline void add_byte(char byte)
{
    if (now.text_bytes < MOST_BYTES)
        now.text[now.text_bytes++] = (uint8_t)byte;
}

static inline void add_spaces(void)
{
    while (one_in(6))
        add_byte(' ');
}

static inline void add_number(void)
{
    char digits[12];
    unsigned value = one_in(12) ? within(4090, 4100) : one_in(40) ? within(32760, 32775) : below(1000);

    snprintf(digits, sizeof digits, "%s%u", one_in(100) ? "0" : "", value);
    for (const char *digit = digits; *digit != '\0'; digit++)
        add_byte(*digit);
}

/* A datum of the manual's grammar, or nearly so, that does not go on for ever. */
static inline void add_datum(unsigned depth)
{
    if (depth == 0 || one_in(2)) {
        add_number();
        return;
    }
    add_byte('(');
    while (!one_in(4) && now.text_bytes < ROW_MOST_TEXT) {
        add_spaces();
        add_datum(depth - 1);
        add_byte(one_in(10) ? '.' : ' ');
    }
    add_byte(')');
    add_spaces();
}

static inline void add_nested(unsigned depth)
{
    for (unsigned i = 0; i < depth; i++)
        add_byte('(');
    add_number();
    for (unsigned i = 0; i < depth; i++)
        add_byte(')');
}

static inline void pad_text(size_t length)
{
    while (now.text_bytes < length)
        add_byte(' ');
}

static inline void add_text(void)
{
    unsigned chance = below(12);

    if (chance == 0) {
        while (!one_in(50))
            add_byte((char)draw());
    } else if (chance == 1) {
        add_nested(within(28, 36));
    } else if (chance == 2) {
        add_datum(3);
        pad_text(within(ROW_MOST_TEXT - 2, ROW_MOST_TEXT + 2));
    } else {
        add_datum(chance == 3 ? 40 : within(0, 5));
    }
}

static inline void choose_text(void)
{
    static const char bytes[] = "(). 0123456789\n\t\xff";

    now.text_bytes = 0;
    add_text();
    if (now.text_bytes > 0 && one_in(8))
        now.text[below(now.text_bytes)] = (uint8_t)bytes[below(sizeof bytes)];
    if (one_in(30))
        now.text_bytes -= below(now.text_bytes + 1);
}

static inline void choose_buffer(void)
{
    now.buffer_bytes = one_in(20) ? below(MOST_BYTES + 1) : one_in(3) ? below(8) : below(120);
    for (size_t i = 0; i < now.buffer_bytes; i++)
        now.buffer[i] = (uint8_t)draw();
}

/* Stores that are garbage throughout, and damage to others. */

static inline void set_word(size_t index, uint16_t word)
{
    if (index < now.table_words)
        now.table[index] = word;
}

static inline void choose_slot(size_t slot)
{
    now.queue.kinds[slot] = one_in(20) ? any_word() : (uint16_t)within(1, 6);
    now.queue.a[slot] = any_word();
    now.queue.b[slot] = any_word();
    now.queue.c[slot] = one_in(3) ? 0 : any_word();
}

static inline void choose_garbage(void)
{
    for (size_t i = 0; i < now.table_words; i++)
        now.table[i] = any_word();
    for (size_t slot = 0; slot < ROW_SLOTS; slot++)
        choose_slot(slot);
    now.queue.place = any_word();
    now.queue.count = any_word();
}

/* So that question 1 is passed, if the table is long enough. */
static inline void choose_in_range(void)
{
    set_word(0, (uint16_t)meant_cells);
    set_word(1, (uint16_t)below(meant_cells + 1));
    set_word(2, (uint16_t)below(meant_cells + 1));
    now.queue.place = (uint16_t)below(ROW_SLOTS);
    now.queue.count = (uint16_t)below(ROW_SLOTS + 1);
}

static inline void damage_header(void)
{
    if (one_in(10))
        set_word(below(3), any_word());
    else
        set_word(within(1, 2), (uint16_t)below(meant_cells + 1));
}

/* Counts near the ceiling are many: calls are to meet it. */
static inline void damage_cell(void)
{
    size_t left = ROW_TABLE_WORDS((one_in(2) ? any_cell() : rooted_cell()) - 1);

    if (one_in(4))
        set_word(left + within(2, 3), (uint16_t)within(ROW_CEILING - 2, ROW_CEILING + 1));
    else
        set_word(left + below(6), one_in(3) ? border_word() : any_word());
}

static inline void damage_queue(void)
{
    unsigned chance = below(8);

    if (chance == 0)
        now.queue.place = (uint16_t)(one_in(20) ? any_word() : below(ROW_SLOTS));
    else if (chance == 1)
        now.queue.count = (uint16_t)(one_in(20) ? any_word() : below(ROW_SLOTS + 1));
    else if (chance == 2)
        now.queue.count = (uint16_t)within(ROW_SLOTS - 3, ROW_SLOTS);
    else
        choose_slot(below(ROW_SLOTS));
}

static inline void damage(void)
{
    unsigned chance = below(8);

    if (chance == 0)
        damage_header();
    else if (chance < 3)
        damage_queue();
    else
        damage_cell();
}

#endif
