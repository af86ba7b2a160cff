/*
 * Rounds of up, step, down and step, called from C: bench/run.sh sets them against the same calls inside a Rattle
 * program, crates/up_and_step. The input is the number of rounds, the output how many of their calls were done.
 */
#include "row_store.h"

#include <stdbool.h>
#include <stdio.h>
#include <string.h>

#define CELLS 64
#define INPUT_BYTES 12 /* one byte too many tells that the input is no number */

static uint16_t table[ROW_TABLE_WORDS(CELLS)];
static uint16_t scratch[ROW_SCRATCH_WORDS(CELLS)];
static struct row_queue queue;

/* Neither refused nor idle. */
static bool done(struct row_reply reply)
{
    return reply.tag == ROW_VALUE || reply.tag == ROW_APPLIED;
}

static struct row_reply step(void)
{
    return row_step(table, ROW_TABLE_WORDS(CELLS), &queue, scratch, ROW_SCRATCH_WORDS(CELLS));
}

/* A store of one held cell, and nothing waiting. */
static void begin(void)
{
    row_fresh(table, ROW_TABLE_WORDS(CELLS), &queue, CELLS);
    row_cons(table, ROW_TABLE_WORDS(CELLS), &queue, 0, 0);
    step();
}

/* How many calls of so many rounds are done. */
static uint64_t run(uint32_t rounds)
{
    uint64_t count = 0;
    for (uint32_t i = 0; i < rounds; i++) {
        count += done(row_up(table, ROW_TABLE_WORDS(CELLS), &queue, 1, 1));
        count += done(step());
        count += done(row_down(table, ROW_TABLE_WORDS(CELLS), &queue, 1, 1));
        count += done(step());
    }
    return count;
}

/* A number in base ten without leading zeros that fits 32 bits. */
static bool number(const char *digits, size_t count, uint32_t *value)
{
    uint64_t sum = 0;
    if (count == 0 || (digits[0] == '0' && count > 1))
        return false;
    for (size_t i = 0; i < count; i++) {
        if (digits[i] < '0' || digits[i] > '9')
            return false;
        sum = 10 * sum + (uint64_t)(digits[i] - '0');
    }
    *value = (uint32_t)sum;
    return sum <= UINT32_MAX;
}

int main(void)
{
    char input[INPUT_BYTES];
    uint32_t rounds;
    size_t bytes = fread(input, 1, INPUT_BYTES, stdin);
    const char *end = memchr(input, '\n', bytes);
    size_t digits = end ? (size_t)(end - input) : bytes;
    if (bytes - digits > 1 || !number(input, digits, &rounds)) {
        puts("BAD");
        return 0;
    }
    begin();
    printf("%llu\n", (unsigned long long)run(rounds));
    return 0;
}
