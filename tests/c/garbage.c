/*
 * garbage SEED CALLS: so many of the twelve calls, with garbage in all that is lent. What must hold of each on any
 * store is checked: it ends; its reply is one that it may give; a refusal and an idle step change nothing; nothing is
 * touched that was not lent, nor written past what the call may write; fresh and the audit leave what they should. Each
 * call is made twice on equal contents, once with all that is lent at the end of its pages and once at their start;
 * both must give the same.
 *
 * Some stores are garbage throughout. Most are made by calls and then damaged, so that calls get past their questions.
 * At the end every refusal must have come that a call can give; how often each reply came is written.
 */
#define _DEFAULT_SOURCE /* for mmap's MAP_ANONYMOUS */

#include "contents.h"
#include "lending.h"

static struct store at_the_end, at_the_start;

static unsigned long seed, calls_wanted, calls_made;
static unsigned long replies[CODES][ROW_TEXT + 1];
static unsigned long refusals[CODES][ROW_CLIPPED_READING + 1];

/* In how many of 16 calls a step is made: without any the queue is soon full. */
static unsigned steps;

static const char *const names[CODES] = {
    [FRESH] = "fresh",
    [CAR] = "car",
    [CDR] = "cdr",
    [CONS] = "cons",
    [SET_LEFT] = "set_left",
    [SET_RIGHT] = "set_right",
    [UP] = "up",
    [DOWN] = "down",
    [STEP] = "step",
    [AUDIT] = "audit",
    [READ_TEXT] = "read_text",
    [WRITE_TEXT] = "write_text",
};

/* What is lent, and comes back. */

static void lend_bytes(struct guarded *memory, enum placement placement, const void *bytes, size_t length)
{
    place(memory, placement, length);
    memcpy(memory->bytes, bytes, length);
}

static void lend(struct store *store, enum placement placement)
{
    lend_bytes(&store->table, placement, now.table, now.table_words * sizeof(uint16_t));
    lend_bytes(&store->queue, placement, &now.queue, sizeof now.queue);
    lend_bytes(&store->scratch, placement, now.scratch, now.scratch_words * sizeof(uint16_t));
    lend_bytes(&store->text, placement, now.text, now.text_bytes);
    lend_bytes(&store->buffer, placement, now.buffer, now.buffer_bytes);
}

static void take_back(const struct store *store)
{
    memcpy(now.table, store->table.bytes, store->table.length);
    memcpy(&now.queue, store->queue.bytes, store->queue.length);
    memcpy(now.scratch, store->scratch.bytes, store->scratch.length);
    memcpy(now.buffer, store->buffer.bytes, store->buffer.length);
}

/* What must hold of a call. */

static bool same(const struct guarded *one, const struct guarded *other)
{
    return memcmp(one->bytes, other->bytes, one->length) == 0;
}

static void check_both_same(struct row_reply one, struct row_reply other)
{
    if (one.tag != other.tag || one.number != other.number || one.count != other.count)
        fail("another reply at the start of pages than at their end");
    if (!same(&at_the_end.table, &at_the_start.table) || !same(&at_the_end.queue, &at_the_start.queue) ||
        !same(&at_the_end.scratch, &at_the_start.scratch) || !same(&at_the_end.text, &at_the_start.text) ||
        !same(&at_the_end.buffer, &at_the_start.buffer))
        fail("other contents at the start of pages than at their end");
}

/* How many bytes at the front of each thing lent a call may write, where this is its reply. */
struct fronts {
    size_t table, queue, scratch, buffer;
};

static struct fronts fronts_of(struct call call, struct row_reply reply)
{
    size_t capacity = call.code == FRESH ? call.p : now.table_words == 0 ? 0 : now.table[0];
    struct fronts fronts = {0, 0, 0, 0};

    if (reply.tag == ROW_REFUSED || reply.tag == ROW_IDLE)
        return fronts;
    if (call.code == WRITE_TEXT) {
        fronts.buffer = reply.count;
        return fronts;
    }
    if (call.code != AUDIT) {
        fronts.table = ROW_TABLE_WORDS(capacity) * sizeof(uint16_t);
        fronts.queue = sizeof(struct row_queue);
    }
    if (call.code == STEP || call.code == AUDIT)
        fronts.scratch = ROW_SCRATCH_WORDS(capacity) * sizeof(uint16_t);
    return fronts;
}

static bool stands_past(size_t front, const struct guarded *after, const void *before)
{
    return front <= after->length &&
           memcmp(after->bytes + front, (const unsigned char *)before + front, after->length - front) == 0;
}

static void check_fronts(const struct store *after, struct call call, struct row_reply reply)
{
    struct fronts fronts = fronts_of(call, reply);

    if (!stands_past(fronts.table, &after->table, now.table))
        fail("words of the table were written that should stand");
    if (!stands_past(fronts.queue, &after->queue, &now.queue))
        fail("the queue was written and should stand");
    if (!stands_past(fronts.scratch, &after->scratch, now.scratch))
        fail("words of the scratch were written that should stand");
    if (!stands_past(0, &after->text, now.text))
        fail("the text was written");
    if (!stands_past(fronts.buffer, &after->buffer, now.buffer))
        fail("bytes of the buffer were written that should stand");
}

static void check_capacity(const struct store *after, struct call call, struct row_reply reply)
{
    if (now.table_words == 0)
        return;
    if (words_of(&after->table)[0] != (call.code == FRESH && reply.tag == ROW_VALUE ? call.p : now.table[0]))
        fail("C is another one");
}

/* Of fresh and the audit all is decided on any store. What a fresh makes of garbage is known word by word. */
static uint16_t fresh_word(size_t index, size_t capacity)
{
    size_t cell = (index + 3) / 6;

    if (index < 3)
        return (uint16_t)(index == 1 ? 1 : capacity);
    return (uint16_t)(index % 6 == 3 && cell < capacity ? cell + 1 : 0);
}

static void check_fresh(const struct store *after, struct call call, struct row_reply reply)
{
    static const struct row_queue empty;

    if (call.code != FRESH || reply.tag != ROW_VALUE)
        return;
    for (size_t i = 0; i < ROW_TABLE_WORDS(call.p); i++) {
        if (words_of(&after->table)[i] != fresh_word(i, call.p))
            fail("a word of the fresh table is another one");
    }
    if (memcmp(queue_of(after), &empty, sizeof empty) != 0)
        fail("the fresh queue is not empty");
}

static void check_audited_scratch(const struct store *after, struct call call, struct row_reply reply)
{
    if (call.code != AUDIT || reply.tag == ROW_REFUSED)
        return;
    for (size_t i = 0; i < now.table[0]; i++) {
        if (words_of(&after->scratch)[i] != 0)
            fail("the audit left a word in the scratch");
    }
}

static void check_packet(struct row_reply reply)
{
    if (reply.tag != ROW_APPLIED)
        return;
    if (now.queue.count == 0 || now.queue.place >= ROW_SLOTS)
        fail("a packet was taken and none waits");
    if (reply.number != now.queue.kinds[now.queue.place])
        fail("the kind is not that of the oldest packet");
}

static void count_reply(enum code code, struct row_reply reply)
{
    replies[code][reply.tag]++;
    if (reply.tag == ROW_REFUSED)
        refusals[code][reply.number]++;
}

static struct row_reply try_call(struct call call)
{
    struct row_reply reply;

    snprintf(whereabouts, sizeof whereabouts, "garbage %lu: call %lu, %s", seed, calls_made, names[call.code]);
    lend(&at_the_end, AT_THE_END);
    lend(&at_the_start, AT_THE_START);
    reply = make_guarded_call(&at_the_end, call);
    check_both_same(reply, make_guarded_call(&at_the_start, call));
    check_fronts(&at_the_end, call, reply);
    check_capacity(&at_the_end, call, reply);
    check_fresh(&at_the_end, call, reply);
    check_audited_scratch(&at_the_end, call, reply);
    check_packet(reply);
    count_reply(call.code, reply);
    take_back(&at_the_end);
    calls_made++;
    return reply;
}

/* Which calls are made. */

/* What a program would go by after this reply. */
static void learn(struct call call, struct row_reply reply)
{
    if (reply.tag != ROW_VALUE)
        return;
    if (call.code == FRESH)
        meant_cells = call.p;
    else if (is_cell_of(meant_cells, reply.number))
        known[calls_made % MOST_KNOWN] = reply.number;
}

static enum code any_code(void)
{
    /* Cons and up are here more than once, so that holds are gained as they are given up. Fresh undoes all damage. */
    static const enum code codes[] = {
        CAR, CDR, CONS, CONS, CONS, SET_LEFT, SET_RIGHT, UP, UP, DOWN, AUDIT, READ_TEXT, WRITE_TEXT,
    };

    if (one_in(100))
        return FRESH;
    if (below(16) < steps && (now.queue.count > 0 || one_in(8)))
        return STEP;
    return codes[below(sizeof codes / sizeof codes[0])];
}

static struct call any_call(void)
{
    struct call call = {any_code(), any_x(), any_y()};

    if (call.code == FRESH)
        call.p = (uint16_t)(one_in(3) ? border_word() : any_size());
    if (call.code == CONS)
        call.p = any_y();
    if (call.code == UP || call.code == DOWN)
        call.q = any_n();
    if (call.code == READ_TEXT)
        choose_text();
    if (call.code == WRITE_TEXT)
        choose_buffer();
    if ((call.code == STEP || call.code == AUDIT) && (now.scratch_words < meant_cells || one_in(8)))
        choose_scratch();
    return call;
}

/* So many calls on one store, each after some damage perhaps. A store that fails question 1 is soon left. */
static void try_calls(unsigned count, bool damaged)
{
    for (; count > 0; count--) {
        struct call call;
        struct row_reply reply;

        while (damaged && one_in(4))
            damage();
        call = any_call();
        reply = try_call(call);
        learn(call, reply);
        if (reply.tag == ROW_REFUSED && reply.number == ROW_STORE_OUT_OF_RANGE && one_in(3))
            return;
    }
}

static void try_step(void)
{
    try_call((struct call){STEP, 0, 0});
}

/* A chain of cells as long as there are free ones, at most so many: its first cell, held once, or nil. */
static uint16_t make_chain(unsigned length)
{
    uint16_t first = ROW_NIL;

    for (; length > 0; length--) {
        bool by_left = one_in(2);
        struct row_reply reply = try_call((struct call){CONS, by_left ? first : ROW_NIL, by_left ? ROW_NIL : first});

        if (reply.tag == ROW_VALUE)
            first = reply.number;
        try_step();
    }
    return first;
}

/* A chain is made, damaged perhaps, and given up: the steps have it in doubt, and mark where it is long. */
static void give_up_chain(void)
{
    uint16_t first = make_chain(within(1, meant_cells < 150 ? meant_cells : 150));

    while (one_in(2))
        damage();
    try_call((struct call){DOWN, first, 1});
    try_step();
    try_step();
}

static void make_sound(void)
{
    try_call((struct call){FRESH, (uint16_t)meant_cells, 0});
    if (one_in(4))
        give_up_chain();
    else
        try_calls(within(5, 120), false);
}

static void try_store(void)
{
    unsigned chance = below(6);

    choose_lengths();
    steps = 4 * below(3);
    if (chance > 1) {
        make_sound();
    } else {
        choose_garbage();
        if (chance == 0)
            choose_in_range();
    }
    try_calls(within(1, 60), true);
}

/* The result. */

static const char *const tags[] = {
    [ROW_VALUE] = "value",
    [ROW_REFUSED] = "refused",
    [ROW_IDLE] = "idle",
    [ROW_APPLIED] = "applied",
    [ROW_SOUND] = "sound",
    [ROW_BROKEN] = "broken",
    [ROW_TEXT] = "text",
};

static void write_counts(enum code code)
{
    printf("%s", names[code]);
    for (unsigned tag = ROW_VALUE; tag <= ROW_TEXT; tag++) {
        if (replies[code][tag] > 0)
            printf(" %s: %lu", tags[tag], replies[code][tag]);
    }
    for (unsigned number = 1; number <= ROW_CLIPPED_READING; number++) {
        if (refusals[code][number] > 0)
            printf(" NO %u: %lu", number, refusals[code][number]);
    }
    printf("\n");
}

static void check_reached(enum code code)
{
    for (unsigned number = 1; number <= ROW_CLIPPED_READING; number++) {
        if ((refusals_of[code] & NO(number)) != 0 && refusals[code][number] == 0) {
            snprintf(whereabouts, sizeof whereabouts, "garbage %lu: %s", seed, names[code]);
            fail("a refusal never came that this call can give");
        }
    }
}

int main(int count, char **arguments)
{
    if (count != 3) {
        fputs("usage: garbage SEED CALLS\n", stderr);
        return 2;
    }
    seed = strtoul(arguments[1], NULL, 10);
    calls_wanted = strtoul(arguments[2], NULL, 10);
    random_state = seed;
    watch_touches();
    while (calls_made < calls_wanted)
        try_store();
    for (unsigned code = FRESH; code < CODES; code++)
        write_counts((enum code)code);
    for (unsigned code = FRESH; code < CODES; code++)
        check_reached((enum code)code);
    return EXIT_SUCCESS;
}
