/*
 * Lists of stores and calls over the archive: what `reference states` and `reference text` read and write, see
 * reference/FORMAT.md. The argument says where all that is lent lies: at the `end` of its pages or at their `start`.
 * A call that the papers do not decide is made all the same, to see that it ends and keeps to what was lent.
 */
#define _DEFAULT_SOURCE /* for mmap's MAP_ANONYMOUS */

#include "lending.h"

/* The longest table, scratch, text or buffer. */
enum { MOST_LENGTH = 16777216 };

static enum placement placement;
static struct store store;
static unsigned long line = 1;

static void note_line(void)
{
    snprintf(whereabouts, sizeof whereabouts, "states: line %lu", line);
}

/* The next byte that is neither a space nor a line feed, or EOF. */
static int next_byte(void)
{
    int byte = getchar();

    while (byte == ' ' || byte == '\n') {
        line += byte == '\n';
        byte = getchar();
    }
    return byte;
}

static size_t read_number(size_t most)
{
    int byte = next_byte();
    size_t value = 0;

    if (byte < '0' || byte > '9')
        fail("number expected");
    for (; byte >= '0' && byte <= '9'; byte = getchar()) {
        value = value * 10 + (size_t)(byte - '0');
        if (value > most)
            fail("number too large");
    }
    ungetc(byte, stdin);
    return value;
}

static uint16_t read_word(void)
{
    return (uint16_t)read_number(UINT16_MAX);
}

/* A length, the number of runs, then each run's length and word. */
static void read_runs(struct guarded *memory)
{
    size_t length = read_number(MOST_LENGTH);
    size_t runs = read_number(length);
    size_t at = 0;

    place(memory, placement, length * sizeof(uint16_t));
    for (; runs > 0; runs--) {
        size_t end = at + read_number(length - at);
        uint16_t word = read_word();

        while (at < end)
            words_of(memory)[at++] = word;
    }
    if (at != length)
        fail("runs shorter than the length");
}

static void empty_queue(void)
{
    place(&store.queue, placement, sizeof(struct row_queue));
    memset(store.queue.bytes, 0, sizeof(struct row_queue));
}

static void read_queue(void)
{
    struct row_queue *queue;
    size_t slots;

    empty_queue();
    queue = queue_of(&store);
    queue->place = read_word();
    queue->count = read_word();
    for (slots = read_number(ROW_SLOTS); slots > 0; slots--) {
        size_t slot = read_number(ROW_SLOTS - 1);

        queue->kinds[slot] = read_word();
        queue->a[slot] = read_word();
        queue->b[slot] = read_word();
        queue->c[slot] = read_word();
    }
}

static void read_store(void)
{
    read_runs(&store.table);
    empty_queue();
    place(&store.scratch, placement, 0);
}

static void change_word(void)
{
    size_t index = read_number(MOST_LENGTH);
    uint16_t word = read_word();

    if (index >= word_count(&store.table))
        fail("index outside the table");
    words_of(&store.table)[index] = word;
}

static void read_text(void)
{
    size_t i;

    place(&store.text, placement, read_number(MOST_LENGTH));
    for (i = 0; i < store.text.length; i++)
        store.text.bytes[i] = (unsigned char)read_number(UINT8_MAX);
}

/* The call of a line, with its text or buffer placed. The line is written again, but for the bytes of a text. */
static struct call read_call(int letter)
{
    struct call call = {(enum code)read_number(CODES - 1), 0, 0};

    printf("%c %u", letter, (unsigned)call.code);
    if (call.code == READ_TEXT) {
        read_text();
        printf(" %zu", store.text.length);
    } else if (call.code == WRITE_TEXT) {
        unsigned filling;

        call.p = read_word();
        place(&store.buffer, placement, read_number(MOST_LENGTH));
        filling = (unsigned)read_number(UINT8_MAX);
        memset(store.buffer.bytes, (int)filling, store.buffer.length);
        printf(" %u %zu %u", call.p, store.buffer.length, filling);
    } else {
        call.p = read_word();
        call.q = read_word();
        printf(" %u %u", call.p, call.q);
    }
    return call;
}

static void write_reply(struct row_reply reply)
{
    switch (reply.tag) {
    case ROW_VALUE:
        printf(" OK %u\n", reply.number);
        break;
    case ROW_TEXT:
        printf(" OK %zu\n", reply.count);
        break;
    case ROW_REFUSED:
        printf(" NO %u\n", reply.number);
        break;
    case ROW_IDLE:
        printf(" IDLE\n");
        break;
    case ROW_APPLIED:
        printf(" TAKEN %u %zu\n", reply.number, reply.count);
        break;
    case ROW_SOUND:
        printf(" SOUND\n");
        break;
    default:
        printf(" BROKEN %u\n", reply.number);
    }
}

/* The elements of memory, of one byte or two. */
static unsigned element(const struct guarded *memory, size_t size, size_t i)
{
    return size == 1 ? memory->bytes[i] : words_of(memory)[i];
}

/* Where the run that begins at an element ends. */
static size_t run_end(const struct guarded *memory, size_t size, size_t start)
{
    size_t end = start + 1;

    while (end < memory->length / size && element(memory, size, end) == element(memory, size, start))
        end++;
    return end;
}

static void write_runs(char letter, const struct guarded *memory, size_t size)
{
    size_t length = memory->length / size;
    size_t runs = 0;
    size_t at, end;

    for (at = 0; at < length; at = run_end(memory, size, at))
        runs++;
    printf("%c %zu %zu", letter, length, runs);
    for (at = 0; at < length; at = end) {
        end = run_end(memory, size, at);
        printf(" %zu %u", end - at, element(memory, size, at));
    }
    printf("\n");
}

static bool slot_is_zero(const struct row_queue *queue, size_t slot)
{
    return (queue->kinds[slot] | queue->a[slot] | queue->b[slot] | queue->c[slot]) == 0;
}

static void write_queue(const struct row_queue *queue)
{
    size_t filled = 0;
    size_t slot;

    for (slot = 0; slot < ROW_SLOTS; slot++)
        filled += !slot_is_zero(queue, slot);
    printf("Q %u %u %zu", queue->place, queue->count, filled);
    for (slot = 0; slot < ROW_SLOTS; slot++) {
        if (!slot_is_zero(queue, slot))
            printf(" %zu %u %u %u %u", slot, queue->kinds[slot], queue->a[slot], queue->b[slot], queue->c[slot]);
    }
    printf("\n");
}

static uint64_t mixed(uint64_t sum, uint64_t number)
{
    return (65599 * sum + number + 1) % 4294967291;
}

static uint64_t mixed_words(uint64_t sum, const struct guarded *memory)
{
    size_t i;

    sum = mixed(sum, word_count(memory));
    for (i = 0; i < word_count(memory); i++)
        sum = mixed(sum, words_of(memory)[i]);
    return sum;
}

static uint64_t checksum(void)
{
    const struct row_queue *queue = queue_of(&store);
    uint64_t sum = mixed_words(0, &store.table);
    size_t slot;

    sum = mixed(mixed(sum, queue->place), queue->count);
    for (slot = 0; slot < ROW_SLOTS; slot++) {
        sum = mixed(mixed(sum, queue->kinds[slot]), queue->a[slot]);
        sum = mixed(mixed(sum, queue->b[slot]), queue->c[slot]);
    }
    return mixed_words(sum, &store.scratch);
}

static void answer(int letter)
{
    struct call call = read_call(letter);
    struct row_reply reply = make_guarded_call(&store, call);

    if (letter == 'U') {
        printf(" UNDECIDED\n");
        return;
    }
    write_reply(reply);
    if (letter == 'C') {
        write_runs('T', &store.table, sizeof(uint16_t));
        write_queue(queue_of(&store));
        write_runs('S', &store.scratch, sizeof(uint16_t));
    } else {
        printf("H %llu\n", (unsigned long long)checksum());
    }
    if (call.code == WRITE_TEXT)
        write_runs('F', &store.buffer, 1);
}

static void skip_title(void)
{
    int byte = getchar();

    while (byte != '\n' && byte != EOF)
        byte = getchar();
    ungetc(byte, stdin);
}

static void follow(int letter)
{
    note_line();
    switch (letter) {
    case 'T':
        read_store();
        break;
    case 'Q':
        read_queue();
        break;
    case 'S':
        read_runs(&store.scratch);
        break;
    case 'W':
        change_word();
        break;
    case 'C':
    case 'B':
    case 'U':
        answer(letter);
        break;
    case '#':
        skip_title();
        break;
    default:
        fail("no such letter");
    }
}

int main(int count, char **arguments)
{
    int letter;

    if (count != 2 || (strcmp(arguments[1], "end") != 0 && strcmp(arguments[1], "start") != 0)) {
        fputs("usage: states end|start\n", stderr);
        return 2;
    }
    placement = strcmp(arguments[1], "end") == 0 ? AT_THE_END : AT_THE_START;
    watch_touches();
    place(&store.table, placement, 0);
    empty_queue();
    place(&store.scratch, placement, 0);
    place(&store.text, placement, 0);
    place(&store.buffer, placement, 0);
    while ((letter = next_byte()) != EOF)
        follow(letter);
    if (ferror(stdin) || fflush(stdout) != 0 || ferror(stdout))
        fail("reading or writing failed");
    return EXIT_SUCCESS;
}
