/*
 * The exported calls from C: the worked example, every refusal, damaged states, both rules of deduction, the marks of 256 items,
 * items that arrive and leave, reports, sentences, logs; and the header's inline functions, beside this file's own readers of the
 * same bytes. It prints short lines that tests/c/run compares with expected.txt.
 *
 * Every call on a state is made twice on copies of it: at an odd address between guard bytes, and in a heap block of exactly
 * the state's length, so that valgrind sees a byte read or written outside it. Both must give the same answer and bytes. A log is
 * written twice in the same way, with the list and the page for the state.
 */
#include "recorder.h"

#include <stdio.h>
#include <stdlib.h>
#include <string.h>

#define BYTES RECORDER_STATE_BYTES
#define GUARD 67
#define UNTOLD 12345 /* what stands in the place of a text's length before it is told */

enum { OPEN, STEP, CLOSE };

/* A step's numbers: kind, item, minutes, blocks, load, write. */
typedef uint32_t numbers[RECORDER_STEP_NUMBERS];

struct call {
    int what;
    uint32_t k, rule;
    const uint8_t *catalog;
    size_t catalog_len;
    numbers step;
};

/* A state, with a byte more for the test of a length that is one too long. */
struct state {
    uint8_t bytes[BYTES + 1];
};

static int faults;
static bool untouched; /* whether the last call left every byte of the state as it was */
static bool answered[32]; /* the numbers that calls have answered */

static void fault(const char *what)
{
    printf("FAULT: %s\n", what);
    faults++;
}

static uint32_t note(uint32_t answer)
{
    if (answer >= sizeof answered / sizeof *answered)
        fault("an answer that is no refusal's");
    else
        answered[answer] = true;
    return answer;
}

static uint32_t make(uint8_t *bytes, size_t len, const struct call *c, const uint8_t *catalog)
{
    if (c->what == OPEN)
        return recorder_open(bytes, len, c->k, c->rule, catalog, c->catalog_len);
    if (c->what == STEP)
        return recorder_step(bytes, len, c->step[0], c->step[1], c->step[2], c->step[3], c->step[4], c->step[5]);
    return recorder_close(bytes, len);
}

/* A heap block with exactly these bytes; NULL for none. */
static uint8_t *block(const uint8_t *bytes, size_t len)
{
    if (len == 0)
        return NULL;
    uint8_t *copy = malloc(len);
    if (copy == NULL)
        abort();
    memcpy(copy, bytes, len);
    return copy;
}

static uint32_t lend(struct state *s, size_t len, const struct call *c)
{
    static uint8_t arena[GUARD + BYTES + 1 + GUARD];
    memset(arena, 0xC3, sizeof arena);
    memcpy(arena + GUARD, s->bytes, len);
    uint8_t *catalog = block(c->catalog, c->catalog_len);
    uint32_t answer = note(make(arena + GUARD, len, c, catalog));
    for (size_t i = 0; i < sizeof arena; i++)
        if ((i < GUARD || i >= GUARD + len) && arena[i] != 0xC3) {
            fault("a byte outside the state was written");
            break;
        }

    uint8_t *exact = block(s->bytes, len);
    if (make(exact, len, c, catalog) != answer)
        fault("two answers to one call");
    if (len != 0 && memcmp(exact, arena + GUARD, len) != 0)
        fault("two states after one call");
    if (c->catalog_len != 0 && memcmp(catalog, c->catalog, c->catalog_len) != 0)
        fault("the catalog was written");

    untouched = len == 0 || memcmp(exact, s->bytes, len) == 0;
    if (len != 0)
        memcpy(s->bytes, exact, len);
    if (answer != 0 && !untouched)
        fault("a refused call changed the state");
    free(exact);
    free(catalog);
    return answer;
}

static uint32_t open_by(struct state *s, uint32_t rule, uint32_t k, const uint8_t *catalog, size_t catalog_len)
{
    struct call c = { .what = OPEN, .k = k, .rule = rule, .catalog = catalog, .catalog_len = catalog_len };
    return lend(s, BYTES, &c);
}

static uint32_t open_with(struct state *s, uint32_t k, const uint8_t *catalog, size_t catalog_len)
{
    return open_by(s, RECORDER_WRITE_FIRST, k, catalog, catalog_len);
}

static uint32_t step_by(struct state *s, const numbers n)
{
    struct call c = { .what = STEP };
    memcpy(c.step, n, sizeof c.step);
    return lend(s, BYTES, &c);
}

/* A read, a write, a flush or a retirement; an arrival's values are not looked at, and are wild. */
static uint32_t step(struct state *s, uint32_t kind, uint32_t item, uint32_t minutes)
{
    return step_by(s, (const numbers) { kind, item, minutes, 17, 65536, 4294967295u });
}

static uint32_t arrive(struct state *s, uint32_t item, uint32_t blocks, uint32_t load, uint32_t write)
{
    return step_by(s, (const numbers) { RECORDER_ARRIVE, item, 4294967295u, blocks, load, write });
}

static uint32_t close_it(struct state *s)
{
    struct call c = { .what = CLOSE };
    return lend(s, BYTES, &c);
}

static uint64_t get(const struct state *s, size_t at, size_t width)
{
    uint64_t value = 0;
    for (size_t i = width; i > 0; i--)
        value = value << 8 | s->bytes[at + i - 1];
    return value;
}

static void put(struct state *s, size_t at, size_t width, uint64_t value)
{
    for (size_t i = 0; i < width; i++)
        s->bytes[at + i] = (uint8_t)(value >> 8 * i);
}

static uint32_t get32(const struct state *s, size_t at) { return (uint32_t)get(s, at, 4); }
static uint64_t get64(const struct state *s, size_t at) { return get(s, at, 8); }

static bool held(const struct state *s, uint32_t item) { return recorder_is_held(s->bytes, BYTES, item); }
static bool dirty(const struct state *s, uint32_t item) { return recorder_is_dirty(s->bytes, BYTES, item); }
static bool left(const struct state *s, uint32_t item) { return recorder_is_left(s->bytes, BYTES, item); }
static bool gone_or_held(const struct state *s, uint32_t item) { return left(s, item) != held(s, item); }

static void print_figures(const struct state *s)
{
    printf("  steps %u hits %u loads %u loadcost %llu evictions %u dirtyevictions %u writebacks %u writecost %llu flushes %u "
           "closed %u\n",
           get32(s, RECORDER_AT_STEPS), get32(s, RECORDER_AT_HITS), get32(s, RECORDER_AT_LOADS),
           (unsigned long long)get64(s, RECORDER_AT_LOAD_COST), get32(s, RECORDER_AT_EVICTIONS),
           get32(s, RECORDER_AT_DIRTY_EVICTIONS), get32(s, RECORDER_AT_WRITEBACKS),
           (unsigned long long)get64(s, RECORDER_AT_WRITE_COST), get32(s, RECORDER_AT_FLUSHES),
           (uint32_t)get(s, RECORDER_AT_CLOSED, 2));
}

/* The items held now with the credits that stand, and those that were held before and are not now. */
static void print_marks(const struct state *before, const struct state *s)
{
    for (uint32_t i = 0; i < RECORDER_MAX_ITEMS; i++)
        if (held(s, i))
            printf("  item %u held %s, load credit %llu, write credit %llu\n", i, dirty(s, i) ? "dirty" : "clean",
                   (unsigned long long)recorder_load_credit(s->bytes, BYTES, i),
                   (unsigned long long)recorder_write_credit(s->bytes, BYTES, i));
        else if (dirty(s, i))
            fault("an item that is not held is dirty");
        else if (held(before, i))
            printf("  item %u dropped\n", i);
}

static void say(const char *what, uint32_t answer)
{
    printf("%s: %u%s\n", what, answer, answer == 0 ? "" : untouched ? ", untouched" : ", TOUCHED");
}

/* Paper 01's whole example. */
static const uint8_t three[] = { 1, 4, 0, 6, 0, 2, 6, 0, 2, 0, 1, 3, 0, 9, 0 };

static void example(void)
{
    static const struct { const char *name; uint32_t kind, item, minutes; } log[] = {
        { "W 0 90", RECORDER_WRITE, 0, 90 },
        { "R 1", RECORDER_READ, 1, 4000000000u },
        { "W 2 45", RECORDER_WRITE, 2, 45 },
        { "R 0", RECORDER_READ, 0, 1441 },
        { "L", RECORDER_FLUSH, 256, 1441 },
    };
    puts("the whole example");
    struct state s, before;
    memset(&s, 0xA5, sizeof s);
    say("open 3", open_with(&s, 3, three, sizeof three));
    print_figures(&s);
    for (size_t i = 0; i < sizeof log / sizeof *log; i++) {
        before = s;
        say(log[i].name, step(&s, log[i].kind, log[i].item, log[i].minutes));
        print_figures(&s);
        print_marks(&before, &s);
    }
    before = s;
    say("close", close_it(&s));
    print_figures(&s);
    print_marks(&before, &s);
    for (uint32_t i = 0; i < 3; i++)
        printf("  item %u minutes %u loads %u writebacks %u\n", i, get32(&s, RECORDER_AT_MINUTES + 4 * i),
               get32(&s, RECORDER_AT_ITEM_LOADS + 4 * i), get32(&s, RECORDER_AT_ITEM_WRITEBACKS + 4 * i));
    say("close again", close_it(&s));
    say("R 0 when closed", step(&s, RECORDER_READ, 0, 0));
    say("open again", open_with(&s, 3, three, sizeof three));
    print_figures(&s);
}

static void openings(void)
{
    puts("openings");
    static uint8_t many[5 * 257];
    for (size_t i = 0; i < sizeof many; i += 5)
        many[i] = 1;
    struct state s, first;
    memset(&s, 0xA5, sizeof s);
    say("k 0", open_with(&s, 0, three, sizeof three));
    say("k 4097", open_with(&s, 4097, three, sizeof three));
    say("k 4294967295", open_with(&s, 4294967295u, three, sizeof three));
    say("catalog of 1 byte", open_with(&s, 3, three, 1));
    say("catalog of 14 bytes", open_with(&s, 3, three, 14));
    say("catalog of 1281 bytes", open_with(&s, 3, many, 1281));
    say("catalog of 257 items", open_with(&s, 3, many, 1285));
    static const uint8_t wrong[] = { 0, 17, 255 };
    for (size_t i = 0; i < sizeof wrong; i++) {
        many[0] = wrong[i];
        printf("blocks %u of item 0: %u", wrong[i], open_with(&s, 3, many, 1280));
        many[0] = 1;
        many[1275] = wrong[i];
        printf(", of item 255: %u\n", open_with(&s, 3, many, 1280));
        many[1275] = 1;
    }
    static const uint32_t odd[] = { 2, 3, 256, 257, 65536, 16777217, 2147483648u, 4294967295u };
    for (size_t i = 0; i < sizeof odd / sizeof *odd; i++) {
        printf("rule %u: %u", odd[i], open_by(&s, odd[i], 3, three, sizeof three));
        printf(", and k 0: %u", open_by(&s, odd[i], 0, three, sizeof three));
        printf(", and a catalog of 14 bytes: %u", open_by(&s, odd[i], 3, three, 14));
        many[1275] = 17;
        printf(", and blocks 17 of item 255: %u\n", open_by(&s, odd[i], 3, many, 1280));
        many[1275] = 1;
    }
    static const size_t lengths[] = { 0, 8836, BYTES - 1, BYTES + 1 }; /* 8,836: the layout before */
    for (size_t i = 0; i < sizeof lengths / sizeof *lengths; i++) {
        struct call c = { .what = OPEN, .k = 3, .catalog = three, .catalog_len = sizeof three };
        printf("length %zu: %u", lengths[i], lend(&s, lengths[i], &c));
        c.rule = 2;
        printf(", and rule 2: %u", lend(&s, lengths[i], &c));
        c.k = 0;
        printf(", and k 0: %u\n", lend(&s, lengths[i], &c));
    }
    say("no items, k 1", open_with(&s, 1, NULL, 0));
    say("  L", step(&s, RECORDER_FLUSH, 0, 0));
    say("  R 0", step(&s, RECORDER_READ, 0, 0));
    say("256 items, k 4096", open_with(&s, 4096, many, 1280));
    say("blocks 16, k 1", open_with(&s, 1, (const uint8_t[]) { 16, 255, 255, 255, 255 }, 5));

    /* The opening never looks at the bytes (valgrind would see it), and writes every one of them. */
    uint8_t *raw = malloc(BYTES);
    if (raw == NULL)
        abort();
    uint32_t answer = recorder_open(raw, BYTES, 3, RECORDER_WRITE_FIRST, three, sizeof three);
    say("three items, k 3", open_with(&s, 3, three, sizeof three));
    printf("in bytes never written: %u, %s\n", answer, memcmp(raw, s.bytes, BYTES) == 0 ? "the same" : "OTHER BYTES");
    free(raw);
    memset(&first, 0, sizeof first);
    put(&first, RECORDER_AT_FORMAT, 4, RECORDER_FORMAT);
    put(&first, RECORDER_AT_K, 4, 3);
    put(&first, RECORDER_AT_N, 2, 3);
    for (size_t i = 0; i < 3; i++) {
        first.bytes[RECORDER_AT_BLOCKS + i] = three[5 * i];
        memcpy(first.bytes + RECORDER_AT_LOAD + 2 * i, three + 5 * i + 1, 2);
        memcpy(first.bytes + RECORDER_AT_WRITE + 2 * i, three + 5 * i + 3, 2);
    }
    puts(memcmp(first.bytes, s.bytes, BYTES) == 0 ? "as the layout says" : "NOT AS THE LAYOUT SAYS");
    put(&first, RECORDER_AT_RULE, 4, RECORDER_LOAD_FIRST);
    say("load-first", open_by(&s, RECORDER_LOAD_FIRST, 3, three, sizeof three));
    puts(memcmp(first.bytes, s.bytes, BYTES) == 0 ? "as the layout says" : "NOT AS THE LAYOUT SAYS");
    say("  rule 2 when open", open_by(&s, 2, 3, three, sizeof three));
    say("  R 0", step(&s, RECORDER_READ, 0, 0));
    say("  write-first when open", open_with(&s, 3, three, sizeof three));
    put(&first, RECORDER_AT_RULE, 4, RECORDER_WRITE_FIRST);
    puts(memcmp(first.bytes, s.bytes, BYTES) == 0 ? "as the layout says" : "NOT AS THE LAYOUT SAYS");
}

/*
 * A cache of 4 blocks. Held: 0 clean; 2 clean, its credit used up; 3, of two blocks, dirty with full credits. Not held: 1,
 * which was evicted; 4, which was never asked for; 5, of 5 blocks.
 * steps 7 hits 2 loads 4 flushes 1 evictions 1 dirtyevictions 0 writebacks 2 loadcost 21 writecost 15.
 */
static const uint8_t six[] = { 1, 4, 0, 6, 0, 2, 6, 0, 2, 0, 1, 3, 0, 9, 0, 2, 8, 0, 5, 0, 1, 7, 0, 7, 0, 5, 1, 0, 1, 0 };

static void busy(struct state *s)
{
    static const uint32_t log[][3] = {
        { RECORDER_WRITE, 0, 90 }, { RECORDER_READ, 1, 0 }, { RECORDER_WRITE, 2, 45 }, { RECORDER_FLUSH, 0, 0 },
        { RECORDER_WRITE, 3, 60 }, { RECORDER_READ, 0, 0 }, { RECORDER_WRITE, 3, 6 },
    };
    memset(s, 0xA5, sizeof *s);
    if (open_with(s, 4, six, sizeof six) != 0)
        fault("the busy state was not opened");
    for (size_t i = 0; i < sizeof log / sizeof *log; i++)
        if (step(s, log[i][0], log[i][1], log[i][2]) != 0)
            fault("a step to the busy state was refused");
}

/* The same after a flush: nothing dirty, steps 8, flushes 2, writebacks 3. */
static void clean(struct state *s)
{
    busy(s);
    if (step(s, RECORDER_FLUSH, 0, 0) != 0)
        fault("the flush was refused");
}

/* One block, two items read in turn: steps 3 loads 3 evictions 2, nothing written back. */
static void reads(struct state *s)
{
    memset(s, 0xA5, sizeof *s);
    if (open_with(s, 1, (const uint8_t[]) { 1, 1, 0, 1, 0, 1, 1, 0, 1, 0 }, 10) != 0)
        fault("the state of reads was not opened");
    for (uint32_t i = 0; i < 3; i++)
        if (step(s, RECORDER_READ, i % 2, 0) != 0)
            fault("a read was refused");
}

/* 256 items of one block, nothing held. */
static void wide(struct state *s)
{
    static uint8_t many[1280];
    for (size_t i = 0; i < sizeof many; i += 5)
        many[i] = 1;
    memset(s, 0xA5, sizeof *s);
    if (open_with(s, 4096, many, sizeof many) != 0)
        fault("the wide state was not opened");
}

/* The busy state with a full log. */
static void full(struct state *s)
{
    busy(s);
    put(s, RECORDER_AT_STEPS, 4, 1000000);
    put(s, RECORDER_AT_HITS, 4, 1000000 - 5);
}

static void closed_full(struct state *s)
{
    full(s);
    if (close_it(s) != 0)
        fault("a full log was not closed");
}

static void arguments(void)
{
    static const struct { const char *name; void (*state)(struct state *); uint32_t kind, item, minutes; } rows[] = {
        { "kind 0", busy, 0, 0, 0 },
        { "kind 114 (r)", busy, 114, 0, 0 },
        { "kind 82 + 256", busy, 338, 0, 0 },
        { "kind 4294967295", busy, 4294967295u, 0, 0 },
        { "R 256", busy, RECORDER_READ, 256, 0 },
        { "R 4294967295", busy, RECORDER_READ, 4294967295u, 0 },
        { "W 256 0", busy, RECORDER_WRITE, 256, 0 },
        { "W 0 1441", busy, RECORDER_WRITE, 0, 1441 },
        { "W 0 4294967295", busy, RECORDER_WRITE, 0, 4294967295u },
        { "W 6 1441 (3 before 6)", busy, RECORDER_WRITE, 6, 1441 },
        { "W 5 1441 (3 before 7)", busy, RECORDER_WRITE, 5, 1441 },
        { "R 256 with 256 items", wide, RECORDER_READ, 256, 0 },
        { "R 6", busy, RECORDER_READ, 6, 1441 },
        { "R 255", busy, RECORDER_READ, 255, 0 },
        { "W 6 1440", busy, RECORDER_WRITE, 6, 1440 },
        { "R 5 (5 blocks, k 4)", busy, RECORDER_READ, 5, 0 },
        { "W 5 0", busy, RECORDER_WRITE, 5, 0 },
        { "full log, R 0", full, RECORDER_READ, 0, 0 },
        { "full log, W 0 6", full, RECORDER_WRITE, 0, 6 },
        { "full log, L", full, RECORDER_FLUSH, 0, 0 },
        { "full log, kind 0 (8 before 3)", full, 0, 0, 0 },
        { "full log, closed, kind 0 (9 first)", closed_full, 0, 0, 0 },
        { "closed, L", closed_full, RECORDER_FLUSH, 0, 0 },
        { "R 0 4294967295", busy, RECORDER_READ, 0, 4294967295u },
        { "L 4294967295 4294967295", busy, RECORDER_FLUSH, 4294967295u, 4294967295u },
        { "W 0 1440", busy, RECORDER_WRITE, 0, 1440 },
        { "W 255 with 256 items", wide, RECORDER_WRITE, 255, 0 },
    };
    puts("arguments");
    struct state s;
    for (size_t i = 0; i < sizeof rows / sizeof *rows; i++) {
        rows[i].state(&s);
        say(rows[i].name, step(&s, rows[i].kind, rows[i].item, rows[i].minutes));
    }
    full(&s);
    say("full log, close", close_it(&s));
    print_figures(&s);
    say("full log, close again", close_it(&s));

    static const uint32_t minutes[] = { 5, 6, 11, 12, 1440 };
    busy(&s);
    for (size_t i = 0; i < sizeof minutes / sizeof *minutes; i++) {
        uint32_t before = get32(&s, RECORDER_AT_MINUTES);
        uint32_t answer = step(&s, RECORDER_WRITE, 0, minutes[i]);
        printf("W 0 %u: %u, minutes %u more\n", minutes[i], answer, get32(&s, RECORDER_AT_MINUTES) - before);
    }

    static const size_t lengths[] = { 0, 1, 8796, 8836, BYTES - 1, BYTES + 1 };
    for (size_t i = 0; i < sizeof lengths / sizeof *lengths; i++) {
        struct call c = { .what = STEP, .step = { RECORDER_READ } };
        busy(&s);
        printf("length %zu: step %u", lengths[i], lend(&s, lengths[i], &c));
        c.step[0] = 0;
        printf(", step out of range %u", lend(&s, lengths[i], &c));
        c.what = CLOSE;
        printf(", close %u\n", lend(&s, lengths[i], &c));
    }
}

/* Up to three fields put into a good state; a width of 0 is none. */
struct damage {
    const char *name;
    void (*state)(struct state *);
    struct { size_t at, width; uint64_t value; } put[3];
};

static void damaged(const struct damage *d, struct state *s)
{
    d->state(s);
    for (size_t j = 0; j < 3; j++)
        put(s, d->put[j].at, d->put[j].width, d->put[j].value);
}

/*
 * One byte (a few rows: two or three fields), so that a single clause of validity is broken where that can be.
 *
 * In the busy state the level is 3 units of cost, and the heap has 2, 0 and 3, at the keys 3, 7 and 9 1/2. In the state of reads the
 * level is 2, and item 0 alone is held, at the key 3.
 */
#define RISE (131070ull * RECORDER_UNIT) /* the most that an eviction raises the level by */


static const struct damage broken[] = {
    { "no number of a layout", busy, { { 0, 1, 0 } } },
    { "the number of the first layout", busy, { { 0, 1, 1 } } },
    { "the number of the layout before", busy, { { 0, 1, 4 } } },
    { "the number of the next layout", busy, { { 0, 1, 6 } } },
    { "the number of a layout 2^24 + 5", busy, { { 3, 1, 1 } } },
    { "rule 2", busy, { { 8792, 1, 2 } } },
    { "rule 255", busy, { { 8792, 1, 255 } } },
    { "rule 256", busy, { { 8793, 1, 1 } } },
    { "rule 257", busy, { { 8792, 1, 1 }, { 8793, 1, 1 } } },
    { "rule 65536", busy, { { 8794, 1, 1 } } },
    { "rule 2^31", busy, { { 8795, 1, 0x80 } } },
    { "rule 2^32 - 1", busy, { { 8792, 4, 0xFFFFFFFF } } },
    { "rule 2 in a closed state (17 before 9)", closed_full, { { 8792, 1, 2 } } },
    { "closed flag 2", clean, { { 10, 1, 2 } } },
    { "closed flag 256", clean, { { 11, 1, 1 } } },
    { "closed flag 257", clean, { { 10, 1, 1 }, { 11, 1, 1 } } },
    { "held flag 2", busy, { { 8536, 1, 2 } } },
    { "held flag 255", busy, { { 8538, 1, 255 } } },
    { "held flag 2 of an item not held", busy, { { 8540, 1, 2 } } },
    { "held flag 2 of the last place", busy, { { 8791, 1, 2 } } },
    { "blocks past the catalog", busy, { { 8286, 1, 1 } } },
    { "blocks in the last place", busy, { { 8535, 1, 1 } } },
    { "load cost past the catalog", busy, { { 7268, 1, 1 } } },
    { "load cost in the last place", busy, { { 7767, 1, 1 } } },
    { "write cost past the catalog", busy, { { 7780, 1, 1 } } },
    { "write cost in the last place", busy, { { 8279, 1, 1 } } },
    { "held past the catalog", busy, { { 8542, 1, 1 }, { 24, 1, 0 } } },
    { "held in the last place", busy, { { 8791, 1, 1 }, { 24, 1, 0 } } },
    { "dirty past the catalog", busy, { { 56, 1, 0x48 } } },
    { "dirty in the last place", busy, { { 87, 1, 0x80 } } },
    { "load credit past the catalog", busy, { { 136, 1, 1 } } },
    { "load credit in the last place", busy, { { 2135, 1, 1 } } },
    { "write credit past the catalog", busy, { { 2184, 1, 1 } } },
    { "write credit in the last place", busy, { { 4183, 1, 1 } } },
    { "minutes past the catalog", busy, { { 4208, 1, 1 } } },
    { "minutes in the last place", busy, { { 5204, 1, 1 } } },
    { "loads past the catalog", busy, { { 5232, 1, 1 }, { 5208, 1, 0 } } },
    { "loads in the last place", busy, { { 6228, 1, 1 }, { 5208, 1, 0 } } },
    { "writebacks past the catalog", busy, { { 6256, 1, 1 }, { 6232, 1, 0 } } },
    { "writebacks in the last place", busy, { { 7252, 1, 1 }, { 6232, 1, 0 } } },
    { "k 0", wide, { { 5, 1, 0 } } },
    { "k 4097", wide, { { 4, 1, 1 } } },
    { "k 2^31 + 4096", wide, { { 7, 1, 0x80 } } },
    { "257 items", wide, { { 8, 1, 1 } } },
    { "2^15 + 256 items", wide, { { 9, 1, 0x81 } } },
    { "an item too few", busy, { { 8, 1, 5 } } },
    { "an item too many", busy, { { 8, 1, 7 } } },
    { "blocks 0", busy, { { 8284, 1, 0 } } },
    { "blocks 17", busy, { { 8284, 1, 17 } } },
    { "blocks 255", busy, { { 8284, 1, 255 } } },
    { "blocks 0 of a held item", busy, { { 8280, 1, 0 } } },
    { "blocks 0 of the last of 256 items", wide, { { 8535, 1, 0 } } },
    { "held blocks above k", busy, { { 4, 1, 3 } } },
    { "dirty, not held", busy, { { 56, 1, 0x18 } } },
    { "load credit, not held", busy, { { 120, 1, 1 } } },
    { "write credit, not held", busy, { { 2168, 1, 1 } } },
    { "write credit, clean", busy, { { 2136, 1, 1 } } },
    { "load credit no multiple of 2", busy, { { 112, 1, 0x7F }, { 8872, 1, 0x77 } } },
    { "write credit no multiple of 2", busy, { { 2160, 1, 0x8F }, { 8872, 1, 0x77 } } },
    { "load credit above the cost", busy, { { 112, 1, 0x82 } } },
    { "load credit above 2^63", busy, { { 119, 1, 0x80 } } },
    { "write credit above the cost", busy, { { 2160, 1, 0x92 } } },
    { "write credit above 2^63", busy, { { 2167, 1, 0x80 } } },
    { "a step too many", busy, { { 12, 1, 8 } } },
    { "a step too few", busy, { { 12, 1, 6 } } },
    { "a hit too many", busy, { { 16, 1, 3 } } },
    { "a flush too many", busy, { { 36, 1, 2 } } },
    { "hits + flushes beyond 2^32", busy, { { 16, 4, 0xFFFFFFFF }, { 36, 4, 4 } } },
    { "1,000,001 steps", full, { { 12, 1, 0x41 }, { 16, 1, 0x3C } } },
    { "2^31 steps", full, { { 15, 1, 0x80 }, { 19, 1, 0x80 } } },
    { "an eviction too many", busy, { { 24, 1, 2 } } },
    { "an eviction too few", busy, { { 24, 1, 0 } } },
    { "dirty evictions above evictions", busy, { { 28, 1, 2 } } },
    { "dirty evictions above writebacks", reads, { { 28, 1, 1 } } },
    { "writebacks + dirty above steps", busy, { { 32, 1, 7 }, { 6232, 1, 6 } } },
    { "writebacks + dirty beyond 2^32", busy, { { 32, 4, 0xFFFFFFFF }, { 6232, 4, 0xFFFFFFFE } } },
    { "loadcost above 65,535 a load", busy, { { 42, 1, 4 } } },
    { "loadcost just above", busy, { { 40, 8, 262141 } } },
    { "loadcost above 2^63", busy, { { 47, 1, 0x80 } } },
    { "writecost above 65,535 a writeback", busy, { { 50, 1, 2 } } },
    { "writecost just above", busy, { { 48, 8, 131071 } } },
    { "writecost above 2^63", busy, { { 55, 1, 0x80 } } },
    { "an item's loads too many", busy, { { 5208, 1, 2 } } },
    { "an item's loads too few", busy, { { 5208, 1, 0 } } },
    { "items' loads beyond 2^32", busy, { { 5211, 1, 0x80 }, { 5215, 1, 0x80 } } },
    { "an item's writebacks too many", busy, { { 6232, 1, 2 } } },
    { "an item's writebacks too few", busy, { { 6232, 1, 0 } } },
    { "items' writebacks beyond 2^32", busy, { { 6235, 1, 0x80 }, { 6239, 1, 0x80 } } },
    { "minutes above 1,440 a step", busy, { { 4185, 1, 40 } } },
    { "minutes just above", busy, { { 4184, 4, 10081 } } },
    { "minutes just above, last of 256 items", wide, { { 5204, 1, 1 } } },
    { "left, held", busy, { { 8796, 1, 1 }, { 8832, 1, 1 }, { 16, 1, 1 } } },
    { "left, held and dirty", busy, { { 8796, 1, 8 }, { 8832, 1, 1 }, { 16, 1, 1 } } },
    { "left past the catalog", busy, { { 8796, 1, 0x40 }, { 8832, 1, 1 }, { 16, 1, 1 } } },
    { "left in the last place", busy, { { 8827, 1, 0x80 }, { 8832, 1, 1 }, { 16, 1, 1 } } },
    { "left, and no retirement", busy, { { 8796, 1, 0x10 } } },
    { "a retirement, and none left", busy, { { 8832, 1, 1 }, { 16, 1, 1 } } },
    { "two retirements, and one left", busy, { { 8796, 1, 0x10 }, { 8832, 1, 2 }, { 16, 1, 0 } } },
    { "a retirement no step", busy, { { 8796, 1, 0x10 }, { 8832, 1, 1 } } },
    { "an arrival no step", busy, { { 8828, 1, 1 } } },
    { "hits + arrivals beyond 2^32", busy, { { 16, 4, 0xFFFFFFFF }, { 8828, 4, 3 } } },
    { "a block used too few", busy, { { 8836, 1, 3 } } },
    { "a block used too many", busy, { { 8836, 1, 5 } } },
    { "2^24 blocks used too many", busy, { { 8839, 1, 1 } } },
    { "a block used where nothing is held", wide, { { 8836, 1, 1 } } },
    { "a level with no eviction", wide, { { 8840, 1, 1 } } },
    { "the level just above its limit", reads, { { 8840, 8, 2 * RISE + 1 }, { 8848, 8, 2 * RISE + RECORDER_UNIT + 1 } } },
    { "the level above 2^63", reads, { { 8847, 1, 0x80 }, { 8855, 1, 0x80 } } },
    { "key below the level", reads, { { 8848, 8, 2 * RECORDER_UNIT - 1 } } },
    { "key 0 of a held item", reads, { { 8848, 8, 0 } } },
    { "key above the credits (a loss below 0)", reads, { { 8848, 8, 3 * RECORDER_UNIT + 1 } } },
    { "key above 2^63", reads, { { 8855, 1, 0x80 } } },
    { "level below the last key's (a loss below 0)", reads, { { 8840, 8, 2 * RECORDER_UNIT - 1 } } },
    { "less stored than the key says (a loss below 0)", busy, { { 112, 1, 0x7E } } },
    { "key, not held", busy, { { 8880, 1, 1 } } },
    { "key past the catalog", busy, { { 8896, 1, 1 } } },
    { "key in the last place", busy, { { 10895, 1, 1 } } },
    { "the heap out of order by key", busy, { { 8848, 8, 3 * RECORDER_UNIT + 1 }, { 8864, 8, 4 * RECORDER_UNIT } } },
    { "the heap out of order by number", busy, { { 8848, 8, 3 * RECORDER_UNIT } } },
    { "an item twice in the heap", busy, { { 10898, 1, 0 } } },
    { "an item twice in the heap, its place the second", busy, { { 10898, 1, 0 }, { 11152, 1, 2 } } },
    { "an item in the heap that is not held", busy, { { 10898, 1, 4 } } },
    { "an item in the heap for another that is held", busy, { { 10898, 1, 4 }, { 11155, 1, 0 }, { 11156, 1, 2 } } },
    { "the heap's next place in use", busy, { { 10899, 1, 4 } } },
    { "the heap's last place in use", busy, { { 11151, 1, 1 } } },
    { "the place of an item wrong", busy, { { 11152, 1, 2 } } },
    { "two places swapped", busy, { { 11152, 1, 2 }, { 11155, 1, 1 } } },
    { "a place past the heap", busy, { { 11155, 1, 3 } } },
    { "a place, not held", busy, { { 11156, 1, 1 } } },
    { "a place past the catalog", busy, { { 11158, 1, 1 } } },
    { "a place of the last item", busy, { { 11407, 1, 1 } } },
    { "closed and dirty", busy, { { 10, 1, 1 } } },
    { "closed, a hit too many (17 before 9)", closed_full, { { 16, 1, 0x3C } } },
};

/* The edge of a clause, from the side that is valid: a read of item 0 is taken, and so is the close. */
static const struct damage sound[] = {
    { "the busy state", busy, { { 4, 0, 0 } } },
    { "the clean state", clean, { { 4, 0, 0 } } },
    { "the state of reads", reads, { { 4, 0, 0 } } },
    { "the wide state", wide, { { 4, 0, 0 } } },
    { "the other rule", busy, { { 8792, 1, 1 } } },
    { "k 4096", busy, { { 4, 4, 4096 } } },
    { "k 1, 256 items", wide, { { 4, 4, 1 } } },
    { "blocks 16", busy, { { 8284, 1, 16 } } },
    { "load credit a multiple below the cost", busy, { { 112, 1, 0x7E }, { 8872, 1, 0x77 } } },
    { "write credit a multiple below the cost", busy, { { 2160, 1, 0x8E }, { 8872, 1, 0x77 } } },
    { "dirty with write credit 0", busy, { { 2160, 8, 0 }, { 8872, 8, 7 * RECORDER_UNIT } } },
    { "key at the level: nothing stands", busy, { { 8872, 8, 3 * RECORDER_UNIT } } },
    { "key a multiple below", busy, { { 8872, 1, 0x77 } } },
    { "key at the level, nothing stored", reads, { { 88, 8, 0 }, { 8848, 8, 2 * RECORDER_UNIT } } },
    { "the level at its limit", reads, { { 8840, 8, 2 * RISE }, { 8848, 8, 2 * RISE + RECORDER_UNIT } } },
    { "level 0", reads, { { 8840, 8, 0 }, { 8848, 8, RECORDER_UNIT } } },
    { "the heap arranged otherwise", busy, { { 10897, 2, 3 }, { 11152, 1, 2 }, { 11155, 1, 1 } } },
    { "a dirty item more", busy, { { 56, 1, 0x09 } } },
    { "999,999 steps", full, { { 12, 1, 0x3F }, { 16, 1, 0x3A } } },
    { "dirty evictions as evictions", busy, { { 28, 1, 1 } } },
    { "dirty evictions as writebacks", reads, { { 28, 1, 1 }, { 32, 1, 1 }, { 6232, 1, 1 } } },
    { "writebacks + dirty as steps", busy, { { 32, 1, 6 }, { 6232, 1, 5 } } },
    { "loadcost 65,535 a load", busy, { { 40, 8, 262140 } } },
    { "writecost 65,535 a writeback", busy, { { 48, 8, 131070 } } },
    { "costs 0", busy, { { 40, 8, 0 }, { 48, 8, 0 } } },
    { "minutes 1,440 a step", busy, { { 4184, 4, 10080 } } },
    { "an item that has left", busy, { { 8796, 1, 0x10 }, { 8832, 1, 1 }, { 16, 1, 1 } } },
    { "arrivals for hits, more than items", busy, { { 8828, 1, 2 }, { 16, 1, 0 } } },
};

/* recorder_is_valid on a heap block of just the state's bytes. */
static bool is_valid(const struct state *s, size_t len)
{
    uint8_t *exact = block(s->bytes, len);
    bool valid = recorder_is_valid(exact, len);
    free(exact);
    return valid;
}

static void states(void)
{
    puts("damaged states: a read, a step out of range, a close");
    struct state s;
    unsigned valid = 0;
    for (size_t i = 0; i < sizeof broken / sizeof *broken; i++) {
        damaged(&broken[i], &s);
        valid += is_valid(&s, BYTES);
        printf("%s: %u", broken[i].name, step(&s, RECORDER_READ, 0, 0));
        printf(" %u", step(&s, 0, 999, 9999));
        printf(" %u\n", close_it(&s));
    }
    printf("valid by recorder_is_valid: %u of %zu\n", valid, sizeof broken / sizeof *broken);
    puts("sound states: a read, a close");
    valid = 0;
    for (size_t i = 0; i < sizeof sound / sizeof *sound; i++) {
        damaged(&sound[i], &s);
        valid += is_valid(&s, BYTES);
        printf("%s: %u", sound[i].name, step(&s, RECORDER_READ, 0, 0));
        damaged(&sound[i], &s);
        printf(" %u\n", close_it(&s));
    }
    printf("valid by recorder_is_valid: %u of %zu\n", valid, sizeof sound / sizeof *sound);
    static const size_t lengths[] = { 0, 1, 8796, 8836, BYTES - 1, BYTES, BYTES + 1 };
    for (size_t i = 0; i < sizeof lengths / sizeof *lengths; i++)
        printf("length %zu: %s\n", lengths[i], is_valid(&s, lengths[i]) ? "valid" : "not valid");
}

/* How many of the 256 marks are other than 'those below `count`'. */
static unsigned astray(const struct state *s, bool (*mark)(const struct state *, uint32_t), uint32_t count)
{
    unsigned n = 0;
    for (uint32_t i = 0; i < RECORDER_MAX_ITEMS; i++)
        n += mark(s, i) != (i < count);
    return n;
}

static void marks(void)
{
    puts("256 marks");
    struct state s;
    unsigned n = 0;
    wide(&s);
    n += astray(&s, held, 0) + astray(&s, dirty, 0);
    for (uint32_t i = 0; i < 256; i++) {
        if (step(&s, RECORDER_WRITE, i, 6) != 0)
            fault("a write was refused");
        n += astray(&s, held, i + 1) + astray(&s, dirty, i + 1);
    }
    print_figures(&s);
    for (size_t w = 0; w < 4; w++)
        printf("  word %zu %016llx\n", w, (unsigned long long)get64(&s, RECORDER_AT_DIRTY + 8 * w));
    say("L", step(&s, RECORDER_FLUSH, 0, 0));
    n += astray(&s, held, 256) + astray(&s, dirty, 0);
    print_figures(&s);
    for (uint32_t i = 0; i < 200; i++)
        if (step(&s, RECORDER_WRITE, i, 0) != 0)
            fault("a write was refused");
    n += astray(&s, held, 256) + astray(&s, dirty, 200);
    say("close", close_it(&s));
    n += astray(&s, held, 256) + astray(&s, dirty, 0);
    print_figures(&s);
    printf("marks astray: %u\n", n);

    memset(&s, 0xFF, sizeof s);
    memset(s.bytes + RECORDER_AT_HELD, 1, 256);
    printf("item 255: %d %d %d, item 256: %d %d %d, item 4294967295: %d %d %d\n", held(&s, 255), dirty(&s, 255), left(&s, 255),
           held(&s, 256), dirty(&s, 256), left(&s, 256), held(&s, 4294967295u), dirty(&s, 4294967295u), left(&s, 4294967295u));
    printf("length 11407: %d %d %d, length 11409: %d %d %d, no state: %d %d %d\n", recorder_is_held(s.bytes, BYTES - 1, 0),
           recorder_is_dirty(s.bytes, BYTES - 1, 0), recorder_is_left(s.bytes, BYTES - 1, 0), recorder_is_held(s.bytes, BYTES + 1, 0),
           recorder_is_dirty(s.bytes, BYTES + 1, 0), recorder_is_left(s.bytes, BYTES + 1, 0), recorder_is_held(NULL, 0, 0),
           recorder_is_dirty(NULL, 0, 0), recorder_is_left(NULL, 0, 0));
}

static void report(const char *what, const struct state *s, size_t state_len, size_t page_len);

/* 256 items arrive in an empty catalog, and leave one after the other; each is seen by its mark. */
static void turnover(void)
{
    puts("256 items arrive and leave");
    struct state s;
    unsigned n = 0;
    memset(&s, 0xA5, sizeof s);
    say("open 4096", open_with(&s, 4096, NULL, 0));
    for (uint32_t i = 0; i < 256; i++) {
        if (arrive(&s, i, 1 + i % 16, i, 255 - i) != 0 || step(&s, RECORDER_WRITE, i, 6) != 0)
            fault("an arrival or its write was refused");
        n += astray(&s, held, i + 1) + astray(&s, left, 0) + (get32(&s, RECORDER_AT_N) % 65536 != i + 1);
    }
    say("A 255", arrive(&s, 255, 1, 1, 1));
    say("A 256", arrive(&s, 256, 1, 1, 1));
    print_figures(&s);
    for (uint32_t i = 0; i < 256; i++) {
        if (step(&s, RECORDER_RETIRE, i, 6) != 0)
            fault("a retirement was refused");
        n += astray(&s, left, i + 1) + astray(&s, gone_or_held, 256) + (get32(&s, RECORDER_AT_RETIREMENTS) != i + 1);
    }
    say("A 0", arrive(&s, 0, 1, 1, 1));
    say("R 255", step(&s, RECORDER_READ, 255, 0));
    print_figures(&s);
    for (size_t w = 0; w < 4; w++)
        printf("  word %zu %016llx\n", w, (unsigned long long)get64(&s, RECORDER_AT_LEFT + 8 * w));
    say("close", close_it(&s));
    printf("marks astray: %u\n", n);
}

/* The busy state: a delivery, a scrapping of an item held clean, of one held dirty, of one not held and of one too bulky; and what is refused. */
static void changes(void)
{
    static const struct { const char *name; numbers step; } rows[] = {
        { "R 6 before its arrival", { RECORDER_READ, 6 } },
        { "Q 6 before its arrival", { RECORDER_RETIRE, 6 } },
        { "A 5 (the last number)", { RECORDER_ARRIVE, 5, 0, 1, 1, 1 } },
        { "A 7 (one too far)", { RECORDER_ARRIVE, 7, 0, 1, 1, 1 } },
        { "A 256 (3 before 19)", { RECORDER_ARRIVE, 256, 0, 1, 1, 1 } },
        { "A 7, no blocks (3 before 19)", { RECORDER_ARRIVE, 7, 0, 0, 1, 1 } },
        { "A 6, 17 blocks", { RECORDER_ARRIVE, 6, 0, 17, 1, 1 } },
        { "A 6, 257 blocks", { RECORDER_ARRIVE, 6, 0, 257, 1, 1 } },
        { "A 6, load 65536", { RECORDER_ARRIVE, 6, 0, 1, 65536, 1 } },
        { "A 6, write 4294967295", { RECORDER_ARRIVE, 6, 0, 1, 1, 4294967295u } },
        { "A 6, minutes wild", { RECORDER_ARRIVE, 6, 4294967295u, 2, 65535, 65535 } },
        { "A 6 again", { RECORDER_ARRIVE, 6, 0, 2, 1, 1 } },
        { "W 6 30", { RECORDER_WRITE, 6, 30 } },
        { "A 7, 16 blocks, k 4", { RECORDER_ARRIVE, 7, 0, 16, 1, 1 } },
        { "R 7", { RECORDER_READ, 7 } },
        { "Q 7", { RECORDER_RETIRE, 7 } },
        { "R 7 (20 before 7)", { RECORDER_READ, 7 } },
        { "Q 6, held dirty", { RECORDER_RETIRE, 6, 1441, 17, 65536, 65536 } },
        { "W 6 1441 (3 before 20)", { RECORDER_WRITE, 6, 1441 } },
        { "W 6 30", { RECORDER_WRITE, 6, 30 } },
        { "Q 6 again", { RECORDER_RETIRE, 6 } },
        { "A 6 (its number is used)", { RECORDER_ARRIVE, 6, 0, 1, 1, 1 } },
        { "Q 4, not held", { RECORDER_RETIRE, 4 } },
        { "R 0", { RECORDER_READ, 0 } },
        { "Q 0, held clean", { RECORDER_RETIRE, 0 } },
        { "Q 256", { RECORDER_RETIRE, 256 } },
        { "L", { RECORDER_FLUSH, 4294967295u } },
    };
    puts("items that arrive and leave");
    struct state s, before;
    busy(&s);
    for (size_t i = 0; i < sizeof rows / sizeof *rows; i++) {
        before = s;
        say(rows[i].name, step_by(&s, rows[i].step));
        print_marks(&before, &s);
        for (uint32_t j = 0; j < RECORDER_MAX_ITEMS; j++)
            if (left(&s, j) != left(&before, j))
                printf("  %u has left\n", j);
    }
    print_figures(&s);
    printf("  items %u, arrivals %u, retirements %u\n", get32(&s, RECORDER_AT_N) % 65536, get32(&s, RECORDER_AT_ARRIVALS), get32(&s, RECORDER_AT_RETIREMENTS));
    report("left items stay in the report", &s, BYTES, RECORDER_REPORT_BYTES);
    full(&s);
    say("full log, A 6", arrive(&s, 6, 1, 1, 1));
    say("full log, Q 0", step(&s, RECORDER_RETIRE, 0, 0));
    closed_full(&s);
    say("closed, A 6", arrive(&s, 6, 1, 1, 1));
    say("closed, Q 0", step(&s, RECORDER_RETIRE, 0, 0));
}

/*
 * A season on which the rules part. The write of item 0 makes it dirty; the read of item 2 evicts item 1, at the cost of the one credit
 * or the other of item 0; the second read of item 0 fills up its load credit alone. So at the last step item 0 goes under one rule and
 * item 1 under the other.
 */
static const uint8_t four[] = { 1, 5, 0, 5, 0, 1, 2, 0, 0, 0, 1, 4, 0, 0, 0, 1, 3, 0, 0, 0 };

static void season_by(uint32_t rule)
{
    static const struct { const char *name; uint32_t kind, item; } log[] = {
        { "W 0 0", RECORDER_WRITE, 0 }, { "R 1", RECORDER_READ, 1 }, { "R 2", RECORDER_READ, 2 }, { "R 0", RECORDER_READ, 0 },
        { "R 3", RECORDER_READ, 3 },    { "R 1", RECORDER_READ, 1 }, { "R 2", RECORDER_READ, 2 },
    };
    struct state s, before;
    memset(&s, 0xA5, sizeof s);
    say("open 2", open_by(&s, rule, 2, four, sizeof four));
    for (size_t i = 0; i < sizeof log / sizeof *log; i++) {
        before = s;
        say(log[i].name, step(&s, log[i].kind, log[i].item, 0));
        print_marks(&before, &s);
        if (get32(&s, RECORDER_AT_RULE) != rule)
            fault("a step changed the rule");
    }
    print_figures(&s);
    before = s;
    say("close", close_it(&s));
    print_marks(&before, &s);
    print_figures(&s);
    printf("  total %llu, rule %u\n", (unsigned long long)(get64(&s, RECORDER_AT_LOAD_COST) + get64(&s, RECORDER_AT_WRITE_COST)),
           get32(&s, RECORDER_AT_RULE));
}

/* A figure of the credits, in units of cost. */
static unsigned long long units(uint64_t credit)
{
    if (credit % RECORDER_UNIT != 0)
        fault("a credit that is no whole cost");
    return (unsigned long long)(credit / RECORDER_UNIT);
}

/*
 * The same season, and a landing: what is stored is what was last reckoned, at an item's own steps and, if it is dirty, at a landing; what
 * stands follows from the level, which an eviction raises to the key that it drops, and a retirement leaves. The last item has two blocks.
 */
static void credits_by(uint32_t rule)
{
    static const struct { const char *name; numbers step; } log[] = {
        { "W 0", { RECORDER_WRITE, 0 } }, { "R 1", { RECORDER_READ, 1 } }, { "R 2", { RECORDER_READ, 2 } }, { "R 0", { RECORDER_READ, 0 } },
        { "R 3", { RECORDER_READ, 3 } }, { "R 1", { RECORDER_READ, 1 } }, { "R 2", { RECORDER_READ, 2 } }, { "L", { RECORDER_FLUSH } },
        { "Q 2", { RECORDER_RETIRE, 2 } }, { "A 4", { RECORDER_ARRIVE, 4, 0, 2, 6, 8 } }, { "W 4", { RECORDER_WRITE, 4 } },
    };
    struct state s;
    memset(&s, 0xA5, sizeof s);
    if (open_by(&s, rule, 2, four, sizeof four) != 0)
        fault("the opening was refused");
    for (size_t i = 0; i < sizeof log / sizeof *log; i++) {
        if (step_by(&s, log[i].step) != 0)
            fault("a step was refused");
        printf("%s: level %llu, used %u\n", log[i].name, units(get64(&s, RECORDER_AT_LEVEL)), get32(&s, RECORDER_AT_USED));
        for (uint32_t j = 0; j < RECORDER_MAX_ITEMS; j++)
            if (held(&s, j))
                printf("  item %u: %llu %llu, %llu, %llu %llu\n", j, units(get64(&s, RECORDER_AT_LOAD_CREDIT + 8 * j)),
                       units(get64(&s, RECORDER_AT_WRITE_CREDIT + 8 * j)), units(get64(&s, RECORDER_AT_KEYS + 8 * j)),
                       units(recorder_load_credit(s.bytes, BYTES, j)), units(recorder_write_credit(s.bytes, BYTES, j)));
            else if (recorder_load_credit(s.bytes, BYTES, j) != 0 || recorder_write_credit(s.bytes, BYTES, j) != 0)
                fault("an item that is not held has credit");
    }
}

static void rules(void)
{
    puts("a season by write-first");
    season_by(RECORDER_WRITE_FIRST);
    puts("a season by load-first");
    season_by(RECORDER_LOAD_FIRST);
    puts("credits by write-first, in units of cost: load and write as stored, the key, load and write as they stand");
    credits_by(RECORDER_WRITE_FIRST);
    puts("credits by load-first");
    credits_by(RECORDER_LOAD_FIRST);
}

/* One block for 256 items: each write evicts the one before, which is dirty. */
static void evictions(void)
{
    puts("evictions, each seen by its mark");
    struct state s, before;
    unsigned seen = 0;
    wide(&s);
    put(&s, RECORDER_AT_K, 4, 1);
    for (uint32_t i = 0; i < 256; i++) {
        before = s;
        if (step(&s, RECORDER_WRITE, 255 - i, 0) != 0)
            fault("a write was refused");
        for (uint32_t j = 0; j < 256; j++) {
            if (held(&s, j) != (j == 255 - i) || dirty(&s, j) != (j == 255 - i))
                fault("a mark astray");
            seen += held(&before, j) && !held(&s, j);
        }
    }
    printf("left: %u\n", seen);
    print_figures(&s);
}

/* A page of so many bytes in a heap block of exactly that length, so that valgrind sees a byte outside it; NULL for none. */
static uint8_t *blank(size_t page_len)
{
    if (page_len == 0)
        return NULL;
    uint8_t *page = malloc(page_len);
    if (page == NULL)
        abort();
    memset(page, 0x7E, page_len);
    return page;
}

/*
 * How many bytes of text a call has written on a page that was blank. Refused, page and length have to be as before; the bytes past
 * the text have to be as before always.
 */
static size_t written(const uint8_t *page, size_t page_len, uint32_t answer, size_t length)
{
    size_t count = answer == 0 ? length : 0;
    if (answer != 0 && length != UNTOLD)
        fault("a refused call changed the length");
    if (count > page_len) {
        fault("a text longer than its page");
        count = page_len;
    }
    for (size_t i = count; i < page_len; i++)
        if (page[i] != 0x7E) {
            fault("a byte past the text was written");
            break;
        }
    return count;
}

/* A report on a page of so many bytes. Prints the answer and, if it was written, the text. */
static void report(const char *what, const struct state *s, size_t state_len, size_t page_len)
{
    uint8_t *page = blank(page_len);
    uint8_t *state = block(s->bytes, state_len);
    size_t length = UNTOLD;
    uint32_t answer = note(recorder_report(state, state_len, page, page_len, &length));
    printf("%s: %u, length %zu\n", what, answer, length);
    size_t count = written(page, page_len, answer, length);
    if (count != 0)
        fwrite(page, 1, count, stdout);
    if (state_len != 0 && memcmp(state, s->bytes, state_len) != 0)
        fault("a report changed the state");
    free(state);
    free(page);
}

static void reports(void)
{
    puts("reports");
    struct state s, short_hoists, foul;
    memset(&s, 0, sizeof s);
    open_with(&s, 3, NULL, 0);
    report("no items", &s, BYTES, RECORDER_REPORT_BYTES);
    open_with(&s, 3, three, sizeof three);
    step(&s, RECORDER_WRITE, 0, 90);
    step(&s, RECORDER_READ, 1, 0);
    step(&s, RECORDER_WRITE, 2, 45);
    step(&s, RECORDER_READ, 0, 0);
    report("open", &s, BYTES, RECORDER_REPORT_BYTES);
    step(&s, RECORDER_FLUSH, 0, 0);
    close_it(&s);
    report("closed", &s, BYTES, RECORDER_REPORT_BYTES);
    memset(&short_hoists, 0, sizeof short_hoists);
    open_with(&short_hoists, 3, three, sizeof three);
    step(&short_hoists, RECORDER_WRITE, 0, 5);
    report("5 minutes", &short_hoists, BYTES, RECORDER_REPORT_BYTES);
    step(&short_hoists, RECORDER_WRITE, 0, 5);
    report("5 minutes twice", &short_hoists, BYTES, RECORDER_REPORT_BYTES);
    step(&short_hoists, RECORDER_READ, 0, 60);
    report("and a read that names minutes", &short_hoists, BYTES, RECORDER_REPORT_BYTES);
    report("a page that just fits", &s, BYTES, 138);
    report("a byte too short", &s, BYTES, 137);
    report("no page", &s, BYTES, 0);
    foul = s;
    foul.bytes[RECORDER_AT_HITS]++;
    report("a foul state", &foul, BYTES, RECORDER_REPORT_BYTES);
    report("a foul state and no page", &foul, BYTES, 0);
    foul = s;
    foul.bytes[RECORDER_AT_RULE] = 2;
    report("a state whose rule is 2", &foul, BYTES, RECORDER_REPORT_BYTES);
    foul = s;
    foul.bytes[RECORDER_AT_FORMAT] = 4;
    report("a state of the layout before", &foul, BYTES, RECORDER_REPORT_BYTES);
    report("a state of the layout before, of its length", &foul, 8836, RECORDER_REPORT_BYTES);
    foul.bytes[RECORDER_AT_FORMAT] = 1;
    report("a state of the first layout, of its length", &foul, 8792, RECORDER_REPORT_BYTES);
    foul = s;
    foul.bytes[RECORDER_AT_RULE] = 1;
    report("a state of the other rule", &foul, BYTES, RECORDER_REPORT_BYTES);
    report("a state too short", &s, BYTES - 1, RECORDER_REPORT_BYTES);
    report("a state too long", &s, BYTES + 1, RECORDER_REPORT_BYTES);
}

/* A sentence, and what was answered to it. */
struct sentence {
    uint32_t answer;
    size_t length;
    uint8_t text[RECORDER_SENTENCE_BYTES];
};

static struct sentence sentence(uint32_t number, uint32_t line, uint32_t item, size_t page_len)
{
    struct sentence s = { 0 };
    uint8_t *page = blank(page_len);
    size_t length = UNTOLD;
    s.answer = note(recorder_sentence(number, line, item, page, page_len, &length));
    s.length = written(page, page_len, s.answer, length);
    if (s.length > sizeof s.text) {
        fault("a sentence longer than the longest");
        s.length = sizeof s.text;
    }
    if (s.length != 0)
        memcpy(s.text, page, s.length);
    free(page);
    return s;
}

static bool same_sentence(const struct sentence *a, const struct sentence *b)
{
    return a->answer == b->answer && a->length == b->length && memcmp(a->text, b->text, a->length) == 0;
}

/* How many sentences were written, and on which pages; how long the longest was. */
static struct {
    unsigned written, just_fitting, byte_short, longer;
    size_t longest;
} pages;

/*
 * A number with several lines and items. Each sentence is printed, but not again where the item changes nothing in it; it is
 * asked for on the longest page that one needs, on pages of its own length, a byte less and more, and on none.
 */
static void sentences_of(uint32_t number)
{
    static const uint32_t lines[] = { 0, 1, 7, 4294967295u }, items[] = { 0, 3, 255, 4294967295u };
    uint32_t answer = sentence(number, 0, 0, RECORDER_SENTENCE_BYTES).answer, without = sentence(number, 0, 0, 0).answer;
    printf("%u: %u, no page: %u\n", number, answer, without);
    struct sentence last = { 0 };
    for (size_t i = 0; i < 16; i++) {
        uint32_t line = lines[i / 4], item = items[i % 4];
        struct sentence s = sentence(number, line, item, RECORDER_SENTENCE_BYTES);
        if (s.answer != answer || sentence(number, line, item, 0).answer != without)
            fault("the answer varies with the line or the item");
        if (s.answer != 0)
            continue;
        if (!same_sentence(&s, &last)) {
            printf("  ");
            fwrite(s.text, 1, s.length, stdout);
        }
        last = s;
        struct sentence fits = sentence(number, line, item, s.length), more = sentence(number, line, item, s.length + 300);
        pages.written++;
        pages.just_fitting += same_sentence(&s, &fits);
        pages.byte_short += s.length > 0 && sentence(number, line, item, s.length - 1).answer == RECORDER_SHORT_PAGE;
        pages.longer += same_sentence(&s, &more);
        if (s.length > pages.longest)
            pages.longest = s.length;
    }
}

static void sentences(void)
{
    /* Some have the number of a refusal in their low bytes. */
    static const uint32_t large[] = { 31, 255, 256, 262, 65542, 16777222, 2147483654u, 4294967295u };
    puts("sentences");
    for (uint32_t number = 0; number <= 30; number++)
        sentences_of(number);
    for (size_t i = 0; i < sizeof large / sizeof *large; i++)
        sentences_of(large[i]);
    printf("written: %u; the same on a page that just fits: %u, on a longer one: %u; refused on one a byte short: %u; longest: %zu\n",
           pages.written, pages.just_fitting, pages.longer, pages.byte_short, pages.longest);
}

/* What was answered to a list of steps, and the text if there is one. */
struct log {
    uint64_t answer;
    size_t length;
    uint8_t text[RECORDER_LOG_BYTES];
};

/* A list with one more step than any text has, and bytes of a step that is not whole. */
#define LIST_BYTES (RECORDER_STEP_BYTES * 10920 + 23)
#define PAGE_BYTES (RECORDER_LOG_BYTES + 64)

static uint32_t heading; /* under which the logs are written */

/* The log of a list at an odd address, on a page at an odd address; the bytes around both have to be as before. */
static uint64_t log_between_guards(const uint8_t *list, size_t list_len, uint8_t *page, size_t page_len, size_t *length)
{
    static uint8_t lists[GUARD + LIST_BYTES + GUARD], pages[GUARD + PAGE_BYTES + GUARD];
    memset(lists, 0xC3, sizeof lists);
    memset(pages, 0xC3, sizeof pages);
    if (list_len != 0)
        memcpy(lists + GUARD, list, list_len);
    memset(pages + GUARD, 0x7E, page_len);
    uint64_t answer = recorder_log(heading, lists + GUARD, list_len, pages + GUARD, page_len, length);
    for (size_t i = 0; i < sizeof pages; i++)
        if ((i < GUARD || i >= GUARD + page_len) && pages[i] != 0xC3) {
            fault("a byte outside the page was written");
            break;
        }
    for (size_t i = 0; i < sizeof lists; i++)
        if (lists[i] != (i < GUARD || i >= GUARD + list_len ? 0xC3 : list[i - GUARD])) {
            fault("the list, or a byte beside it, was written");
            break;
        }
    memcpy(page, pages + GUARD, page_len);
    return answer;
}

static const struct log *log_of(const uint8_t *list, size_t list_len, size_t page_len)
{
    static struct log l;
    static uint8_t other[PAGE_BYTES];
    uint8_t *steps = block(list, list_len), *page = blank(page_len);
    size_t length = UNTOLD, other_length = UNTOLD;
    l.answer = recorder_log(heading, steps, list_len, page, page_len, &length);
    note(RECORDER_LOG_NUMBER(l.answer));
    l.length = written(page, page_len, l.answer == 0 ? 0 : 1, length);
    if (l.length > sizeof l.text) {
        fault("a log longer than the longest");
        l.length = sizeof l.text;
    }
    if (l.length != 0)
        memcpy(l.text, page, l.length);
    if (list_len != 0 && memcmp(steps, list, list_len) != 0)
        fault("a log changed its list");
    if (log_between_guards(list, list_len, other, page_len, &other_length) != l.answer || other_length != length)
        fault("two answers to one list");
    if (page_len != 0 && memcmp(other, page, page_len) != 0)
        fault("two pages of one list");
    free(page);
    free(steps);
    return &l;
}

/* A list of steps, each six numbers, which on this machine are the bytes that are lent. */
static const struct log *log_of_steps(const numbers *steps, size_t count, size_t page_len)
{
    return log_of((const uint8_t *)steps, count * sizeof *steps, page_len);
}

/* Number and line, and the text's length if it was written. */
static void print_log(const char *what, const struct log *l)
{
    printf("%s: %u", what, RECORDER_LOG_NUMBER(l->answer));
    if (RECORDER_LOG_LINE(l->answer) != 0)
        printf(" on line %u", RECORDER_LOG_LINE(l->answer));
    if (l->answer == 0)
        printf(", length %zu", l->length);
    putchar('\n');
}

/* The same, and the text. */
static void print_text(const char *what, const struct log *l)
{
    print_log(what, l);
    fwrite(l->text, 1, l->length, stdout);
}

/* Each count of digits, and the ends of both ranges; what a step lacks is wild. */
static void good_logs(void)
{
    static const numbers kinds[] = {
        { RECORDER_READ, 0, 0 }, { RECORDER_READ, 9, 0 }, { RECORDER_READ, 10, 0 }, { RECORDER_READ, 99, 0 },
        { RECORDER_READ, 100, 0 }, { RECORDER_READ, 255, 0 }, { RECORDER_WRITE, 0, 0 }, { RECORDER_WRITE, 9, 9 },
        { RECORDER_WRITE, 10, 10 }, { RECORDER_WRITE, 99, 99 }, { RECORDER_WRITE, 100, 100 }, { RECORDER_WRITE, 199, 999 },
        { RECORDER_WRITE, 200, 1000 }, { RECORDER_WRITE, 255, 1440 }, { RECORDER_FLUSH, 0, 0 },
    };
    static const numbers wild[] = {
        { RECORDER_READ, 3, 1441, 17 }, { RECORDER_READ, 3, 4294967295u, 0, 65536, 65536 }, { RECORDER_FLUSH, 256, 1441 },
        { RECORDER_FLUSH, 4294967295u, 4294967295u, 4294967295u, 4294967295u, 4294967295u },
        { RECORDER_FLUSH, RECORDER_READ, RECORDER_WRITE, RECORDER_ARRIVE, RECORDER_RETIRE },
    };
    static const numbers tame[] = {
        { RECORDER_READ, 3, 0 }, { RECORDER_READ, 3, 0 }, { RECORDER_FLUSH, 0, 0 }, { RECORDER_FLUSH, 0, 0 }, { RECORDER_FLUSH, 0, 0 },
    };
    enum { KINDS = sizeof kinds / sizeof *kinds, WILD = sizeof wild / sizeof *wild };
    print_text("no steps", log_of(NULL, 0, RECORDER_LOG_BYTES));
    size_t names = log_of(NULL, 0, RECORDER_LOG_BYTES)->length;
    print_log("no steps, a page that just fits", log_of(NULL, 0, names));
    print_log("no steps, a byte short", log_of(NULL, 0, names - 1));
    print_log("no steps, no page", log_of(NULL, 0, 0));
    print_text("each kind", log_of_steps(kinds, KINDS, RECORDER_LOG_BYTES));
    size_t fits = log_of_steps(kinds, KINDS, RECORDER_LOG_BYTES)->length;
    print_log("a page that just fits", log_of_steps(kinds, KINDS, fits));
    print_log("a byte more", log_of_steps(kinds, KINDS, fits + 1));
    print_log("a byte short", log_of_steps(kinds, KINDS, fits - 1));
    print_log("no page", log_of_steps(kinds, KINDS, 0));
    print_text("wild where nothing is looked at", log_of_steps(wild, WILD, RECORDER_LOG_BYTES));
    struct log first = *log_of_steps(wild, WILD, RECORDER_LOG_BYTES);
    const struct log *second = log_of_steps(tame, WILD, RECORDER_LOG_BYTES);
    puts(first.length == second->length && memcmp(first.text, second->text, first.length) == 0 ? "the same text" : "ANOTHER TEXT");
}

/* A step out of range in front, in the middle and at the end of good ones; with a page, and with none (3 before 15). */
static void faulty_steps(void)
{
    static const struct { const char *name; numbers step; } rows[] = {
        { "kind 0", { 0, 0, 0 } },
        { "kind 66 (B)", { 66, 0, 0, 1, 1, 1 } },
        { "kind 114 (r)", { 114, 0, 0 } },
        { "kind 82 + 256", { 338, 0, 0 } },
        { "kind 82, high byte first", { 82u << 24, 0, 0 } },
        { "kind 4294967295", { 4294967295u, 0, 0 } },
        { "R 256", { RECORDER_READ, 256, 0 } },
        { "R 4294967295", { RECORDER_READ, 4294967295u, 0 } },
        { "W 256 0", { RECORDER_WRITE, 256, 0 } },
        { "W 0 1441", { RECORDER_WRITE, 0, 1441 } },
        { "W 0 4294967295", { RECORDER_WRITE, 0, 4294967295u } },
        { "W 65536 65536", { RECORDER_WRITE, 65536, 65536 } },
        { "A 256", { RECORDER_ARRIVE, 256, 0, 1, 1, 1 } },
        { "A 0, no blocks", { RECORDER_ARRIVE, 0, 0, 0, 1, 1 } },
        { "A 0, 17 blocks", { RECORDER_ARRIVE, 0, 0, 17, 1, 1 } },
        { "A 0, load 65536", { RECORDER_ARRIVE, 0, 0, 1, 65536, 1 } },
        { "A 0, write 65536", { RECORDER_ARRIVE, 0, 0, 1, 1, 65536 } },
        { "Q 256", { RECORDER_RETIRE, 256 } },
    };
    static const size_t places[] = { 0, 3, 6 };
    for (size_t i = 0; i < sizeof rows / sizeof *rows; i++) {
        printf("%s:", rows[i].name);
        for (size_t j = 0; j < 3; j++) {
            numbers steps[7];
            const numbers *list = (const numbers *)steps;
            for (size_t k = 0; k < 7; k++)
                memcpy(steps[k], k == places[j] ? rows[i].step : (const numbers) { RECORDER_WRITE, 7, 60 }, sizeof *steps);
            uint64_t answer = log_of_steps(list, 7, RECORDER_LOG_BYTES)->answer;
            if (log_of_steps(list, 7, 0)->answer != answer)
                fault("another answer without a page");
            printf(" %u on line %u%s", RECORDER_LOG_NUMBER(answer), RECORDER_LOG_LINE(answer), j < 2 ? "," : "\n");
        }
    }
    static const numbers two[4] = { { RECORDER_FLUSH, 0, 0 }, { RECORDER_WRITE, 0, 1441 }, { RECORDER_FLUSH, 0, 0 }, { 0, 0, 0 } };
    print_log("two faults", log_of_steps(two, 4, RECORDER_LOG_BYTES));
}

/* Arrivals and retirements, each count of digits; under the three names the first of them is out of range. */
static void changing_logs(void)
{
    static const numbers kinds[] = {
        { RECORDER_FLUSH }, { RECORDER_ARRIVE, 0, 1441, 1, 0, 0 }, { RECORDER_ARRIVE, 9, 0, 9, 9, 10 }, { RECORDER_ARRIVE, 10, 0, 10, 99, 100 },
        { RECORDER_ARRIVE, 99, 0, 16, 999, 1000 }, { RECORDER_ARRIVE, 100, 0, 2, 9999, 10000 }, { RECORDER_ARRIVE, 255, 4294967295u, 16, 65535, 65535 },
        { RECORDER_RETIRE, 0, 1441 }, { RECORDER_RETIRE, 99, 0, 17, 65536, 65536 }, { RECORDER_RETIRE, 255 }, { RECORDER_WRITE, 255, 1440 },
    };
    enum { KINDS = sizeof kinds / sizeof *kinds };
    print_text("arrivals and retirements", log_of_steps(kinds, KINDS, RECORDER_LOG_BYTES));
    size_t fits = log_of_steps(kinds, KINDS, RECORDER_LOG_BYTES)->length;
    print_log("a page that just fits", log_of_steps(kinds, KINDS, fits));
    if (fits != 0)
        print_log("a byte short", log_of_steps(kinds, KINDS, fits - 1));
    print_log("a retirement first", log_of_steps(kinds + 7, KINDS - 7, RECORDER_LOG_BYTES));
}

/* A number that is no heading's: 3 on line 1, whatever the list and the page are. */
static void odd_headings(void)
{
    static const uint32_t odd[] = { 2, 3, 256, 257, 2147483648u, 4294967295u };
    static const numbers bad[] = { { 0 } };
    for (size_t i = 0; i < sizeof odd / sizeof *odd; i++) {
        heading = odd[i];
        printf("heading %u:\n", heading);
        print_log("  no steps", log_of(NULL, 0, RECORDER_LOG_BYTES));
        print_log("  a step out of range, no page", log_of_steps(bad, 1, 0));
        print_log("  a list that is not whole", log_of((const uint8_t *)bad, 5, RECORDER_LOG_BYTES));
    }
}

/* Lists that are not whole: behind three good steps, as the whole list, and behind a fault, which is the first then. */
static void rests(void)
{
    static const numbers good[4] = { { 76, 0, 0 }, { 82, 3, 0 }, { 87, 3, 40 }, { 82, 4, 0 } };
    static const numbers bad[4] = { { 76, 0, 0 }, { 82, 256, 0 }, { 87, 3, 40 }, { 82, 4, 0 } };
    for (size_t rest = 1; rest < RECORDER_STEP_BYTES; rest++) {
        printf("%zu bytes:", rest);
        const struct { const numbers *steps; size_t whole; } lists[] = { { good, 3 }, { good, 0 }, { bad, 3 } };
        for (size_t i = 0; i < 3; i++) {
            const uint8_t *list = (const uint8_t *)lists[i].steps;
            size_t list_len = lists[i].whole * RECORDER_STEP_BYTES + rest;
            uint64_t answer = log_of(list, list_len, RECORDER_LOG_BYTES)->answer;
            if (log_of(list, list_len, 0)->answer != answer)
                fault("another answer without a page");
            printf(" %u on line %u%s", RECORDER_LOG_NUMBER(answer), RECORDER_LOG_LINE(answer), i < 2 ? "," : "\n");
        }
    }
}

/* The longest texts. A line has six bytes or more, so 10,919 steps are the most. */
static void long_logs(void)
{
    static numbers steps[10921];
    const numbers *list = (const numbers *)steps;
    heading = RECORDER_THREE_NAMES;
    for (size_t i = 0; i < sizeof steps / sizeof *steps; i++)
        steps[i][0] = RECORDER_FLUSH;
    print_log("10919 times L", log_of_steps(list, 10919, RECORDER_LOG_BYTES));
    print_log("  on a page that just fits", log_of_steps(list, 10919, 65532));
    print_log("  a byte short", log_of_steps(list, 10919, 65531));
    print_log("10920 times L, 65538 bytes", log_of_steps(list, 10920, PAGE_BYTES));
    print_log("  and 5 bytes more (3 before 15)", log_of((const uint8_t *)list, RECORDER_STEP_BYTES * 10920 + 5, PAGE_BYTES));
    memcpy(steps[10918], (const numbers) { RECORDER_WRITE, 0, 1000 }, sizeof *steps);
    memcpy(steps[0], (const numbers) { RECORDER_READ, 10, 0 }, sizeof *steps);
    print_log("65536 bytes", log_of_steps(list, 10919, RECORDER_LOG_BYTES));
    const struct log *l = log_of_steps(list, 10919, RECORDER_LOG_BYTES);
    printf("  begins and ends with\n%.25s%.15s", (const char *)l->text, (const char *)l->text + l->length - 15);
    print_log("  on a longer page", log_of_steps(list, 10919, PAGE_BYTES));
    print_log("  a byte short", log_of_steps(list, 10919, RECORDER_LOG_BYTES - 1));
    memcpy(steps[1], (const numbers) { RECORDER_READ, 10, 0 }, sizeof *steps);
    print_log("65537 bytes", log_of_steps(list, 10919, RECORDER_LOG_BYTES + 1));
    print_log("  on a longer page", log_of_steps(list, 10919, PAGE_BYTES));
    steps[10918][1] = 256;
    print_log("  its last step out of range (3 before 15)", log_of_steps(list, 10919, PAGE_BYTES));
    steps[10919][0] = 0;
    steps[10918][1] = 0;
    print_log("  a step out of range behind it", log_of_steps(list, 10920, PAGE_BYTES));
}

/* The same under the six names, where a line has twelve bytes or more: 5,458 steps are the most. */
static void long_logs_of_six(void)
{
    static numbers steps[5459];
    const numbers *list = (const numbers *)steps;
    heading = RECORDER_SIX_NAMES;
    for (size_t i = 0; i < sizeof steps / sizeof *steps; i++)
        steps[i][0] = RECORDER_FLUSH;
    print_log("5458 times L, six names", log_of_steps(list, 5458, RECORDER_LOG_BYTES));
    print_log("  5459 times", log_of_steps(list, 5459, PAGE_BYTES));
    memcpy(steps[5457], (const numbers) { RECORDER_ARRIVE, 0, 0, 1, 10, 100 }, sizeof *steps);
    memcpy(steps[0], (const numbers) { RECORDER_ARRIVE, 0, 0, 1, 10, 1 }, sizeof *steps);
    print_log("  65536 bytes", log_of_steps(list, 5458, RECORDER_LOG_BYTES));
    steps[0][4] = 100;
    print_log("  65537 bytes", log_of_steps(list, 5458, PAGE_BYTES));
}

static void logs(void)
{
    static const char *const names[] = { "three", "six" };
    puts("logs");
    for (heading = RECORDER_THREE_NAMES; heading <= RECORDER_SIX_NAMES; heading++) {
        printf("under the %s names\n", names[heading]);
        good_logs();
        changing_logs();
        puts("steps out of range: in front, in the middle, at the end");
        faulty_steps();
    }
    heading = RECORDER_SIX_NAMES;
    puts("lists that are not whole: behind three steps, alone, behind a step out of range");
    rests();
    puts("the longest logs");
    long_logs();
    long_logs_of_six();
    puts("numbers of no heading");
    odd_headings();
}

/* Numbers at odd addresses, in heap blocks of just their bytes, so that valgrind sees a byte read or written outside them. */
static void numbers_in_bytes(void)
{
    static const uint8_t rows[][8] = {
        { 0x01, 0x02, 0x03, 0x04, 0x05, 0x06, 0x07, 0x08 },
        { 0xFF, 0xFF, 0xFF, 0xFF, 0xFF, 0xFF, 0xFF, 0xFF },
        { 0x00, 0x80, 0x00, 0x80, 0x00, 0x00, 0x00, 0x80 },
    };
    for (size_t i = 0; i < sizeof rows / sizeof *rows; i++) {
        uint8_t bytes[9] = { 0x7E };
        memcpy(bytes + 1, rows[i], 8);
        uint8_t *two = block(bytes, 3), *four = block(bytes, 5), *eight = block(bytes, 9);
        printf("%x %x %llx\n", (unsigned)recorder_u16(two + 1), recorder_u32(four + 1), (unsigned long long)recorder_u64(eight + 1));
        recorder_put_u32(four + 1, recorder_u32(rows[i] + 4));
        printf("  put: %02x %02x %02x %02x %02x\n", four[0], four[1], four[2], four[3], four[4]);
        free(two);
        free(four);
        free(eight);
    }
}

/* Catalogs by RECORDER_ITEM and by recorder_put_item, which writes nothing but the item's own bytes, and those only in range. */
static void catalogs(void)
{
    static const uint8_t by_macro[] = { RECORDER_ITEM(1, 4, 6), RECORDER_ITEM(2, 6, 2), RECORDER_ITEM(1, 3, 9) };
    static const uint8_t wide_item[] = { RECORDER_ITEM(16, 0x1234, 65535) };
    static const uint32_t rows[][4] = {
        { 0, 16, 0x1234, 65535 }, { 255, 1, 0, 0 }, { 255, 16, 65535, 0xFE01 }, { 256, 1, 0, 0 }, { 4294967295u, 1, 0, 0 }, { 0, 0, 1, 1 },
        { 0, 17, 1, 1 }, { 0, 257, 1, 1 }, { 0, 4294967295u, 1, 1 }, { 0, 1, 65536, 1 }, { 0, 1, 4294967295u, 1 }, { 0, 1, 1, 65536 },
        { 0, 1, 1, 4294967295u },
    };
    _Static_assert(RECORDER_CATALOG_BYTES == RECORDER_MAX_ITEMS * RECORDER_ITEM_BYTES, "the longest catalog has the most items");
    puts(sizeof by_macro == sizeof three && memcmp(by_macro, three, sizeof three) == 0 ? "the same catalog" : "ANOTHER CATALOG");
    printf("wide: %02x %02x %02x %02x %02x\n", wide_item[0], wide_item[1], wide_item[2], wide_item[3], wide_item[4]);
    static uint8_t none[RECORDER_CATALOG_BYTES];
    memset(none, 0xC3, sizeof none);
    for (size_t i = 0; i < sizeof rows / sizeof *rows; i++) {
        const uint32_t *r = rows[i];
        uint8_t *catalog = block(none, sizeof none);
        bool put = recorder_put_item(catalog, r[0], r[1], r[2], r[3]);
        unsigned others = 0;
        for (size_t j = 0; j < sizeof none; j++)
            others += catalog[j] != 0xC3 && !(put && j / RECORDER_ITEM_BYTES == r[0]);
        printf("item %u, blocks %u, load %u, write %u: %s, others written %u", r[0], r[1], r[2], r[3], put ? "put" : "not put", others);
        for (size_t j = 0; put && j < RECORDER_ITEM_BYTES; j++)
            printf(" %02x", catalog[r[0] * RECORDER_ITEM_BYTES + j]);
        putchar('\n');
        free(catalog);
    }
    struct state s, first;
    memset(&s, 0xA5, sizeof s);
    first = s;
    uint8_t put[sizeof three];
    if (!recorder_put_item(put, 0, 1, 4, 6) || !recorder_put_item(put, 1, 2, 6, 2) || !recorder_put_item(put, 2, 1, 3, 9))
        fault("an item was not put");
    printf("open: %u %u", open_with(&s, 3, put, sizeof put), open_with(&first, 3, three, sizeof three));
    puts(memcmp(s.bytes, first.bytes, BYTES) == 0 ? ", the same" : ", OTHER BYTES");
}

/* A list of steps by recorder_put_step is the array of their numbers, on this machine. */
static void lists(void)
{
    static const numbers steps[] = {
        { RECORDER_WRITE, 7, 1440, 0, 0, 0 }, { RECORDER_ARRIVE, 255, 0x01020304, 16, 65535, 0x1234 }, { 4294967295u, 1, 2, 3, 4, 0x80000000u },
    };
    uint8_t *list = blank(sizeof steps);
    for (size_t i = 3; i-- > 0;) {
        recorder_put_step(list, i, steps[i][0], steps[i][1], steps[i][2], steps[i][3], steps[i][4], steps[i][5]);
        for (size_t j = 0; j < i * RECORDER_STEP_BYTES; j++)
            if (list[j] != 0x7E)
                fault("a step before its own place was written");
    }
    puts(memcmp(list, steps, sizeof steps) == 0 ? "the same list" : "ANOTHER LIST");
    free(list);
}

/* What is left of one credit, where so much of the loss is borne by the other. */
static uint64_t less(uint64_t credit, uint64_t loss, uint64_t borne)
{
    uint64_t rest = loss > borne ? loss - borne : 0;
    return credit > rest ? credit - rest : 0;
}

/*
 * The credits that stand, of 256 items of 1 to 16 blocks at a level: those stored, less a loss of this many for each block. Each item has
 * other credits and another key, so that a wrong place is seen.
 */
static unsigned credits_astray(uint32_t rule, uint64_t each)
{
    const uint64_t level = 1000000 * RISE;
    struct state s;
    memset(&s, 0xA5, sizeof s);
    put(&s, RECORDER_AT_RULE, 4, rule);
    put(&s, RECORDER_AT_LEVEL, 8, level);
    for (uint32_t i = 0; i < 256; i++) {
        const uint64_t blocks = 1 + i % 16, load = 100000 + 17 * i, write = i % 3 == 0 ? 0 : 50000 + 13 * i;
        s.bytes[RECORDER_AT_HELD + i] = i % 5 != 4;
        s.bytes[RECORDER_AT_BLOCKS + i] = (uint8_t)blocks;
        put(&s, RECORDER_AT_LOAD_CREDIT + 8 * i, 8, blocks * load);
        put(&s, RECORDER_AT_WRITE_CREDIT + 8 * i, 8, blocks * write);
        put(&s, RECORDER_AT_KEYS + 8 * i, 8, level + load + write - each);
    }
    uint8_t *exact = block(s.bytes, BYTES);
    unsigned astray = 0;
    for (uint32_t i = 0; i < 256; i++) {
        const uint64_t blocks = 1 + i % 16, load = 100000 + 17 * i, write = i % 3 == 0 ? 0 : 50000 + 13 * i;
        const uint64_t stands_load = i % 5 == 4 ? 0 : blocks * less(load, each, rule == RECORDER_LOAD_FIRST ? 0 : write);
        const uint64_t stands_write = i % 5 == 4 ? 0 : blocks * less(write, each, rule == RECORDER_LOAD_FIRST ? load : 0);
        astray += recorder_load_credit(exact, BYTES, i) != stands_load;
        astray += recorder_write_credit(exact, BYTES, i) != stands_write;
    }
    free(exact);
    return astray;
}

/* The credits of states that are none: any number may come out, but each call returns (the sanitizer looks at it too). */
static void credits_of_none(void)
{
    static const struct { uint8_t all, held, blocks; } rows[] = {
        { 0xFF, 1, 255 }, { 0xFF, 1, 1 }, { 0xFF, 1, 0 }, { 0x00, 1, 0 }, { 0x00, 1, 16 }, { 0x7F, 1, 3 }, { 0x80, 1, 16 }, { 0xA5, 0xA5, 0xA5 },
    };
    struct state s;
    for (size_t i = 0; i < sizeof rows / sizeof *rows; i++) {
        memset(&s, rows[i].all, sizeof s);
        memset(s.bytes + RECORDER_AT_HELD, rows[i].held, 256);
        memset(s.bytes + RECORDER_AT_BLOCKS, rows[i].blocks, 256);
        for (uint32_t rule = RECORDER_WRITE_FIRST; rule <= RECORDER_LOAD_FIRST; rule++) {
            put(&s, RECORDER_AT_RULE, 4, rule);
            uint8_t *exact = block(s.bytes, BYTES);
            for (uint32_t j = 0; j < 256; j++)
                if (recorder_load_credit(exact, BYTES, j) + recorder_write_credit(exact, BYTES, j) != 0 && (rows[i].held != 1 || rows[i].blocks == 0))
                    fault("credit of what is not held, or has no blocks");
            free(exact);
        }
    }
}

/* What the header reads of a state, beside what this file reads. Each item has other figures, so that a wrong place is seen. */
static void figures(void)
{
    struct state s;
    static const uint64_t losses[] = { 0, 1, 49999, 50000, 60000, 100000, 104335, 150000, 250000 };
    for (uint32_t rule = RECORDER_WRITE_FIRST; rule <= RECORDER_LOAD_FIRST; rule++) {
        printf("credits astray, rule %u:", rule);
        for (size_t i = 0; i < sizeof losses / sizeof *losses; i++)
            printf(" %u", credits_astray(rule, losses[i]));
        putchar('\n');
    }
    credits_of_none();
    memset(&s, 0xA5, sizeof s);
    for (uint32_t i = 0; i < 256; i++) {
        put(&s, RECORDER_AT_MINUTES + 4 * i, 4, 0x80000000u + 0x010203u * i);
        put(&s, RECORDER_AT_ITEM_LOADS + 4 * i, 4, 0x40000000u + 0x020304u * i);
        put(&s, RECORDER_AT_ITEM_WRITEBACKS + 4 * i, 4, 0x20000000u + 0x030405u * i);
    }
    uint8_t *exact = block(s.bytes, BYTES);
    unsigned astray = 0;
    for (uint32_t i = 0; i < 256; i++) {
        astray += recorder_item_minutes(exact, BYTES, i) != 0x80000000u + 0x010203u * i;
        astray += recorder_item_loads(exact, BYTES, i) != 0x40000000u + 0x020304u * i;
        astray += recorder_item_writebacks(exact, BYTES, i) != 0x20000000u + 0x030405u * i;
    }
    printf("figures astray: %u\n", astray);
    static const struct { const char *name; size_t len; uint32_t item; } rows[] = {
        { "item 256", BYTES, 256 }, { "item 4294967295", BYTES, 4294967295u }, { "length 11407", BYTES - 1, 0 }, { "length 11409", BYTES + 1, 0 },
        { "no state", 0, 0 },
    };
    for (size_t i = 0; i < sizeof rows / sizeof *rows; i++) {
        const uint8_t *bytes = rows[i].len == 0 ? NULL : exact;
        printf("%s: %llu %llu %u %u %u\n", rows[i].name, (unsigned long long)recorder_load_credit(bytes, rows[i].len, rows[i].item),
               (unsigned long long)recorder_write_credit(bytes, rows[i].len, rows[i].item),
               recorder_item_minutes(bytes, rows[i].len, rows[i].item), recorder_item_loads(bytes, rows[i].len, rows[i].item),
               recorder_item_writebacks(bytes, rows[i].len, rows[i].item));
    }
    free(exact);

    busy(&s);
    printf("busy: format %u, hits %u, loads %u, loadcost %llu, items %u, item 3: load credit %llu, write credit %llu, minutes %u, loads %u, "
           "item 0: writebacks %u\n",
           recorder_format(s.bytes, BYTES), recorder_u32(s.bytes + RECORDER_AT_HITS), recorder_u32(s.bytes + RECORDER_AT_LOADS),
           (unsigned long long)recorder_u64(s.bytes + RECORDER_AT_LOAD_COST), (unsigned)recorder_u16(s.bytes + RECORDER_AT_N),
           (unsigned long long)recorder_load_credit(s.bytes, BYTES, 3), (unsigned long long)recorder_write_credit(s.bytes, BYTES, 3),
           recorder_item_minutes(s.bytes, BYTES, 3), recorder_item_loads(s.bytes, BYTES, 3), recorder_item_writebacks(s.bytes, BYTES, 0));
}

/* The number of a layout is read from any four bytes. */
static void formats(void)
{
    struct state s;
    busy(&s);
    static const size_t lengths[] = { 0, 3, 4, 8792, 8796, 8836, BYTES, BYTES + 1 };
    printf("format %u:", RECORDER_FORMAT);
    for (size_t i = 0; i < sizeof lengths / sizeof *lengths; i++) {
        uint8_t *exact = block(s.bytes, lengths[i]);
        printf(" %u", recorder_format(exact, lengths[i]));
        free(exact);
    }
    put(&s, RECORDER_AT_FORMAT, 4, 0x01020304);
    printf(", %x\n", recorder_format(s.bytes, BYTES));
}

static void helpers(void)
{
    puts("the header's inline functions");
    numbers_in_bytes();
    catalogs();
    lists();
    figures();
    formats();
}

/* Every number that a call has answered above: those of enum recorder_answer. */
static void print_answers(void)
{
    printf("answered:");
    for (uint32_t i = 0; i < sizeof answered / sizeof *answered; i++)
        if (answered[i])
            printf(" %u", i);
    putchar('\n');
}

int main(void)
{
    example();
    openings();
    arguments();
    states();
    marks();
    turnover();
    changes();
    evictions();
    rules();
    reports();
    sentences();
    logs();
    helpers();
    print_answers();
    printf("faults: %d\n", faults);
    return faults != 0;
}
