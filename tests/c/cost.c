/*
 * The calls whose instructions the header's paragraph TIME tells, for callgrind: tests/c/cost counts what lies between row_begin
 * and row_end, inside the six calls alone, and divides it by the count of calls. Each row is printed as a line: its name, the items
 * of the catalog, the count of calls. A name with the same items again is another of its kind, of which the most counts.
 *
 * The states of hits and misses are made as those of `make bench`: items of 1 to 4 blocks, all written once; for misses the cache
 * has room for half of the blocks.
 */
#include "recorder.h"

#include <stdio.h>
#include <stdlib.h>
#include <string.h>

#define MANY 1000 /* steps of a row of hits or misses */
#define WORST 32  /* steps of a row of the worst */
#define LOG 2847  /* steps of a log that always has a text */

static uint8_t state[RECORDER_STATE_BYTES], catalog[RECORDER_CATALOG_BYTES];
static uint8_t page[RECORDER_LOG_BYTES], list[LOG * RECORDER_STEP_BYTES];
static size_t length;
static volatile unsigned marked;

__attribute__((noinline)) void row_begin(void)
{
    marked++;
}

__attribute__((noinline)) void row_end(const char *name, uint32_t items, uint32_t calls)
{
    marked++;
    printf("%s\t%u\t%u\n", name, items, calls);
}

static void must(uint64_t answer, uint64_t wanted)
{
    if (answer == wanted)
        return;
    fprintf(stderr, "tests/c/cost: an answer %llu where %llu is due\n", (unsigned long long)answer, (unsigned long long)wanted);
    exit(1);
}

/* A number below `end`. */
static uint32_t below(uint32_t end)
{
    static uint32_t seed = 1;
    seed = seed * 1103515245u + 12345u;
    return (seed >> 8) % end;
}

static uint32_t step(uint32_t kind, uint32_t item, uint32_t minutes)
{
    return recorder_step(state, sizeof state, kind, item, minutes, 0, 0, 0);
}

/* A catalog of so many items, of 1 to 4 blocks; answers how many blocks they have. */
static uint32_t list_items(uint32_t n)
{
    uint32_t all = 0;
    for (uint32_t i = 0; i < n; i++) {
        must(recorder_put_item(catalog, i, 1 + i % 4, 1 + below(1000), 1 + below(1000)), true);
        all += 1 + i % 4;
    }
    return all;
}

/* An open cache of k blocks in which each item was written once. */
static void fill(uint32_t k, uint32_t n)
{
    must(recorder_open(state, sizeof state, k, RECORDER_WRITE_FIRST, catalog, n * RECORDER_ITEM_BYTES), 0);
    for (uint32_t i = 0; i < n; i++)
        must(step(RECORDER_WRITE, i, 60), 0);
}

/* Reads and writes of items that are held, or of items that are not. */
static void many(const char *name, uint32_t n, bool held)
{
    row_begin();
    for (int j = 0; j < MANY; j++) {
        uint32_t item = below(n);
        while (recorder_is_held(state, sizeof state, item) != held)
            item = below(n);
        must(step(below(2) == 0 ? RECORDER_READ : RECORDER_WRITE, item, below(1441)), 0);
    }
    row_end(name, n, MANY);
}

/* Gives a cache that was filled the figures of a season of 1,000,000 steps, with as many digits as there can be. */
static void lengthen(uint32_t n)
{
    const uint32_t loads = 999000 / n, most = 1440 * RECORDER_MAX_STEPS;
    for (uint32_t i = 0; i < n; i++) {
        recorder_put_u32(state + RECORDER_AT_MINUTES + 4 * i, most);
        recorder_put_u32(state + RECORDER_AT_ITEM_LOADS + 4 * i, loads);
        recorder_put_u32(state + RECORDER_AT_ITEM_WRITEBACKS + 4 * i, loads - 1); /* once more each: they are dirty */
    }
    recorder_put_u32(state + RECORDER_AT_STEPS, RECORDER_MAX_STEPS);
    recorder_put_u32(state + RECORDER_AT_HITS, RECORDER_MAX_STEPS - n * loads);
    recorder_put_u32(state + RECORDER_AT_LOADS, n * loads);
    recorder_put_u32(state + RECORDER_AT_EVICTIONS, n * loads - n);
    recorder_put_u32(state + RECORDER_AT_DIRTY_EVICTIONS, n * loads - n);
    recorder_put_u32(state + RECORDER_AT_WRITEBACKS, n * loads - n);
    recorder_put_u32(state + RECORDER_AT_LOAD_COST + 4, 15); /* times 2 to the 32: 64,424,509,440 and more */
    recorder_put_u32(state + RECORDER_AT_WRITE_COST + 4, 15);
    must(recorder_is_valid(state, sizeof state), true);
}

static void rows_of(uint32_t n)
{
    uint32_t all = list_items(n);
    row_begin();
    must(recorder_open(state, sizeof state, all, RECORDER_WRITE_FIRST, catalog, n * RECORDER_ITEM_BYTES), 0);
    row_end("recorder_open", n, 1);

    fill(all, n);
    row_begin();
    must(step(0, 0, 0), RECORDER_OUT_OF_RANGE);
    row_end("recorder_step, refused", n, 1);
    many("recorder_step, hit", n, true);
    fill(all / 2, n);
    many("recorder_step, miss, one eviction", n, false);
    fill(all, n);
    row_begin();
    must(step(RECORDER_FLUSH, 0, 0), 0);
    row_end("recorder_step, flush, all dirty", n, 1);
    fill(all, n);
    row_begin();
    must(recorder_close(state, sizeof state), 0);
    row_end("recorder_close, all dirty", n, 1);
    fill(all, n);
    lengthen(n);
    row_begin();
    must(recorder_report(state, sizeof state, page, sizeof page, &length), 0);
    row_end("recorder_report, long figures", n, 1);
    row_begin();
    must(recorder_is_valid(state, sizeof state), true);
    row_end("recorder_is_valid, long figures", n, 1);

    /* the arrival that makes it so many items, and the retirement of one that is held and dirty */
    fill(all, n - 1);
    row_begin();
    must(recorder_step(state, sizeof state, RECORDER_ARRIVE, n - 1, 0, 4, 9, 7), 0);
    row_end("recorder_step, arrival", n, 1);
    fill(all, n);
    row_begin();
    must(step(RECORDER_RETIRE, n - 1, 0), 0);
    row_end("recorder_step, retirement", n, 1);
    for (uint32_t i = 0; i < n - 1; i++)
        must(step(RECORDER_RETIRE, i, 0), 0);
    row_begin();
    must(step(0, 0, 0), RECORDER_OUT_OF_RANGE);
    row_end("recorder_step, refused, all have left", n, 1);
}

/*
 * 255 items of one block are held, all dirty, with any costs; then one of 16 blocks is asked for, and 16 of them go. It comes in at the head
 * of the heap, for its load costs nothing, and then goes to its end, for its write costs the most.
 */
static void worst_miss(void)
{
    const uint32_t large = RECORDER_MAX_ITEMS - 1;
    for (int j = 0; j < WORST; j++) {
        for (uint32_t i = 0; i < large; i++)
            must(recorder_put_item(catalog, i, 1, 1 + below(RECORDER_MAX_COST), 1 + below(RECORDER_MAX_COST)), true);
        must(recorder_put_item(catalog, large, RECORDER_MAX_BLOCKS, 0, RECORDER_MAX_COST), true);
        must(recorder_open(state, sizeof state, large, RECORDER_WRITE_FIRST, catalog, sizeof catalog), 0);
        for (uint32_t i = 0; i < large; i++)
            must(step(RECORDER_WRITE, i, 60), 0);
        row_begin();
        must(step(RECORDER_WRITE, large, 60), 0);
        row_end("recorder_step, miss, 16 evictions", RECORDER_MAX_ITEMS, 1);
        must(recorder_u32(state + RECORDER_AT_EVICTIONS), 16);
    }
}

/* 256 dirty items are written back, each of which has less left than the one before: so each goes to the head of the heap. */
static void worst_flush(void)
{
    for (uint32_t i = 0; i < RECORDER_MAX_ITEMS; i++)
        must(recorder_put_item(catalog, i, RECORDER_MAX_BLOCKS, RECORDER_MAX_COST - 250 * i, RECORDER_MAX_COST), true);
    for (int j = 0; j < WORST; j++) {
        must(recorder_open(state, sizeof state, RECORDER_MAX_K, j % 2 == 0 ? RECORDER_WRITE_FIRST : RECORDER_LOAD_FIRST, catalog, sizeof catalog), 0);
        for (uint32_t i = 0, first = below(RECORDER_MAX_ITEMS); i < RECORDER_MAX_ITEMS; i++)
            must(step(RECORDER_WRITE, (first + 101 * i) % RECORDER_MAX_ITEMS, 60), 0);
        row_begin();
        must(step(RECORDER_FLUSH, 0, 0), 0);
        row_end("recorder_step, flush, at most", RECORDER_MAX_ITEMS, 1);
    }
}

/* The sentence of each number that has one, with the longest line and item. */
static void sentences(void)
{
    for (uint32_t number = 1; number <= 27; number++) {
        if (number == 23)
            continue;
        row_begin();
        must(recorder_sentence(number, UINT32_MAX, UINT32_MAX, page, sizeof page, &length), 0);
        row_end("recorder_sentence, at most", 0, 1);
    }
}

/* A log of the longest lines, and one of all kinds in turn. */
static void logs(void)
{
    static const uint32_t kinds[] = { RECORDER_READ, RECORDER_WRITE, RECORDER_FLUSH, RECORDER_ARRIVE, RECORDER_RETIRE };
    for (size_t i = 0; i < LOG; i++)
        recorder_put_step(list, i, kinds[i % 5], below(256), below(1441), 1 + below(16), below(65536), below(65536));
    row_begin();
    must(recorder_log(RECORDER_SIX_NAMES, list, sizeof list, page, sizeof page, &length), 0);
    row_end("recorder_log, a step of any kind", 0, LOG);
    for (size_t i = 0; i < LOG; i++)
        recorder_put_step(list, i, RECORDER_ARRIVE, 255, 0, 16, 65535, 65535);
    row_begin();
    must(recorder_log(RECORDER_SIX_NAMES, list, sizeof list, page, sizeof page, &length), 0);
    row_end("recorder_log, a step, at most", 0, LOG);
}

int main(void)
{
    rows_of(3);
    rows_of(30);
    rows_of(256);
    worst_miss();
    worst_flush();
    sentences();
    logs();
    return 0;
}
