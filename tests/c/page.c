/*
 * The readers that docs/LAYOUT.md prints, beside the header's, over the states of seasons by both rules. tests/c/run takes them from the
 * page into page.h. It prints how many states were looked at.
 */
#include "recorder.h"

#include "page.h"

#include <stdio.h>
#include <stdlib.h>

static uint32_t below(uint32_t end)
{
    static uint32_t seed = 1;
    seed = seed * 1103515245u + 12345u;
    return (seed >> 8) % end;
}

static void look(const uint8_t *state)
{
    bool same = item_count(state) == recorder_u16(state + RECORDER_AT_N);
    same = same && (is_load_first(state) ? RECORDER_LOAD_FIRST : RECORDER_WRITE_FIRST) == recorder_u32(state + RECORDER_AT_RULE);
    for (uint32_t i = 0; i < RECORDER_MAX_ITEMS; i++) {
        same = same && is_held(state, i) == recorder_is_held(state, STATE_BYTES, i) && is_dirty(state, i) == recorder_is_dirty(state, STATE_BYTES, i) &&
               is_left(state, i) == recorder_is_left(state, STATE_BYTES, i);
        same = same && load_credit(state, i) == recorder_load_credit(state, STATE_BYTES, i) &&
               write_credit(state, i) == recorder_write_credit(state, STATE_BYTES, i);
    }
    if (!same) {
        puts("the page reads a state otherwise than the header");
        exit(1);
    }
}

int main(void)
{
    static uint8_t state[STATE_BYTES], catalog[RECORDER_CATALOG_BYTES];
    unsigned looked = 0;
    for (uint32_t season = 0; season < 40; season++) {
        const uint32_t items = 1 + below(40);
        for (uint32_t i = 0; i < items; i++)
            recorder_put_item(catalog, i, 1 + below(16), below(100), below(100));
        if (recorder_open(state, sizeof state, 16 + below(64), season % 2, catalog, items * RECORDER_ITEM_BYTES) != 0)
            return 1;
        for (int step = 0; step < 100; step++) {
            static const uint32_t kinds[] = { RECORDER_READ, RECORDER_WRITE, RECORDER_READ, RECORDER_WRITE, RECORDER_FLUSH, RECORDER_RETIRE };
            const uint32_t kind = kinds[below(step % 10 == 9 ? 6 : 4)];
            if (recorder_step(state, sizeof state, kind, below(items), below(1441), 0, 0, 0) != 0)
                continue;
            look(state);
            looked++;
        }
    }
    printf("%u\n", looked);
    return 0;
}
