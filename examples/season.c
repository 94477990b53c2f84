/* Paper 01's whole example on a lent state: five steps and the closing, with the figures read from the state's bytes, and
 * the report. Ends with 1 if the library is not the header's, or a call is refused. */
#include <inttypes.h>
#include <stdio.h>

#include "recorder.h"

/* three items: blocks, load cost, write cost */
static const uint8_t catalog[] = {RECORDER_ITEM(1, 4, 6), RECORDER_ITEM(2, 6, 2), RECORDER_ITEM(1, 3, 9)};

static uint8_t state[RECORDER_STATE_BYTES], page[RECORDER_REPORT_BYTES];
static int refused;

static void show(const char *call, uint32_t answer) {
    refused += answer != RECORDER_TAKEN;
    printf("%-6s answer %" PRIu32 "  hits %" PRIu32 " loads %" PRIu32 " loadcost %" PRIu64 " evictions %" PRIu32
           " writebacks %" PRIu32 " writecost %" PRIu64 "  held",
           call, answer, recorder_u32(state + RECORDER_AT_HITS), recorder_u32(state + RECORDER_AT_LOADS),
           recorder_u64(state + RECORDER_AT_LOAD_COST), recorder_u32(state + RECORDER_AT_EVICTIONS),
           recorder_u32(state + RECORDER_AT_WRITEBACKS), recorder_u64(state + RECORDER_AT_WRITE_COST));
    for (uint32_t i = 0; i < 3; i++)
        if (recorder_is_held(state, sizeof state, i))
            printf(" %" PRIu32 "%s", i, recorder_is_dirty(state, sizeof state, i) ? "*" : "");
    putchar('\n');
}

/* A read, a write or a flush; blocks, load and write are an arrival's, and not looked at. */
static uint32_t step(uint32_t kind, uint32_t item, uint32_t minutes) {
    return recorder_step(state, sizeof state, kind, item, minutes, 0, 0, 0);
}

int main(void) {
    uint32_t answer = recorder_open(state, sizeof state, 3, RECORDER_WRITE_FIRST, catalog, sizeof catalog);
    if (answer != RECORDER_TAKEN || recorder_format(state, sizeof state) != RECORDER_FORMAT) {
        fprintf(stderr, "opening: answer %" PRIu32 ", layout %" PRIu32 "; this header has layout %d\n", answer,
                recorder_format(state, sizeof state), RECORDER_FORMAT);
        return 1;
    }
    show("open", answer);
    show("W 0 90", step(RECORDER_WRITE, 0, 90));
    show("R 1", step(RECORDER_READ, 1, 0));
    show("W 2 45", step(RECORDER_WRITE, 2, 45));
    show("R 0", step(RECORDER_READ, 0, 0));
    show("L", step(RECORDER_FLUSH, 0, 0));
    show("close", recorder_close(state, sizeof state));

    size_t length = 0;
    refused += recorder_report(state, sizeof state, page, sizeof page, &length) != RECORDER_TAKEN;
    fwrite(page, 1, length, stdout);
    return refused != 0;
}
