#include "card.h"

#include "recorder.h"

#include <string.h>

#define NO_FAULT UINT32_MAX

/*
 * Two areas for the state, used in turn: a store goes into the area that is not in use, which is then taken into use. On flash
 * this last act is one small write, say of a running number with a checksum, so a store that was cut off never counts.
 */
static struct {
    uint8_t state[RECORDER_STATE_BYTES];
    uint32_t next;
} areas[2];
static unsigned in_use;

static struct card_record records[CARD_RECORDS];
static struct card_counts counts;
static uint32_t until_fault = NO_FAULT;

/* Whether the card does one access more. */
static bool works(void)
{
    if (until_fault == 0)
        return false;
    if (until_fault != NO_FAULT)
        until_fault--;
    return true;
}

bool card_read(uint32_t item, struct card_record *record)
{
    counts.reads++;
    if (item >= CARD_RECORDS || !works())
        return false;
    *record = records[item];
    return true;
}

bool card_write(uint32_t item, const struct card_record *record)
{
    counts.writes++;
    if (item >= CARD_RECORDS)
        return false;
    if (!works()) {
        records[item].written_by = UINT32_MAX; /* torn: the old contents are gone, the new ones are not there */
        return false;
    }
    records[item] = *record;
    return true;
}

bool card_store(const uint8_t *state, uint32_t next)
{
    unsigned other = 1 - in_use;
    counts.stores++;
    if (!works()) {
        memcpy(areas[other].state, state, RECORDER_STATE_BYTES / 2); /* torn, in the area that is not in use */
        return false;
    }
    memcpy(areas[other].state, state, RECORDER_STATE_BYTES);
    areas[other].next = next;
    in_use = other;
    return true;
}

bool card_recall(uint8_t *state, uint32_t *next)
{
    if (!works())
        return false;
    memcpy(state, areas[in_use].state, RECORDER_STATE_BYTES);
    *next = areas[in_use].next;
    return true;
}

void card_restart(void)
{
    until_fault = NO_FAULT;
}

struct card_counts card_counts(void)
{
    return counts;
}

void card_fail_after(uint32_t accesses)
{
    until_fault = accesses;
}

void card_flip(size_t place)
{
    areas[in_use].state[place] ^= 4;
}
