/*
 * card.h: the flash card as the main loop sees it: a record for each item, and the recorder's state. Here it is an array in
 * memory that counts its accesses and fails on demand; a driver for a real card would have the same calls.
 *
 * Each call answers whether the card has done it. After the first that fails, none is done until card_restart.
 */
#ifndef CARD_H
#define CARD_H

#include <stdbool.h>
#include <stddef.h>
#include <stdint.h>

#define CARD_RECORDS 6

/* An item's record (the paper's sail record). Of its contents only this matters here: which step wrote it last, 0 for none. */
struct card_record {
    uint32_t written_by;
};

/* The accesses so far, failed ones included, since they wear the card too. */
struct card_counts {
    uint32_t reads, writes, stores;
};

/* One record, from the card and to it. A write that fails may leave the record torn. */
bool card_read(uint32_t item, struct card_record *record);
bool card_write(uint32_t item, const struct card_record *record);

/*
 * The state, RECORDER_STATE_BYTES bytes, and the step that comes next, stored as one: all of it or nothing, whenever the
 * power goes. On a new card card_recall gives zeros, which are no valid state.
 */
bool card_store(const uint8_t *state, uint32_t next);
bool card_recall(uint8_t *state, uint32_t *next);

/* Switches the card off and on. */
void card_restart(void);

struct card_counts card_counts(void);

/* Faults, for the demonstration: the card does so many accesses more and then fails; one bit of the stored state flips. */
void card_fail_after(uint32_t accesses);
void card_flip(size_t place);

#endif
