/*
 * The recorder's main loop, in small: a season of a few steps with a card that fails, a state that is damaged, a night
 * without power, a sail that is delivered and one that is scrapped. It prints what it does; examples/firmware/run compares
 * that with expected.txt. At the end it writes the season's log for the office, and with a file's name as argument into that
 * file. Ends with 1 if the season was given up, a figure does not agree or the file was not written.
 *
 * THE ORDER OF A STEP. (1) Keep a copy of the state. (2) Make the call. (3) Compare the marks of both states. (4) Write back
 * the records that have to go to the card. (5) Fetch the one that was loaded. (6) Store the new state, with the number of the
 * step that comes next.
 *
 * WHY IT MAY BREAK OFF ANYWHERE. Until (6) is done the card has the old state, and by that state the step has not begun. So
 * the loop goes back to the stored state and takes the step once more:
 *   - the call works on nothing but the bytes of the state and its arguments, so from the old state it evicts and loads the
 *     same items again and leaves the same bytes;
 *   - a record that was already written back is written again with the same contents, and a torn one is made whole. Its place
 *     in working memory is kept until (6) is done, so it is still there to be written;
 *   - in between nobody reads it from the card: by the old state it is held, and the held record is the one that counts.
 * A break costs accesses that are made twice, never a record. With (6) before (4) it would: the stored state would call an
 * item clean or evicted whose last contents the card does not have.
 *
 * WHEN WORKING MEMORY IS LOST TOO, at a power cut, the old state still stands and the step is still repeated, but what was
 * written since the last writeback is gone. No order of card accesses can save it; a flush does (the paper's landing), and
 * so the boat is switched off after one. And a torn record is whole nowhere then, so a card on which this can happen writes a
 * record as card.c stores the state: into a free place, which is then taken into use.
 */
#include "card.h"
#include "recorder.h"

#include <stdio.h>
#include <string.h>

#define K 4     /* the cache's blocks (the paper's locker) */
#define TRIES 3 /* so often one step is tried before the loop gives up */

/*
 * The rule of deduction is chosen here, once for a season: every opening below takes it, so that a replay comes to the same
 * bytes, and a stored state keeps it. RECORDER_LOAD_FIRST is the other one. The office has to replay the log by the same rule:
 * the first table of head.txt names none, which is write-first; by load-first it would be headed `locker rival rule`, with the
 * line `4 4 load-first`.
 */
#define RULE RECORDER_WRITE_FIRST

/* The catalogue's items (the paper's sails): blocks, load cost, write cost. */
static const uint8_t catalog[] = {
    RECORDER_ITEM(1, 4, 6),     RECORDER_ITEM(2, 6, 2), RECORDER_ITEM(1, 3, 9),
    RECORDER_ITEM(3, 300, 700), RECORDER_ITEM(5, 1, 1), /* the last is larger than the cache */
};

/*
 * The log. On the boat each step is put on the card as it comes in, before it is taken, so that it can be taken again.
 * Step 1 is the first; the one behind the last stands for the close. A step has six numbers; those that it lacks are left 0.
 */
enum number { KIND, NUMBER, MINUTES, BLOCKS, LOAD, WRITE };

static const uint32_t steps[][RECORDER_STEP_NUMBERS] = {
    { RECORDER_WRITE, 0, 90 },
    { RECORDER_READ, 1, 0 },
    { RECORDER_WRITE, 2, 45 },
    { RECORDER_READ, 3, 0 },
    { RECORDER_WRITE, 3, 600 },
    { RECORDER_FLUSH, 0, 0 },
    { RECORDER_READ, 4, 0 },
    { RECORDER_WRITE, 2, 30 },
    { RECORDER_WRITE, 0, 12 },
    { RECORDER_READ, 2, 0 },
    { RECORDER_WRITE, 3, 6 },
    { RECORDER_FLUSH, 0, 0 },
    { RECORDER_WRITE, 1, 20 },
    { RECORDER_READ, 0, 0 },
    { RECORDER_WRITE, 2, 5 },
    { RECORDER_ARRIVE, 5, 0, 1, 8, 2 }, /* a delivery: one block, load cost 8, write cost 2 */
    { RECORDER_WRITE, 5, 30 },
    { RECORDER_RETIRE, 5 }, /* and a scrapping: its record goes to the card a last time */
};

enum { LISTED = sizeof catalog / RECORDER_ITEM_BYTES, ITEMS = LISTED + 1, CLOSE = sizeof steps / sizeof *steps + 1 };

_Static_assert(ITEMS == CARD_RECORDS, "the card has a record for each item of the catalogue and for each that arrives");

/* The faults of the demonstration, each before the step is tried for the first time. */
static const struct fault {
    uint32_t step;
    enum { CARD_FAILS, MEMORY_FLIPS, POWER_GOES } what;
    uint32_t accesses; /* that the card still does */
} faults[] = {
    { 4, CARD_FAILS, 1 },    /* an evicted record is written back, the fetch fails */
    { 6, CARD_FAILS, 1 },    /* the second record of a flush is torn */
    { 9, CARD_FAILS, 2 },    /* an evicted record is written back, another one fetched; the store of the state is torn */
    { 10, MEMORY_FLIPS, 0 }, /* a bit of the state in working memory */
    { 13, POWER_GOES, 0 },   /* and overnight a bit of the stored state flips */
};

static uint8_t state[RECORDER_STATE_BYTES], before[RECORDER_STATE_BYTES];

/*
 * The steps that were taken, as the bytes that recorder_log wants. They stand on the card as the log does. How many there are says
 * the state's own count, and a step is put at its place before the state is stored: broken off and taken again it comes to the
 * same place, and a step that was not stored is past the count.
 */
static uint8_t taken[(CLOSE - 1) * RECORDER_STEP_BYTES];

/*
 * Working memory, with a place for each item, so that a fetch never lands on a record that was evicted in the same step and
 * may have to be written once more. Memory of K blocks needs for this as many blocks on top as the largest item has.
 */
static struct card_record memory[ITEMS];

/* The card's accesses by their reason; and reads of the boat that found another record than the one last written. */
static struct {
    uint32_t loads, writebacks;       /* of steps that are done */
    uint32_t lost_reads, lost_writes; /* of tries that broke off */
    uint32_t power_on_reads;
    uint32_t wrong_records;
} tally;

/* What a call asks of the card. */
struct moves {
    bool evicted[ITEMS], written[ITEMS], loaded[ITEMS];
};

enum outcome { DONE, REFUSED, DAMAGED, CARD_FAILED };
enum end { CLOSED, POWERED_OFF, GAVE_UP };

/* The marks before and after a call tell which items were evicted or retired, which of them were dirty, and which came in. */
static struct moves compare(void)
{
    struct moves m;
    for (uint32_t i = 0; i < ITEMS; i++) {
        bool was_held = recorder_is_held(before, sizeof before, i), is_held = recorder_is_held(state, sizeof state, i);
        bool was_dirty = recorder_is_dirty(before, sizeof before, i), is_dirty = recorder_is_dirty(state, sizeof state, i);
        m.evicted[i] = was_held && !is_held;
        m.loaded[i] = !was_held && is_held;
        m.written[i] = was_dirty && !is_dirty; /* evicted while dirty, or held on and clean after a flush or the close */
    }
    return m;
}

static void say_moves(const struct moves *m)
{
    for (uint32_t i = 0; i < ITEMS; i++)
        if (m->evicted[i])
            printf(", evicts %u%s", i, m->written[i] ? " (dirty)" : "");
        else if (m->written[i])
            printf(", writes back %u", i);
    for (uint32_t i = 0; i < ITEMS; i++)
        if (m->loaded[i])
            printf(", loads %u", i);
    putchar('\n');
}

/* Writebacks first, then the fetch: what leaves working memory is on the card before anything new comes in. */
static bool serve_card(const struct moves *m)
{
    for (uint32_t i = 0; i < ITEMS; i++)
        if (m->written[i] && !card_write(i, &memory[i]))
            return false;
    for (uint32_t i = 0; i < ITEMS; i++)
        if (m->loaded[i] && !card_read(i, &memory[i]))
            return false;
    return true;
}

static uint32_t call(uint32_t step)
{
    if (step == CLOSE)
        return recorder_close(state, sizeof state);
    const uint32_t *n = steps[step - 1];
    return recorder_step(state, sizeof state, n[KIND], n[NUMBER], n[MINUTES], n[BLOCKS], n[LOAD], n[WRITE]);
}

static void say_call(uint32_t step)
{
    if (step == CLOSE)
        printf("close");
    else if (steps[step - 1][KIND] == RECORDER_FLUSH)
        printf("step %u: L", step);
    else
        printf("step %u: %c %u", step, (int)steps[step - 1][KIND], steps[step - 1][NUMBER]);
}

/*
 * A refusal as the crew reads it: the number and, so that nobody has to look it up, its sentence, which ends the line. A call
 * answers the bare number; the item is the one that was handed in, and there is no line but that of a log's step. Nothing is left
 * to go wrong here: every number that a call answers has a sentence, and the page is as long as the longest.
 */
static void say_refusal(uint32_t answer, uint32_t line, uint32_t item)
{
    uint8_t sentence[RECORDER_SENTENCE_BYTES];
    size_t length = 0;
    (void)recorder_sentence(answer, line, item, sentence, sizeof sentence, &length);
    printf(", answer %u: ", answer);
    fwrite(sentence, 1, length, stdout);
}

/* The step before `step` that wrote an item last: what its record has to say. (The log has no write that is refused.) */
static uint32_t last_write(uint32_t item, uint32_t step)
{
    while (--step > 0)
        if (steps[step - 1][KIND] == RECORDER_WRITE && steps[step - 1][NUMBER] == item)
            return step;
    return 0;
}

/*
 * Serves the boat from working memory. A write puts new contents into the place: done twice it is the same as done once,
 * which would not be so of adding to the old ones.
 */
static void serve_boat(uint32_t step)
{
    if (step == CLOSE)
        return;
    uint32_t item = steps[step - 1][NUMBER];
    if (steps[step - 1][KIND] == RECORDER_WRITE)
        memory[item].written_by = step;
    else if (steps[step - 1][KIND] == RECORDER_READ && memory[item].written_by != last_write(item, step))
        tally.wrong_records++;
}

/* How many steps the state has taken. */
static uint32_t steps_taken(void)
{
    return recorder_u32(state + RECORDER_AT_STEPS);
}

/* Puts a step that was taken behind those before it. The close is no step. */
static void keep(uint32_t step)
{
    if (step == CLOSE)
        return;
    const uint32_t *n = steps[step - 1];
    recorder_put_step(taken, steps_taken() - 1, n[KIND], n[NUMBER], n[MINUTES], n[BLOCKS], n[LOAD], n[WRITE]);
}

/* (4), (5) and (6) of the order above. */
static bool carry_out(uint32_t step, const struct moves *m)
{
    if (!serve_card(m))
        return false;
    serve_boat(step);
    keep(step);
    if (!card_store(state, step + 1))
        return false;
    for (uint32_t i = 0; i < ITEMS; i++)
        if (m->evicted[i])
            memory[i].written_by = UINT32_MAX; /* the place is free from here on, and not before */
    return true;
}

/* One try at a step. Refused, it moved nothing, so there is nothing to store: should it come again, it is refused again. */
static enum outcome take(uint32_t step)
{
    memcpy(before, state, sizeof before);
    uint32_t answer = call(step);
    say_call(step);
    if (answer != RECORDER_TAKEN) {
        say_refusal(answer, 0, step == CLOSE ? 0 : steps[step - 1][NUMBER]);
        return answer == RECORDER_INVALID_STATE ? DAMAGED : REFUSED;
    }
    struct moves m = compare();
    say_moves(&m);

    struct card_counts start = card_counts();
    bool done = carry_out(step, &m);
    struct card_counts now = card_counts();
    if (done) {
        tally.loads += now.reads - start.reads;
        tally.writebacks += now.writes - start.writes;
        return DONE;
    }
    tally.lost_reads += now.reads - start.reads;
    tally.lost_writes += now.writes - start.writes;
    puts("  the card fails");
    return CARD_FAILED;
}

/*
 * A state from the catalogue, taken through the log again. The calls depend on nothing else, so this comes to the bytes that
 * were lost, figures and all; the card has done its part of these steps already. Without a log the season's figures would
 * begin at 0 again.
 *
 * An opening asks nothing of the state but its length, so 17 can only mean a library of another version; so does another
 * layout than the header's in a state that was opened just now.
 */
static bool reopen(uint32_t next)
{
    uint32_t answer = recorder_open(state, sizeof state, K, RULE, catalog, sizeof catalog);
    if (answer != RECORDER_TAKEN) {
        printf("  the opening is refused");
        say_refusal(answer, 0, 0);
        return false;
    }
    if (recorder_format(state, sizeof state) != RECORDER_FORMAT) {
        printf("  the library has layout %u, not %d\n", recorder_format(state, sizeof state), RECORDER_FORMAT);
        return false;
    }
    for (uint32_t step = 1; step < next; step++)
        (void)call(step); /* what was refused is refused again */
    printf("  opened from the catalogue, %u steps taken again without the card\n", next - 1);
    return card_store(state, next);
}

/*
 * Back to the stored state, and to the step that follows on it. The card has been without power for a moment or a night, so
 * the state is tested before its marks are used.
 *
 * Not valid means that a rule of validity is broken. A flip that breaks none (in the minutes of an item, say) is not seen by the
 * library; where the card does not check its bytes itself, a checksum should be stored with them and the step's number.
 */
static bool restore(uint32_t *next)
{
    card_restart();
    if (!card_recall(state, next))
        return false;
    if (*next == 0)
        *next = 1; /* a new card */
    if (recorder_is_valid(state, sizeof state)) {
        printf("  back to the stored state, step %u is next\n", *next);
        return true;
    }
    printf("  no good state on the card");
    say_refusal(RECORDER_INVALID_STATE, 0, 0);
    return reopen(*next);
}

/*
 * At power on working memory is empty, and what the state calls held is fetched again. The report does not count these
 * reads, for the rule knows of no power cuts. A record that is dirty here goes back to its last writeback.
 */
static bool power_on(uint32_t *next)
{
    uint32_t held = 0, dirty = 0;
    puts("power on");
    memset(memory, 0xFF, sizeof memory); /* nothing is left of either */
    memset(state, 0xFF, sizeof state);
    if (!restore(next))
        return false;
    for (uint32_t i = 0; i < ITEMS; i++) {
        if (!recorder_is_held(state, sizeof state, i))
            continue;
        if (!card_read(i, &memory[i]))
            return false;
        held++;
        dirty += recorder_is_dirty(state, sizeof state, i);
    }
    tally.power_on_reads += held;
    printf("  %u held records fetched again, writes lost in %u\n", held, dirty);
    return true;
}

/* Lets the next fault happen if its time has come; answers whether the power is still on. */
static bool suffer(uint32_t step)
{
    static size_t past;
    if (past == sizeof faults / sizeof *faults || faults[past].step != step)
        return true;
    const struct fault *f = &faults[past++];
    if (f->what == CARD_FAILS)
        card_fail_after(f->accesses);
    else if (f->what == MEMORY_FLIPS)
        state[RECORDER_AT_HITS] ^= 4;
    else
        card_flip(RECORDER_AT_WRITEBACKS);
    return f->what != POWER_GOES;
}

/* The main loop, from power on. Whatever goes wrong in a step, the way out is the same: back to what is stored. */
static enum end run(void)
{
    uint32_t step;
    unsigned tries = 0;
    if (!power_on(&step))
        return GAVE_UP;
    while (step <= CLOSE) {
        if (!suffer(step))
            return POWERED_OFF;
        enum outcome outcome = take(step);
        if (outcome == DONE || outcome == REFUSED) {
            step++;
            tries = 0;
        } else if (++tries == TRIES || !restore(&step)) {
            return GAVE_UP;
        }
    }
    return CLOSED;
}

/* Holds a figure of the report against the card's accesses for that reason, and all accesses against all reasons. */
static bool agree(const char *what, uint32_t reported, uint32_t counted, uint32_t lost, uint32_t power_on_reads, uint32_t all)
{
    bool well = counted == reported && all == counted + lost + power_on_reads;
    printf("%s: %u in the report, %u on the card: %s (and %u of tries that broke off, %u at power on)\n", what, reported,
           counted, well ? "equal" : "NOT EQUAL", lost, power_on_reads);
    return well;
}

/* The report, and the card's counts and records held against it. Its totals are read from the state, not from the text. */
static bool finish(void)
{
    static uint8_t page[RECORDER_REPORT_BYTES];
    size_t length = 0;
    if (recorder_report(state, sizeof state, page, sizeof page, &length) != RECORDER_TAKEN)
        return false;
    fwrite(page, 1, length, stdout);

    struct card_counts card = card_counts();
    uint32_t loads = recorder_u32(state + RECORDER_AT_LOADS), writebacks = recorder_u32(state + RECORDER_AT_WRITEBACKS);
    bool equal = agree("loads", loads, tally.loads, tally.lost_reads, tally.power_on_reads, card.reads);
    equal &= agree("writebacks", writebacks, tally.writebacks, tally.lost_writes, 0, card.writes);
    for (uint32_t i = 0; i < ITEMS; i++) {
        struct card_record record;
        if (!card_read(i, &record) || record.written_by != last_write(i, CLOSE))
            tally.wrong_records++;
    }
    printf("records that are not the one last written, read by the boat or left on the card: %u\n", tally.wrong_records);
    return equal && tally.wrong_records == 0;
}

/* Puts a text into a new file, which is closed whatever happens: on a box handles are few. */
static bool put_file(const char *name, const uint8_t *text, size_t length)
{
    FILE *file = fopen(name, "wb");
    if (file == NULL)
        return false;
    bool written = fwrite(text, 1, length, file) == length;
    return fclose(file) == 0 && written; /* what was buffered may fail as late as here */
}

/*
 * The season's log for the office, which puts it between its other tables. A sail arrived and left, so it has the six names. What
 * a page of RECORDER_LOG_BYTES bytes does not hold has no text at all; a box that may sail so long closes its season before.
 */
static bool hand_over(const char *name)
{
    static uint8_t page[RECORDER_LOG_BYTES];
    size_t length = 0, list = steps_taken() * (size_t)RECORDER_STEP_BYTES;
    uint64_t answer = recorder_log(RECORDER_SIX_NAMES, taken, list, page, sizeof page, &length);
    if (answer != RECORDER_TAKEN) {
        printf("the log is refused");
        say_refusal(RECORDER_LOG_NUMBER(answer), RECORDER_LOG_LINE(answer), 0);
        return false;
    }
    puts("the log, for the office");
    fwrite(page, 1, length, stdout);
    if (name == NULL || put_file(name, page, length))
        return true;
    fprintf(stderr, "the log was not written to %s\n", name);
    return false;
}

int main(int argc, char **argv)
{
    enum end end;
    while ((end = run()) == POWERED_OFF)
        puts("power off");
    if (end == GAVE_UP)
        puts("gave up");
    return end == CLOSED && finish() && hand_over(argc > 1 ? argv[1] : NULL) ? 0 : 1;
}
