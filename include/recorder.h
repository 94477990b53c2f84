/*
 * recorder.h: the cache recorder, as the firmware calls it.
 *
 * Six functions over bytes that the caller lends: open a cache, take one step of the log, close the log, write the report,
 * say a refusal in words, and write the log as text for the office. They are compiled from proved code into a static library;
 * link it with nothing else:
 *
 *     cc -Iinclude main.c librecorder.a
 *
 * examples/season.c is the shortest use of them; examples/firmware has a main loop around them, with a card that can fail.
 *
 * In this file, in this order:
 *     what holds of every call    MACHINE, INTERRUPTS, OWNERSHIP, REENTRANT, OVERLAP, ANSWERS, STACK, TIME, VERSIONS
 *     the numbers                 sizes, rules of deduction, limits; answers, kinds of a step, headings of a log
 *     the six calls               recorder_open, recorder_step, recorder_close, recorder_report, recorder_sentence, recorder_log
 *     what the state says         the place of each field
 *     inline, over the bytes      to read: recorder_u32 .., recorder_format, recorder_is_valid, recorder_is_held ..,
 *                                 recorder_load_credit ..; to write: RECORDER_ITEM, recorder_put_item, recorder_put_step
 *
 * MACHINE. x86-64 only, with the calling convention of Linux: the kit's back end writes code for no other machine. Of the C
 * library at most memset is called; a box without one supplies it. The header is C99 or C++11, or later.
 *
 * INTERRUPTS. The code in the archive is what a compiler makes for a program, not for a kernel (tests/c/machine looks at it):
 *   - Every call uses vector registers, xmm0 and up, for integers and copies: SSE2, with no floating-point arithmetic and
 *     nothing wider (memset uses what yours does). SSE has to be switched on (CR4.OSFXSR). What comes in the middle of
 *     a call must leave these registers as they were: a task switch saves and restores them, and so does an interrupt handler,
 *     unless it is compiled without them (-mgeneral-regs-only) and calls nothing that uses them, as the recorder does.
 *   - recorder_sentence and recorder_log use the red zone: up to 128 bytes below the stack pointer. A handler on
 *     the same stack must begin below them. Where the processor takes an interrupt without a change of stack (in ring 0, with no
 *     IST entry), it writes its own frame into them before the handler runs. There, give the interrupts stacks of their own, or
 *     make these two calls in ring 3, or where no interrupt can come.
 *   - The stack pointer has to be a multiple of 16 at the call, as the convention says: recorder_step, recorder_close and
 *     recorder_report fault otherwise. A C compiler sees to it; a handler in assembly that calls the
 *     recorder, or C, has to do so itself.
 * Then a handler may call the recorder too, on another state than that of a call it may have interrupted.
 *
 * OWNERSHIP. The state is RECORDER_STATE_BYTES bytes that the caller owns: static, on the stack or anywhere else, at any
 * alignment. No call keeps a pointer. The library allocates nothing, has no static data but constants, takes no lock, masks
 * no interrupt and does no input or output. A state may be copied, moved, stored and read back byte for byte between calls.
 *
 * REENTRANT. Every call works on what it is lent and on nothing else, so two states may be in use at once: calls on
 * different states may run at the same time, or one in the middle of another. Calls on one state may not, and nothing else
 * may write it during a call.
 *
 * OVERLAP. The bytes of `state` must not overlap those of `catalog`, `page` or `length`, nor these each other; nor may those of
 * `steps` overlap those of `page` or `length`.
 *
 * ANSWERS. Each call answers 0 (taken) or the number of a refusal; recorder_log answers a number and a line in one. Refused,
 * every lent byte is as it was before the call. Any bytes, any numbers and any length may be handed in; a call never traps and
 * always returns. A pointer must be good for the count of bytes that is handed in with it; with a count of 0 it is not used,
 * and may be NULL.
 *
 * STACK. Measured on x86-64 (make bench prints it): at most 191 bytes for recorder_open, 391 for recorder_step, 215 for
 * recorder_close, 471 for recorder_report, 191 for recorder_sentence and 199 for recorder_log, with no recursion, what the C
 * library's memset uses included. The library works on the lent bytes in place and makes no copy of them.
 *
 * TIME. In instructions, counted under callgrind and rounded (tests/c/cost prints them to the unit and holds this table to
 * them), by the count of items in the catalog:
 *
 *                                                      3        30       256
 *     recorder_open                                  140       550     4,400
 *     recorder_step, refused                       2,900     5,200    24,700
 *     recorder_step, refused, all have left        2,800     4,400    16,800
 *     recorder_step, hit                           3,100     5,400    24,900
 *     recorder_step, arrival                       2,900     5,200    24,800
 *     recorder_step, retirement                    3,100     5,300    25,000
 *     recorder_step, miss, one eviction            3,100     4,900    19,100
 *     recorder_step, miss, 16 evictions                               31,700
 *     recorder_step, flush, all dirty              3,500    10,700    72,500
 *     recorder_step, flush, at most                                   95,100
 *     recorder_close, all dirty                    3,500    10,700    72,400
 *     recorder_report, long figures                5,600    19,500   132,800
 *     recorder_is_valid, long figures              3,300     6,900    38,200
 *     recorder_sentence, at most                     450
 *     recorder_log, a step of any kind               130
 *     recorder_log, a step, at most                  370
 *
 * What memset takes for the RECORDER_STATE_BYTES bytes of an opening comes on top.
 *
 * Each step, close and report looks over the whole state first, for refusal 17: over each item, over the places past the catalog,
 * and over the heap of the held items. That look is all of the line 'refused', and nearly all of a hit. It takes the longer, the
 * more items are held: all are, but half in the line of one eviction, and none where all have left.
 *
 * The held items stand in a heap, the next to go at its head. So an eviction goes over no other item: it takes the head out and
 * mends the heap, in some 290 instructions where 30 items are held and 400 where 255 are, which grows as the logarithm of their
 * count. There can be no more than 16 evictions in a step: each frees a block at least, and no item has more than 16. The line
 * has the most of 32 such steps, with 255 items held, all dirty.
 *
 * The worst step is a flush, for which the heap is mended once for each dirty item; the close does the same. The line 'at most'
 * has the most of 32 such steps, with 256 items, each of which goes to the head of the heap when it is written back. Of 5,000
 * others that were tried with an older kit, those with the most exchanges in their heaps took no more than 98,700 with it.
 *
 * recorder_is_valid measures the report besides. 'Long figures' are those of a season of 1,000,000 steps.
 *
 * VERSIONS. RECORDER_VERSION counts the change requests that this header is made for; docs/changes has a note on each. The
 * archive carries no such number, but it writes the number of its layout into every state. So look once, after the first
 * opening:
 *
 *     recorder_open(..) == RECORDER_TAKEN && recorder_format(state, sizeof state) == RECORDER_FORMAT
 *
 * With a header of one layout and an archive of another this is false: the opening is refused (17) where their states have
 * different lengths, and leaves another number where not. So far each request that changed the arguments of a call, or what a
 * byte means, has changed the layout too.
 */
#ifndef RECORDER_H
#define RECORDER_H

#include <stdbool.h>
#include <stddef.h>
#include <stdint.h>

#ifdef __cplusplus
extern "C" {
#endif

/* How many change requests this header knows; VERSIONS above says how an archive of another version is seen. */
#define RECORDER_VERSION 7

/* The bytes of a state; a state of any other length is RECORDER_INVALID_STATE. */
#define RECORDER_STATE_BYTES 11408

/*
 * The number of the layout, at the head of every state. It rises with every change of the layout, so that a state stored by
 * another version of the library is RECORDER_INVALID_STATE and never misread. Before a recorder is updated to a library with
 * another number, close the open season and report it with the old one; or keep the steps, and replay them after an
 * opening with the new one.
 */
#define RECORDER_FORMAT 5

/* The bytes of the longest catalog, of RECORDER_MAX_ITEMS items; one of n items has n * RECORDER_ITEM_BYTES. */
#define RECORDER_CATALOG_BYTES 1280

/* The bytes of the longest report there can be, here or in the office: a page of this size is never too short. */
#define RECORDER_REPORT_BYTES 7931

/* The bytes of the longest sentence there can be, its line feed included: a page of this size is never too short. */
#define RECORDER_SENTENCE_BYTES 47

/* The most bytes that a log's text may have: a page of this size is never too short, and a longer season has no text. */
#define RECORDER_LOG_BYTES 65536

/*
 * The rules of deduction, one of which is chosen at the opening. An eviction takes credit from every item that stays: for each
 * of its blocks as much as the evicted item had left for each of its own. Write-first takes it from the item's write credit,
 * and what that lacks from its load credit; load-first the other way round. They part where a dirty item is read again, for a
 * read fills up the load credit and not the write credit: under load-first it has more credit then, and tends to stay longer.
 * All else is the same under both: which item is evicted, given the credits, and the bound against every rival too.
 */
#define RECORDER_WRITE_FIRST 0
#define RECORDER_LOAD_FIRST 1

/* The limits of the arguments. */
#define RECORDER_MAX_K 4096         /* capacity, in blocks: 1 to 4,096 */
#define RECORDER_MAX_ITEMS 256      /* items of a catalog: 0 to 256, numbered from 0, with those that arrive */
#define RECORDER_ITEM_BYTES 5       /* bytes of an item in a catalog */
#define RECORDER_MAX_BLOCKS 16      /* blocks of an item: 1 to 16 */
#define RECORDER_MAX_MINUTES 1440   /* minutes of a write: 0 to 1,440 */
#define RECORDER_MAX_COST 65535     /* load cost and write cost of an item: 0 to 65,535 */
#define RECORDER_MAX_STEPS 1000000  /* steps of a log */
#define RECORDER_STEP_NUMBERS 6     /* numbers of a step in a list of steps */
#define RECORDER_STEP_BYTES 24      /* bytes of a step in a list of steps */

/* One unit of cost in credit units (the scope's 'shares'): the least common multiple of 1 to 16. */
#define RECORDER_UNIT 720720

/* What a call answers, and all that one answers. The numbers and the words in quotes are those of the table of refusals. */
enum recorder_answer {
    RECORDER_TAKEN = 0,
    RECORDER_OUT_OF_RANGE = 3,   /* 'off the tape': k, the catalog, a kind, an item number, minutes or an arrival's values out of
                                    range; a list of steps that is not whole; the number of no heading, or of no refusal */
    RECORDER_UNKNOWN_ITEM = 6,   /* 'stranger': the item is not in the catalog */
    RECORDER_ITEM_TOO_LARGE = 7, /* 'too bulky': the item has more than k blocks */
    RECORDER_LOG_FULL = 8,       /* 'log full': 1,000,000 steps are already taken */
    RECORDER_CLOSED = 9,         /* 'closed': a step or a close on a closed cache */
    RECORDER_SHORT_PAGE = 15,    /* 'short page': the page is shorter than the report, the sentence or the log's text; or this
                                    has over 65,536 bytes */
    RECORDER_INVALID_STATE = 17, /* 'foul locker': a state of the wrong length, of another layout, or damaged */
    RECORDER_UNKNOWN_RULE = 18,  /* 'odd rule': the rule of deduction is neither 0 nor 1 */
    RECORDER_NOT_NEXT_NUMBER = 19, /* 'misnumbered': an arrival that does not carry the next unused number */
    RECORDER_RETIRED_ITEM = 20   /* 'gone': the item has left */
};

/* The kinds of a step: the letters of the text log. */
enum recorder_kind {
    RECORDER_READ = 82,  /* 'R' */
    RECORDER_WRITE = 87, /* 'W' */
    RECORDER_FLUSH = 76, /* 'L', a landing: each dirty item is written back and stays, clean */
    RECORDER_ARRIVE = 65, /* 'A': the catalog grows by an item, which is not held */
    RECORDER_RETIRE = 81 /* 'Q': an item leaves; if it is held it is dropped, and written back first if it is dirty */
};

/* The headings of a log, by which recorder_log is told what its lines have. */
enum recorder_heading {
    RECORDER_THREE_NAMES = 0, /* step sail minutes: R, W and L alone */
    RECORDER_SIX_NAMES = 1    /* step sail minutes blocks load write: every kind */
};

/*
 * Opens an empty cache of k blocks. The state keeps the rule of deduction, RECORDER_WRITE_FIRST or RECORDER_LOAD_FIRST: no
 * other call changes it.
 *
 * The catalog has RECORDER_ITEM_BYTES bytes an item, in the order of the item numbers:
 *     byte 0      blocks, 1 to 16
 *     bytes 1, 2  load cost, low byte first, 0 to 65,535
 *     bytes 3, 4  write cost, low byte first, 0 to 65,535
 * For a table of constants RECORDER_ITEM writes them down, at run time recorder_put_item does (both below). The catalog is
 * copied into the state and not needed afterwards. An item of more than k blocks may stand in it; steps that ask for that item
 * are refused (7).
 *
 * Of the state only the length is looked at, never the bytes: they need not be initialised, and a state that is in use
 * is lost when the opening is taken.
 *
 * Answers, the first that holds:
 *     17  state_len is not RECORDER_STATE_BYTES
 *      3  k is not 1 to 4,096; or catalog_len is no multiple of 5, or above RECORDER_CATALOG_BYTES; or an item's blocks are
 *         not 1 to 16
 *     18  rule is neither 0 nor 1
 *      0  taken: the state is that of an open cache in which nothing is held and nothing counted
 */
uint32_t recorder_open(uint8_t *state, size_t state_len, uint32_t k, uint32_t rule, const uint8_t *catalog, size_t catalog_len);

/*
 * Takes one step of the log: a read of an item, a write of an item that took some minutes, a flush, the arrival of an item
 * with its blocks, load cost and write cost, or the retirement of an item. A read and a retirement look at kind and item; a
 * write at kind, item and minutes; a flush at kind alone; an arrival at kind, item, blocks, load and write. The rest may be
 * any numbers.
 *
 * An arrival carries the next unused number: the count of items in the state (RECORDER_AT_N). An item of more than k blocks
 * may arrive and leave, but not be read or written. An item that has left keeps its number and its line in the report. A
 * retirement of a held item counts as an eviction; no other item loses credit by it.
 *
 * Answers, the first that holds:
 *     17  the state is invalid
 *      9  the cache is closed
 *      8  1,000,000 steps are already taken
 *      3  kind is none of the five; or the item is above 255, but for a flush; or a write's minutes are above 1,440; or an
 *         arrival's blocks are not 1 to 16, or its load or write cost is above 65,535
 *     19  the item of an arrival is not the next unused number
 *      6  the item of a read, write or retirement is not in the catalog
 *     20  the item of a read, write or retirement has left
 *      7  the item of a read or write has more than k blocks
 *      0  taken: the step is done and counted
 *
 * A step may evict items to make room; see below for how to learn which.
 */
uint32_t recorder_step(uint8_t *state, size_t state_len, uint32_t kind, uint32_t item, uint32_t minutes, uint32_t blocks,
                       uint32_t load, uint32_t write);

/*
 * Closes the log: each dirty item is written back, as by a flush, which is no step. A closed cache takes no step and no second
 * close; it may be reported, its figures and marks may be read, and the bytes may be opened anew. A log of 1,000,000 steps can
 * be closed.
 *
 * Answers, the first that holds:
 *     17  the state is invalid
 *      9  the cache is closed
 *      0  taken
 */
uint32_t recorder_close(uint8_t *state, size_t state_len);

/*
 * Writes the report of a state, open or closed, at the start of the page, as text without a zero byte behind it, and its
 * length in bytes to *length. Bytes of the page past the text keep their contents. The state is only read.
 *
 * The report has a line of names and a line for each item of the catalog, those that have left too (its number, tenths of an
 * hour, loads, writebacks), a blank line, and a line of names and one of numbers for the totals. Numbers are decimal, split by
 * single spaces; each line ends with a line feed:
 *
 *     sail tenths loads writebacks
 *     0 15 1 1
 *
 *     hits loads loadcost drops dirtydrops writebacks writecost total
 *     1 3 13 1 0 2 15 28
 *
 * Answers, the first that holds:
 *     17  the state is invalid
 *     15  the page is shorter than the report
 *      0  written
 * Refused, every byte of the page and *length are as before. `length` must point to a size_t, always.
 *
 * A report is never empty, so on a page of 0 bytes (which may be NULL) a valid state is answered by 15 and any other by 17.
 * That is how to test a state that was stored, before its figures and marks are used: recorder_is_valid, below.
 */
uint32_t recorder_report(const uint8_t *state, size_t state_len, uint8_t *page, size_t page_len, size_t *length);

/*
 * Says a refusal in words, for the crew: writes one sentence at the start of the page, as text with a line feed and without a
 * zero byte behind it, and its length in bytes to *length. Bytes of the page past the sentence keep their contents. No state is
 * needed.
 *
 * A sentence has the word of the number; the line, unless it is 0; for 6, 7, 11, 12, 14, 19 and 20 the item (the scope's
 * 'sail'); and a full stop:
 *
 *     log full.
 *     too bulky, sail 4.
 *     stranger, line 7, sail 3.
 *
 * The number is what another call has answered, or that of a refused text. Of the calls only recorder_log answers a line: hand
 * in 0 for the others. The item is the one that was handed in with that call; for the other numbers it is not looked at. Line
 * and item may be any numbers. Two refusals that differ in number, line or a named item have different sentences, so all three
 * can be read back from one.
 *
 * The words, by number:
 *      1 torn             2 heading          3 off the tape     4 miscounted       5 outsized rival   6 stranger
 *      7 too bulky        8 log full         9 closed          10 out of turn     11 not aboard      12 aboard
 *     13 overstowed      14 missing         15 short page      16 long roll       17 foul locker     18 odd rule
 *     19 misnumbered     20 gone            21 idle            22 unpaired        24 given up        25 many sails
 *     26 long passage    27 no plan
 * Of these the calls answer 3, 6 to 9, 15 and 17 to 20 (enum recorder_answer). The others up to 16 are refusals of a text, in
 * the office. 21, 22 and 24 to 27 are set aside for requests to come: no call and no program answers them yet.
 *
 * Answers, the first that holds:
 *      3  the number has no word: it is 0, 23 or above 27
 *     15  the page is shorter than the sentence
 *      0  written
 * Refused, every byte of the page and *length are as before. `length` must point to a size_t, always.
 */
uint32_t recorder_sentence(uint32_t number, uint32_t line, uint32_t item, uint8_t *page, size_t page_len, size_t *length);

/*
 * Writes the log of a season for the office: the steps that were taken, as the third table of the office's text, at the start
 * of the page, without a zero byte behind it, and its length in bytes to *length. Bytes of the page past the text keep their
 * contents. The steps are only read. No state is needed, and none keeps the steps: the caller does.
 *
 * The heading is RECORDER_THREE_NAMES or RECORDER_SIX_NAMES. Arrivals and retirements need the six names; a season without
 * them has a shorter text under the three.
 *
 * The list has RECORDER_STEP_BYTES bytes a step under both headings, in the order of the log: kind, item, minutes, blocks,
 * load and write, four bytes each, low byte first, as for recorder_step. recorder_put_step (below) puts a step in its place.
 * On this machine an array of uint32_t, RECORDER_STEP_NUMBERS a step, is such bytes too: hand it in as (const uint8_t *)array,
 * with its size in bytes. The list may stand at any alignment. As for recorder_step, numbers that a step lacks may be any.
 * Neither a catalog nor k is known here, so 6, 7, 19 and 20 never fall due: list the steps that recorder_step has taken.
 *
 * The text has a line of names and a line for each step, its kind, item and minutes, and under the six names its blocks, load
 * and write, with `-` for what it lacks. Numbers are decimal, split by single spaces; each line ends with a line feed:
 *
 *     step sail minutes        step sail minutes blocks load write
 *     W 0 90                   A 3 - 1 7 8
 *     R 1 -                    W 3 90 - - -
 *     L - -                    Q 3 - - - -
 *
 * A heading and a list in range under it have one text, and the office reads the same heading and steps back from it. Under
 * the three names a line has 6 to 11 bytes, so 5,956 steps always have a text, and more than 10,919 never have one; under the
 * six a line has 12 to 23 bytes, so 2,847 steps always have one, and more than 5,458 never. The office's text has no more
 * bytes either, with its other three tables; leave room for them (docs/GUIDE.md, 'The log that the box writes').
 *
 * Answers a number and a line, as RECORDER_LOG_NUMBER and RECORDER_LOG_LINE take them from the answer. The first that holds:
 *      3  the heading is neither 0 nor 1: line 1. Or a step is out of range: its kind is none of the five, or is an arrival or
 *         a retirement under the three names; or a number that it has is out of its range, as for recorder_step. Or the list is
 *         not whole: behind its last whole step there are 1 to 23 bytes more. The line is that of the first such step, which is
 *         2 for the first of the list; one above 4,294,967,295 is told as that
 *     15  the page is shorter than the text, or the text has over RECORDER_LOG_BYTES bytes; line 0
 *      0  written; line 0
 * Refused, every byte of the page and *length are as before. `length` must point to a size_t, always.
 */
uint64_t recorder_log(uint32_t heading, const uint8_t *steps, size_t steps_len, uint8_t *page, size_t page_len, size_t *length);

/* The two halves of what recorder_log answers: the number, 0, 3 or 15, and the line of a 3, else 0. */
#define RECORDER_LOG_NUMBER(answer) ((uint32_t)(answer))
#define RECORDER_LOG_LINE(answer) ((uint32_t)((answer) >> 32))

/*
 * WHAT THE STATE SAYS. Numbers have the low byte first; docs/LAYOUT.md has every field with its allowed values. A run has 256
 * numbers, one for each item number; those past the catalog are 0. The bytes may be read at any time between calls:
 *
 *     recorder_u32(state + RECORDER_AT_HITS)        a total, by its place
 *     recorder_item_loads(state, sizeof state, 7)   a figure of an item, by the item's number
 *
 * They are to be written by open, step and close only: a state that was changed otherwise may be refused (17), and if it is
 * still valid it is taken at its word.
 *
 * At each step, close and report the whole state is tested first, so a state that was damaged in storage and breaks the rule
 * of validity is found at the next call, which changes nothing. Damage that breaks no rule is not: store a checksum with the
 * state.
 */
enum recorder_place {
    RECORDER_AT_FORMAT = 0,            /* u32: RECORDER_FORMAT */
    RECORDER_AT_K = 4,                 /* u32 */
    RECORDER_AT_N = 8,                 /* u16: items in the catalog */
    RECORDER_AT_CLOSED = 10,           /* u16: 0 open, 1 closed */
    RECORDER_AT_STEPS = 12,            /* u32: steps of every kind; the close is none */
    RECORDER_AT_HITS = 16,             /* u32 */
    RECORDER_AT_LOADS = 20,            /* u32: misses */
    RECORDER_AT_EVICTIONS = 24,        /* u32 ('drops') */
    RECORDER_AT_DIRTY_EVICTIONS = 28,  /* u32 */
    RECORDER_AT_WRITEBACKS = 32,       /* u32: by dirty evictions, flushes and the close */
    RECORDER_AT_FLUSHES = 36,          /* u32 ('landings'); the close is none */
    RECORDER_AT_LOAD_COST = 40,        /* u64 */
    RECORDER_AT_WRITE_COST = 48,       /* u64 */
    RECORDER_AT_DIRTY = 56,            /* four u64: 256 marks, item i is bit i % 64 of word i / 64 */
    RECORDER_AT_LOAD_CREDIT = 88,      /* run of u64, in units of 1 / RECORDER_UNIT of a cost, as last reckoned: what stands
                                          is told by recorder_load_credit */
    RECORDER_AT_WRITE_CREDIT = 2136,   /* run of u64, likewise, and recorder_write_credit */
    RECORDER_AT_MINUTES = 4184,        /* run of u32: minutes written; the report prints a sixth of them, rounded down */
    RECORDER_AT_ITEM_LOADS = 5208,     /* run of u32 */
    RECORDER_AT_ITEM_WRITEBACKS = 6232, /* run of u32 */
    RECORDER_AT_LOAD = 7256,           /* run of u16: load costs of the catalog */
    RECORDER_AT_WRITE = 7768,          /* run of u16: write costs of the catalog */
    RECORDER_AT_BLOCKS = 8280,         /* run of u8: blocks of the catalog */
    RECORDER_AT_HELD = 8536,           /* run of u8: 1 held, 0 not */
    RECORDER_AT_RULE = 8792,           /* u32: RECORDER_WRITE_FIRST or RECORDER_LOAD_FIRST */
    RECORDER_AT_LEFT = 8796,           /* four u64: 256 marks of the items that have left, as of the dirty ones */
    RECORDER_AT_ARRIVALS = 8828,       /* u32 */
    RECORDER_AT_RETIREMENTS = 8832,    /* u32: as many as items have left */
    RECORDER_AT_USED = 8836,           /* u32: the blocks held */
    RECORDER_AT_LEVEL = 8840,          /* u64: what a block has lost by evictions so far, in the units of the credits */
    RECORDER_AT_KEYS = 8848,           /* run of u64: the level at which the item's credits are used up; 0 if it is not held */
    RECORDER_AT_HEAP = 10896,          /* run of u8, by place and not by item: the held items as a heap, least key first; as many
                                          places as items are held (loads - evictions) are in use, the others 0 */
    RECORDER_AT_PLACES = 11152         /* run of u8: the place of the item in the heap; 0 if it is not held */
};

/*
 * Numbers in bytes, the low byte first, at any address: of a state, a catalog or a list of steps. The address must be good for
 * the 2, 4 or 8 bytes. recorder_put_u32 is for lists of steps; a state is written by the calls alone.
 */
static inline uint16_t recorder_u16(const uint8_t *bytes)
{
    return (uint16_t)(bytes[0] | bytes[1] << 8);
}

static inline uint32_t recorder_u32(const uint8_t *bytes)
{
    return recorder_u16(bytes) | (uint32_t)recorder_u16(bytes + 2) << 16;
}

static inline uint64_t recorder_u64(const uint8_t *bytes)
{
    return recorder_u32(bytes) | (uint64_t)recorder_u32(bytes + 4) << 32;
}

static inline void recorder_put_u32(uint8_t *bytes, uint32_t number)
{
    bytes[0] = (uint8_t)number;
    bytes[1] = (uint8_t)(number >> 8);
    bytes[2] = (uint8_t)(number >> 16);
    bytes[3] = (uint8_t)(number >> 24);
}

/*
 * The number of the layout that bytes were stored under, whatever their count: a state of another version may be of another
 * length. 0, which is no layout's, for fewer than 4 bytes. After an opening that was taken it is RECORDER_FORMAT, or header
 * and archive do not belong together (VERSIONS).
 */
static inline uint32_t recorder_format(const uint8_t *state, size_t state_len)
{
    return state_len < 4 ? 0 : recorder_u32(state + RECORDER_AT_FORMAT);
}

/* Whether a state is valid: what a step, a close or a report would not answer by 17. It is only read, and no page is needed. */
static inline bool recorder_is_valid(const uint8_t *state, size_t state_len)
{
    size_t length = 0; /* not told: a report never fits on a page of 0 bytes */
    return recorder_report(state, state_len, NULL, 0, &length) != RECORDER_INVALID_STATE;
}

/* Whether bytes of this count have a place for an item of this number. */
static inline bool recorder_has_place(size_t state_len, uint32_t item)
{
    return state_len == RECORDER_STATE_BYTES && item < RECORDER_MAX_ITEMS;
}

/* One of the 256 marks at a place. With the low byte first, bit i % 64 of word i / 64 is bit i % 8 of byte i / 8. */
static inline bool recorder_mark(const uint8_t *marks, uint32_t item)
{
    return ((marks[item / 8] >> (item % 8)) & 1) == 1;
}

/*
 * Whether an item is held (in working memory), whether it is dirty (held, and to be written back), and whether it has left (its
 * retirement was taken; it is not held, and no step may name it again). False for a state of the wrong length and for an item
 * number above 255; of a valid state, false past the catalog.
 *
 * Which items were evicted, came in or were written back is seen by comparing these marks before and after a call, so keep the
 * marks (or the whole state) from before it. After a call that was taken:
 *     held before, not held now        evicted, or retired by the step; it was written back first if it was dirty before
 *     not held before, held now        loaded (at most one, the item of the step)
 *     dirty before, held and clean now written back by the flush or the close
 * After a call that was refused no mark has changed.
 */
static inline bool recorder_is_held(const uint8_t *state, size_t state_len, uint32_t item)
{
    return recorder_has_place(state_len, item) && state[RECORDER_AT_HELD + item] == 1;
}

static inline bool recorder_is_dirty(const uint8_t *state, size_t state_len, uint32_t item)
{
    return recorder_has_place(state_len, item) && recorder_mark(state + RECORDER_AT_DIRTY, item);
}

static inline bool recorder_is_left(const uint8_t *state, size_t state_len, uint32_t item)
{
    return recorder_has_place(state_len, item) && recorder_mark(state + RECORDER_AT_LEFT, item);
}

/*
 * What stands of the credit at the place `own`, beside that at `other`. The bytes have both as they were last reckoned; what each
 * block of the item has lost since is the level, plus what both come to a block, less the key. Under the rule `first` the own
 * credit bears the loss first, else only what the other lacks. 0 if the item is not held; of an invalid state, any number.
 */
static inline uint64_t recorder_credit(const uint8_t *state, size_t state_len, uint32_t item, size_t own, size_t other,
                                       uint32_t first)
{
    if (!recorder_is_held(state, state_len, item) || state[RECORDER_AT_BLOCKS + item] == 0)
        return 0;
    const uint64_t credit = recorder_u64(state + own + 8 * item), beside = recorder_u64(state + other + 8 * item);
    const uint64_t blocks = state[RECORDER_AT_BLOCKS + item], key = recorder_u64(state + RECORDER_AT_KEYS + 8 * item);
    uint64_t loss = blocks * (recorder_u64(state + RECORDER_AT_LEVEL) + (credit + beside) / blocks - key);
    if (recorder_u32(state + RECORDER_AT_RULE) != first)
        loss = loss < beside ? 0 : loss - beside;
    return loss < credit ? credit - loss : 0;
}

/*
 * An item's credits as they stand, in units of 1 / RECORDER_UNIT of a cost; the minutes that it was written for; how often it was
 * loaded, and written back. 0 for a state of the wrong length and for an item number above 255; of a valid state, 0 past the
 * catalog, and the credits 0 where the item is not held.
 */
static inline uint64_t recorder_load_credit(const uint8_t *state, size_t state_len, uint32_t item)
{
    return recorder_credit(state, state_len, item, RECORDER_AT_LOAD_CREDIT, RECORDER_AT_WRITE_CREDIT, RECORDER_LOAD_FIRST);
}

static inline uint64_t recorder_write_credit(const uint8_t *state, size_t state_len, uint32_t item)
{
    return recorder_credit(state, state_len, item, RECORDER_AT_WRITE_CREDIT, RECORDER_AT_LOAD_CREDIT, RECORDER_WRITE_FIRST);
}

static inline uint32_t recorder_item_minutes(const uint8_t *state, size_t state_len, uint32_t item)
{
    return recorder_has_place(state_len, item) ? recorder_u32(state + RECORDER_AT_MINUTES + 4 * item) : 0;
}

static inline uint32_t recorder_item_loads(const uint8_t *state, size_t state_len, uint32_t item)
{
    return recorder_has_place(state_len, item) ? recorder_u32(state + RECORDER_AT_ITEM_LOADS + 4 * item) : 0;
}

static inline uint32_t recorder_item_writebacks(const uint8_t *state, size_t state_len, uint32_t item)
{
    return recorder_has_place(state_len, item) ? recorder_u32(state + RECORDER_AT_ITEM_WRITEBACKS + 4 * item) : 0;
}

/*
 * The five bytes of an item in a catalog, for a table of constants. A cost above 65,535, or more than 255 blocks, does not fit
 * its bytes, and a compiler says so:
 *
 *     static const uint8_t catalog[] = { RECORDER_ITEM(1, 4, 6), RECORDER_ITEM(2, 300, 700) };
 */
#define RECORDER_ITEM(blocks, load, write) (blocks), (load) & 255, (load) >> 8, (write) & 255, (write) >> 8

/*
 * Puts an item in its place of a catalog that has room for it. False, and nothing is written, where recorder_open would refuse
 * the value (3) or the five bytes cannot hold it: an item above 255, blocks that are not 1 to 16, a cost above 65,535.
 */
static inline bool recorder_put_item(uint8_t *catalog, uint32_t item, uint32_t blocks, uint32_t load, uint32_t write)
{
    if (item >= RECORDER_MAX_ITEMS || blocks < 1 || blocks > RECORDER_MAX_BLOCKS)
        return false;
    if (load > RECORDER_MAX_COST || write > RECORDER_MAX_COST)
        return false;
    uint8_t *bytes = catalog + RECORDER_ITEM_BYTES * item;
    bytes[0] = (uint8_t)blocks;
    bytes[1] = (uint8_t)load;
    bytes[2] = (uint8_t)(load >> 8);
    bytes[3] = (uint8_t)write;
    bytes[4] = (uint8_t)(write >> 8);
    return true;
}

/*
 * Puts a step in its place of a list for recorder_log that has room for it; the first is number 0. Any numbers are put: it is
 * recorder_log that refuses.
 */
static inline void recorder_put_step(uint8_t *steps, size_t step, uint32_t kind, uint32_t item, uint32_t minutes,
                                     uint32_t blocks, uint32_t load, uint32_t write)
{
    uint8_t *bytes = steps + RECORDER_STEP_BYTES * step;
    recorder_put_u32(bytes, kind);
    recorder_put_u32(bytes + 4, item);
    recorder_put_u32(bytes + 8, minutes);
    recorder_put_u32(bytes + 12, blocks);
    recorder_put_u32(bytes + 16, load);
    recorder_put_u32(bytes + 20, write);
}

#ifdef __cplusplus
}
#endif

#endif
