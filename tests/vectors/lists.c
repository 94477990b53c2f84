/*
 * A vector of lists/ on standard input: a line with the number of a heading, 0 for the three names and 1 for the six, and the length of
 * the lent page; then a step a line, six numbers. Prints what recorder_log writes on such a page, or the number and the line of its refusal.
 */
#include "recorder.h"

#include <inttypes.h>
#include <stdio.h>
#include <stdlib.h>
#include <string.h>

#define MOST_STEPS 20000

int main(void)
{
    static uint32_t steps[MOST_STEPS][RECORDER_STEP_NUMBERS];
    uint32_t heading;
    size_t page_len, count = 0, length = 0;
    if (scanf("%" SCNu32 " %zu", &heading, &page_len) != 2)
        return 2;
    for (size_t read = 0; scanf("%" SCNu32, &steps[count][read]) == 1;) {
        if (++read < RECORDER_STEP_NUMBERS)
            continue;
        read = 0;
        if (++count == MOST_STEPS)
            return 2;
    }
    if (!feof(stdin))
        return 2;
    uint8_t *page = malloc(page_len + 1);
    if (page == NULL)
        return 2;
    memset(page, 0x7E, page_len + 1);
    uint64_t answer = recorder_log(heading, (const uint8_t *)steps, count * sizeof *steps, page, page_len, &length);
    for (size_t i = length; i <= page_len; i++) /* refused, the length is still 0 */
        if (page[i] != 0x7E)
            return 1;
    if (answer == 0)
        fwrite(page, 1, length, stdout);
    else
        printf("%" PRIu32 " %" PRIu32 "\n", RECORDER_LOG_NUMBER(answer), RECORDER_LOG_LINE(answer));
    free(page);
    return 0;
}
