/*
 * Calls the library from C by its header: the whole file L4 is written, read, asked about and judged; then a job in which two records race
 * is judged by both calls.
 */
#include "razombiku.h"

#include <inttypes.h>
#include <stdio.h>

static uint64_t labels[RZ_LABELS];
static uint16_t links[RZ_LINKS];
static uint32_t places[RZ_PLACES];
static uint32_t records[RZ_RECORDS];
static uint32_t firsts[RZ_RECORDS];
static uint32_t seconds[RZ_RECORDS];

static void show(const char *call, const uint64_t *answer, int count)
{
    printf("%s", call);
    for (int at = 0; at < count; at++)
        printf(" %" PRIu64, answer[at]);
    printf("\n");
}

/* Every record's race over k events of a file, with lists of some length. */
static void judge_records(const uint8_t *file, size_t length, uint64_t k, size_t entries)
{
    uint64_t answer[6];

    rz_judge_records(file, length, k, labels, RZ_LABELS, links, RZ_LINKS, places, RZ_PLACES, records, entries, firsts, entries, seconds,
                     entries, answer);
    show("every record", answer, 6);
    for (uint64_t at = 0; at < answer[2]; at++)
        printf("record %" PRIu32 " first %" PRIu32 " second %" PRIu32 "\n", records[at], firsts[at], seconds[at]);
}

int main(void)
{
    const uint8_t name[] = {'L', '4'};
    /* W0 S R0 W1 E R0 W1 J */
    const uint8_t events[] = {5, 0, 0, 0, 1, 0, 0, 0, 4, 0, 0, 0, 5, 0, 1, 0, 2, 0, 0, 0, 4, 0, 0, 0, 5, 0, 1, 0, 3, 0, 0, 0};
    /* S W1 W0 E W1 W0 */
    const uint8_t two[] = {1, 0, 0, 0, 5, 0, 1, 0, 5, 0, 0, 0, 2, 0, 0, 0, 5, 0, 1, 0, 5, 0, 0, 0};
    uint8_t file[64];
    uint64_t answer[9];

    rz_write(name, sizeof name, 2, events, sizeof events, file, sizeof file, answer);
    show("write", answer, 3);
    size_t length = (size_t)answer[2];
    rz_read(file, length, answer);
    show("read", answer, 6);
    rz_question(file, length, 3, 6, answer);
    show("question", answer, 3);
    rz_judge(file, length, 8, labels, RZ_LABELS, links, RZ_LINKS, places, RZ_PLACES, answer);
    show("judge", answer, 9);
    show("english", labels, 3);
    show("hebrew of 2", labels + 4098, 1);
    rz_judge(file, length, 9, labels, RZ_LABELS, links, RZ_LINKS, places, RZ_PLACES, answer);
    show("too many events", answer, 9);
    int refused = answer[0] == RZ_EVENT_NUMBER;

    rz_write(name, sizeof name, 2, two, sizeof two, file, sizeof file, answer);
    length = (size_t)answer[2];
    rz_judge(file, length, 6, labels, RZ_LABELS, links, RZ_LINKS, places, RZ_PLACES, answer);
    show("judge", answer, 9);
    judge_records(file, length, 6, RZ_RECORDS);
    judge_records(file, length, 5, 2);
    judge_records(file, length, 0, 1);
    return refused ? 0 : 1;
}
