/*
 * Tells where trouble began in a series: the first hits with their steps, and what came of all steps; as the program `series` prints it.
 * With an argument the list has so much room.
 *
 *     examples/c/run series < scenes/series/sleeve.series
 */
#include "makhnodri.h"

#include <inttypes.h>
#include <stdio.h>
#include <stdlib.h>

static uint8_t text[MAKHNODRI_TEXT_LIMIT + 1]; /* one byte more, so that a text that is too long is seen */
static makhnodri_buffers buffers;
static int32_t boxes[MAKHNODRI_BOXES_LENGTH];
static uint32_t list[MAKHNODRI_REPORT_ROOM];
static makhnodri_scene last;
static makhnodri_told told;

int main(int count, char **arguments) {
    if (count > 2) return fprintf(stderr, "usage: series [ROOM] < SERIES\n"), 2;
    size_t length = fread(text, 1, sizeof text, stdin);
    size_t room = count > 1 ? strtoul(arguments[1], NULL, 10) : MAKHNODRI_REPORT_ROOM;
    if (room > MAKHNODRI_REPORT_ROOM) return 2;
    makhnodri_answer answer = makhnodri_tell_series(text, length, &buffers, boxes, list, room, &last, &told);
    if (makhnodri_refusal(answer)) {
        printf("refused\t%" PRIu32 "\t%" PRIu32 "\n", makhnodri_refusal(answer), makhnodri_value(answer));
        return 1;
    }
    /* the log begins with the first cause, however many hits came later */
    for (size_t i = 0; i < told.held; i++) {
        uint32_t pair = told.log[i].entry;
        printf("hit\t%" PRIu32 "\t%s\t%" PRIu32 "\t%" PRIu32 "\n", told.log[i].step, makhnodri_entry_kind(pair) == MAKHNODRI_PT ? "pt" : "ee",
               makhnodri_entry_first(pair), makhnodri_entry_second(pair));
    }
    printf("later\t%" PRIu64 "\n", told.later);
    printf("total\t%" PRIu64 "\t%" PRIu64 "\t%" PRIu64 "\t%" PRIu64 "\t%" PRIu64 "\n", told.listed, told.hits, told.misses, told.touches, told.aparts);
    printf("first\t%" PRIu64 "\n", told.first);

    /* the last step stands in the buffers, a scene like any other, and its list was made already */
    size_t tests[1];
    makhnodri_answer listed = makhnodri_count_pairs(&last, tests);
    if (listed != answer) {
        fprintf(stderr, "the last step lists %" PRIu32 " pairs, and %" PRIu32 " were told\n", makhnodri_value(listed), makhnodri_value(answer));
        return 1;
    }
    return 0;
}
