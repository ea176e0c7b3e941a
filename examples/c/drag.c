/*
 * Drags one vertex of a scene, as a mouse would: at each step the end of vertex VERTEX goes on by X Y Z, and the program prints which hits
 * came and which went. The boxes are read with the text; each move works out those of the parts that have the vertex, and the list is made
 * from what is stored. A move that is refused is told, and changes nothing.
 *
 *     examples/c/run drag VERTEX X Y Z STEPS < scenes/frozen.scene
 */
#include "makhnodri.h"

#include <inttypes.h>
#include <stdio.h>
#include <stdlib.h>

enum { ROOM = MAKHNODRI_REPORT_ROOM };

static uint8_t text[MAKHNODRI_TEXT_LIMIT + 1]; /* one byte more, so that a text that is too long is seen */
static makhnodri_boxed_buffers buffers;
static uint32_t list[ROOM], hits[2][ROOM];
static uint8_t words[ROOM];

static int refused(const char *asked, makhnodri_answer answer) {
    uint32_t refusal = makhnodri_refusal(answer);
    if (refusal) printf("%s: refused %" PRIu32 ": %s\n", asked, refusal, makhnodri_refusal_words(refusal));
    return refusal != 0;
}

/* The entries of the pairs that are hit, in their order; how many there are, or -1. */
static int find_hits(const makhnodri_boxed_scene *boxed, uint32_t *found) {
    makhnodri_answer count = makhnodri_settle_stored(boxed, list, ROOM, words, ROOM);
    if (refused("list", count)) return -1;
    int next = 0;
    for (uint32_t i = 0; i < makhnodri_value(count); i++)
        if (words[i] == MAKHNODRI_HIT) found[next++] = list[i];
    return next;
}

static void tell(const char *what, uint32_t entry) {
    printf("  %s %s %" PRIu32 " %" PRIu32 "\n", what, makhnodri_entry_kind(entry) == MAKHNODRI_PT ? "pt" : "ee",
           makhnodri_entry_first(entry), makhnodri_entry_second(entry));
}

/* both in rising order, as the list is */
static void tell_changes(const uint32_t *before, int befores, const uint32_t *after, int afters) {
    for (int i = 0, j = 0; i < befores || j < afters;) {
        if (j == afters || (i < befores && before[i] < after[j]))
            tell("no longer hit:", before[i++]);
        else if (i == befores || after[j] < before[i])
            tell("hit:", after[j++]);
        else
            i++, j++;
    }
}

int main(int count, char **arguments) {
    if (count != 6) return fprintf(stderr, "usage: drag VERTEX X Y Z STEPS < SCENE\n"), 2;
    size_t vertex = strtoul(arguments[1], NULL, 10);
    long by[3];
    for (int axis = 0; axis < 3; axis++) {
        by[axis] = strtol(arguments[2 + axis], NULL, 10);
        if (by[axis] < -2 * MAKHNODRI_COORDINATE_LIMIT || by[axis] > 2 * MAKHNODRI_COORDINATE_LIMIT) return 2;
    }
    long steps = strtol(arguments[5], NULL, 10);

    makhnodri_boxed_scene boxed = {0};
    if (refused("read", makhnodri_read_boxed(text, fread(text, 1, sizeof text, stdin), &buffers, &boxed))) return 1;

    int now = 0, known = find_hits(&boxed, hits[now]);
    if (known < 0) return 1;
    printf("%d hits before vertex %zu is dragged\n", known, vertex);
    for (long step = 1; step <= steps; step++) {
        int32_t to[6] = {0};
        for (int k = 0; k < 6 && vertex < boxed.positions_length / 6; k++)
            to[k] = boxed.positions[6 * vertex + (size_t)k] + (int32_t)(k < 3 ? 0 : by[k - 3]);
        if (refused("move", makhnodri_move_vertex(&boxed, vertex, to))) return 1;
        int found = find_hits(&boxed, hits[!now]);
        if (found < 0) return 1;
        printf("step %ld, its end at %" PRId32 " %" PRId32 " %" PRId32 ": %d hits\n", step, to[3], to[4], to[5], found);
        tell_changes(hits[now], known, hits[!now], found);
        now = !now;
        known = found;
    }
    return 0;
}
