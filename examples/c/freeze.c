/*
 * Freezes the picture at the first contact of a scene: which pair touched, when, and where, in the mesh's units.
 *
 *     examples/c/run freeze < scenes/frozen.scene
 */
#include "makhnodri.h"

#include <inttypes.h>
#include <stdio.h>

static uint8_t text[MAKHNODRI_TEXT_LIMIT + 1]; /* one byte more, so that a text that is too long is seen */
static makhnodri_buffers buffers;
static makhnodri_scene scene;
static uint32_t list[MAKHNODRI_REPORT_ROOM];
static uint8_t words[MAKHNODRI_REPORT_ROOM];
static uint32_t contacts[MAKHNODRI_CONTACT_LENGTH * MAKHNODRI_REPORT_ROOM];

static int refused(makhnodri_answer answer) {
    uint32_t refusal = makhnodri_refusal(answer);
    if (refusal) printf("refused %" PRIu32 ": %s\n", refusal, makhnodri_refusal_words(refusal));
    return refusal != 0;
}

/* where a vertex stands on an axis at a time between start and end */
static double at(size_t vertex, int axis, double time) {
    double start = scene.positions[6 * vertex + axis], end = scene.positions[6 * vertex + 3 + axis];
    return start + time * (end - start);
}

/* Where the pair touched, on an axis. Of a point and a triangle: where the point is. Of two edges: the lower edge's place in its piece, which
   is low high high' in pieces 0 and 1, and low low' high' in pieces 2 and 3. A face or an edge has no other place: in a piece it does not move
   straight. */
static double place(uint32_t entry, const uint32_t *contact, int axis) {
    double time = makhnodri_contact_time(contact);
    if (makhnodri_entry_kind(entry) == MAKHNODRI_PT) return at(makhnodri_entry_first(entry), axis, time);
    const uint16_t *ends = scene.edges + 2 * makhnodri_entry_first(entry);
    int rising = makhnodri_stands_for(&scene, ends[0]) < makhnodri_stands_for(&scene, ends[1]);
    size_t low = ends[!rising], high = ends[rising];
    double share = makhnodri_contact_share(contact, 0);
    if (contact[0] < 2) return (1 - share) * at(low, axis, 0) + (share - time) * at(high, axis, 0) + time * at(high, axis, 1);
    return (1 - time) * at(low, axis, 0) + (time - share) * at(low, axis, 1) + share * at(high, axis, 1);
}

int main(int argc, char **argv) {
    (void)argv;
    if (argc != 1) return fprintf(stderr, "usage: freeze < SCENE\n"), 2;
    size_t length = fread(text, 1, sizeof text, stdin);
    if (refused(makhnodri_read_scene(text, length, &buffers, &scene))) return 1;
    makhnodri_answer count = makhnodri_contact_scene(&scene, list, MAKHNODRI_REPORT_ROOM, words, MAKHNODRI_REPORT_ROOM, contacts,
                                                     MAKHNODRI_CONTACT_LENGTH * MAKHNODRI_REPORT_ROOM);
    if (refused(count)) return 1;

    /* the earliest hit; of several at one time the first in the list */
    size_t pairs = makhnodri_value(count), first = pairs;
    for (size_t i = 0; i < pairs; i++) {
        const uint32_t *contact = contacts + MAKHNODRI_CONTACT_LENGTH * i;
        if (words[i] == MAKHNODRI_HIT && (first == pairs || contact[1] < contacts[MAKHNODRI_CONTACT_LENGTH * first + 1])) first = i;
    }
    if (first == pairs) return puts("nothing is hit"), 0;

    const uint32_t *contact = contacts + MAKHNODRI_CONTACT_LENGTH * first, entry = list[first];
    int pt = makhnodri_entry_kind(entry) == MAKHNODRI_PT;
    printf("%s %" PRIu32 " %" PRIu32 " first, in piece %" PRIu32 "\n", pt ? "pt" : "ee", makhnodri_entry_first(entry),
           makhnodri_entry_second(entry), contact[0]);
    printf("time %" PRIu32 " of %d, which is %.25g\n", contact[1], MAKHNODRI_CONTACT_UNIT, makhnodri_contact_time(contact));
    for (size_t i = 0; i < (pt ? 3 : 2); i++) printf("%s %.25g", i ? "," : "shares", makhnodri_contact_share(contact, i));
    printf("\nat %.25g, %.25g, %.25g\n", place(entry, contact, 0), place(entry, contact, 1), place(entry, contact, 2));
    for (size_t v = 0; v < scene.positions_length / 6; v++) {
        double time = makhnodri_contact_time(contact);
        printf("vertex %zu stands at %.25g, %.25g, %.25g\n", v, at(v, 0, time), at(v, 1, time), at(v, 2, time));
    }
    return 0;
}
