/*
 * From a scene text on standard input to the word of each listed pair and of each of its pieces; then calls that are
 * refused, a point at rest in three words and in four, two pieces of cloth with and without their seam, the scene played
 * backwards, and the report.
 *
 *     examples/c/run scene < scenes/printed.scene
 */
#include "makhnodri.h"

#include <inttypes.h>
#include <stdio.h>
#include <stdlib.h>

/* What the library lends nobody: the buffers are the caller's. */
static uint8_t text[MAKHNODRI_TEXT_LIMIT + 1]; /* one byte more, so that a text that is too long is seen */
static makhnodri_buffers buffers;
static uint8_t report[MAKHNODRI_REPORT_LENGTH];

/* An answer that may be a refusal, and one that is a word. */
static void show(const char *asked, makhnodri_answer answer) {
    uint32_t refusal = makhnodri_refusal(answer), value = makhnodri_value(answer);
    if (refusal)
        printf("%s: refused %" PRIu32 " %" PRIu32 ": %s\n", asked, refusal, value, makhnodri_refusal_words(refusal));
    else
        printf("%s: %" PRIu32 "\n", asked, value);
}

static const char *word(makhnodri_answer answer) {
    return makhnodri_refusal(answer) ? "refused" : makhnodri_word(makhnodri_value(answer));
}

int main(int argc, char **argv) {
    (void)argv;
    if (argc != 1) return fprintf(stderr, "usage: scene < SCENE\n"), 2;
    makhnodri_scene scene = {0};
    size_t text_length = fread(text, 1, sizeof text, stdin);
    makhnodri_answer read = makhnodri_read_scene(text, text_length, &buffers, &scene);
    show("read", read);
    if (makhnodri_refusal(read)) return 1;
    size_t vertices = scene.positions_length / 6;
    printf("%zu vertices, %zu edges, %zu triangles, %zu seams\n", vertices, scene.edges_length / 2, scene.triangles_length / 3,
           scene.seams_length / 2);

    size_t tests[1];
    makhnodri_answer room = makhnodri_count_pairs(&scene, tests);
    show("listed pairs", room);
    printf("found with %zu box tests of points\n", tests[0]);
    /* one entry more than needed: malloc(0) may give null, which here means that there is no memory */
    uint32_t *list = malloc((room + 1) * sizeof *list);
    uint8_t *words = malloc(room + 1);
    if (!list || !words) return 1;

    makhnodri_answer count = makhnodri_settle_scene(&scene, list, room, words, room);
    for (size_t i = 0; i < count; i++) {
        uint32_t first = makhnodri_entry_first(list[i]), second = makhnodri_entry_second(list[i]);
        int pt = makhnodri_entry_kind(list[i]) == MAKHNODRI_PT;
        printf("%s %" PRIu32 " %" PRIu32 " %s, pieces", pt ? "pt" : "ee", first, second, makhnodri_word(words[i]));
        for (size_t piece = 0; piece < (pt ? 3 : 4); piece++) {
            makhnodri_answer answer =
                pt ? makhnodri_settle_pt_piece(&scene, first, second, piece) : makhnodri_settle_ee_piece(&scene, first, second, piece);
            printf(" %s", word(answer));
        }
        printf("\n");
    }

    /* refused: nothing that was lent has changed */
    makhnodri_scene half = {0};
    half.positions = scene.positions;
    half.positions_length = 3;
    show("room for one pair", makhnodri_list_pairs(&scene, list, 1, tests));
    show("no such vertex", makhnodri_judge_pt(&scene, vertices, 0));
    show("an edge with itself", makhnodri_judge_ee(&scene, 0, 0));
    show("half a vertex", makhnodri_check_scene(&half));

    /* a triangle at rest, a point that rests in it, and one that rests above it: singular, so that only four words tell them apart */
    static const int32_t still[] = {0, 0, 0, 0, 0, 0, 4, 0, 0, 4, 0, 0, 0, 4, 0, 0, 4, 0, 1, 1, 0, 1, 1, 0, 1, 1, 1, 1, 1, 1};
    static const uint16_t corners[] = {0, 1, 2};
    makhnodri_scene resting = {0};
    resting.positions = still, resting.positions_length = 30;
    resting.triangles = corners, resting.triangles_length = 3;
    for (size_t vertex = 3; vertex < 5; vertex++) {
        makhnodri_answer three = makhnodri_judge_pt(&resting, vertex, 0), four = makhnodri_settle_pt(&resting, vertex, 0);
        printf("at rest: judged %s, settled %s\n", word(three), word(four));
    }

    /* two triangles of cloth in one plane with a border in common, vertices 0 1 and 3 4: unsewn, the corners of each are listed with
       the other's face and the borders with each other; sewn, vertex 3 stands for 0 and 4 for 1, and they share these */
    static const int32_t pieces[] = {0, 0, 0, 0, 0, 0, 4, 0, 0, 4, 0, 0, 0, 4, 0, 0, 4, 0, 0, 0, 0, 0, 0, 0, 4, 0, 0, 4, 0, 0, 0, -4, 0, 0, -4, 0};
    static const uint16_t borders[] = {0, 1, 3, 4}, faces[] = {0, 1, 2, 3, 4, 5}, sewn[] = {3, 0, 4, 1};
    makhnodri_scene cloth = {pieces, 36, borders, 4, faces, 6, NULL, 0};
    show("listed without the seam", makhnodri_count_pairs(&cloth, tests));
    cloth.seams = sewn, cloth.seams_length = 4;
    show("listed with it", makhnodri_count_pairs(&cloth, tests));
    show("the two borders", makhnodri_settle_ee(&cloth, 0, 1));

    /* a scene without seams played backwards: the same pairs have the same words, the pt pairs at their vertices' new numbers */
    if (scene.seams_length) return 0;
    show("turned round", makhnodri_turn_scene(buffers.positions, scene.positions_length, buffers.edges, scene.edges_length,
                                              buffers.triangles, scene.triangles_length));
    count = makhnodri_settle_scene(&scene, list, room, words, room);
    for (size_t i = 0; i < count; i++) {
        uint32_t first = makhnodri_entry_first(list[i]), second = makhnodri_entry_second(list[i]);
        int pt = makhnodri_entry_kind(list[i]) == MAKHNODRI_PT;
        if (pt) first = (uint32_t)vertices - 1 - first;
        printf("%s %" PRIu32 " %" PRIu32 " %s\n", pt ? "pt" : "ee", first, second, makhnodri_word(words[i]));
    }

    fwrite(report, 1, makhnodri_write_report(text, text_length, report), stdout);
    free(list);
    free(words);
    return 0;
}
