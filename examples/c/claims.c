/*
 * A partner's claims beside a scene: `claims SCENE CLAIMS` prints yes or no for each line of the claims, or the refusal.
 *
 *     examples/c/run claims scenes/printed.scene scenes/printed.claims
 */
#include "makhnodri.h"

#include <inttypes.h>
#include <stdio.h>

static uint8_t scene_text[MAKHNODRI_TEXT_LIMIT + 1], claims[MAKHNODRI_TEXT_LIMIT + 1]; /* one byte more, so that a text that is too long is seen */
static makhnodri_buffers buffers;
static uint8_t answers[MAKHNODRI_TEXT_LIMIT]; /* a claim has one byte at least */

static int read_file(const char *name, uint8_t *text, size_t *length) {
    FILE *file = fopen(name, "rb");
    if (!file) {
        perror(name);
        return 0;
    }
    *length = fread(text, 1, MAKHNODRI_TEXT_LIMIT + 1, file);
    int whole = !ferror(file);
    fclose(file);
    return whole;
}

static int refused(makhnodri_answer answer) {
    uint32_t refusal = makhnodri_refusal(answer);
    if (refusal) printf("refused %" PRIu32 " %" PRIu32 ": %s\n", refusal, makhnodri_value(answer), makhnodri_refusal_words(refusal));
    return refusal != 0;
}

int main(int argc, char **argv) {
    if (argc != 3) return fprintf(stderr, "usage: claims SCENE CLAIMS\n"), 2;
    makhnodri_scene scene = {0};
    size_t scene_length, claims_length;
    if (!read_file(argv[1], scene_text, &scene_length) || !read_file(argv[2], claims, &claims_length)) return 1;
    if (refused(makhnodri_read_scene(scene_text, scene_length, &buffers, &scene))) return 1;
    makhnodri_answer count = makhnodri_check_claims(&scene, claims, claims_length, answers, sizeof answers);
    if (refused(count)) return 1;
    for (uint32_t i = 0; i < makhnodri_value(count); i++) puts(answers[i] == MAKHNODRI_YES ? "yes" : "no");
    return 0;
}
