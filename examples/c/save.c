/*
 * Saves what is on screen: a scene from standard input is read, every vertex is lifted by as many steps as the argument says, at both
 * times, and the scene goes to standard output as text. Lifted by 0 it is the text that was read, byte for byte.
 *
 *     examples/c/run save 7 < scenes/printed.scene
 */
#include "makhnodri.h"

#include <inttypes.h>
#include <stdio.h>
#include <stdlib.h>

static uint8_t text[MAKHNODRI_TEXT_LIMIT + 1]; /* one byte more, so that a text that is too long is seen */
static makhnodri_buffers buffers;

static int refused(const char *asked, makhnodri_answer answer) {
    if (makhnodri_refusal(answer))
        fprintf(stderr, "%s: refused %" PRIu32 " %" PRIu32 ": %s\n", asked, makhnodri_refusal(answer), makhnodri_value(answer),
                makhnodri_refusal_words(makhnodri_refusal(answer)));
    return makhnodri_refusal(answer) != 0;
}

int main(int count, char **arguments) {
    if (count > 2) return fprintf(stderr, "usage: save [STEPS] < SCENE\n"), 2;
    makhnodri_scene scene = {0};
    if (refused("read", makhnodri_read_scene(text, fread(text, 1, sizeof text, stdin), &buffers, &scene))) return 1;
    long lift = count > 1 ? strtol(arguments[1], NULL, 10) : 0;
    if (lift < -2 * MAKHNODRI_COORDINATE_LIMIT || lift > 2 * MAKHNODRI_COORDINATE_LIMIT) return 2;
    for (size_t z = 2; z < scene.positions_length; z += 3) buffers.positions[z] += (int32_t)lift;

    /* the length alone, then the text in a buffer that is just long enough */
    makhnodri_answer length = makhnodri_saved_length(&scene);
    if (refused("length", length)) return 1;
    uint8_t *saved = malloc(length + 1); /* one byte more: malloc(0) may give null */
    if (!saved || refused("save", makhnodri_save_scene(&scene, saved, length))) return 1;
    int whole = fwrite(saved, 1, length, stdout) == length && fflush(stdout) == 0;
    free(saved);
    return whole ? 0 : 1;
}
