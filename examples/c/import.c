/*
 * Brings in two OBJ files, one for the start and one for the end, and tells each listed pair with its word; or which file is refused, at
 * which line, and why.
 *
 *     examples/c/run import scenes/obj/cuff-start.obj scenes/obj/cuff-end.obj
 */
#include "makhnodri.h"

#include <inttypes.h>
#include <stdio.h>

enum { ROOM = MAKHNODRI_REPORT_ROOM };
static uint8_t start[MAKHNODRI_TEXT_LIMIT + 1], end[MAKHNODRI_TEXT_LIMIT + 1]; /* one byte more, so that a file that is too long is seen */
static makhnodri_buffers buffers;
static int32_t boxes[MAKHNODRI_BOXES_LENGTH];
static uint32_t list[ROOM];
static uint8_t words[ROOM];

static int read_file(const char *name, uint8_t *text, size_t *length) {
    FILE *file = fopen(name, "rb");
    if (!file) {
        perror(name);
        return 0;
    }
    *length = fread(text, 1, MAKHNODRI_TEXT_LIMIT + 1, file);
    int whole = !ferror(file);
    fclose(file);
    return whole;
}

int main(int argc, char **argv) {
    size_t start_length, end_length;
    if (argc != 3) return fprintf(stderr, "usage: import START.obj END.obj\n"), 2;
    if (!read_file(argv[1], start, &start_length) || !read_file(argv[2], end, &end_length)) return 1;
    makhnodri_scene scene = {0};
    makhnodri_answer answer = makhnodri_import_scene(start, start_length, end, end_length, &buffers, boxes, &scene);
    if (makhnodri_refusal(answer)) {
        uint32_t file = makhnodri_import_file(answer);
        if (file) printf("%s:%" PRIu32 ": ", argv[file], makhnodri_import_line(answer));
        printf("refused %" PRIu32 ": %s\n", makhnodri_refusal(answer), makhnodri_refusal_words(makhnodri_refusal(answer)));
        return 1;
    }
    makhnodri_answer count = makhnodri_settle_scene(&scene, list, ROOM, words, ROOM);
    if (makhnodri_refusal(count)) return printf("refused 7: room for %" PRIu32 " pairs is needed\n", makhnodri_value(count)), 1;
    for (uint32_t i = 0; i < makhnodri_value(count); i++)
        printf("%s\t%" PRIu32 "\t%" PRIu32 "\t%s\n", makhnodri_entry_kind(list[i]) == MAKHNODRI_EE ? "ee" : "pt", makhnodri_entry_first(list[i]),
               makhnodri_entry_second(list[i]), makhnodri_word(words[i]));
    return 0;
}
