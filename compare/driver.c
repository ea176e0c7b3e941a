/*
 * Answers questions from another program with what the library answers, number for number: one question after the other on
 * standard input, one answer after the other on standard output, until the input ends. compare/raw runs it.
 *
 * A question is `struct question`, then each of the buffers in the order of the `enum`: as many numbers as its length
 * says, with MARGIN bytes in front of them and MARGIN behind, which are not lent. An answer is the number that the call gave,
 * then all those bytes as the call left them.
 *
 * A word says where the buffers stand that are lent, so that a read outside them shows too: `before` or `behind`, with a page
 * right before or right behind each that nobody may touch, so that the process ends there; `exact`, each in a block of just its
 * size, for a memory checker. Without a word they stand between their margins.
 */
#define _DEFAULT_SOURCE
#include "makhnodri.h"

#include <stdio.h>
#include <stdlib.h>
#include <string.h>
#include <sys/mman.h>
#include <unistd.h>

/* each buffer is aligned for 64-bit numbers, and not for more */
enum { MARGIN = 24, CAPACITY = 1 << 24 };

enum {
    POSITIONS, EDGES, TRIANGLES, SEAMS, LIST, WORDS, TEXT, COUNTS, REPORT, CONTACTS, BOXES, COORDINATES, ENDING, LOG, TOLD,
    /* of a mesh of any size */
    MESH_POSITIONS, MESH_EDGES, MESH_TRIANGLES, MESH_SEAMS, EDGE_ORDER, TRIANGLE_ORDER, SIDES, ORDER, TABLE, PLACES, MESH_BOXES, MESH_LIST,
    MESH_WORDS, MESH_CONTACTS, MESH_TOLD, BUFFERS
};
static const size_t size_of[BUFFERS] = {4, 2, 2, 2, 4, 1, 1, sizeof(size_t), 1, 4, 4, 4, 1, 4, 8,
                                        4, 4, 4, 4, 4, 4, 4, 4, 4, 4, 4, 8, 1, 4, 8};

struct question {
    uint64_t call, asked[3], length[BUFFERS];
};

static uint8_t *memory[BUFFERS], *place[BUFFERS], *fenced[BUFFERS];
static enum { BETWEEN_MARGINS, BEFORE, BEHIND, EXACT } stands = BETWEEN_MARGINS;

static void *lent(int buffer) { return place[buffer]; }

static size_t lent_bytes(const struct question *q, int buffer) { return q->length[buffer] * size_of[buffer]; }

static size_t bytes(const struct question *q, int buffer) { return 2 * MARGIN + lent_bytes(q, buffer); }

static void give_up(const char *why) {
    fprintf(stderr, "driver: %s\n", why);
    exit(1);
}

#define THREE lent(POSITIONS), q->length[POSITIONS], lent(EDGES), q->length[EDGES], lent(TRIANGLES), q->length[TRIANGLES]
#define SCENE THREE, lent(SEAMS), q->length[SEAMS]
#define PAIR SCENE, q->asked[0], q->asked[1]
#define STORED SCENE, lent(BOXES), q->length[BOXES]
#define LEND(buffer) lent(buffer), q->length[buffer]
#define ROWS MESH, LEND(EDGE_ORDER), LEND(TRIANGLE_ORDER), LEND(TABLE), LEND(PLACES), LEND(MESH_BOXES)
#define MESH LEND(MESH_POSITIONS), LEND(MESH_EDGES), LEND(MESH_TRIANGLES), LEND(MESH_SEAMS)

static uint64_t answer(const struct question *q) {
    switch (q->call) {
    case 0: return makhnodri_check_scene_slices(SCENE);
    case 1: return makhnodri_count_pairs_slices(SCENE, lent(COUNTS));
    case 2: return makhnodri_list_pairs_slices(SCENE, lent(LIST), q->length[LIST], lent(COUNTS));
    case 3: return makhnodri_settle_scene_slices(SCENE, lent(LIST), q->length[LIST], lent(WORDS), q->length[WORDS]);
    case 4: return makhnodri_judge_pt_slices(PAIR);
    case 5: return makhnodri_judge_ee_slices(PAIR);
    case 6: return makhnodri_judge_pt_piece_slices(PAIR, q->asked[2]);
    case 7: return makhnodri_judge_ee_piece_slices(PAIR, q->asked[2]);
    case 8: return makhnodri_settle_pt_slices(PAIR);
    case 9: return makhnodri_settle_ee_slices(PAIR);
    case 10: return makhnodri_settle_pt_piece_slices(PAIR, q->asked[2]);
    case 11: return makhnodri_settle_ee_piece_slices(PAIR, q->asked[2]);
    case 12: return makhnodri_read_scene_slices(lent(TEXT), q->length[TEXT], SCENE, lent(COUNTS));
    case 13: return makhnodri_write_report(lent(TEXT), q->length[TEXT], lent(REPORT));
    case 14: return makhnodri_turn_scene(THREE);
    case 15: return makhnodri_check_claims_slices(SCENE, lent(TEXT), q->length[TEXT], lent(WORDS), q->length[WORDS]);
    case 16: return makhnodri_contact_pt_slices(PAIR, lent(CONTACTS));
    case 17: return makhnodri_contact_ee_slices(PAIR, lent(CONTACTS));
    case 18:
        return makhnodri_contact_scene_slices(SCENE, lent(LIST), q->length[LIST], lent(WORDS), q->length[WORDS], lent(CONTACTS),
                                              q->length[CONTACTS]);
    case 19: return makhnodri_settle_list_slices(SCENE, lent(LIST), q->length[LIST], lent(WORDS), q->length[WORDS]);
    case 20:
        return makhnodri_contact_list_slices(SCENE, lent(LIST), q->length[LIST], lent(WORDS), q->length[WORDS], lent(CONTACTS),
                                             q->length[CONTACTS]);
    case 21: return makhnodri_saved_length_slices(SCENE);
    case 22: return makhnodri_save_scene_slices(SCENE, lent(TEXT), q->length[TEXT]);
    case 23: return makhnodri_fill_boxes_slices(STORED);
    case 24: return makhnodri_move_vertex_slices(STORED, q->asked[0], lent(COORDINATES));
    case 25: return makhnodri_count_stored_slices(STORED, lent(COUNTS));
    case 26: return makhnodri_list_stored_slices(STORED, lent(LIST), q->length[LIST], lent(COUNTS));
    case 27: return makhnodri_settle_stored_slices(STORED, lent(LIST), q->length[LIST], lent(WORDS), q->length[WORDS]);
    case 28: return makhnodri_read_boxed_slices(lent(TEXT), q->length[TEXT], STORED, lent(COUNTS));
    case 29:
        return makhnodri_import_scene_slices(lent(TEXT), q->length[TEXT], lent(ENDING), q->length[ENDING], STORED, lent(COUNTS));
    case 30:
        return makhnodri_tell_series_slices(lent(TEXT), q->length[TEXT], STORED, lent(LIST), q->length[LIST], lent(COUNTS), lent(LOG),
                                            lent(TOLD));
    case 31: return makhnodri_pierced_at_start_slices(PAIR);
    case 32: return makhnodri_pierced_at_end_slices(PAIR);
    case 33: return makhnodri_check_mesh_slices(MESH, LEND(TABLE));
    case 34: return makhnodri_check_edges_slices(MESH, LEND(SIDES), LEND(ORDER), LEND(TABLE), LEND(PLACES), lent(MESH_TOLD));
    case 35: return makhnodri_count_rows_slices(ROWS, q->asked[0], q->asked[1], lent(MESH_TOLD));
    case 36: return makhnodri_count_near_rows_slices(ROWS, q->asked[0], q->asked[1], lent(MESH_TOLD));
    case 37: return makhnodri_list_rows_slices(ROWS, q->asked[0], q->asked[1], LEND(MESH_LIST), lent(MESH_TOLD));
    case 38: return makhnodri_list_near_rows_slices(ROWS, q->asked[0], q->asked[1], LEND(MESH_LIST), lent(MESH_TOLD));
    case 39:
        return makhnodri_settle_rows_slices(ROWS, q->asked[0], q->asked[1], LEND(MESH_LIST), LEND(MESH_WORDS),
            lent(MESH_TOLD));
    case 40:
        return makhnodri_settle_near_rows_slices(ROWS, q->asked[0], q->asked[1], LEND(MESH_LIST), LEND(MESH_WORDS),
            lent(MESH_TOLD));
    case 41:
        return makhnodri_contact_rows_slices(ROWS, q->asked[0], q->asked[1], LEND(MESH_LIST), LEND(MESH_WORDS),
            LEND(MESH_CONTACTS), lent(MESH_TOLD));
    case 42:
        return makhnodri_contact_near_rows_slices(ROWS, q->asked[0], q->asked[1], LEND(MESH_LIST), LEND(MESH_WORDS),
            LEND(MESH_CONTACTS), lent(MESH_TOLD));
    case 43:
        return makhnodri_keep_rows_slices(ROWS, q->asked[0], q->asked[1], (uint32_t)q->asked[2], LEND(MESH_LIST), LEND(MESH_WORDS),
            lent(MESH_TOLD));
    case 44:
        return makhnodri_keep_near_rows_slices(ROWS, q->asked[0], q->asked[1], (uint32_t)q->asked[2], LEND(MESH_LIST),
            LEND(MESH_WORDS), lent(MESH_TOLD));
    case 45:
        return makhnodri_keep_contacts_slices(ROWS, q->asked[0], q->asked[1], (uint32_t)q->asked[2], LEND(MESH_LIST),
            LEND(MESH_WORDS), LEND(MESH_CONTACTS), lent(MESH_TOLD));
    case 46:
        return makhnodri_keep_near_contacts_slices(ROWS, q->asked[0], q->asked[1], (uint32_t)q->asked[2], LEND(MESH_LIST),
            LEND(MESH_WORDS), LEND(MESH_CONTACTS), lent(MESH_TOLD));
    case 47: return makhnodri_pierced_at_start_rows_slices(ROWS, q->asked[0], q->asked[1], LEND(MESH_LIST), lent(MESH_TOLD));
    case 48: return makhnodri_pierced_at_end_rows_slices(ROWS, q->asked[0], q->asked[1], LEND(MESH_LIST), lent(MESH_TOLD));
    }
    give_up("no such call");
    return 0;
}

/* A page that nobody may touch, CAPACITY bytes, and another such page. */
static void fence(int buffer) {
    size_t page = (size_t)sysconf(_SC_PAGESIZE);
    uint8_t *all = mmap(NULL, CAPACITY + 2 * page, PROT_READ | PROT_WRITE, MAP_PRIVATE | MAP_ANONYMOUS, -1, 0);
    if (all == MAP_FAILED || mprotect(all, page, PROT_NONE) || mprotect(all + page + CAPACITY, page, PROT_NONE)) give_up("no memory");
    fenced[buffer] = all + page;
}

static void set_place(const struct question *q, int buffer) {
    size_t count = lent_bytes(q, buffer);
    switch (stands) {
    case BETWEEN_MARGINS: place[buffer] = memory[buffer] + MARGIN; return;
    case BEFORE: place[buffer] = fenced[buffer]; break;
    case BEHIND: place[buffer] = fenced[buffer] + CAPACITY - count; break;
    case EXACT:
        if (!(place[buffer] = malloc(count)) && count) give_up("no memory");
    }
    if (count) memcpy(place[buffer], memory[buffer] + MARGIN, count);
}

static void take_back(const struct question *q, int buffer) {
    size_t count = lent_bytes(q, buffer);
    if (stands != BETWEEN_MARGINS && count) memcpy(memory[buffer] + MARGIN, place[buffer], count);
    if (stands == EXACT) free(place[buffer]);
}

static void read_word(const char *word) {
    if (!strcmp(word, "before")) stands = BEFORE;
    else if (!strcmp(word, "behind")) stands = BEHIND;
    else if (!strcmp(word, "exact")) stands = EXACT;
    else give_up("a word that is not known");
}

int main(int count, char **words) {
    if (count > 1) read_word(words[1]);
    for (int i = 0; i < BUFFERS; i++) {
        if (!(memory[i] = aligned_alloc(64, CAPACITY))) give_up("no memory");
        if (stands == BEFORE || stands == BEHIND) fence(i);
    }
    struct question q;
    while (fread(&q, sizeof q, 1, stdin) == 1) {
        for (int i = 0; i < BUFFERS; i++) {
            if (q.length[i] > CAPACITY / 16) give_up("a buffer is too long");
            if (fread(memory[i], bytes(&q, i), 1, stdin) != 1) give_up("the input ends inside a question");
            set_place(&q, i);
        }
        uint64_t number = answer(&q);
        for (int i = 0; i < BUFFERS; i++) take_back(&q, i);
        fwrite(&number, sizeof number, 1, stdout);
        for (int i = 0; i < BUFFERS; i++) fwrite(memory[i], bytes(&q, i), 1, stdout);
    }
    return fflush(stdout) || ferror(stdin) || ferror(stdout);
}
