/*
 * How much stack each function takes. Each call runs on a stack of its own that was painted before; what is no longer
 * painted afterwards was used, in bytes; it is the most over some scenes of full size and some texts. Beside it stands what
 * the header's table says. Ends with status 1 where a call took more than its row of the table or than MAKHNODRI_STACK.
 *
 *     examples/c/run stack
 */
#define _GNU_SOURCE
#include "makhnodri.h"

#include <stdio.h>
#include <stdlib.h>
#include <string.h>
#include <ucontext.h>

enum { STACK = 2 * MAKHNODRI_STACK, PAINT = 0xa5 };

/* a scene in which every kind of pair is listed: vertices on a small grid, some at rest */
static int32_t positions[MAKHNODRI_POSITIONS_LENGTH];
static uint16_t edges[MAKHNODRI_EDGES_LENGTH];
static uint16_t triangles[MAKHNODRI_TRIANGLES_LENGTH];
static uint16_t seams[MAKHNODRI_SEAMS_LENGTH], stands[512];
static size_t seams_length;
static uint32_t list[MAKHNODRI_PAIR_LIMIT];
static uint32_t asked[2048];
static size_t asked_length;
static uint8_t words[MAKHNODRI_PAIR_LIMIT];
static uint32_t contacts[MAKHNODRI_CONTACT_LENGTH * MAKHNODRI_PAIR_LIMIT];
static char text[MAKHNODRI_TEXT_LIMIT + 1];
static uint8_t report[MAKHNODRI_REPORT_LENGTH];
static size_t text_length, counts[4], tests[1], place;

static makhnodri_buffers own;

#define THREE positions, MAKHNODRI_POSITIONS_LENGTH, edges, MAKHNODRI_EDGES_LENGTH, triangles, MAKHNODRI_TRIANGLES_LENGTH
#define SCENE THREE, seams, seams_length

static void check(void) { makhnodri_check_scene_slices(SCENE); }
/* it stands there turned round then, as good a scene */
static void turn(void) { makhnodri_turn_scene(THREE); }
static void count(void) { makhnodri_count_pairs_slices(SCENE, tests); }
static void make_list(void) { makhnodri_list_pairs_slices(SCENE, list, sizeof list / sizeof list[0], tests); }
static void settle_scene(void) { makhnodri_settle_scene_slices(SCENE, list, sizeof list / sizeof list[0], words, sizeof words); }
static void judge_pt(void) { makhnodri_judge_pt_slices(SCENE, place, place / 3); }
static void judge_ee(void) { makhnodri_judge_ee_slices(SCENE, place, place / 3); }
static void judge_pt_piece(void) { makhnodri_judge_pt_piece_slices(SCENE, place, place / 3, place % 3); }
static void judge_ee_piece(void) { makhnodri_judge_ee_piece_slices(SCENE, place, place / 3, place % 4); }
static void settle_pt(void) { makhnodri_settle_pt_slices(SCENE, place, place / 3); }
static void settle_ee(void) { makhnodri_settle_ee_slices(SCENE, place, place / 3); }
static void settle_pt_piece(void) { makhnodri_settle_pt_piece_slices(SCENE, place, place / 3, place % 3); }
static void settle_ee_piece(void) { makhnodri_settle_ee_piece_slices(SCENE, place, place / 3, place % 4); }
static void contact_pt(void) { makhnodri_contact_pt_slices(SCENE, place, place / 3, contacts); }
static void contact_ee(void) { makhnodri_contact_ee_slices(SCENE, place, place / 3, contacts); }
static void contact_scene(void) {
    makhnodri_contact_scene_slices(SCENE, list, sizeof list / sizeof list[0], words, sizeof words, contacts, sizeof contacts / sizeof contacts[0]);
}
static void settle_list(void) { makhnodri_settle_list_slices(SCENE, asked, asked_length, words, sizeof words); }
static void contact_list(void) {
    makhnodri_contact_list_slices(SCENE, asked, asked_length, words, sizeof words, contacts, sizeof contacts / sizeof contacts[0]);
}
static void read_text(void) {
    makhnodri_read_scene_slices((const uint8_t *)text, text_length, own.positions, MAKHNODRI_POSITIONS_LENGTH, own.edges,
                                MAKHNODRI_EDGES_LENGTH, own.triangles, MAKHNODRI_TRIANGLES_LENGTH, own.seams, MAKHNODRI_SEAMS_LENGTH, counts);
}
static void write_report(void) { makhnodri_write_report((const uint8_t *)text, text_length, report); }

/* the text and two blocks, in which the vertices go on from their ends as they stand */
static int32_t boxes[MAKHNODRI_BOXES_LENGTH];
static uint32_t hits[MAKHNODRI_LOG_LENGTH];
static uint64_t told[MAKHNODRI_TOLD_LENGTH];
static char steps[2 * MAKHNODRI_TEXT_LIMIT];
static size_t steps_length;
static void tell_series(void) {
    makhnodri_tell_series_slices((const uint8_t *)steps, steps_length, own.positions, MAKHNODRI_POSITIONS_LENGTH, own.edges,
                                 MAKHNODRI_EDGES_LENGTH, own.triangles, MAKHNODRI_TRIANGLES_LENGTH, own.seams, MAKHNODRI_SEAMS_LENGTH, boxes,
                                 MAKHNODRI_BOXES_LENGTH, list, sizeof list / sizeof list[0], counts, hits, told);
}

static char claims[MAKHNODRI_TEXT_LIMIT];
static size_t claims_length;
static void check_claims(void) { makhnodri_check_claims_slices(SCENE, (const uint8_t *)claims, claims_length, words, sizeof words); }

static uint8_t saved[MAKHNODRI_TEXT_LIMIT];
static void saved_length(void) { makhnodri_saved_length_slices(SCENE); }
static void save_scene(void) { makhnodri_save_scene_slices(SCENE, saved, sizeof saved); }

/* a vertex is moved to where it stands, which a seam allows too; the boxes are those of the scene by then */
static int32_t boxes[MAKHNODRI_BOXES_LENGTH];
#define STORED SCENE, boxes, MAKHNODRI_BOXES_LENGTH
static void fill_boxes(void) { makhnodri_fill_boxes_slices(STORED); }
static void move_vertex(void) {
    int32_t to[6];
    memcpy(to, positions + 6 * (place % 512), sizeof to);
    makhnodri_move_vertex_slices(STORED, place % 512, to);
}
static makhnodri_boxed_buffers own_boxed;
static makhnodri_boxed_scene boxed;
static void read_boxed(void) { makhnodri_read_boxed((const uint8_t *)text, text_length, &own_boxed, &boxed); }
static void count_stored(void) { makhnodri_count_stored_slices(STORED, tests); }
static void list_stored(void) { makhnodri_list_stored_slices(STORED, list, sizeof list / sizeof list[0], tests); }
static void settle_stored(void) { makhnodri_settle_stored_slices(STORED, list, sizeof list / sizeof list[0], words, sizeof words); }

static char files[2][MAKHNODRI_TEXT_LIMIT];
static size_t files_length[2];
static void import_scene(void) {
    makhnodri_import_scene_slices((const uint8_t *)files[0], files_length[0], (const uint8_t *)files[1], files_length[1], own.positions,
                                  MAKHNODRI_POSITIONS_LENGTH, own.edges, MAKHNODRI_EDGES_LENGTH, own.triangles, MAKHNODRI_TRIANGLES_LENGTH,
                                  own.seams, MAKHNODRI_SEAMS_LENGTH, own_boxed.boxes, MAKHNODRI_BOXES_LENGTH, counts);
}

static uint8_t stack[STACK];

static size_t used_by(void (*call)(void)) {
    static ucontext_t here, there;
    memset(stack, PAINT, STACK);
    getcontext(&there);
    there.uc_stack.ss_sp = stack;
    there.uc_stack.ss_size = STACK;
    there.uc_link = &here;
    makecontext(&there, call, 0);
    swapcontext(&here, &there);
    size_t untouched = 0;
    while (untouched < STACK && stack[untouched] == PAINT) untouched++;
    return STACK - untouched;
}

/* What is degenerate is searched deepest where little moves: 0 everything moves, 1 at rest, 2 on one line, 3 in one place. */
static int32_t coordinate(unsigned still, size_t i) {
    if (still == 3 || (still == 2 && i % 3 != 0)) return 0;
    if (still && i % 6 >= 3) return positions[i - 3];
    return rand() % 7 - 3;
}

/* the last vertices brought to the places of others, and sewn to those with which they have no part in common; in every other scene */
static void sew(unsigned seed) {
    seams_length = 0;
    for (uint16_t i = 0; i < 512; i++) stands[i] = i;
    for (uint16_t i = 300; seed % 2 && i < 511; i++) {
        uint16_t j = (uint16_t)(i - 257);
        int apart = 1;
        for (size_t k = 0; k < MAKHNODRI_EDGES_LENGTH; k += 2) apart &= edges[k] + edges[k + 1] != i + j || (edges[k] != i && edges[k] != j);
        for (size_t k = 0; k < MAKHNODRI_TRIANGLES_LENGTH; k += 3) {
            int has = 0;
            for (size_t c = 0; c < 3; c++) has += triangles[k + c] == i || triangles[k + c] == j;
            apart &= has < 2;
        }
        if (!apart) continue;
        memcpy(positions + 6 * i, positions + 6 * j, 6 * sizeof positions[0]);
        seams[seams_length++] = i;
        seams[seams_length++] = j;
        stands[i] = j;
    }
}

/* a scene whose triangles and edges are packed so close that everything is near everything */
static void fill(unsigned seed) {
    srand(seed);
    for (size_t i = 0; i < MAKHNODRI_POSITIONS_LENGTH; i++) positions[i] = coordinate(seed % 4, i);
    for (size_t i = 0; i < MAKHNODRI_EDGES_LENGTH; i += 2) {
        edges[i] = (uint16_t)(rand() % 512);
        edges[i + 1] = (uint16_t)((edges[i] + 1 + rand() % 511) % 512);
    }
    for (size_t i = 0; i < MAKHNODRI_TRIANGLES_LENGTH; i += 3) {
        triangles[i] = (uint16_t)(rand() % 512);
        triangles[i + 1] = (uint16_t)((triangles[i] + 1 + rand() % 255) % 512);
        triangles[i + 2] = (uint16_t)((triangles[i] + 256 + rand() % 256) % 512);
    }
    sew(seed);
}

/* a text of the first vertices, and in every third a copy of twenty of them that is sewn to them; every fifth text has a fault in its last `t` line */
static void write_text(unsigned seed) {
    srand(seed);
    int at = 0;
    for (size_t i = 0; i < (seed % 3 == 1 ? 65 : 45); i++) {
        at += sprintf(text + at, "v");
        for (size_t k = 0; k < 6; k++) at += sprintf(text + at, "\t%d", (int)positions[6 * (i % 45) + k]);
        at += sprintf(text + at, "\n");
    }
    for (int i = 0; i < 40; i++) at += sprintf(text + at, "e\t%d\t%d\n", rand() % 22, 22 + rand() % 22);
    for (int i = 0; i < 30; i++) at += sprintf(text + at, "t\t%d\t%d\t%d\n", rand() % 15, 15 + rand() % 15, 30 + rand() % 15);
    if (seed % 5 == 4) at += sprintf(text + at, "t\t%d\t%d\t%d\n", 1, 1, 2);
    if (seed % 3 == 1)
        for (int i = 0; i < 20; i++) at += sprintf(text + at, "w\t%d\t%d\n", 45 + i, i);
    text_length = (size_t)at;
}

/* the text, and blocks behind it: each vertex goes on to a place near its end, copies with those that they are sewn to */
static void write_steps(unsigned seed) {
    memcpy(steps, text, text_length);
    int at = (int)text_length;
    for (unsigned block = 0; block < 2 + seed % 3; block++) {
        at += sprintf(steps + at, "n\n");
        for (size_t i = 0; i < (seed % 3 == 1 ? 65 : 45); i++) {
            const int32_t *end = positions + 6 * (i % 45) + 3;
            at += sprintf(steps + at, "v\t%d\t%d\t%d\n", (int)(end[0] + (int32_t)block), (int)end[1], (int)(end[2] - (int32_t)block));
        }
    }
    steps_length = (size_t)at;
}

/* claims that may be asked for: pieces of a point and a triangle, and of two edges, that share no vertex; every fourth text has a fault at its end */
static void write_claims(unsigned seed) {
    int at = 0;
    for (size_t i = 0; i < 250; i++) {
        size_t v = (i + seed) % 512;
        uint16_t t[3], e[2], f[2];
        for (size_t k = 0; k < 3; k++) t[k] = stands[triangles[3 * i + k]];
        for (size_t k = 0; k < 2; k++) e[k] = stands[edges[2 * v + k]], f[k] = stands[edges[2 * (512 + i) + k]];
        if (t[0] != stands[v] && t[1] != stands[v] && t[2] != stands[v]) at += sprintf(claims + at, "pt\t%zu\t%zu\t%zu\t%u\t1\t0\t2\t1\t1\n", v, i, i % 3, seed);
        if (e[0] != f[0] && e[0] != f[1] && e[1] != f[0] && e[1] != f[1])
            at += sprintf(claims + at, "ee\t%zu\t%zu\t%zu\t1\t1\t0\t2\t1099511627776\t%u\n", 512 + i, v, i % 4, seed);
    }
    if (seed % 4 == 3) at += sprintf(claims + at, "ee\t0\n");
    claims_length = (size_t)at;
}

/* two OBJ files of all vertices and of a strip of faces, with skipped lines; some have a fault at the end of either, or faces that differ */
static void write_files(unsigned seed) {
    for (int f = 0; f < 2; f++) {
        int at = 0;
        for (size_t i = 0; i < 512; i++) {
            if (i % 9 == 0) at += sprintf(files[f] + at, "# %zu\nvt 0 0\n\n", i);
            at += sprintf(files[f] + at, "v");
            for (size_t k = 0; k < 3; k++) at += sprintf(files[f] + at, i % 2 ? " %d.0%d" : " %d.%d", (int)positions[6 * i + k], (int)(i + k) % 9);
            at += sprintf(files[f] + at, "\n");
        }
        for (int i = 1; i < 400; i++) at += sprintf(files[f] + at, "f %d %d %d\n", i, i + 1, i + 2);
        if (seed % 7 == (unsigned)f + 4) at += sprintf(files[f] + at, "f 1 2\n");
        if (seed % 7 == 6) at += sprintf(files[f] + at, "f %d 2 3\n", f + 4);
        files_length[f] = (size_t)at;
    }
}

/* a list of one's own: pairs that share no vertex, of both kinds */
static void write_asked(void) {
    asked_length = 0;
    for (size_t i = 0; i < 1024; i++) {
        uint16_t e[2], f[2], t[3];
        for (int k = 0; k < 2; k++) e[k] = stands[edges[2 * i + k]], f[k] = stands[edges[2 * (1023 - i) + k]];
        for (int k = 0; k < 3; k++) t[k] = stands[triangles[3 * (i % 512) + k]];
        size_t v = 7 * i % 512;
        if (t[0] != stands[v] && t[1] != stands[v] && t[2] != stands[v]) asked[asked_length++] = makhnodri_entry(MAKHNODRI_PT, v, i % 512);
        if (e[0] != f[0] && e[0] != f[1] && e[1] != f[0] && e[1] != f[1]) asked[asked_length++] = makhnodri_entry(MAKHNODRI_EE, i, 1023 - i);
    }
}

/* the scene as a mesh, whose edges are not the sides of its triangles; and with orders */
static uint32_t wide_edges[MAKHNODRI_EDGES_LENGTH], wide_triangles[MAKHNODRI_TRIANGLES_LENGTH], wide_seams[MAKHNODRI_SEAMS_LENGTH];
static uint32_t numbers[MAKHNODRI_EDGES_LENGTH], table[MAKHNODRI_VERTEX_LIMIT], places[8192];
static uint64_t told_of_a_mesh[6];
static int32_t room[16384];
static uint64_t entries[MAKHNODRI_PAIR_LIMIT];

static void widen(void) {
    for (size_t i = 0; i < MAKHNODRI_EDGES_LENGTH; i++) wide_edges[i] = edges[i], numbers[i] = (uint32_t)i;
    for (size_t i = 0; i < MAKHNODRI_TRIANGLES_LENGTH; i++) wide_triangles[i] = triangles[i];
    for (size_t i = 0; i < seams_length; i++) wide_seams[i] = seams[i];
}

#define MESH positions, MAKHNODRI_POSITIONS_LENGTH, wide_edges, MAKHNODRI_EDGES_LENGTH, wide_triangles, MAKHNODRI_TRIANGLES_LENGTH, wide_seams, seams_length
#define SEWN table, MAKHNODRI_VERTEX_LIMIT
#define LISTED sizeof places / sizeof places[0]
#define ROWS MESH, numbers, MAKHNODRI_EDGE_LIMIT, numbers, MAKHNODRI_TRIANGLE_LIMIT, SEWN, places, LISTED, room, sizeof room / sizeof room[0]
#define ALL 0, MAKHNODRI_VERTEX_LIMIT + MAKHNODRI_EDGE_LIMIT

static void pierced_at_start(void) { makhnodri_pierced_at_start_slices(SCENE, place, place / 3); }
static void pierced_at_end(void) { makhnodri_pierced_at_end_slices(SCENE, place, place / 3); }
static void check_mesh(void) { makhnodri_check_mesh_slices(MESH, SEWN); }
static void check_edges(void) {
    makhnodri_check_edges_slices(MESH, numbers, MAKHNODRI_TRIANGLES_LENGTH, numbers, MAKHNODRI_EDGE_LIMIT, SEWN, places, LISTED, told_of_a_mesh);
}
static void count_rows(void) { makhnodri_count_rows_slices(ROWS, ALL, told_of_a_mesh); }
static void count_near_rows(void) { makhnodri_count_near_rows_slices(ROWS, ALL, told_of_a_mesh); }
static void list_rows(void) { makhnodri_list_rows_slices(ROWS, ALL, entries, sizeof entries / sizeof entries[0], told_of_a_mesh); }
static void list_near_rows(void) {
    makhnodri_list_near_rows_slices(ROWS, ALL, entries, sizeof entries / sizeof entries[0], told_of_a_mesh);
}
static void settle_rows(void) {
    makhnodri_settle_rows_slices(ROWS, ALL, entries, sizeof entries / sizeof entries[0], words, sizeof words, told_of_a_mesh);
}
static void settle_near_rows(void) {
    makhnodri_settle_near_rows_slices(ROWS, ALL, entries, sizeof entries / sizeof entries[0], words, sizeof words, told_of_a_mesh);
}
static void contact_rows(void) {
    makhnodri_contact_rows_slices(ROWS, ALL, entries, sizeof entries / sizeof entries[0], words, sizeof words, contacts, sizeof contacts / sizeof contacts[0], told_of_a_mesh);
}
static void contact_near_rows(void) {
    makhnodri_contact_near_rows_slices(ROWS, ALL, entries, sizeof entries / sizeof entries[0], words, sizeof words, contacts, sizeof contacts / sizeof contacts[0], told_of_a_mesh);
}
#define EVERY_WORD MAKHNODRI_WANT_HITS + MAKHNODRI_WANT_MISSES + MAKHNODRI_WANT_TOUCHES + MAKHNODRI_WANT_APARTS
static void keep_rows(void) {
    makhnodri_keep_rows_slices(ROWS, ALL, EVERY_WORD, entries, sizeof entries / sizeof entries[0], words, sizeof words, told_of_a_mesh);
}
static void keep_near_rows(void) {
    makhnodri_keep_near_rows_slices(ROWS, ALL, EVERY_WORD, entries, sizeof entries / sizeof entries[0], words, sizeof words, told_of_a_mesh);
}
static void keep_contacts(void) {
    makhnodri_keep_contacts_slices(ROWS, ALL, EVERY_WORD, entries, sizeof entries / sizeof entries[0], words, sizeof words, contacts, sizeof contacts / sizeof contacts[0], told_of_a_mesh);
}
static void keep_near_contacts(void) {
    makhnodri_keep_near_contacts_slices(ROWS, ALL, EVERY_WORD, entries, sizeof entries / sizeof entries[0], words, sizeof words, contacts, sizeof contacts / sizeof contacts[0], told_of_a_mesh);
}
static void pierced_at_start_rows(void) {
    makhnodri_pierced_at_start_rows_slices(ROWS, 0, MAKHNODRI_EDGE_LIMIT, entries, sizeof entries / sizeof entries[0], told_of_a_mesh);
}
static void pierced_at_end_rows(void) {
    makhnodri_pierced_at_end_rows_slices(ROWS, 0, MAKHNODRI_EDGE_LIMIT, entries, sizeof entries / sizeof entries[0], told_of_a_mesh);
}
/* end of meshes */

static const struct {
    const char *name;
    void (*call)(void);
    int runs;
} calls[] = {
    {"check_scene", check, 4},
    {"count_pairs", count, 4},
    {"list_pairs", make_list, 4},
    {"settle_scene", settle_scene, 4},
    {"judge_pt", judge_pt, 400},
    {"judge_ee", judge_ee, 400},
    {"judge_pt_piece", judge_pt_piece, 400},
    {"judge_ee_piece", judge_ee_piece, 400},
    {"settle_pt", settle_pt, 400},
    {"settle_ee", settle_ee, 400},
    {"settle_pt_piece", settle_pt_piece, 400},
    {"settle_ee_piece", settle_ee_piece, 400},
    {"read_scene", read_text, 40},
    {"write_report", write_report, 40},
    {"tell_series", tell_series, 40},
    {"turn_scene", turn, 4},
    {"check_claims", check_claims, 40},
    {"saved_length", saved_length, 40},
    {"save_scene", save_scene, 40},
    {"contact_pt", contact_pt, 400},
    {"contact_ee", contact_ee, 400},
    {"contact_scene", contact_scene, 4},
    {"settle_list", settle_list, 20},
    {"contact_list", contact_list, 20},
    {"fill_boxes", fill_boxes, 4},
    {"move_vertex", move_vertex, 40},
    {"count_stored", count_stored, 4},
    {"list_stored", list_stored, 4},
    {"settle_stored", settle_stored, 4},
    {"read_boxed", read_boxed, 40},
    {"import_scene", import_scene, 20},
    {"pierced_at_start", pierced_at_start, 400},
    {"pierced_at_end", pierced_at_end, 400},
    {"check_mesh", check_mesh, 4},
    {"check_edges", check_edges, 4},
    {"count_rows", count_rows, 4},
    {"count_near_rows", count_near_rows, 4},
    {"list_rows", list_rows, 4},
    {"list_near_rows", list_near_rows, 4},
    {"settle_rows", settle_rows, 4},
    {"settle_near_rows", settle_near_rows, 4},
    {"contact_rows", contact_rows, 4},
    {"contact_near_rows", contact_near_rows, 4},
    {"keep_rows", keep_rows, 4},
    {"keep_near_rows", keep_near_rows, 4},
    {"keep_contacts", keep_contacts, 4},
    {"keep_near_contacts", keep_near_contacts, 4},
    {"pierced_at_start_rows", pierced_at_start_rows, 4},
    {"pierced_at_end_rows", pierced_at_end_rows, 4},
};

enum { SCENES = 20 };

/* the most that a call took; the runs take the scenes in turn */
static size_t most_of(size_t i) {
    size_t most = 0;
    for (int seed = 0; seed < SCENES && seed < calls[i].runs; seed++) {
        fill((unsigned)seed);
        for (int run = seed; run < calls[i].runs; run += SCENES) {
            write_text((unsigned)run);
            write_steps((unsigned)run);
            write_claims((unsigned)run);
            write_asked();
            widen();
            fill_boxes();
            write_files((unsigned)run);
            place = (size_t)run;
            size_t used = used_by(calls[i].call);
            if (most < used) most = used;
        }
    }
    return most;
}

/* The number in the row of the header's table that names the function; 0 where there is none. No row names a function whose name
   begins with that of a function of another row. */
static size_t row_of(const char *header, const char *name) {
    const char *table = strstr(header, "As measured by");
    const char *end = table ? strstr(table, "----") : NULL;
    const char *at = end ? strstr(table, name) : NULL;
    if (!at || at > end) return 0;
    while (*at < '0' || *at > '9') at++;
    size_t number = 0;
    for (; *at == ',' || (*at >= '0' && *at <= '9'); at++)
        if (*at != ',') number = 10 * number + (size_t)(*at - '0');
    return number;
}

int main(void) {
    static char header[1 << 20];
    FILE *file = fopen("include/makhnodri.h", "r"); /* examples/c/run runs this in the top folder */
    if (!file || !fread(header, 1, sizeof header - 1, file)) return 2;
    size_t any = 0;
    int over = 0;
    for (size_t i = 0; i < sizeof calls / sizeof calls[0]; i++) {
        size_t most = most_of(i), row = row_of(header, calls[i].name);
        if (any < most) any = most;
        over |= most > row;
        printf("%-16s %6zu, where the table says %6zu%s\n", calls[i].name, most, row, most > row ? ": TOO LITTLE" : "");
    }
    printf("at most %zu bytes of stack, where the header says %d\n", any, MAKHNODRI_STACK);
    return over || any > MAKHNODRI_STACK;
}
