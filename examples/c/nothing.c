/*
 * Null pointers with length 0: every function takes them for empty slices. Prints what it found, and ends with status 1 where an
 * answer is not that of the empty scene or the empty text.
 *
 *     examples/c/run nothing
 */
#include "makhnodri.h"

#include <stdio.h>
#include <string.h>

#define NO_SCENE NULL, 0, NULL, 0, NULL, 0, NULL, 0
#define NO_HINTS NULL, 0, NULL, 0, NULL, 0, NULL, 0 /* no orders, no table, no places */

static int wrong;

static void hold(const char *asked, makhnodri_answer answer, uint32_t refusal, uint32_t value) {
    if (makhnodri_refusal(answer) == refusal && makhnodri_value(answer) == value) return;
    printf("%s: %s, %u\n", asked, makhnodri_refusal_words(makhnodri_refusal(answer)), (unsigned)makhnodri_value(answer));
    wrong = 1;
}

/* by the plain functions */
static void hold_slices(void) {
    size_t counts[4] = {7, 7, 7, 7}, tests[1] = {7};
    static makhnodri_buffers room;
    hold("check_scene", makhnodri_check_scene_slices(NO_SCENE), 0, 0);
    hold("count_pairs", makhnodri_count_pairs_slices(NO_SCENE, tests), 0, 0);
    if (tests[0]) wrong = 1, puts("box tests of no scene");
    tests[0] = 7;
    hold("list_pairs", makhnodri_list_pairs_slices(NO_SCENE, NULL, 0, tests), 0, 0);
    if (tests[0]) wrong = 1, puts("box tests of no list");
    hold("settle_scene", makhnodri_settle_scene_slices(NO_SCENE, NULL, 0, NULL, 0), 0, 0);
    hold("judge_pt", makhnodri_judge_pt_slices(NO_SCENE, 0, 0), MAKHNODRI_NOT_THERE, 0);
    hold("judge_ee", makhnodri_judge_ee_slices(NO_SCENE, 0, 0), MAKHNODRI_NOT_THERE, 0);
    hold("judge_pt_piece", makhnodri_judge_pt_piece_slices(NO_SCENE, 0, 0, 0), MAKHNODRI_NOT_THERE, 0);
    hold("judge_ee_piece", makhnodri_judge_ee_piece_slices(NO_SCENE, 0, 0, 0), MAKHNODRI_NOT_THERE, 0);
    hold("settle_pt", makhnodri_settle_pt_slices(NO_SCENE, 0, 0), MAKHNODRI_NOT_THERE, 0);
    hold("settle_ee", makhnodri_settle_ee_slices(NO_SCENE, 0, 0), MAKHNODRI_NOT_THERE, 0);
    hold("settle_pt_piece", makhnodri_settle_pt_piece_slices(NO_SCENE, 0, 0, 0), MAKHNODRI_NOT_THERE, 0);
    hold("settle_ee_piece", makhnodri_settle_ee_piece_slices(NO_SCENE, 0, 0, 0), MAKHNODRI_NOT_THERE, 0);
    hold("pierced_at_start", makhnodri_pierced_at_start_slices(NO_SCENE, 0, 0), MAKHNODRI_NOT_THERE, 0);
    hold("pierced_at_end", makhnodri_pierced_at_end_slices(NO_SCENE, 0, 0), MAKHNODRI_NOT_THERE, 0);
    hold("check_claims", makhnodri_check_claims_slices(NO_SCENE, NULL, 0, NULL, 0), 0, 0);
    hold("saved_length", makhnodri_saved_length_slices(NO_SCENE), 0, 0);
    hold("save_scene", makhnodri_save_scene_slices(NO_SCENE, NULL, 0), 0, 0);
    uint32_t contact[MAKHNODRI_CONTACT_LENGTH] = {7, 7, 7, 7, 7};
    hold("contact_pt", makhnodri_contact_pt_slices(NO_SCENE, 0, 0, contact), MAKHNODRI_NOT_THERE, 0);
    hold("contact_ee", makhnodri_contact_ee_slices(NO_SCENE, 0, 0, contact), MAKHNODRI_NOT_THERE, 0);
    for (size_t i = 0; i < MAKHNODRI_CONTACT_LENGTH; i++)
        if (contact[i] != 7) wrong = 1, puts("a contact of no pair");
    hold("contact_scene", makhnodri_contact_scene_slices(NO_SCENE, NULL, 0, NULL, 0, NULL, 0), 0, 0);
    hold("settle_list", makhnodri_settle_list_slices(NO_SCENE, NULL, 0, NULL, 0), 0, 0);
    hold("contact_list", makhnodri_contact_list_slices(NO_SCENE, NULL, 0, NULL, 0, NULL, 0), 0, 0);
    hold("read_scene, no buffers", makhnodri_read_scene_slices(NULL, 0, NO_SCENE, counts), MAKHNODRI_SHORT_BUFFER, 0);
    hold("read_scene, no seams' buffer",
         makhnodri_read_scene_slices(NULL, 0, room.positions, MAKHNODRI_POSITIONS_LENGTH, room.edges, MAKHNODRI_EDGES_LENGTH,
                                     room.triangles, MAKHNODRI_TRIANGLES_LENGTH, NULL, 0, counts),
         MAKHNODRI_SHORT_BUFFER, 0);
    if (counts[0] != 7 || counts[3] != 7) wrong = 1, puts("counts of a refused text");
    hold("import_scene, no buffers", makhnodri_import_scene_slices(NULL, 0, NULL, 0, NO_SCENE, NULL, 0, counts), MAKHNODRI_SHORT_BUFFER, 0);
    hold("import_scene, no boxes' buffer",
         makhnodri_import_scene_slices(NULL, 0, NULL, 0, room.positions, MAKHNODRI_POSITIONS_LENGTH, room.edges, MAKHNODRI_EDGES_LENGTH,
                                       room.triangles, MAKHNODRI_TRIANGLES_LENGTH, room.seams, MAKHNODRI_SEAMS_LENGTH, NULL, 0, counts),
         MAKHNODRI_SHORT_BUFFER, 0);
    if (counts[0] != 7 || counts[3] != 7) wrong = 1, puts("counts of a refused import");
    hold("turn_scene", makhnodri_turn_scene(NULL, 0, NULL, 0, NULL, 0), 0, 0);
    uint32_t log[MAKHNODRI_LOG_LENGTH] = {7};
    uint64_t told[MAKHNODRI_TOLD_LENGTH] = {7};
    hold("tell_series", makhnodri_tell_series_slices(NULL, 0, NULL, 0, NULL, 0, NULL, 0, NULL, 0, NULL, 0, NULL, 0, counts, log, told),
         MAKHNODRI_SHORT_BUFFER, 0);
    if (counts[0] != 7 || log[0] != 7 || told[0] != 7) wrong = 1, puts("what is told of a refused series");
}

/* a scene that keeps its boxes: no boxes at all are 12, boxes of no scene are not looked at */
static void hold_boxed_slices(void) {
    static int32_t boxes[MAKHNODRI_BOXES_LENGTH];
    static const int32_t to[6] = {0};
    size_t tests[1] = {7};
    hold("fill_boxes, no boxes", makhnodri_fill_boxes_slices(NO_SCENE, NULL, 0), MAKHNODRI_SHORT_BUFFER, 0);
    hold("move_vertex, no boxes", makhnodri_move_vertex_slices(NO_SCENE, NULL, 0, 0, to), MAKHNODRI_SHORT_BUFFER, 0);
    hold("count_stored, no boxes", makhnodri_count_stored_slices(NO_SCENE, NULL, 0, tests), MAKHNODRI_SHORT_BUFFER, 0);
    hold("list_stored, no boxes", makhnodri_list_stored_slices(NO_SCENE, NULL, 0, NULL, 0, tests), MAKHNODRI_SHORT_BUFFER, 0);
    hold("settle_stored, no boxes", makhnodri_settle_stored_slices(NO_SCENE, NULL, 0, NULL, 0, NULL, 0), MAKHNODRI_SHORT_BUFFER, 0);
    if (tests[0] != 7) wrong = 1, puts("box tests without boxes");
    size_t counts[4] = {7, 7, 7, 7};
    hold("read_boxed, no buffers", makhnodri_read_boxed_slices(NULL, 0, NO_SCENE, NULL, 0, counts), MAKHNODRI_SHORT_BUFFER, 0);
    static makhnodri_boxed_buffers room;
    makhnodri_boxed_scene of_text = {0};
    hold("read_boxed, no text", makhnodri_read_boxed(NULL, 0, &room, &of_text), 0, 0);
    if (of_text.positions != room.lists.positions || of_text.boxes != room.boxes || of_text.positions_length || counts[0] != 7)
        wrong = 1, puts("the boxed scene of no text");
    for (size_t i = 0; i < MAKHNODRI_BOXES_LENGTH; i++) boxes[i] = 7;
    hold("fill_boxes", makhnodri_fill_boxes_slices(NO_SCENE, boxes, MAKHNODRI_BOXES_LENGTH), 0, 0);
    hold("move_vertex", makhnodri_move_vertex_slices(NO_SCENE, boxes, MAKHNODRI_BOXES_LENGTH, 0, to), MAKHNODRI_NOT_THERE, 0);
    hold("count_stored", makhnodri_count_stored_slices(NO_SCENE, boxes, MAKHNODRI_BOXES_LENGTH, tests), 0, 0);
    hold("list_stored", makhnodri_list_stored_slices(NO_SCENE, boxes, MAKHNODRI_BOXES_LENGTH, NULL, 0, tests), 0, 0);
    hold("settle_stored", makhnodri_settle_stored_slices(NO_SCENE, boxes, MAKHNODRI_BOXES_LENGTH, NULL, 0, NULL, 0), 0, 0);
    if (tests[0]) wrong = 1, puts("box tests of no scene's boxes");

    /* the same by the calls that take a struct */
    makhnodri_boxed_scene boxed = {0};
    hold("fill_boxes of a struct", makhnodri_fill_boxes(&boxed), MAKHNODRI_SHORT_BUFFER, 0);
    boxed.boxes = boxes, boxed.boxes_length = MAKHNODRI_BOXES_LENGTH;
    hold("fill_boxes of a struct", makhnodri_fill_boxes(&boxed), 0, 0);
    hold("move_vertex of a struct", makhnodri_move_vertex(&boxed, 0, to), MAKHNODRI_NOT_THERE, 0);
    tests[0] = 7;
    hold("count_stored of a struct", makhnodri_count_stored(&boxed, tests), 0, 0);
    hold("list_stored of a struct", makhnodri_list_stored(&boxed, NULL, 0, tests), 0, 0);
    hold("settle_stored of a struct", makhnodri_settle_stored(&boxed, NULL, 0, NULL, 0), 0, 0);
    if (tests[0]) wrong = 1, puts("box tests of an empty struct's boxes");
    makhnodri_scene scene = makhnodri_scene_of(&boxed);
    hold("check_scene of a struct with boxes", makhnodri_check_scene(&scene), 0, 0);
    for (size_t i = 0; i < MAKHNODRI_BOXES_LENGTH; i++)
        if (boxes[i] != 7) wrong = 1, i = MAKHNODRI_BOXES_LENGTH, puts("a box of no scene");
}

/* by the calls that take a struct */
static void hold_scene(const makhnodri_scene *scene) {
    hold("check_scene of a struct", makhnodri_check_scene(scene), 0, 0);
    size_t tests[1] = {7};
    hold("count_pairs of a struct", makhnodri_count_pairs(scene, tests), 0, 0);
    if (tests[0]) wrong = 1, puts("box tests of an empty struct");
    tests[0] = 7;
    hold("list_pairs of a struct", makhnodri_list_pairs(scene, NULL, 0, tests), 0, 0);
    if (tests[0]) wrong = 1, puts("box tests of an empty struct's list");
    hold("settle_scene of a struct", makhnodri_settle_scene(scene, NULL, 0, NULL, 0), 0, 0);
    hold("judge_pt of a struct", makhnodri_judge_pt(scene, 0, 0), MAKHNODRI_NOT_THERE, 0);
    hold("judge_ee of a struct", makhnodri_judge_ee(scene, 0, 0), MAKHNODRI_NOT_THERE, 0);
    hold("judge_pt_piece of a struct", makhnodri_judge_pt_piece(scene, 0, 0, 0), MAKHNODRI_NOT_THERE, 0);
    hold("judge_ee_piece of a struct", makhnodri_judge_ee_piece(scene, 0, 0, 0), MAKHNODRI_NOT_THERE, 0);
    hold("settle_pt of a struct", makhnodri_settle_pt(scene, 0, 0), MAKHNODRI_NOT_THERE, 0);
    hold("settle_ee of a struct", makhnodri_settle_ee(scene, 0, 0), MAKHNODRI_NOT_THERE, 0);
    hold("settle_pt_piece of a struct", makhnodri_settle_pt_piece(scene, 0, 0, 0), MAKHNODRI_NOT_THERE, 0);
    hold("settle_ee_piece of a struct", makhnodri_settle_ee_piece(scene, 0, 0, 0), MAKHNODRI_NOT_THERE, 0);
    hold("pierced_at_start of a struct", makhnodri_pierced_at_start(scene, 0, 0), MAKHNODRI_NOT_THERE, 0);
    hold("pierced_at_end of a struct", makhnodri_pierced_at_end(scene, 0, 0), MAKHNODRI_NOT_THERE, 0);
    hold("check_claims of a struct", makhnodri_check_claims(scene, NULL, 0, NULL, 0), 0, 0);
    hold("saved_length of a struct", makhnodri_saved_length(scene), 0, 0);
    hold("save_scene of a struct", makhnodri_save_scene(scene, NULL, 0), 0, 0);
    uint32_t contact[MAKHNODRI_CONTACT_LENGTH] = {7, 7, 7, 7, 7};
    hold("contact_pt of a struct", makhnodri_contact_pt(scene, 0, 0, contact), MAKHNODRI_NOT_THERE, 0);
    hold("contact_ee of a struct", makhnodri_contact_ee(scene, 0, 0, contact), MAKHNODRI_NOT_THERE, 0);
    hold("contact_scene of a struct", makhnodri_contact_scene(scene, NULL, 0, NULL, 0, NULL, 0), 0, 0);
    hold("settle_list of a struct", makhnodri_settle_list(scene, NULL, 0, NULL, 0), 0, 0);
    hold("contact_list of a struct", makhnodri_contact_list(scene, NULL, 0, NULL, 0, NULL, 0), 0, 0);
    for (size_t i = 0; i < MAKHNODRI_CONTACT_LENGTH; i++)
        if (contact[i] != 7) wrong = 1, puts("a contact of no pair of a struct");
}

/* meshes: no scratch is 12, where any is needed; scratch for no mesh is 192 numbers of boxes */
static void hold_mesh(const char *asked, uint32_t refusal, uint32_t wanted) {
    if (refusal == wanted) return;
    printf("%s: %s\n", asked, makhnodri_refusal_words(refusal));
    wrong = 1;
}

static void hold_meshes(void) {
    static int32_t boxes[192];
    uint64_t told[6] = {7, 7, 7, 7, 7, 7};
    hold_mesh("check_mesh", makhnodri_check_mesh_slices(NO_SCENE, NULL, 0), 0);
    hold_mesh("check_edges", makhnodri_check_edges_slices(NO_SCENE, NULL, 0, NULL, 0, NULL, 0, NULL, 0, told), 0);
    if (told[0] || told[1]) wrong = 1, puts("what was found of no edges");
    hold_mesh("count_rows, no boxes", makhnodri_count_rows_slices(NO_SCENE, NO_HINTS, NULL, 0, 0, 0, told), MAKHNODRI_SHORT_BUFFER);
    hold_mesh("count_rows", makhnodri_count_rows_slices(NO_SCENE, NO_HINTS, boxes, 192, 0, 0, told), 0);
    hold_mesh("count_near_rows, no boxes", makhnodri_count_near_rows_slices(NO_SCENE, NO_HINTS, NULL, 0, 0, 0, told), MAKHNODRI_SHORT_BUFFER);
    hold_mesh("count_near_rows", makhnodri_count_near_rows_slices(NO_SCENE, NO_HINTS, boxes, 192, 0, 0, told), 0);
    hold_mesh("list_rows, no boxes", makhnodri_list_rows_slices(NO_SCENE, NO_HINTS, NULL, 0, 0, 0, NULL, 0, told), MAKHNODRI_SHORT_BUFFER);
    hold_mesh("list_rows", makhnodri_list_rows_slices(NO_SCENE, NO_HINTS, boxes, 192, 0, 0, NULL, 0, told), 0);
    hold_mesh("list_near_rows, no boxes", makhnodri_list_near_rows_slices(NO_SCENE, NO_HINTS, NULL, 0, 0, 0, NULL, 0, told), MAKHNODRI_SHORT_BUFFER);
    hold_mesh("list_near_rows", makhnodri_list_near_rows_slices(NO_SCENE, NO_HINTS, boxes, 192, 0, 0, NULL, 0, told), 0);
    hold_mesh("settle_rows, no boxes", makhnodri_settle_rows_slices(NO_SCENE, NO_HINTS, NULL, 0, 0, 0, NULL, 0, NULL, 0, told), MAKHNODRI_SHORT_BUFFER);
    hold_mesh("settle_rows", makhnodri_settle_rows_slices(NO_SCENE, NO_HINTS, boxes, 192, 0, 0, NULL, 0, NULL, 0, told), 0);
    hold_mesh("settle_near_rows, no boxes", makhnodri_settle_near_rows_slices(NO_SCENE, NO_HINTS, NULL, 0, 0, 0, NULL, 0, NULL, 0, told), MAKHNODRI_SHORT_BUFFER);
    hold_mesh("settle_near_rows", makhnodri_settle_near_rows_slices(NO_SCENE, NO_HINTS, boxes, 192, 0, 0, NULL, 0, NULL, 0, told), 0);
    hold_mesh("contact_rows, no boxes", makhnodri_contact_rows_slices(NO_SCENE, NO_HINTS, NULL, 0, 0, 0, NULL, 0, NULL, 0, NULL, 0, told), MAKHNODRI_SHORT_BUFFER);
    hold_mesh("contact_rows", makhnodri_contact_rows_slices(NO_SCENE, NO_HINTS, boxes, 192, 0, 0, NULL, 0, NULL, 0, NULL, 0, told), 0);
    hold_mesh("contact_near_rows, no boxes", makhnodri_contact_near_rows_slices(NO_SCENE, NO_HINTS, NULL, 0, 0, 0, NULL, 0, NULL, 0, NULL, 0, told), MAKHNODRI_SHORT_BUFFER);
    hold_mesh("contact_near_rows", makhnodri_contact_near_rows_slices(NO_SCENE, NO_HINTS, boxes, 192, 0, 0, NULL, 0, NULL, 0, NULL, 0, told), 0);
    hold_mesh("keep_rows, no boxes", makhnodri_keep_rows_slices(NO_SCENE, NO_HINTS, NULL, 0, 0, 0, 31, NULL, 0, NULL, 0, told), MAKHNODRI_SHORT_BUFFER);
    hold_mesh("keep_rows", makhnodri_keep_rows_slices(NO_SCENE, NO_HINTS, boxes, 192, 0, 0, 31, NULL, 0, NULL, 0, told), 0);
    hold_mesh("keep_near_rows, no boxes", makhnodri_keep_near_rows_slices(NO_SCENE, NO_HINTS, NULL, 0, 0, 0, 31, NULL, 0, NULL, 0, told), MAKHNODRI_SHORT_BUFFER);
    hold_mesh("keep_near_rows", makhnodri_keep_near_rows_slices(NO_SCENE, NO_HINTS, boxes, 192, 0, 0, 31, NULL, 0, NULL, 0, told), 0);
    hold_mesh("keep_contacts, no boxes", makhnodri_keep_contacts_slices(NO_SCENE, NO_HINTS, NULL, 0, 0, 0, 31, NULL, 0, NULL, 0, NULL, 0, told), MAKHNODRI_SHORT_BUFFER);
    hold_mesh("keep_contacts", makhnodri_keep_contacts_slices(NO_SCENE, NO_HINTS, boxes, 192, 0, 0, 31, NULL, 0, NULL, 0, NULL, 0, told), 0);
    hold_mesh("keep_near_contacts, no boxes", makhnodri_keep_near_contacts_slices(NO_SCENE, NO_HINTS, NULL, 0, 0, 0, 31, NULL, 0, NULL, 0, NULL, 0, told), MAKHNODRI_SHORT_BUFFER);
    hold_mesh("keep_near_contacts", makhnodri_keep_near_contacts_slices(NO_SCENE, NO_HINTS, boxes, 192, 0, 0, 31, NULL, 0, NULL, 0, NULL, 0, told), 0);
    for (size_t i = 0; i < 6; i++)
        if (told[i]) wrong = 1, puts("what was kept of no rows");
    hold_mesh("pierced_at_start_rows, no boxes", makhnodri_pierced_at_start_rows_slices(NO_SCENE, NO_HINTS, NULL, 0, 0, 0, NULL, 0, told), MAKHNODRI_SHORT_BUFFER);
    hold_mesh("pierced_at_start_rows", makhnodri_pierced_at_start_rows_slices(NO_SCENE, NO_HINTS, boxes, 192, 0, 0, NULL, 0, told), 0);
    hold_mesh("pierced_at_end_rows, no boxes", makhnodri_pierced_at_end_rows_slices(NO_SCENE, NO_HINTS, NULL, 0, 0, 0, NULL, 0, told), MAKHNODRI_SHORT_BUFFER);
    hold_mesh("pierced_at_end_rows", makhnodri_pierced_at_end_rows_slices(NO_SCENE, NO_HINTS, boxes, 192, 0, 0, NULL, 0, told), 0);
    makhnodri_mesh mesh = {0};
    makhnodri_scratch scratch = {0};
    if (makhnodri_box_room(&mesh) != 192 || makhnodri_table_room(&mesh) || makhnodri_place_room(&mesh) || makhnodri_row_count(&mesh))
        wrong = 1, puts("the room of no mesh");
    scratch.boxes = boxes, scratch.boxes_length = 192;
    hold_mesh("check_mesh of a struct", makhnodri_check_mesh(&mesh, &scratch), 0);
    hold_mesh("check_edges of a struct", makhnodri_check_edges(&mesh, &scratch, NULL, 0, NULL, 0, told), 0);
    hold_mesh("count_rows of a struct", makhnodri_count_rows(&mesh, &scratch, 0, 0, told), 0);
    hold_mesh("count_near_rows of a struct", makhnodri_count_near_rows(&mesh, &scratch, 0, 0, told), 0);
    hold_mesh("list_rows of a struct", makhnodri_list_rows(&mesh, &scratch, 0, 0, NULL, 0, told), 0);
    hold_mesh("list_near_rows of a struct", makhnodri_list_near_rows(&mesh, &scratch, 0, 0, NULL, 0, told), 0);
    hold_mesh("settle_rows of a struct", makhnodri_settle_rows(&mesh, &scratch, 0, 0, NULL, 0, NULL, 0, told), 0);
    hold_mesh("settle_near_rows of a struct", makhnodri_settle_near_rows(&mesh, &scratch, 0, 0, NULL, 0, NULL, 0, told), 0);
    hold_mesh("contact_rows of a struct", makhnodri_contact_rows(&mesh, &scratch, 0, 0, NULL, 0, NULL, 0, NULL, 0, told), 0);
    hold_mesh("contact_near_rows of a struct", makhnodri_contact_near_rows(&mesh, &scratch, 0, 0, NULL, 0, NULL, 0, NULL, 0, told), 0);
    hold_mesh("keep_rows of a struct", makhnodri_keep_rows(&mesh, &scratch, 0, 0, MAKHNODRI_WANT_HITS, NULL, 0, NULL, 0, told), 0);
    hold_mesh("keep_near_rows of a struct", makhnodri_keep_near_rows(&mesh, &scratch, 0, 0, MAKHNODRI_WANT_HITS, NULL, 0, NULL, 0, told), 0);
    hold_mesh("keep_contacts of a struct", makhnodri_keep_contacts(&mesh, &scratch, 0, 0, MAKHNODRI_WANT_HITS, NULL, 0, NULL, 0, NULL, 0, told), 0);
    hold_mesh("keep_near_contacts of a struct", makhnodri_keep_near_contacts(&mesh, &scratch, 0, 0, MAKHNODRI_WANT_HITS, NULL, 0, NULL, 0, NULL, 0, told), 0);
    hold_mesh("pierced_at_start_rows of a struct", makhnodri_pierced_at_start_rows(&mesh, &scratch, 0, 0, NULL, 0, told), 0);
    hold_mesh("pierced_at_end_rows of a struct", makhnodri_pierced_at_end_rows(&mesh, &scratch, 0, 0, NULL, 0, told), 0);
}

int main(void) {
    static uint8_t out[MAKHNODRI_REPORT_LENGTH];
    static makhnodri_buffers buffers;
    makhnodri_scene scene = {0};
    hold_slices();
    hold_boxed_slices();
    hold_meshes();
    hold_scene(&scene);
    static int32_t boxes[MAKHNODRI_BOXES_LENGTH];
    static makhnodri_told told = {.first = 7};
    hold("tell_series, no text", makhnodri_tell_series(NULL, 0, &buffers, boxes, NULL, 0, &scene, &told), 0, 0);
    if (told.held || told.listed || told.first || scene.positions_length) wrong = 1, puts("what is told of no text");
    hold("read_scene, no text", makhnodri_read_scene(NULL, 0, &buffers, &scene), 0, 0);
    if (scene.positions != buffers.positions || scene.positions_length || scene.edges_length || scene.triangles_length || scene.seams_length)
        wrong = 1, puts("the scene of no text");
    hold_scene(&scene);

    boxes[0] = 7;
    hold("import_scene, no files", makhnodri_import_scene(NULL, 0, NULL, 0, &buffers, boxes, &scene), 0, 0);
    if (scene.positions != buffers.positions || scene.positions_length || scene.edges_length || scene.triangles_length || scene.seams_length || boxes[0] != 7)
        wrong = 1, puts("the scene of no files");
    static const size_t none[4];
    makhnodri_scene_in(&buffers, none, &scene);
    hold_scene(&scene);

    static const char nothing[] = "total\t0\t0\t0\t0\t0\n";
    size_t length = makhnodri_write_report(NULL, 0, out);
    if (length != sizeof nothing - 1 || memcmp(out, nothing, length)) wrong = 1, puts("the report of no text");

    /* one part lent, the others null: a vertex that is alone, an edge without room for a list, a seam without vertices */
    static const int32_t two[] = {0, 0, 0, 0, 0, 0, 1, 1, 1, 1, 1, 1};
    static const uint16_t edge[] = {0, 1};
    hold("a vertex alone", makhnodri_settle_scene(&(makhnodri_scene){.positions = two, .positions_length = 6}, NULL, 0, NULL, 0), 0, 0);
    hold("an edge alone", makhnodri_settle_scene(&(makhnodri_scene){two, 12, edge, 2, NULL, 0, NULL, 0}, NULL, 0, NULL, 0), 0, 0);
    hold("edges without vertices", makhnodri_check_scene(&(makhnodri_scene){.edges = edge, .edges_length = 2}), MAKHNODRI_UNKNOWN_VERTEX, 0);
    hold("seams without vertices", makhnodri_check_scene(&(makhnodri_scene){.seams = edge, .seams_length = 2}), MAKHNODRI_UNKNOWN_VERTEX, 0);
    puts(wrong ? "null pointers: WRONG" : "null pointers with length 0 are empty slices to every function");
    return wrong;
}
