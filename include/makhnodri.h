/*
 * makhnodri.h: exact contact verdicts for a mesh that moves from a start to an end. C99, or C++11.
 *
 * Link libmakhnodri.so or libmakhnodri.a, which `./makhnodri install PREFIX` proves, builds for this processor, x86-64 or aarch64,
 * and puts into PREFIX/lib, beside this header and files for pkg-config and CMake; or which a package has, without a proof.
 *
 * What each function answers and leaves behind is proved; the promises stand beside the functions in crates/makhnodri/src/lib.rt.
 * The proof speaks of the code in Rattle. Rattle's compiler and LLVM make the library of it, for each processor: these two are
 * trusted, not proved, on x86-64 as elsewhere. The gate compares the library that it made with an independent program, number for
 * number.
 *
 * A verdict speaks for the space-time pieces of a pair. A miss, and apart too, says nothing of straight motion; only the list
 * does: a pair that is not listed, and shares no vertex, meets neither in its pieces nor under straight motion.
 */
#ifndef MAKHNODRI_H
#define MAKHNODRI_H

#include <stddef.h>
#include <stdint.h>

#ifdef __cplusplus
extern "C" {
#endif

/* ---- Version: of this header and of the library that was installed with it; docs/CHANGES.md tells what changed ---- */

#define MAKHNODRI_VERSION_MAJOR 1
#define MAKHNODRI_VERSION_MINOR 1
#define MAKHNODRI_VERSION_PATCH 2
#define MAKHNODRI_VERSION "1.1.2"

/* ---- Sizes ---- */

#define MAKHNODRI_COORDINATE_LIMIT 524287 /* coordinates run from -524287 to 524287 */
#define MAKHNODRI_VERTEX_LIMIT 512
#define MAKHNODRI_EDGE_LIMIT 1024
#define MAKHNODRI_TRIANGLE_LIMIT 512
#define MAKHNODRI_SEAM_LIMIT 512
#define MAKHNODRI_PART_LIMIT 1073741824 /* 2^30: vertices, edges, triangles and seams of a mesh, each at most so many */
#define MAKHNODRI_TEXT_LIMIT 32768 /* bytes of a scene text, and of an OBJ file */
#define MAKHNODRI_REPORT_ROOM 3072 /* pairs that a report has room for */
#define MAKHNODRI_PAIR_LIMIT 785920 /* no scene lists more: 512 x 512 of points and triangles, 1024 x 1023 / 2 of edges */

#define MAKHNODRI_CONTACT_LIMIT 262143 /* contacts are given in scenes whose coordinates are no larger in size */
#define MAKHNODRI_CONTACT_UNIT 1048576 /* 2^20: times and shares of a contact are so many parts of 1 */
#define MAKHNODRI_CONTACT_LENGTH 5     /* numbers of a contact */

#define MAKHNODRI_WEIGHT_LIMIT 1099511627776 /* 2^40: a claim with a larger weight is answered no */

/* the lengths of the buffers that a text is read into, in numbers */
#define MAKHNODRI_POSITIONS_LENGTH 3072 /* 512 x 6 */
#define MAKHNODRI_EDGES_LENGTH 2048     /* 1024 x 2 */
#define MAKHNODRI_TRIANGLES_LENGTH 1536 /* 512 x 3 */
#define MAKHNODRI_SEAMS_LENGTH 1024     /* 512 x 2 */
#define MAKHNODRI_BOXES_LENGTH 12288    /* (512 + 1024 + 512) x 6, of the boxes of its parts */

#define MAKHNODRI_LOG_LIMIT 64   /* hits that the log of a series holds */
#define MAKHNODRI_LOG_LENGTH 128 /* numbers of a log: 64 x 2 */
#define MAKHNODRI_TOLD_LENGTH 8  /* numbers that are told of a series beside its log */

/* enough stack for any call, in bytes */
#define MAKHNODRI_STACK 196608

/* the length of the buffer that a report is written into, in bytes; every report fits */
#define MAKHNODRI_REPORT_LENGTH 65536

/*
 * ---- A scene ----
 *
 * positions: six numbers a vertex: start x, y, z, then end x, y, z.
 * edges:     two vertex numbers an edge, from 0, in any order.
 * triangles: three vertex numbers a triangle, from 0, in any order.
 * seams:     two vertex numbers a seam, i and j: vertex i stands for vertex j. In rising i, each i once, j below i, j not itself
 *            replaced, and the two in one place at the start and at the end.
 * Zero of each is a scene.
 *
 * Sewn pieces of cloth have two vertices in one place. Parts share a vertex, and a face or an edge is cut by the order of its
 * vertices, by the vertices that they stand for: so a sewn vertex is in no list with its neighbours across the seam, and the faces
 * either side are cut along one diagonal, with no crack between. A replaced vertex keeps its own pairs with triangles; edges or
 * triangles that seams make one are kept, each with its own pairs. Places are as they were: seams number nothing anew.
 *
 * ---- Places ----
 *
 * A place is the number of a part in its own kind, counted from 0: of a vertex among the vertices, of an edge among the edges, of
 * a triangle among the triangles. The two places of a point and a triangle are the vertex's and the triangle's, so that pt 3 0
 * is vertex 3 and triangle 0. Those of two edges are the two edges', so that ee 0 1 is edge 0 and edge 1.
 *
 * ---- Pointers ----
 *
 * A list goes as a pointer and a length, counted in numbers and not in bytes. Where the length is 0 the pointer may be null:
 * nothing is read or written through it. Else it points to so many numbers, aligned for their type. A buffer that is written
 * overlaps no other argument of the same call; one that is only read (const) may overlap another such. No pointer is kept after
 * the call. That is the caller's part, and the proof takes it as given.
 *
 * ---- Threads and stack ----
 *
 * No function keeps, reads or writes anything but its arguments and its own stack: no global state, no heap, no input or
 * output. Calls may run at the same time in as many threads as one likes, as long as no thread writes what another has lent.
 * None of these calls itself, and none calls back. Inside, one search does: where a piece is degenerate, two steps leave out a
 * corner, in turn of the one simplex and of the other, and call each other on the rest. A piece has six corners to leave out, and
 * with the same corners left each step is asked once at most, so that the calls are never more than 14 deep.
 * MAKHNODRI_STACK bytes of stack are enough for any call. As measured by `examples/c/run stack` on x86-64 and on aarch64, in bytes, the
 * greater of the two rounded up (of the calls over meshes and of pierced pairs on x86-64 alone, with room):
 *
 *     check_scene       1,536      judge_pt, judge_pt_piece     2,048
 *     count_pairs      53,760      judge_ee, judge_ee_piece     2,048
 *     list_pairs       86,784      settle_pt, settle_pt_piece   2,816
 *     settle_scene     88,064      settle_ee, settle_ee_piece   2,816
 *     read_scene       23,808      write_report               124,928
 *     turn_scene        1,536      check_claims                 2,304
 *     contact_scene    87,040      contact_pt, contact_ee       3,328
 *     saved_length      1,792      save_scene                   1,792
 *     settle_list       3,328      contact_list                 3,584
 *     fill_boxes        1,536      move_vertex                  1,792
 *     count_stored     54,784      list_stored                 87,296
 *     settle_stored    88,320      read_boxed                  24,064
 *     import_scene     48,128      tell_series                176,384
 *     pierced_at_start, pierced_at_end              3,328
 *     check_mesh          512      check_edges                    768
 *     count_rows, count_near_rows                  32,768
 *     list_rows, list_near_rows                    73,728
 *     settle_rows, settle_near_rows                73,728
 *     contact_rows, contact_near_rows              73,728
 *     keep_rows, keep_near_rows                   147,456
 *     keep_contacts, keep_near_contacts           147,456
 *     pierced_at_start_rows, pierced_at_end_rows    3,584
 *
 * ---- An answer ----
 *
 * One 64-bit number. Below 2^32 it is the value itself. From 2^32 on it is a refusal: the upper 32 bits are its number, the
 * lower 32 bits the line or the needed count that it carries, else 0. No two answers of a function have the same number
 * (makhnodri_read_scene and _read_boxed answer 0 for every text that they read, makhnodri_import_scene for every two files, and the scene
 * tells which; a hit's contact is told by its numbers). A refusal of an import carries the file beside the line; makhnodri_import_file tells it.
 * After a refusal no lent byte or number has changed.
 */
typedef uint64_t makhnodri_answer;

/* the refusal's number, 1 to 18, or 0 where the answer is a value */
static inline uint32_t makhnodri_refusal(makhnodri_answer answer) { return (uint32_t)(answer >> 32); }

/* the value; of a refusal, the line or the needed count. Look at makhnodri_refusal first: both may be 0 */
static inline uint32_t makhnodri_value(makhnodri_answer answer) { return (uint32_t)answer; }

/* an array parameter that is lent at least so many numbers: C has a word for it, C++ has none */
#ifdef __cplusplus
#define MAKHNODRI_AT_LEAST(length) length
#else
#define MAKHNODRI_AT_LEAST(length) static length
#endif

/*
 * Words: the answer of a question about a pair or a piece. No number stands for two of them.
 *
 * Three words, HIT, MISS and DEGENERATE, are the answers of makhnodri_judge_pt, _judge_ee, _judge_pt_piece and _judge_ee_piece.
 * Four words, HIT, MISS, TOUCH and APART, are the answers of makhnodri_settle_pt, _settle_ee, _settle_pt_piece and
 * _settle_ee_piece, of makhnodri_contact_pt and _contact_ee, the bytes that makhnodri_settle_scene, _settle_list, _contact_scene and
 * _contact_list write, and the words of the report.
 */
enum {
    MAKHNODRI_HIT = 0,        /* a piece: its six equations have one solution, and its weights are not negative; one that is 0 counts */
    MAKHNODRI_MISS = 1,       /* a piece: its six equations have one solution, and one of its weights is negative */
    MAKHNODRI_DEGENERATE = 2, /* a piece: its six equations are singular, and nothing more is said of it; in three words only */
    MAKHNODRI_TOUCH = 3,      /* a piece: its six equations are singular, and weights that solve them exist, none negative */
    MAKHNODRI_APART = 4       /* a piece: its six equations are singular, and no such weights exist */
};
/*
 * A pair in three words: a hit if any of its pieces is; else degenerate if any is; else a miss.
 * In four words: a hit if any of its pieces is; else touch if any is; else apart if any is; else a miss.
 */

/* A kind of pair. */
enum {
    MAKHNODRI_PT = 0, /* a point and a triangle */
    MAKHNODRI_EE = 1  /* two edges */
};

/* Words asked for, added up: 2 to the power of each word's number. Any other bit stands for nothing. */
enum {
    MAKHNODRI_WANT_HITS = 1,
    MAKHNODRI_WANT_MISSES = 2,
    MAKHNODRI_WANT_TOUCHES = 8,
    MAKHNODRI_WANT_APARTS = 16
};

/* What was found of the edges of a mesh. */
enum {
    MAKHNODRI_EDGES_WHOLE = 0, /* every side of every triangle is an edge, and no edge stands twice */
    MAKHNODRI_SIDE_BARE = 1,   /* a side has not the edge that is lent for it */
    MAKHNODRI_EDGE_TWICE = 2   /* behind a number of the order the ends do not rise: an edge stands twice, or the order is not by ends */
};

/* The answers to claims. */
enum {
    MAKHNODRI_NO = 0, /* the weights do not bear the claim out */
    MAKHNODRI_YES = 1 /* they do, and the piece meets */
};

/*
 * An entry of the list: one number, 2^20 for two edges or 0 for a point and a triangle, plus 2^10 times the first place, plus the
 * second. Both places of a scene's pair are below 1,024, so that no two pairs have the same number; in a list the numbers rise.
 */
static inline uint32_t makhnodri_entry(uint32_t kind, uint32_t first, uint32_t second) { return (kind << 20) + (first << 10) + second; }

/* and back: MAKHNODRI_PT below 2^20 and MAKHNODRI_EE from there on, also of a number from 2^21 on, which no pair has; and the two places */
static inline uint32_t makhnodri_entry_kind(uint32_t entry) { return entry < 1048576 ? MAKHNODRI_PT : MAKHNODRI_EE; }
static inline uint32_t makhnodri_entry_first(uint32_t entry) { return entry >> 10 & 1023; }
static inline uint32_t makhnodri_entry_second(uint32_t entry) { return entry & 1023; }

/*
 * Refusals. Each is given exactly when its condition holds and no check before it refuses.
 * Of a scene: 1, 2, 3, 15, 4, each over the whole scene before the next; then 5, 6, for contacts 16; 7 last.
 * Of a text: 12, 8, then the first faulty line, and in it 9, 10, 11, 2, 3, 15, 4.
 * Of claims: the scene's, 8, then the first faulty line, and in it 9, 5, 6; 7 last.
 * Of a scene that is saved: the scene's, then 8, then 7.
 * Of a scene that keeps its boxes: 12, the scene's; then for a move 5, 2 of the new coordinates, 15; for the list 17, then 7.
 * Of two OBJ files: 12, 8 for the start file, 8 for the end file, then the first faulty line of the start file and then of the end file,
 * in it 9, 10, 11, 2, 3, 4, and 11 again for edge 1,025; 14 last.
 * Of a series: 12, 8, then the first faulty line, and in it 9, 10, 11, 13, 2, 3, 15, 4; 7 last, for the first step without room.
 * Of a mesh of any size: 12, then 1, 2, 3, 15, 4, then 18, then 5; for contacts 16; 7 last.
 */
enum {
    MAKHNODRI_SHAPE = 1,           /* positions not a multiple of 6 long, edges of 2, triangles of 3, seams of 2, or a count over its size */
    MAKHNODRI_COORDINATE = 2,      /* a coordinate outside its range; of a text, with the line */
    MAKHNODRI_UNKNOWN_VERTEX = 3,  /* a vertex number not below the vertex count (of a text, the count of v lines above, and with the line) */
    MAKHNODRI_REPEATED_VERTEX = 4, /* a vertex twice in one edge or triangle, or two that stand for one vertex; of a text, with the line */
    MAKHNODRI_NOT_THERE = 5,       /* a vertex, edge, triangle or piece asked for that is not there; of claims, with the line */
    MAKHNODRI_SHARED_VERTEX = 6,   /* the pair asked for shares a vertex (an edge with itself too); of claims, with the line */
    MAKHNODRI_NO_ROOM = 7,         /* more listed pairs, or claims, than room, with the count needed; of a text that is saved, with the length needed */
    MAKHNODRI_LONG_TEXT = 8,       /* a text over 32,768 bytes, read or to be written */
    MAKHNODRI_BAD_LINE = 9,        /* a line not of the form, or a last line without LF; with the line */
    MAKHNODRI_LATE_RECORD = 10,    /* a record after one of a later kind; with the line */
    MAKHNODRI_TOO_MANY = 11,       /* one record more than its size, or a face that brings edge 1,025; with the line */
    MAKHNODRI_SHORT_BUFFER = 12,   /* a lent buffer shorter than 3,072 positions, 2,048 edge, 1,536 triangle, 1,024 seam or 12,288 box numbers */
    MAKHNODRI_BLOCK_LENGTH = 13,   /* a block of a series with more or fewer v lines than there are vertices; with the line */
    MAKHNODRI_FILES_DIFFER = 14,   /* two OBJ files that differ in vertex count, or in the faces and their order */
    MAKHNODRI_BROKEN_SEAM = 15,    /* a seam that breaks the rules of seams, or whose two positions differ at either time; of a text, with the line */
    MAKHNODRI_BEYOND_OLD_RANGE = 16, /* a contact asked for in a scene with a coordinate beyond MAKHNODRI_CONTACT_LIMIT in size */
    MAKHNODRI_STALE_BOX = 17,      /* a stored box that is not the one worked out from the positions */
    MAKHNODRI_WRONG_ORDER = 18     /* of a mesh: a lent order that is none, or not a number for each side */
};
/* A line is counted from 1. */

/* ---- In words ---- */

/* "hit" to "apart"; "no word" for a number that stands for none */
static inline const char *makhnodri_word(uint32_t number) {
    switch (number) {
    case MAKHNODRI_HIT: return "hit";
    case MAKHNODRI_MISS: return "miss";
    case MAKHNODRI_DEGENERATE: return "degenerate";
    case MAKHNODRI_TOUCH: return "touch";
    case MAKHNODRI_APART: return "apart";
    default: return "no word";
    }
}

/* what a refusal says; "not refused" for 0, and "no refusal" for a number that is none */
static inline const char *makhnodri_refusal_words(uint32_t refusal) {
    switch (refusal) {
    case 0: return "not refused";
    case MAKHNODRI_SHAPE: return "positions not a multiple of 6 long, edges of 2, triangles of 3, seams of 2, or a count over its size";
    case MAKHNODRI_COORDINATE: return "a coordinate outside its range";
    case MAKHNODRI_UNKNOWN_VERTEX: return "a vertex number not below the vertex count";
    case MAKHNODRI_REPEATED_VERTEX: return "a vertex twice in one edge or triangle, or two that stand for one";
    case MAKHNODRI_NOT_THERE: return "a vertex, edge, triangle or piece asked for that isn't there";
    case MAKHNODRI_SHARED_VERTEX: return "the pair asked for shares a vertex";
    case MAKHNODRI_NO_ROOM: return "more listed pairs than room";
    case MAKHNODRI_LONG_TEXT: return "text over 32,768 bytes";
    case MAKHNODRI_BAD_LINE: return "a line not of the form, or a last line without LF";
    case MAKHNODRI_LATE_RECORD: return "a record after one of a later kind";
    case MAKHNODRI_TOO_MANY: return "one record more than its size";
    case MAKHNODRI_SHORT_BUFFER: return "a lent scene buffer that is too short";
    case MAKHNODRI_BLOCK_LENGTH: return "a block of a series has more or fewer v lines than there are vertices";
    case MAKHNODRI_FILES_DIFFER: return "two OBJ files differ in vertex count, or in the faces and their order";
    case MAKHNODRI_BROKEN_SEAM: return "a seam that breaks the rules of seams, or whose two positions differ";
    case MAKHNODRI_BEYOND_OLD_RANGE: return "a contact asked for in a scene with a coordinate beyond 262,143";
    case MAKHNODRI_STALE_BOX: return "a stored box that isn't the one worked out";
    case MAKHNODRI_WRONG_ORDER: return "a lent order that is none, or not a number for each side";
    default: return "no refusal";
    }
}

/* ---- A scene as a struct ---- */

/*
 * The four lists of a scene, each with its length in numbers. What is not set is to be 0: `makhnodri_scene scene = {0};` in C,
 * `makhnodri_scene scene = {};` in C++, and then the lists that there are. A list that is not there stays null, with length 0.
 */
typedef struct makhnodri_scene {
    const int32_t *positions;
    size_t positions_length;
    const uint16_t *edges;
    size_t edges_length;
    const uint16_t *triangles;
    size_t triangles_length;
    const uint16_t *seams;
    size_t seams_length;
} makhnodri_scene;

/* Room for any scene that is read from a text, in 21,504 bytes. A static one, or one that malloc gave, spares the stack. */
typedef struct makhnodri_buffers {
    int32_t positions[MAKHNODRI_POSITIONS_LENGTH];
    uint16_t edges[MAKHNODRI_EDGES_LENGTH];
    uint16_t triangles[MAKHNODRI_TRIANGLES_LENGTH];
    uint16_t seams[MAKHNODRI_SEAMS_LENGTH];
} makhnodri_buffers;

/*
 * A scene that keeps its boxes: the lists of a scene, of which the positions are written by a move, and its boxes. Boxes are six
 * numbers each, the three lows first, then the three highs, over start and end: of all vertices, then of all edges, then of all
 * triangles, packed by the counts that the scene has. So vertex v has its box at boxes[6 * v], edge e at boxes[6 * (vertices + e)],
 * triangle t at boxes[6 * (vertices + edges + t)]. boxes_length is at least MAKHNODRI_BOXES_LENGTH, however many parts there are;
 * what lies behind the boxes is neither read nor written. What is not set is to be 0, as in makhnodri_scene.
 */
typedef struct makhnodri_boxed_scene {
    int32_t *positions;
    size_t positions_length;
    const uint16_t *edges;
    size_t edges_length;
    const uint16_t *triangles;
    size_t triangles_length;
    const uint16_t *seams;
    size_t seams_length;
    int32_t *boxes;
    size_t boxes_length;
} makhnodri_boxed_scene;

/* Room for any scene that is read from a text with its boxes, in 70,656 bytes. */
typedef struct makhnodri_boxed_buffers {
    makhnodri_buffers lists;
    int32_t boxes[MAKHNODRI_BOXES_LENGTH];
} makhnodri_boxed_buffers;

/* The same scene for every other call; its lists stay where they are, and what a move writes is seen by both. */
static inline makhnodri_scene makhnodri_scene_of(const makhnodri_boxed_scene *boxed) {
    makhnodri_scene scene;
    scene.positions = boxed->positions;
    scene.positions_length = boxed->positions_length;
    scene.edges = boxed->edges;
    scene.edges_length = boxed->edges_length;
    scene.triangles = boxed->triangles;
    scene.triangles_length = boxed->triangles_length;
    scene.seams = boxed->seams;
    scene.seams_length = boxed->seams_length;
    return scene;
}

/* ---- A mesh as a struct ---- */

/*
 * A mesh of any size: the four lists of a scene, in 32-bit vertex numbers, each with its length in numbers, at most MAKHNODRI_PART_LIMIT
 * parts of each kind. What is not set is to be 0. Two orders may be lent beside them, hints that change no answer: of the edges and of the
 * triangles, each number once, parts that stand near each other next to each other. Where parts stand in no order, a walk without one takes
 * long; where they stand well, none is needed. An order of length 0 is not lent.
 */
typedef struct makhnodri_mesh {
    const int32_t *positions;
    size_t positions_length;
    const uint32_t *edges;
    size_t edges_length;
    const uint32_t *triangles;
    size_t triangles_length;
    const uint32_t *seams;
    size_t seams_length;
    const uint32_t *edge_order;
    size_t edge_order_length;
    const uint32_t *triangle_order;
    size_t triangle_order_length;
} makhnodri_mesh;

/*
 * What a call over a mesh works in: three lists of the caller's, at least as long as makhnodri_table_room, _place_room and _box_room say of
 * the mesh, else 12. They may hold anything before and hold anything afterwards, also after a refusal: nothing is kept in them from call to
 * call. Threads that work at the same time have each their own.
 */
typedef struct makhnodri_scratch {
    uint32_t *table;
    size_t table_length;
    uint32_t *places;
    size_t places_length;
    int32_t *boxes;
    size_t boxes_length;
} makhnodri_scratch;

static inline size_t makhnodri_table_room(const makhnodri_mesh *mesh) { return mesh->seams_length ? mesh->positions_length / 6 : 0; }
static inline size_t makhnodri_place_room(const makhnodri_mesh *mesh) {
    return mesh->edges_length / 2 + mesh->triangles_length / 3 + 2 * (mesh->edge_order_length + mesh->triangle_order_length);
}
static inline size_t makhnodri_box_room(const makhnodri_mesh *mesh) {
    size_t vertices = mesh->positions_length / 6, edges = mesh->edges_length / 2, triangles = mesh->triangles_length / 3;
    return 6 * (vertices + edges + triangles + edges / 15 + 16 + triangles / 15 + 16);
}
/* No call asks for so much; near rows of cloth that falls are found faster with it. */
static inline size_t makhnodri_near_box_room(const makhnodri_mesh *mesh) {
    return makhnodri_box_room(mesh) + 12 * (mesh->edges_length / 2 / 15 + 16 + mesh->triangles_length / 3 / 15 + 16);
}

/*
 * Nor, where it is more than makhnodri_place_room, for so much: entries of list_rows, settle_rows and contact_rows, and of near rows, are held in
 * the places until it is known that a list of so many has room for all of them. Where they do not fit there, such rows are walked twice.
 */
static inline size_t makhnodri_held_place_room(const makhnodri_mesh *mesh, size_t list_length) {
    size_t held = 2 * (mesh->edge_order_length + mesh->triangle_order_length + list_length), asked = makhnodri_place_room(mesh);
    return held < asked ? asked : held;
}

/* How many rows a mesh has: row v is vertex v's, with triangles; row vertices + e is edge e's, with the edges behind it. */
static inline size_t makhnodri_row_count(const makhnodri_mesh *mesh) { return mesh->positions_length / 6 + mesh->edges_length / 2; }

/*
 * An entry of a mesh: one number of 64 bits, 2^63 for two edges or 0 for a point and a triangle, plus 2^32 times the first place, plus the
 * second. In a list the numbers rise. Of an edge that is through a triangle the two places are the edge's and the triangle's.
 */
static inline uint64_t makhnodri_mesh_entry(uint32_t kind, uint32_t first, uint32_t second) {
    return ((uint64_t)kind << 63) + ((uint64_t)first << 32) + second;
}
static inline uint32_t makhnodri_mesh_entry_kind(uint64_t entry) { return (uint32_t)(entry >> 63); }
static inline uint32_t makhnodri_mesh_entry_first(uint64_t entry) { return (uint32_t)(entry >> 32) & 0x7fffffff; }
static inline uint32_t makhnodri_mesh_entry_second(uint64_t entry) { return (uint32_t)entry; }

/*
 * ---- The plain functions ----
 *
 * Those of the library itself, which other languages call: each takes the four lists of a scene one by one, as a pointer and a
 * length each. From C and C++ the calls below, which take the struct, are shorter; they have the same names without `_slices`, and
 * what each answers is told there.
 */
#define MAKHNODRI_LISTS                                                                                                           \
    const int32_t *positions, size_t positions_length, const uint16_t *edges, size_t edges_length, const uint16_t *triangles,     \
        size_t triangles_length, const uint16_t *seams, size_t seams_length

makhnodri_answer makhnodri_check_scene_slices(MAKHNODRI_LISTS);
makhnodri_answer makhnodri_count_pairs_slices(MAKHNODRI_LISTS, size_t tests[MAKHNODRI_AT_LEAST(1)]);
makhnodri_answer makhnodri_list_pairs_slices(MAKHNODRI_LISTS, uint32_t *list, size_t list_length, size_t tests[MAKHNODRI_AT_LEAST(1)]);
makhnodri_answer makhnodri_settle_scene_slices(MAKHNODRI_LISTS, uint32_t *list, size_t list_length, uint8_t *words, size_t words_length);
makhnodri_answer makhnodri_settle_list_slices(MAKHNODRI_LISTS, const uint32_t *list, size_t list_length, uint8_t *words,
                                              size_t words_length);
makhnodri_answer makhnodri_contact_list_slices(MAKHNODRI_LISTS, const uint32_t *list, size_t list_length, uint8_t *words,
                                               size_t words_length, uint32_t *contacts, size_t contacts_length);
makhnodri_answer makhnodri_judge_pt_slices(MAKHNODRI_LISTS, size_t vertex, size_t triangle);
makhnodri_answer makhnodri_judge_ee_slices(MAKHNODRI_LISTS, size_t first, size_t second);
makhnodri_answer makhnodri_judge_pt_piece_slices(MAKHNODRI_LISTS, size_t vertex, size_t triangle, size_t piece);
makhnodri_answer makhnodri_judge_ee_piece_slices(MAKHNODRI_LISTS, size_t first, size_t second, size_t piece);
makhnodri_answer makhnodri_settle_pt_slices(MAKHNODRI_LISTS, size_t vertex, size_t triangle);
makhnodri_answer makhnodri_settle_ee_slices(MAKHNODRI_LISTS, size_t first, size_t second);
makhnodri_answer makhnodri_settle_pt_piece_slices(MAKHNODRI_LISTS, size_t vertex, size_t triangle, size_t piece);
makhnodri_answer makhnodri_settle_ee_piece_slices(MAKHNODRI_LISTS, size_t first, size_t second, size_t piece);
makhnodri_answer makhnodri_contact_pt_slices(MAKHNODRI_LISTS, size_t vertex, size_t triangle, uint32_t contact[MAKHNODRI_AT_LEAST(5)]);
makhnodri_answer makhnodri_contact_ee_slices(MAKHNODRI_LISTS, size_t first, size_t second, uint32_t contact[MAKHNODRI_AT_LEAST(5)]);
makhnodri_answer makhnodri_contact_scene_slices(MAKHNODRI_LISTS, uint32_t *list, size_t list_length, uint8_t *words, size_t words_length,
                                                uint32_t *contacts, size_t contacts_length);
makhnodri_answer makhnodri_pierced_at_start_slices(MAKHNODRI_LISTS, size_t edge, size_t triangle);
makhnodri_answer makhnodri_pierced_at_end_slices(MAKHNODRI_LISTS, size_t edge, size_t triangle);
makhnodri_answer makhnodri_check_claims_slices(MAKHNODRI_LISTS, const uint8_t *claims, size_t claims_length, uint8_t *answers,
                                               size_t answers_length);
makhnodri_answer makhnodri_saved_length_slices(MAKHNODRI_LISTS);
makhnodri_answer makhnodri_save_scene_slices(MAKHNODRI_LISTS, uint8_t *text, size_t text_length);
makhnodri_answer makhnodri_read_scene_slices(const uint8_t *text, size_t text_length, int32_t *positions, size_t positions_length,
                                             uint16_t *edges, size_t edges_length, uint16_t *triangles, size_t triangles_length,
                                             uint16_t *seams, size_t seams_length, size_t counts[MAKHNODRI_AT_LEAST(4)]);
makhnodri_answer makhnodri_fill_boxes_slices(MAKHNODRI_LISTS, int32_t *boxes, size_t boxes_length);
makhnodri_answer makhnodri_move_vertex_slices(int32_t *positions, size_t positions_length, const uint16_t *edges, size_t edges_length,
                                              const uint16_t *triangles, size_t triangles_length, const uint16_t *seams,
                                              size_t seams_length, int32_t *boxes, size_t boxes_length, size_t vertex,
                                              const int32_t coordinates[MAKHNODRI_AT_LEAST(6)]);
makhnodri_answer makhnodri_count_stored_slices(MAKHNODRI_LISTS, const int32_t *boxes, size_t boxes_length,
                                               size_t tests[MAKHNODRI_AT_LEAST(1)]);
makhnodri_answer makhnodri_list_stored_slices(MAKHNODRI_LISTS, const int32_t *boxes, size_t boxes_length, uint32_t *list,
                                              size_t list_length, size_t tests[MAKHNODRI_AT_LEAST(1)]);
makhnodri_answer makhnodri_settle_stored_slices(MAKHNODRI_LISTS, const int32_t *boxes, size_t boxes_length, uint32_t *list,
                                                size_t list_length, uint8_t *words, size_t words_length);
makhnodri_answer makhnodri_import_scene_slices(const uint8_t *start, size_t start_length, const uint8_t *end, size_t end_length,
                                               int32_t *positions, size_t positions_length, uint16_t *edges, size_t edges_length,
                                               uint16_t *triangles, size_t triangles_length, uint16_t *seams, size_t seams_length,
                                               int32_t *boxes, size_t boxes_length, size_t counts[MAKHNODRI_AT_LEAST(4)]);

makhnodri_answer makhnodri_read_boxed_slices(const uint8_t *text, size_t text_length, int32_t *positions, size_t positions_length,
                                             uint16_t *edges, size_t edges_length, uint16_t *triangles, size_t triangles_length,
                                             uint16_t *seams, size_t seams_length, int32_t *boxes, size_t boxes_length,
                                             size_t counts[MAKHNODRI_AT_LEAST(4)]);
makhnodri_answer makhnodri_tell_series_slices(const uint8_t *text, size_t text_length, int32_t *positions, size_t positions_length,
                                              uint16_t *edges, size_t edges_length, uint16_t *triangles, size_t triangles_length,
                                              uint16_t *seams, size_t seams_length, int32_t *boxes, size_t boxes_length, uint32_t *list,
                                              size_t list_length, size_t counts[MAKHNODRI_AT_LEAST(4)],
                                              uint32_t log[MAKHNODRI_AT_LEAST(MAKHNODRI_LOG_LENGTH)],
                                              uint64_t told[MAKHNODRI_AT_LEAST(MAKHNODRI_TOLD_LENGTH)]);

#define MAKHNODRI_MESH_LISTS                                                                                                      \
    const int32_t *positions, size_t positions_length, const uint32_t *edges, size_t edges_length, const uint32_t *triangles,     \
        size_t triangles_length, const uint32_t *seams, size_t seams_length
#define MAKHNODRI_ROW_LISTS                                                                                                       \
    MAKHNODRI_MESH_LISTS, const uint32_t *edge_order, size_t edge_order_length, const uint32_t *triangle_order,                   \
        size_t triangle_order_length, uint32_t *table, size_t table_length, uint32_t *places, size_t places_length,               \
        int32_t *boxes, size_t boxes_length

/* over a mesh: each returns the refusal's number, 0 where there is none */
uint32_t makhnodri_check_mesh_slices(MAKHNODRI_MESH_LISTS, uint32_t *table, size_t table_length);
uint32_t makhnodri_check_edges_slices(MAKHNODRI_MESH_LISTS, const uint32_t *sides, size_t sides_length, const uint32_t *order,
                                      size_t order_length, uint32_t *table, size_t table_length, uint32_t *places,
                                      size_t places_length, uint64_t told[MAKHNODRI_AT_LEAST(2)]);
uint32_t makhnodri_count_rows_slices(MAKHNODRI_ROW_LISTS, size_t first, size_t end, uint64_t told[MAKHNODRI_AT_LEAST(1)]);
uint32_t makhnodri_count_near_rows_slices(MAKHNODRI_ROW_LISTS, size_t first, size_t end, uint64_t told[MAKHNODRI_AT_LEAST(1)]);
uint32_t makhnodri_list_rows_slices(MAKHNODRI_ROW_LISTS, size_t first, size_t end, uint64_t *list, size_t list_length,
                                     uint64_t told[MAKHNODRI_AT_LEAST(1)]);
uint32_t makhnodri_list_near_rows_slices(MAKHNODRI_ROW_LISTS, size_t first, size_t end, uint64_t *list, size_t list_length,
                                     uint64_t told[MAKHNODRI_AT_LEAST(1)]);
uint32_t makhnodri_settle_rows_slices(MAKHNODRI_ROW_LISTS, size_t first, size_t end, uint64_t *list, size_t list_length,
                                     uint8_t *words, size_t words_length, uint64_t told[MAKHNODRI_AT_LEAST(1)]);
uint32_t makhnodri_settle_near_rows_slices(MAKHNODRI_ROW_LISTS, size_t first, size_t end, uint64_t *list, size_t list_length,
                                     uint8_t *words, size_t words_length, uint64_t told[MAKHNODRI_AT_LEAST(1)]);
uint32_t makhnodri_contact_rows_slices(MAKHNODRI_ROW_LISTS, size_t first, size_t end, uint64_t *list, size_t list_length,
                                     uint8_t *words, size_t words_length, uint32_t *contacts, size_t contacts_length,
                                     uint64_t told[MAKHNODRI_AT_LEAST(1)]);
uint32_t makhnodri_contact_near_rows_slices(MAKHNODRI_ROW_LISTS, size_t first, size_t end, uint64_t *list, size_t list_length,
                                     uint8_t *words, size_t words_length, uint32_t *contacts, size_t contacts_length,
                                     uint64_t told[MAKHNODRI_AT_LEAST(1)]);
uint32_t makhnodri_keep_rows_slices(MAKHNODRI_ROW_LISTS, size_t first, size_t end, uint32_t wanted, uint64_t *list,
                                     size_t list_length, uint8_t *words, size_t words_length, uint64_t told[MAKHNODRI_AT_LEAST(6)]);
uint32_t makhnodri_keep_near_rows_slices(MAKHNODRI_ROW_LISTS, size_t first, size_t end, uint32_t wanted, uint64_t *list,
                                     size_t list_length, uint8_t *words, size_t words_length, uint64_t told[MAKHNODRI_AT_LEAST(6)]);
uint32_t makhnodri_keep_contacts_slices(MAKHNODRI_ROW_LISTS, size_t first, size_t end, uint32_t wanted, uint64_t *list,
                                     size_t list_length, uint8_t *words, size_t words_length, uint32_t *contacts,
                                     size_t contacts_length, uint64_t told[MAKHNODRI_AT_LEAST(6)]);
uint32_t makhnodri_keep_near_contacts_slices(MAKHNODRI_ROW_LISTS, size_t first, size_t end, uint32_t wanted, uint64_t *list,
                                     size_t list_length, uint8_t *words, size_t words_length, uint32_t *contacts,
                                     size_t contacts_length, uint64_t told[MAKHNODRI_AT_LEAST(6)]);
uint32_t makhnodri_pierced_at_start_rows_slices(MAKHNODRI_ROW_LISTS, size_t first, size_t end, uint64_t *list, size_t list_length,
                                     uint64_t told[MAKHNODRI_AT_LEAST(1)]);
uint32_t makhnodri_pierced_at_end_rows_slices(MAKHNODRI_ROW_LISTS, size_t first, size_t end, uint64_t *list, size_t list_length,
                                     uint64_t told[MAKHNODRI_AT_LEAST(1)]);

/* the lists of a struct, as the plain functions take them; of a scene that keeps its boxes, those too */
#define MAKHNODRI_LISTS_OF(scene)                                                                                                 \
    (scene)->positions, (scene)->positions_length, (scene)->edges, (scene)->edges_length, (scene)->triangles,                     \
        (scene)->triangles_length, (scene)->seams, (scene)->seams_length
#define MAKHNODRI_BOXED_LISTS_OF(boxed) MAKHNODRI_LISTS_OF(boxed), (boxed)->boxes, (boxed)->boxes_length

/* The vertex that a vertex stands for, by the seams of an accepted scene: another, or itself. Lower and higher go by this number. */
static inline size_t makhnodri_stands_for(const makhnodri_scene *scene, size_t vertex) {
    for (size_t i = 0; i + 1 < scene->seams_length; i += 2)
        if (scene->seams[i] == vertex) return scene->seams[i + 1];
    return vertex;
}

/* ---- Scenes: each of these checks the whole scene, and may refuse with 1, 2, 3, 15, 4 ---- */

/* May this scene be used? 0, or a refusal. */
static inline makhnodri_answer makhnodri_check_scene(const makhnodri_scene *scene) {
    return makhnodri_check_scene_slices(MAKHNODRI_LISTS_OF(scene));
}

/*
 * How many pairs are listed: those whose swept boxes meet, equal ends included, and that share no vertex.
 * Into tests[0] goes how many boxes the pt part tests in one pass over the scene: triangles stand in runs of 16 by place, each vertex
 * tests the joint box of every run, and in a run that it meets the box of every triangle, sharing a vertex or not. It is never
 * more than vertices x (triangles + runs). A refusal leaves it as it was.
 */
static inline makhnodri_answer makhnodri_count_pairs(const makhnodri_scene *scene, size_t tests[MAKHNODRI_AT_LEAST(1)]) {
    return makhnodri_count_pairs_slices(MAKHNODRI_LISTS_OF(scene), tests);
}

/*
 * Makes the list, one number an entry (makhnodri_entry_kind and its neighbours take it apart). Room is list_length.
 * Order: pt by vertex then triangle, then ee by first then second edge, first below second.
 * The answer is the count of entries, which stand in front of the list; the rest of it is unchanged. Or 7, with the count needed.
 * Into tests[0] go the box tests, the same number that makhnodri_count_pairs gives; a refusal leaves it as it was.
 */
static inline makhnodri_answer makhnodri_list_pairs(const makhnodri_scene *scene, uint32_t *list, size_t list_length,
                                                    size_t tests[MAKHNODRI_AT_LEAST(1)]) {
    return makhnodri_list_pairs_slices(MAKHNODRI_LISTS_OF(scene), list, list_length, tests);
}

/*
 * Makes the list and settles each pair of it, in four words: words[i] is the word of entry i. Room is the smaller of
 * list_length and words_length. The answer is the count, and the rest of both buffers is unchanged; or 7, with the count
 * needed.
 */
static inline makhnodri_answer makhnodri_settle_scene(const makhnodri_scene *scene, uint32_t *list, size_t list_length, uint8_t *words,
                                                      size_t words_length) {
    return makhnodri_settle_scene_slices(MAKHNODRI_LISTS_OF(scene), list, list_length, words, words_length);
}

/*
 * A list of one's own, for a program that finds its pairs itself: settles each pair that it asks for by its entry
 * (makhnodri_entry), listed or not, and checks the scene once. words[i] is the word of entry i, what makhnodri_settle_pt or
 * _settle_ee answers for that pair. The answer is list_length, and the rest of the words is unchanged; or 1 (also for a list of 2^32
 * entries or more), 2, 3, 15, 4; or 5 or 6 of the first entry at fault, with its number, counted from 1; or 7 where the words are
 * fewer than the entries, with list_length. An entry that is no pair's number is 5. After a refusal nothing has changed.
 */
static inline makhnodri_answer makhnodri_settle_list(const makhnodri_scene *scene, const uint32_t *list, size_t list_length,
                                                     uint8_t *words, size_t words_length) {
    return makhnodri_settle_list_slices(MAKHNODRI_LISTS_OF(scene), list, list_length, words, words_length);
}

/*
 * Turns a scene without seams round where it stands, so that a clip is played backwards: start and end are swapped, the vertices
 * numbered from last to first, edges and triangles stay in their places. 0, or a refusal (1, 2, 3, 4), after which nothing has
 * changed. Turned twice it is the scene. It has the same contacts: pt v t of the one is pt (vertices - 1 - v) t of the other, and
 * ee i j is ee i j; piece k of the one is piece 2 - k of a pt pair, and piece 3 - k of an ee pair, of the other. Vertices must be
 * numbered anew because a face is cut by the order of its corners' numbers: with start and end swapped and nothing else, a verdict
 * may change. It takes the three lists to be written; seams would name other vertices afterwards, and it has none.
 */
makhnodri_answer makhnodri_turn_scene(int32_t *positions, size_t positions_length, uint16_t *edges, size_t edges_length,
                                      uint16_t *triangles, size_t triangles_length);

/*
 * ---- Pairs and pieces, listed or not: these may also refuse with 5 and 6; else the answer is one of three words ----
 *
 * Each call checks the whole scene first, 1, 2, 3, 15, 4, however often it is called with the same one. Where many pairs are wanted,
 * makhnodri_settle_scene and makhnodri_settle_list check once.
 */

static inline makhnodri_answer makhnodri_judge_pt(const makhnodri_scene *scene, size_t vertex, size_t triangle) {
    return makhnodri_judge_pt_slices(MAKHNODRI_LISTS_OF(scene), vertex, triangle);
}

/* The two edges may be asked for in either order, with the same answer. */
static inline makhnodri_answer makhnodri_judge_ee(const makhnodri_scene *scene, size_t first, size_t second) {
    return makhnodri_judge_ee_slices(MAKHNODRI_LISTS_OF(scene), first, second);
}

/* Pieces 0, 1, 2: the moving point against each of the moving triangle's three tetrahedra. */
static inline makhnodri_answer makhnodri_judge_pt_piece(const makhnodri_scene *scene, size_t vertex, size_t triangle, size_t piece) {
    return makhnodri_judge_pt_piece_slices(MAKHNODRI_LISTS_OF(scene), vertex, triangle, piece);
}

/* Pieces 0 to 3: AA, AB, BA, BB, the edge with the lower place first, in whichever order the two are asked for. */
static inline makhnodri_answer makhnodri_judge_ee_piece(const makhnodri_scene *scene, size_t first, size_t second, size_t piece) {
    return makhnodri_judge_ee_piece_slices(MAKHNODRI_LISTS_OF(scene), first, second, piece);
}

/* ---- The same in four words: the same refusals; what is degenerate is decided too ---- */

static inline makhnodri_answer makhnodri_settle_pt(const makhnodri_scene *scene, size_t vertex, size_t triangle) {
    return makhnodri_settle_pt_slices(MAKHNODRI_LISTS_OF(scene), vertex, triangle);
}

static inline makhnodri_answer makhnodri_settle_ee(const makhnodri_scene *scene, size_t first, size_t second) {
    return makhnodri_settle_ee_slices(MAKHNODRI_LISTS_OF(scene), first, second);
}

static inline makhnodri_answer makhnodri_settle_pt_piece(const makhnodri_scene *scene, size_t vertex, size_t triangle, size_t piece) {
    return makhnodri_settle_pt_piece_slices(MAKHNODRI_LISTS_OF(scene), vertex, triangle, piece);
}

static inline makhnodri_answer makhnodri_settle_ee_piece(const makhnodri_scene *scene, size_t first, size_t second, size_t piece) {
    return makhnodri_settle_ee_piece_slices(MAKHNODRI_LISTS_OF(scene), first, second, piece);
}

/*
 * ---- Through already: whether an edge is through a triangle at one time ----
 *
 * MAKHNODRI_YES exactly when nonnegative weights, with the same sum above 0 in both, give the edge and the triangle one place at that time:
 * an edge that touches a side, or ends in the triangle, is through it too; else MAKHNODRI_NO. Or 1, 2, 3, 15, 4, then 5 where there is no such
 * edge or triangle, then 6 where an end of the edge stands for a corner of the triangle. A drape that is clean at the start, and in which nothing
 * is hit or touches, is clean at the end.
 */
static inline makhnodri_answer makhnodri_pierced_at_start(const makhnodri_scene *scene, size_t edge, size_t triangle) {
    return makhnodri_pierced_at_start_slices(MAKHNODRI_LISTS_OF(scene), edge, triangle);
}

static inline makhnodri_answer makhnodri_pierced_at_end(const makhnodri_scene *scene, size_t edge, size_t triangle) {
    return makhnodri_pierced_at_end_slices(MAKHNODRI_LISTS_OF(scene), edge, triangle);
}

/*
 * ---- Contacts: when and where a hit pair touched, for a viewer that freezes the picture there ----
 *
 * A contact is MAKHNODRI_CONTACT_LENGTH numbers: the piece, the time, and three shares. Time and shares are whole 2^20ths, from 0 to
 * MAKHNODRI_CONTACT_UNIT, which is 1; each is cut and not rounded: at most the exact value, and short of it by less than one 2^20th.
 * The piece is the hit piece whose time is the smallest such number, on a tie that of the lowest piece number. Only hit pieces take
 * part; one that touches carries nothing, even if it touches earlier.
 *
 *     contact   [0]     [1]    [2]                    [3]                     [4]
 *     pt        piece   time   lowest corner's share  middle corner's share   highest corner's share
 *     ee        piece   time   lower edge's share     higher edge's share     0
 *
 * Corners go by the rising number of their vertices, in whatever order the scene writes them. An edge's share is that of its
 * higher-numbered end; the lower edge is the one with the lower place, in whichever order the two are asked for. Each number is cut
 * alone, so that three shares may sum to a little less than 1.
 *
 * Contacts are given in scenes of which no coordinate is beyond MAKHNODRI_CONTACT_LIMIT in size. Any other is refused with 16, after
 * 5 and 6 and before 7, whichever pair is asked for.
 */

/* A number of 2^20ths as a double, which loses nothing: no two numbers give the same one. */
static inline double makhnodri_part(uint32_t number) { return number / 1048576.0; }

/* When it touched: 0 is the start, 1 the end. */
static inline double makhnodri_contact_time(const uint32_t contact[MAKHNODRI_AT_LEAST(5)]) { return makhnodri_part(contact[1]); }

/* Where: the share at this place, 0, 1 or 2 of a point and a triangle, 0 or 1 of two edges. */
static inline double makhnodri_contact_share(const uint32_t contact[MAKHNODRI_AT_LEAST(5)], size_t place) { return makhnodri_part(contact[2 + place]); }

/*
 * The answer is the word of the pair in four words, or a refusal: 1, 2, 3, 15, 4, 5, 6, then 16. Where it is MAKHNODRI_HIT, all five numbers of
 * contact are written; nothing else changes them. Two edges may be asked for in either order, with the same answer and contact.
 */
static inline makhnodri_answer makhnodri_contact_pt(const makhnodri_scene *scene, size_t vertex, size_t triangle,
                                                    uint32_t contact[MAKHNODRI_AT_LEAST(5)]) {
    return makhnodri_contact_pt_slices(MAKHNODRI_LISTS_OF(scene), vertex, triangle, contact);
}

static inline makhnodri_answer makhnodri_contact_ee(const makhnodri_scene *scene, size_t first, size_t second,
                                                    uint32_t contact[MAKHNODRI_AT_LEAST(5)]) {
    return makhnodri_contact_ee_slices(MAKHNODRI_LISTS_OF(scene), first, second, contact);
}

/*
 * As makhnodri_settle_scene, and beside list and words the contact of each hit pair: that of entry i begins at contacts[5 * i]. The
 * numbers of a pair that is not hit stay as they were. Room is the smallest of list_length, words_length and contacts_length / 5,
 * rounded down. The answer is the count, and the rest of the three buffers is unchanged; or 1, 2, 3, 15, 4, 16, or last 7, with
 * the count needed.
 */
static inline makhnodri_answer makhnodri_contact_scene(const makhnodri_scene *scene, uint32_t *list, size_t list_length, uint8_t *words,
                                                       size_t words_length, uint32_t *contacts, size_t contacts_length) {
    return makhnodri_contact_scene_slices(MAKHNODRI_LISTS_OF(scene), list, list_length, words, words_length, contacts, contacts_length);
}

/*
 * As makhnodri_settle_list, and beside the words the contact of each hit pair: that of entry i begins at contacts[5 * i]. The
 * numbers of a pair that is not hit stay as they were. Room is the smaller of words_length and contacts_length / 5, rounded down.
 * 16 comes after 6 and before 7.
 */
static inline makhnodri_answer makhnodri_contact_list(const makhnodri_scene *scene, const uint32_t *list, size_t list_length,
                                                      uint8_t *words, size_t words_length, uint32_t *contacts,
                                                      size_t contacts_length) {
    return makhnodri_contact_list_slices(MAKHNODRI_LISTS_OF(scene), list, list_length, words, words_length, contacts, contacts_length);
}

/*
 * ---- Dragging one vertex, in a scene that keeps its boxes ----
 *
 * makhnodri_fill_boxes works all boxes out, once; makhnodri_read_boxed reads a text with them. makhnodri_move_vertex then sets one vertex's six coordinates and works out the boxes
 * of the parts that have it, and no others; so right boxes stay right, over any number of moves. makhnodri_count_stored,
 * _list_stored and _settle_stored are makhnodri_count_pairs, _list_pairs and _settle_scene, with the list made from the stored boxes
 * after one look over all of them. Whoever changes a position in another way fills the boxes anew; else the list is refused with 17.
 * Every other question is asked of makhnodri_scene_of.
 *
 * Each may refuse with 12, where boxes_length is under MAKHNODRI_BOXES_LENGTH, before the scene's 1, 2, 3, 15, 4.
 */

/* Fills in the boxes of a scene. 0; or a refusal, after which nothing has changed. What lies behind the boxes is unchanged. */
static inline makhnodri_answer makhnodri_fill_boxes(makhnodri_boxed_scene *boxed) {
    return makhnodri_fill_boxes_slices(MAKHNODRI_BOXED_LISTS_OF(boxed));
}

/*
 * Moves a vertex: its six coordinates are then those given, start x, y, z, end x, y, z, and the boxes of that vertex and of the edges
 * and triangles that have its number are the ones worked out from the positions. No other number changes, and no stored box is
 * looked at: one that is not the one worked out stays so. 0; or after the scene's refusals 5 where there is no such vertex, 2 where a
 * new coordinate is outside its range, 15 where a seam would come apart, whichever of its two vertices is moved; and nothing has
 * changed. Vertices that are sewn together are moved with boxed->seams_length at 0 meanwhile, each to the same coordinates: boxes do
 * not go by seams.
 */
static inline makhnodri_answer makhnodri_move_vertex(makhnodri_boxed_scene *boxed, size_t vertex,
                                                     const int32_t coordinates[MAKHNODRI_AT_LEAST(6)]) {
    return makhnodri_move_vertex_slices(MAKHNODRI_BOXED_LISTS_OF(boxed), vertex, coordinates);
}

/* As makhnodri_count_pairs; or 17, after the scene's, where a stored box is not the one worked out. The look is no box test. */
static inline makhnodri_answer makhnodri_count_stored(const makhnodri_boxed_scene *boxed, size_t tests[MAKHNODRI_AT_LEAST(1)]) {
    return makhnodri_count_stored_slices(MAKHNODRI_BOXED_LISTS_OF(boxed), tests);
}

/* As makhnodri_list_pairs; 17 comes after the scene's refusals and before 7. */
static inline makhnodri_answer makhnodri_list_stored(const makhnodri_boxed_scene *boxed, uint32_t *list, size_t list_length,
                                                     size_t tests[MAKHNODRI_AT_LEAST(1)]) {
    return makhnodri_list_stored_slices(MAKHNODRI_BOXED_LISTS_OF(boxed), list, list_length, tests);
}

/* As makhnodri_settle_scene; 17 comes after the scene's refusals and before 7. */
static inline makhnodri_answer makhnodri_settle_stored(const makhnodri_boxed_scene *boxed, uint32_t *list, size_t list_length,
                                                       uint8_t *words, size_t words_length) {
    return makhnodri_settle_stored_slices(MAKHNODRI_BOXED_LISTS_OF(boxed), list, list_length, words, words_length);
}

/*
 * ---- Meshes of any size ----
 *
 * A scene has at most 512 vertices; what is larger is a mesh. A call over a mesh returns the refusal's number, 0 where there is none, and
 * what it counts goes where it is told to, in 64 bits. After a refusal nothing lent has changed but the scratch, and the count needed where
 * it is 7. Each checks the whole mesh first: 12 for scratch that is too short; 1, 2, 3, 15, 4 as of a scene, with MAKHNODRI_PART_LIMIT for
 * its sizes; 18 for an order that is none. A mesh of a scene's size has the scene's list and words.
 *
 * The list of a mesh is asked for by rows: row v is vertex v's, its pairs with triangles; row vertices + e is edge e's, its pairs with the
 * edges behind it. All rows in turn are the list of a scene, and the lists of neighbouring stretches joined are that of both: so a program
 * takes stretches of rows, in as many threads as it likes, each with scratch of its own, and the answers stand in order. Rows that are not
 * there, the end before the first or beyond makhnodri_row_count, are 5. In each call beside the one named a row's pairs are those whose
 * swept boxes meet and that share no vertex; those of its neighbour with near_ in its name are of these the ones that are not far: on no
 * axis one part lies strictly below the other at the start and at the end. Far pairs are neither hit nor touch, and on falling cloth nearly
 * all are far; whoever asks for hits and touches alone asks for near rows.
 *
 * Each call begins with boxes of all parts that are lent and a tree over these. Rows of vertices look at no edge, and rows of edges at no
 * triangle: with an empty list in their place, and no order of them, such rows have the same pairs, words and contacts, which is proved. So
 * once a mesh is accepted, a call over rows of one kind may be lent that kind alone, and has less to begin with and needs less scratch.
 */

/* May this mesh be used? 12 where scratch->table is too short, 1, 2, 3, 15, 4. Nothing else of the scratch is looked at. */
static inline uint32_t makhnodri_check_mesh(const makhnodri_mesh *mesh, makhnodri_scratch *scratch) {
    return makhnodri_check_mesh_slices(MAKHNODRI_LISTS_OF(mesh), scratch->table, scratch->table_length);
}

/*
 * Whether edges that were made from the triangles are whole: every side of every triangle an edge, and no edge there twice; an edge that is
 * dropped drops all its pairs. Who made them lends in sides the number of the edge of each side, three to a triangle, from corner 0 to 1, 1
 * to 2, 2 to 0, and in order the edges by their ends, the lower end first; both are looked at. Into told[0] goes MAKHNODRI_EDGES_WHOLE,
 * _SIDE_BARE or _EDGE_TWICE, into told[1] the first side, or the first number of the order behind which the ends do not rise, or 0. 12 also
 * where scratch->places is shorter than there are edges; 18 where sides is not as long as the triangles, or order is no order of the edges.
 */
static inline uint32_t makhnodri_check_edges(const makhnodri_mesh *mesh, makhnodri_scratch *scratch, const uint32_t *sides,
                                             size_t sides_length, const uint32_t *order, size_t order_length,
                                             uint64_t told[MAKHNODRI_AT_LEAST(2)]) {
    return makhnodri_check_edges_slices(MAKHNODRI_LISTS_OF(mesh), sides, sides_length, order, order_length, scratch->table,
                                        scratch->table_length, scratch->places, scratch->places_length, told);
}

/* the lists, the orders and the scratch, as the plain functions take them */
#define MAKHNODRI_ROW_LISTS_OF(mesh, scratch)                                                                                     \
    MAKHNODRI_LISTS_OF(mesh), (mesh)->edge_order, (mesh)->edge_order_length, (mesh)->triangle_order, (mesh)->triangle_order_length, \
        (scratch)->table, (scratch)->table_length, (scratch)->places, (scratch)->places_length, (scratch)->boxes, (scratch)->boxes_length

/* How many pairs the rows from first up to and without end have, into *count. */
static inline uint32_t makhnodri_count_rows(const makhnodri_mesh *mesh, makhnodri_scratch *scratch, size_t first, size_t end,
                                     uint64_t *count) {
    return makhnodri_count_rows_slices(MAKHNODRI_ROW_LISTS_OF(mesh, scratch), first, end, count);
}

static inline uint32_t makhnodri_count_near_rows(const makhnodri_mesh *mesh, makhnodri_scratch *scratch, size_t first, size_t end,
                                     uint64_t *count) {
    return makhnodri_count_near_rows_slices(MAKHNODRI_ROW_LISTS_OF(mesh, scratch), first, end, count);
}

/* Their entries, in front of list; the rest of it is unchanged. Into *count goes how many; or 7, and how many need room. */
static inline uint32_t makhnodri_list_rows(const makhnodri_mesh *mesh, makhnodri_scratch *scratch, size_t first, size_t end,
                                     uint64_t *list, size_t list_length, uint64_t *count) {
    return makhnodri_list_rows_slices(MAKHNODRI_ROW_LISTS_OF(mesh, scratch), first, end, list, list_length, count);
}

static inline uint32_t makhnodri_list_near_rows(const makhnodri_mesh *mesh, makhnodri_scratch *scratch, size_t first, size_t end,
                                     uint64_t *list, size_t list_length, uint64_t *count) {
    return makhnodri_list_near_rows_slices(MAKHNODRI_ROW_LISTS_OF(mesh, scratch), first, end, list, list_length, count);
}

/* And the word of each, words[i] that of entry i. Room is the smaller of list_length and words_length. */
static inline uint32_t makhnodri_settle_rows(const makhnodri_mesh *mesh, makhnodri_scratch *scratch, size_t first, size_t end,
                                     uint64_t *list, size_t list_length, uint8_t *words, size_t words_length, uint64_t *count) {
    return makhnodri_settle_rows_slices(MAKHNODRI_ROW_LISTS_OF(mesh, scratch), first, end, list, list_length, words, words_length,
        count);
}

static inline uint32_t makhnodri_settle_near_rows(const makhnodri_mesh *mesh, makhnodri_scratch *scratch, size_t first, size_t end,
                                     uint64_t *list, size_t list_length, uint8_t *words, size_t words_length, uint64_t *count) {
    return makhnodri_settle_near_rows_slices(MAKHNODRI_ROW_LISTS_OF(mesh, scratch), first, end, list, list_length, words,
        words_length, count);
}

/*
 * And the contact of each hit: that of entry i begins at contacts[5 * i], as of makhnodri_contact_scene. 16 stands before 7. Room is the smallest
 * of list_length, words_length and contacts_length / 5, rounded down.
 */
static inline uint32_t makhnodri_contact_rows(const makhnodri_mesh *mesh, makhnodri_scratch *scratch, size_t first, size_t end,
                                     uint64_t *list, size_t list_length, uint8_t *words, size_t words_length, uint32_t *contacts,
                                     size_t contacts_length, uint64_t *count) {
    return makhnodri_contact_rows_slices(MAKHNODRI_ROW_LISTS_OF(mesh, scratch), first, end, list, list_length, words, words_length,
        contacts, contacts_length, count);
}

static inline uint32_t makhnodri_contact_near_rows(const makhnodri_mesh *mesh, makhnodri_scratch *scratch, size_t first, size_t end,
                                     uint64_t *list, size_t list_length, uint8_t *words, size_t words_length, uint32_t *contacts,
                                     size_t contacts_length, uint64_t *count) {
    return makhnodri_contact_near_rows_slices(MAKHNODRI_ROW_LISTS_OF(mesh, scratch), first, end, list, list_length, words,
        words_length, contacts, contacts_length, count);
}

/*
 * Of their pairs those whose words are asked for (MAKHNODRI_WANT_HITS and its like, added up): their entries and words, as of
 * makhnodri_settle_rows of those pairs alone. Into told go how many are kept, how many pairs there are, and how many of all these are
 * hits, misses, touches and aparts; or 7, and into told[0] how many need room: those that are kept, and no others.
 */
static inline uint32_t makhnodri_keep_rows(const makhnodri_mesh *mesh, makhnodri_scratch *scratch, size_t first, size_t end,
                                     uint32_t wanted, uint64_t *list, size_t list_length, uint8_t *words, size_t words_length,
                                     uint64_t told[MAKHNODRI_AT_LEAST(6)]) {
    return makhnodri_keep_rows_slices(MAKHNODRI_ROW_LISTS_OF(mesh, scratch), first, end, wanted, list, list_length, words,
        words_length, told);
}

static inline uint32_t makhnodri_keep_near_rows(const makhnodri_mesh *mesh, makhnodri_scratch *scratch, size_t first, size_t end,
                                     uint32_t wanted, uint64_t *list, size_t list_length, uint8_t *words, size_t words_length,
                                     uint64_t told[MAKHNODRI_AT_LEAST(6)]) {
    return makhnodri_keep_near_rows_slices(MAKHNODRI_ROW_LISTS_OF(mesh, scratch), first, end, wanted, list, list_length, words,
        words_length, told);
}

/*
 * And the contact of each hit that is kept: that of entry i begins at contacts[5 * i], as of makhnodri_contact_rows; the rows of pairs that are
 * kept and not hit stay as they were. 16 stands before 7, whichever words are asked for. Room is the smallest of list_length, words_length and
 * contacts_length / 5, rounded down, and is needed for those that are kept. What is told is as of makhnodri_keep_rows.
 */
static inline uint32_t makhnodri_keep_contacts(const makhnodri_mesh *mesh, makhnodri_scratch *scratch, size_t first, size_t end,
                                     uint32_t wanted, uint64_t *list, size_t list_length, uint8_t *words, size_t words_length,
                                     uint32_t *contacts, size_t contacts_length, uint64_t told[MAKHNODRI_AT_LEAST(6)]) {
    return makhnodri_keep_contacts_slices(MAKHNODRI_ROW_LISTS_OF(mesh, scratch), first, end, wanted, list, list_length, words,
        words_length, contacts, contacts_length, told);
}

static inline uint32_t makhnodri_keep_near_contacts(const makhnodri_mesh *mesh, makhnodri_scratch *scratch, size_t first, size_t end,
                                     uint32_t wanted, uint64_t *list, size_t list_length, uint8_t *words, size_t words_length,
                                     uint32_t *contacts, size_t contacts_length, uint64_t told[MAKHNODRI_AT_LEAST(6)]) {
    return makhnodri_keep_near_contacts_slices(MAKHNODRI_ROW_LISTS_OF(mesh, scratch), first, end, wanted, list, list_length, words,
        words_length, contacts, contacts_length, told);
}

/*
 * The edges from first up to and without end that are through a triangle at the start: an entry for each such edge and triangle, by edge
 * and then by triangle, in front of list. Rows are the edges here. Into *count goes how many; or 7, and how many need room.
 */
static inline uint32_t makhnodri_pierced_at_start_rows(const makhnodri_mesh *mesh, makhnodri_scratch *scratch, size_t first,
                                     size_t end, uint64_t *list, size_t list_length, uint64_t *count) {
    return makhnodri_pierced_at_start_rows_slices(MAKHNODRI_ROW_LISTS_OF(mesh, scratch), first, end, list, list_length, count);
}

/* The same at the end. */
static inline uint32_t makhnodri_pierced_at_end_rows(const makhnodri_mesh *mesh, makhnodri_scratch *scratch, size_t first,
                                     size_t end, uint64_t *list, size_t list_length, uint64_t *count) {
    return makhnodri_pierced_at_end_rows_slices(MAKHNODRI_ROW_LISTS_OF(mesh, scratch), first, end, list, list_length, count);
}

/* ---- Texts ---- */

/* has the scene point to the lists that stand in front of the buffers, with these counts */
static inline void makhnodri_scene_in(makhnodri_buffers *buffers, const size_t counts[MAKHNODRI_AT_LEAST(4)], makhnodri_scene *scene) {
    scene->positions = buffers->positions;
    scene->positions_length = 6 * counts[0];
    scene->edges = buffers->edges;
    scene->edges_length = 2 * counts[1];
    scene->triangles = buffers->triangles;
    scene->triangles_length = 3 * counts[2];
    scene->seams = buffers->seams;
    scene->seams_length = 2 * counts[3];
}

/*
 * Reads a scene text (docs/FORMAT.md) into the buffers, and has the scene point to what was read there. The answer is 0; or a
 * refusal, 12, 8, 9, 10, 11, 2, 3, 15 or 4, after which neither buffers nor scene have changed. A scene that was read is accepted by
 * the functions above, as long as its buffers are left as they are.
 *
 * makhnodri_read_scene_slices reads into four buffers of the caller's, at least MAKHNODRI_POSITIONS_LENGTH, MAKHNODRI_EDGES_LENGTH,
 * MAKHNODRI_TRIANGLES_LENGTH and MAKHNODRI_SEAMS_LENGTH long, else 12; and the counts of vertices, edges, triangles and seams into
 * the four numbers of counts. The scene stands in front of the buffers: 6 x counts[0] positions, 2 x counts[1] edge numbers,
 * 3 x counts[2] triangle numbers, 2 x counts[3] seam numbers; what lies behind is unchanged.
 */
static inline makhnodri_answer makhnodri_read_scene(const uint8_t *text, size_t text_length, makhnodri_buffers *buffers,
                                                    makhnodri_scene *scene) {
    size_t counts[4];
    makhnodri_answer answer = makhnodri_read_scene_slices(
        text, text_length, buffers->positions, MAKHNODRI_POSITIONS_LENGTH, buffers->edges, MAKHNODRI_EDGES_LENGTH, buffers->triangles,
        MAKHNODRI_TRIANGLES_LENGTH, buffers->seams, MAKHNODRI_SEAMS_LENGTH, counts);
    if (!makhnodri_refusal(answer)) makhnodri_scene_in(buffers, counts, scene);
    return answer;
}

/* An entry of a log: the step, counted from 1, and the pair that was hit in it, as an entry of a list. */
typedef struct makhnodri_hit {
    uint32_t step, entry;
} makhnodri_hit;

/*
 * What is told of a series. The log holds its first 64 hits, in step and list order: log[0] to log[held - 1]. Hits behind them are
 * counted in later; none replaces an entry. A touch is no hit. listed, hits, misses, touches and aparts are totals over all steps, and
 * first is the first step with a hit, or 0 where there is none.
 */
typedef struct makhnodri_told {
    makhnodri_hit log[MAKHNODRI_LOG_LIMIT];
    uint64_t held, later, listed, hits, misses, touches, aparts, first;
} makhnodri_told;

/*
 * Runs a series (docs/FORMAT.md): a scene, which is step 1, and blocks of next end positions; each step starts where the last ended. The
 * answer is the count of the last step's list. The list is then in front of list, the last step in the buffers, its boxes (six numbers
 * each, the three lows first: all vertices, then edges, then triangles) in front of boxes; scene points to the last step; the rest of
 * each buffer, and of the log, is unchanged. Or a refusal, after which nothing lent has changed: 8; a line of the text, 9, 10, 11, 13, 2,
 * 3, 15 or 4; 7 with the count needed, for the first step whose list has no room. No step is told then.
 *
 * makhnodri_tell_series_slices works with buffers of the caller's, at least MAKHNODRI_POSITIONS_LENGTH, MAKHNODRI_EDGES_LENGTH,
 * MAKHNODRI_TRIANGLES_LENGTH, MAKHNODRI_SEAMS_LENGTH and MAKHNODRI_BOXES_LENGTH long, else 12, before all others. counts is as for
 * makhnodri_read_scene_slices; log has two numbers an entry, step and pair; told has held, later, listed, hits, misses, touches, aparts
 * and first.
 */
static inline makhnodri_answer makhnodri_tell_series(const uint8_t *text, size_t text_length, makhnodri_buffers *buffers,
                                                     int32_t boxes[MAKHNODRI_AT_LEAST(MAKHNODRI_BOXES_LENGTH)], uint32_t *list,
                                                     size_t list_length, makhnodri_scene *scene, makhnodri_told *told) {
    size_t counts[4];
    uint32_t log[MAKHNODRI_LOG_LENGTH];
    uint64_t numbers[MAKHNODRI_TOLD_LENGTH];
    makhnodri_answer answer = makhnodri_tell_series_slices(
        text, text_length, buffers->positions, MAKHNODRI_POSITIONS_LENGTH, buffers->edges, MAKHNODRI_EDGES_LENGTH, buffers->triangles,
        MAKHNODRI_TRIANGLES_LENGTH, buffers->seams, MAKHNODRI_SEAMS_LENGTH, boxes, MAKHNODRI_BOXES_LENGTH, list, list_length, counts, log,
        numbers);
    if (makhnodri_refusal(answer)) return answer;
    scene->positions = buffers->positions;
    scene->positions_length = 6 * counts[0];
    scene->edges = buffers->edges;
    scene->edges_length = 2 * counts[1];
    scene->triangles = buffers->triangles;
    scene->triangles_length = 3 * counts[2];
    scene->seams = buffers->seams;
    scene->seams_length = 2 * counts[3];
    for (size_t i = 0; i < numbers[0]; i++) {
        told->log[i].step = log[2 * i];
        told->log[i].entry = log[2 * i + 1];
    }
    told->held = numbers[0];
    told->later = numbers[1];
    told->listed = numbers[2];
    told->hits = numbers[3];
    told->misses = numbers[4];
    told->touches = numbers[5];
    told->aparts = numbers[6];
    told->first = numbers[7];
    return answer;
}

/*
 * Reads a scene text into the buffers with the boxes of its scene, and has the boxed scene point to what was read there: as
 * makhnodri_read_scene and then makhnodri_fill_boxes. 0, or a refusal, 12, 8, 9, 10, 11, 2, 3, 15 or 4, after which neither buffers
 * nor scene have changed.
 *
 * makhnodri_read_boxed_slices takes the four buffers of makhnodri_read_scene_slices and one for the boxes, at least
 * MAKHNODRI_BOXES_LENGTH long, else 12; what lies behind the boxes is unchanged.
 */
static inline makhnodri_answer makhnodri_read_boxed(const uint8_t *text, size_t text_length, makhnodri_boxed_buffers *buffers,
                                                    makhnodri_boxed_scene *boxed) {
    size_t counts[4];
    makhnodri_buffers *lists = &buffers->lists;
    makhnodri_answer answer = makhnodri_read_boxed_slices(
        text, text_length, lists->positions, MAKHNODRI_POSITIONS_LENGTH, lists->edges, MAKHNODRI_EDGES_LENGTH, lists->triangles,
        MAKHNODRI_TRIANGLES_LENGTH, lists->seams, MAKHNODRI_SEAMS_LENGTH, buffers->boxes, MAKHNODRI_BOXES_LENGTH, counts);
    if (makhnodri_refusal(answer)) return answer;
    boxed->positions = lists->positions;
    boxed->positions_length = 6 * counts[0];
    boxed->edges = lists->edges;
    boxed->edges_length = 2 * counts[1];
    boxed->triangles = lists->triangles;
    boxed->triangles_length = 3 * counts[2];
    boxed->seams = lists->seams;
    boxed->seams_length = 2 * counts[3];
    boxed->boxes = buffers->boxes;
    boxed->boxes_length = MAKHNODRI_BOXES_LENGTH;
    return answer;
}


/*
 * ---- Two OBJ files ----
 *
 * Brings in two Wavefront OBJ files (docs/FORMAT.md), one for the start and one for the end: has the scene point to what they give, in the
 * buffers, without seams, and writes the box of each vertex, then of each edge, then of each triangle into boxes: six numbers each, the
 * three lows first, and what lies behind is unchanged. A coordinate is in hundredths of the files' unit; an edge stands once, as it first
 * appears. The answer is 0; or a refusal, after which nothing has changed. What a refusal of an import carries is told by
 * makhnodri_import_file and makhnodri_import_line, in the place of makhnodri_value.
 *
 * makhnodri_import_scene_slices brings them into buffers of the caller's, as long as those of makhnodri_read_scene_slices, and boxes of
 * at least MAKHNODRI_BOXES_LENGTH, else 12; and the counts into the four numbers of counts, of which the last is 0.
 */
static inline makhnodri_answer makhnodri_import_scene(const uint8_t *start, size_t start_length, const uint8_t *end, size_t end_length,
                                                      makhnodri_buffers *buffers, int32_t boxes[MAKHNODRI_AT_LEAST(MAKHNODRI_BOXES_LENGTH)],
                                                      makhnodri_scene *scene) {
    size_t counts[4];
    makhnodri_answer answer = makhnodri_import_scene_slices(
        start, start_length, end, end_length, buffers->positions, MAKHNODRI_POSITIONS_LENGTH, buffers->edges, MAKHNODRI_EDGES_LENGTH,
        buffers->triangles, MAKHNODRI_TRIANGLES_LENGTH, buffers->seams, MAKHNODRI_SEAMS_LENGTH, boxes, MAKHNODRI_BOXES_LENGTH, counts);
    if (!makhnodri_refusal(answer)) makhnodri_scene_in(buffers, counts, scene);
    return answer;
}

/* The file that a refusal of an import is about. */
enum {
    MAKHNODRI_NO_FILE = 0, /* 12 and 14 are about neither alone */
    MAKHNODRI_START_FILE = 1,
    MAKHNODRI_END_FILE = 2
};
static inline uint32_t makhnodri_import_file(makhnodri_answer answer) { return makhnodri_value(answer) >> 30; }

/* the line of that file, counted from 1, skipped lines too; or 0, where the file is too long or there is none */
static inline uint32_t makhnodri_import_line(makhnodri_answer answer) { return makhnodri_value(answer) & 0x3fffffff; }

/*
 * Writes the whole report of a text, as the program prints it, into the MAKHNODRI_REPORT_LENGTH bytes of out: the lines of the
 * listed pairs and the totals, or the one line of a refusal. Returns its length; what lies behind is unchanged.
 */
size_t makhnodri_write_report(const uint8_t *text, size_t text_length, uint8_t out[MAKHNODRI_AT_LEAST(MAKHNODRI_REPORT_LENGTH)]);

/*
 * Checks a partner's claims of contact beside a scene. The text of claims (docs/FORMAT.md) has a line for each: pt or ee, two places,
 * the piece, six weights in the order of the piece's points. A claim is answered by its weights alone: MAKHNODRI_YES exactly when each
 * is at most MAKHNODRI_WEIGHT_LIMIT, both simplices have the same sum above 0, and the weighted x, y, z and time agree. A yes means
 * that the piece meets: it is hit or touch. A no says nothing of the piece.
 * The answer is the count of claims, and answers[i] is that of line i + 1; the rest of answers is unchanged. Or a refusal, and no claim
 * is answered: 1, 2, 3, 15, 4 for the scene, 8, then 9, 5 or 6 with the line, last 7 with the count needed where answers has no room.
 */
static inline makhnodri_answer makhnodri_check_claims(const makhnodri_scene *scene, const uint8_t *claims, size_t claims_length,
                                                      uint8_t *answers, size_t answers_length) {
    return makhnodri_check_claims_slices(MAKHNODRI_LISTS_OF(scene), claims, claims_length, answers, answers_length);
}

/*
 * The length in bytes of a scene's text (docs/FORMAT.md), or a refusal: 1, 2, 3, 15, 4 for the scene, then 8 where the text is over
 * MAKHNODRI_TEXT_LIMIT bytes. So many bytes are enough for makhnodri_save_scene, and none fewer are.
 */
static inline makhnodri_answer makhnodri_saved_length(const makhnodri_scene *scene) {
    return makhnodri_saved_length_slices(MAKHNODRI_LISTS_OF(scene));
}

/*
 * Saves a scene: writes its text in front of a lent buffer and returns its length; the rest of the buffer is unchanged. Each record has
 * its numbers as the scene has them. Read back it is the same scene, seams included, and what was read from a text is saved as the same
 * bytes. A refusal writes nothing: as for makhnodri_saved_length, then 7 with the length needed where the buffer is shorter.
 */
static inline makhnodri_answer makhnodri_save_scene(const makhnodri_scene *scene, uint8_t *text, size_t text_length) {
    return makhnodri_save_scene_slices(MAKHNODRI_LISTS_OF(scene), text, text_length);
}

#ifdef __cplusplus
}
#endif

#endif
