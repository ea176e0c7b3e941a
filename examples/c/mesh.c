/*
 * A mesh of any size, from memory: a sheet of cloth falls on a bar, frame after frame, and the picture is frozen at the first contact. Threads take
 * stretches of rows, each with scratch of its own; what they find does not depend on how many they are.
 *
 *     examples/c/run mesh            a sheet of 60 x 60 vertices, 2 threads
 *     examples/c/run mesh 200 4      200 x 200 vertices, 4 threads
 */
#define _POSIX_C_SOURCE 200809L
#include "makhnodri.h"

#include <pthread.h>
#include <stdio.h>
#include <stdlib.h>

enum { STEP = 100, FRAMES = 40, FALL = 70, THREADS = 64 };

static makhnodri_mesh mesh;
static size_t side, vertices;
static int32_t *positions;

/* the lists, and what a thread found first: the smallest time, on a tie the lowest entry */
typedef struct part {
    pthread_t thread;
    size_t first, end;
    makhnodri_scratch scratch;
    uint64_t *list, entry, count;
    uint8_t *words;
    uint32_t *contacts, contact[MAKHNODRI_CONTACT_LENGTH], refusal;
    size_t room;
    int hit;
} part;

static void *room_for(size_t count, size_t size) {
    void *room = calloc(count ? count : 1, size);
    if (!room) exit(2);
    return room;
}

/* a sheet of side x side vertices over a bar, a triangle that stands upright and stays where it is */
static void make(void) {
    vertices = side * side + 3;
    positions = room_for(6 * vertices, sizeof *positions);
    uint32_t *triangles = room_for(6 * side * side, sizeof *triangles), *edges = room_for(6 * side * side, sizeof *edges);
    size_t t = 0, e = 0;
    for (size_t y = 0; y < side; y++)
        for (size_t x = 0; x < side; x++) {
            uint32_t v = (uint32_t)(side * y + x), below = v + (uint32_t)side;
            if (x + 1 < side) edges[e++] = v, edges[e++] = v + 1;
            if (y + 1 < side) edges[e++] = v, edges[e++] = below;
            if (x + 1 == side || y + 1 == side) continue;
            edges[e++] = v + 1, edges[e++] = below;
            triangles[t++] = v, triangles[t++] = v + 1, triangles[t++] = below;
            triangles[t++] = v + 1, triangles[t++] = below + 1, triangles[t++] = below;
        }
    uint32_t bar = (uint32_t)(side * side);
    for (uint32_t k = 0; k < 3; k++) triangles[t++] = bar + k, edges[e++] = bar + k, edges[e++] = bar + (k + 1) % 3;
    mesh.positions = positions, mesh.positions_length = 6 * vertices;
    mesh.edges = edges, mesh.edges_length = e, mesh.triangles = triangles, mesh.triangles_length = t;
}

/* where vertex v stands at the end of a frame; the sheet hangs through in the middle */
static void place(size_t v, int frame, int32_t at[3]) {
    int32_t x = (int32_t)(v % side), y = (int32_t)(v / side), half = (int32_t)side / 2;
    at[0] = STEP * x, at[1] = STEP * y;
    at[2] = 1000 - FALL * frame + ((x - half) * (x - half) + (y - half) * (y - half)) * 60 / (int32_t)side;
    if (v < side * side) return;
    at[0] = v == side * side ? -STEP : STEP * (int32_t)side + STEP;
    at[1] = STEP * half + 33, at[2] = v < side * side + 2 ? 5 : -2000;
}

static void set_frame(int frame) {
    for (size_t v = 0; v < vertices; v++) place(v, frame - 1, positions + 6 * v), place(v, frame, positions + 6 * v + 3);
}

/* near rows: no hit is missed, and on falling cloth they are few. How many there are is told by 7, and there is room then */
static void *judge(void *given) {
    part *p = given;
    do {
        if (p->count > p->room) {
            p->room = p->count;
            free(p->list), free(p->words), free(p->contacts);
            p->list = room_for(p->room, sizeof *p->list), p->words = room_for(p->room, 1);
            p->contacts = room_for(MAKHNODRI_CONTACT_LENGTH * p->room, sizeof *p->contacts);
        }
        p->refusal = makhnodri_contact_near_rows(&mesh, &p->scratch, p->first, p->end, p->list, p->room, p->words, p->room, p->contacts,
                                                 MAKHNODRI_CONTACT_LENGTH * p->room, &p->count);
    } while (p->refusal == MAKHNODRI_NO_ROOM);
    p->hit = 0;
    for (size_t i = 0; !p->refusal && i < p->count; i++) {
        const uint32_t *contact = p->contacts + MAKHNODRI_CONTACT_LENGTH * i;
        if (p->words[i] != MAKHNODRI_HIT || (p->hit && contact[1] >= p->contact[1])) continue;
        p->hit = 1, p->entry = p->list[i];
        for (int k = 0; k < MAKHNODRI_CONTACT_LENGTH; k++) p->contact[k] = contact[k];
    }
    return NULL;
}

int main(int words, char **word) {
    side = words > 1 ? (size_t)atol(word[1]) : 60;
    size_t threads = words > 2 ? (size_t)atol(word[2]) : 2;
    if (side < 2 || side > 2600 || threads < 1 || threads > THREADS) return fprintf(stderr, "usage: mesh [SIDE [THREADS]]\n"), 2;
    make();
    static part parts[THREADS];
    size_t rows = makhnodri_row_count(&mesh);
    for (size_t i = 0; i < threads; i++) {
        part *p = &parts[i];
        p->first = rows * i / threads, p->end = rows * (i + 1) / threads;
        p->scratch.places_length = makhnodri_place_room(&mesh), p->scratch.boxes_length = makhnodri_near_box_room(&mesh);
        p->scratch.places = room_for(p->scratch.places_length, sizeof *p->scratch.places);
        p->scratch.boxes = room_for(p->scratch.boxes_length, sizeof *p->scratch.boxes);
    }
    printf("%zu vertices, %zu edges, %zu triangles\n", vertices, mesh.edges_length / 2, mesh.triangles_length / 3);
    for (int frame = 1; frame <= FRAMES; frame++) {
        set_frame(frame);
        for (size_t i = 0; i < threads; i++)
            if (pthread_create(&parts[i].thread, NULL, judge, &parts[i])) return 2;
        part *found = NULL;
        for (size_t i = 0; i < threads; i++) {
            part *p = &parts[i];
            pthread_join(p->thread, NULL);
            if (p->refusal) return printf("refused %u: %s\n", p->refusal, makhnodri_refusal_words(p->refusal)), 1;
            if (p->hit && (!found || p->contact[1] < found->contact[1])) found = p;
        }
        if (!found) continue;
        printf("frame %d, at %.6f of it: %s %u %u, piece %u, shares %.6f %.6f %.6f\n", frame, makhnodri_contact_time(found->contact),
               makhnodri_mesh_entry_kind(found->entry) ? "ee" : "pt", makhnodri_mesh_entry_first(found->entry),
               makhnodri_mesh_entry_second(found->entry), found->contact[0], makhnodri_contact_share(found->contact, 0),
               makhnodri_contact_share(found->contact, 1), makhnodri_contact_share(found->contact, 2));
        return 0;
    }
    puts("no contact");
    return 0;
}
