/* The library through its header, on the worked examples of the rule book. Every value that is expected stands in the rule book, or follows from it
 * by hand; none was taken from a run. */
#include "try.h"
#include <math.h>

/* ---- builds */

static void builds(void) {
    static const uint32_t bow[] = {0, 1, 2, 0, 3, 4}, twice[] = {0, 1, 2, 0, 1, 3};
    strandomir_table t = new_A();
    size_t skipped = 9;
    expect_table("A", &t, "0 1 2", "", "0 1 2");
    expect_point("A: vertex 2", &t, 2, 2, 4, 2.5f);
    expect_text("A: the slots after those used are blank", list_text(t.corner_vertex + 3, t.corner_mark + 3, 2).text, "0 0");
    free_table(&t);

    t = new_B();
    expect_table("B", &t, "0 1 2 0 2 3", "1-5", "3 1 4 5");
    free_table(&t);

    t = new_T();
    expect_table("T", &t, "0 1 2 0 2 3 0 3 1 1 3 2", "0-10 1-5 2-7 3-9 4-8 6-11", "6 9 11 10");
    free_table(&t);

    t = new_table(6, 6);
    expect_number("two fans at a vertex", build(&t, 5, bow, 6, &skipped), STRANDOMIR_DONE);
    expect_table("two fans at a vertex", &t, "5 1 2 0 3 4", "", "3 1 2 4 5 0");
    expect_point("two fans at a vertex: the new one is at the same point", &t, 5, 0, 0, 0.5f);
    expect_number("two fans at a vertex: skipped", skipped, 0);
    free_table(&t);

    t = new_table(4, 6);
    expect_number("an edge twice", build(&t, 4, twice, 6, &skipped), STRANDOMIR_DONE);
    expect_table("an edge twice", &t, "0 1 2", "", "0 1 2 -x");
    expect_number("an edge twice: skipped", skipped, 1);
    free_table(&t);

    t = new_table(1, 3);
    expect_number("empty lists", build(&t, 0, faces_A, 0, &skipped), STRANDOMIR_DONE);
    expect_number("empty lists: vertices", t.vertices, 0);
    expect_table("empty lists", &t, "", "", "");
    free_table(&t);
}

/* ---- builds refused: all but 1 leave a blank table, and 0 skipped */

static void expect_blank(const char *what, const strandomir_table *t) {
    size_t i;
    expect_number(what, t->vertices + t->corners, 0);
    for (i = 0; i < t->corner_room; i++) {
        expect_number(what, t->corner_vertex[i], 0);
        expect_number(what, t->corner_opposite[i], STRANDOMIR_ABSENT);
        expect_number(what, t->corner_mark[i], 0);
    }
    for (i = 0; i < t->vertex_room; i++) {
        expect_number(what, t->vertex_corner[i], STRANDOMIR_ABSENT);
        expect_number(what, t->vertex_mark[i], 0);
        expect_point(what, t, (uint32_t)i, 0, 0, 0);
    }
}

static void refused_build(const char *what, size_t vertex_room, size_t corner_room, size_t points, const uint32_t *faces,
                          size_t faces_length, uint32_t want) {
    strandomir_table t = new_table(vertex_room, corner_room);
    size_t skipped = 9;
    expect_number(what, build(&t, points, faces, faces_length, &skipped), want);
    expect_number(what, skipped, 0);
    expect_blank(what, &t);
    free_table(&t);
}

static void refused_builds(void) {
    static const uint32_t large[] = {0, 1, 3}, repeated[] = {0, 1, 1}, bow[] = {0, 1, 2, 0, 3, 4};
    float endless[9] = {0, 0, 0, 0, INFINITY, 0, 0, 0, 0};
    strandomir_table t;
    refused_build("an index too large", 3, 3, 3, large, 3, STRANDOMIR_INDEX_TOO_LARGE);
    refused_build("a repeated vertex", 3, 3, 3, repeated, 3, STRANDOMIR_REPEATED_VERTEX);
    refused_build("more points than room", 2, 3, 3, faces_A, 3, STRANDOMIR_NO_VERTEX_ROOM);
    refused_build("no room for a duplicate", 5, 6, 5, bow, 6, STRANDOMIR_NO_VERTEX_ROOM);
    refused_build("no room for a face", 4, 5, 4, faces_B, 6, STRANDOMIR_NO_CORNER_ROOM);

    t = new_table(3, 3);
    expect_number("a point that is not finite", strandomir_table_build(&t, endless, 9, faces_A, 3, NULL), STRANDOMIR_NOT_FINITE);
    expect_blank("a point that is not finite", &t);
    free_table(&t);

    t = new_A();
    expect_number("a third of a point", strandomir_table_build(&t, endless, 8, faces_A, 3, NULL), STRANDOMIR_PARTS_DISAGREE);
    expect_table("a third of a point leaves A", &t, "0 1 2", "", "0 1 2");
    free_table(&t);
}

/* ---- edits */

/* An edit of a mesh that is made for it and thrown away. */
static void edited(const char *what, strandomir_table t, uint32_t kind, uint32_t target, const char *corners, const char *pairs,
                   const char *vertices) {
    expect_number(what, strandomir_table_edit(&t, kind, target, 7, 8, 9), STRANDOMIR_DONE);
    expect_table(what, &t, corners, pairs, vertices);
    free_table(&t);
}

static void edits(void) {
    edited("B, flip 1", new_B(), STRANDOMIR_FLIP_EDGE, 1, "1 2 3 1 3 0", "1-5", "5 0 1 2");
    edited("A, split face 0", new_A(), STRANDOMIR_SPLIT_FACE, 0, "0 1 3 1 2 3 2 0 3", "0-4 1-6 3-7", "0 1 4 2");
    edited("A, split edge 0", new_A(), STRANDOMIR_SPLIT_EDGE, 0, "0 1 2 0 3 1", "2-4", NULL);
    edited("B, split edge 1", new_B(), STRANDOMIR_SPLIT_EDGE, 1, "0 1 2 0 2 3 1 4 2 4 3 2", "0-7 1-5 3-9 6-10", "3 1 2 5 7");
    edited("T, collapse 0", new_T(), STRANDOMIR_COLLAPSE_EDGE, 0, "0x 1x 1x 0 1 3 0 3 1 1x 3x 1x", "3-6 4-8 5-7", "6 8 11x 5");
}

static void points(void) {
    strandomir_table t = new_A();
    expect_number("A, split edge 0", strandomir_table_edit(&t, STRANDOMIR_SPLIT_EDGE, 0, 7, 8, 9), STRANDOMIR_DONE);
    expect_point("A, split edge 0: vertex 1 is at the new point", &t, 1, 7, 8, 9);
    expect_point("A, split edge 0: vertex 3 has its old place", &t, 3, 1, 1, 1.5f);
    free_table(&t);

    t = new_A();
    expect_number("A, split face 0", strandomir_table_edit(&t, STRANDOMIR_SPLIT_FACE, 0, 7, 8, 9), STRANDOMIR_DONE);
    expect_point("A, split face 0: vertex 3 is at the new point", &t, 3, 7, 8, 9);
    free_table(&t);

    t = new_T();
    expect_number("T, collapse 0", strandomir_table_edit(&t, STRANDOMIR_COLLAPSE_EDGE, 0, 7, 8, 9), STRANDOMIR_DONE);
    expect_point("T, collapse 0: vertex 1 is moved", &t, 1, 7, 8, 9);
    free_table(&t);
}

/* ---- edits refused: nothing changes */

static void refused_edit(const char *what, strandomir_table *t, uint32_t kind, uint32_t target, float x, uint32_t want) {
    size_t words = STRANDOMIR_WORDS(t->vertex_room, t->corner_room) * sizeof(uint32_t);
    size_t floats = STRANDOMIR_FLOATS(t->vertex_room) * sizeof(float);
    uint32_t vertices = t->vertices, corners = t->corners;
    strandomir_table before = new_table(t->vertex_room, t->corner_room);
    memcpy(before.corner_vertex, t->corner_vertex, words);
    memcpy(before.vertex_point, t->vertex_point, floats);
    expect_number(what, strandomir_table_edit(t, kind, target, x, 0, 0), want);
    expect_number(what, memcmp(before.corner_vertex, t->corner_vertex, words) == 0, 1);
    expect_number(what, memcmp(before.vertex_point, t->vertex_point, floats) == 0, 1);
    expect_number(what, t->vertices == vertices && t->corners == corners, 1);
    free_table(&before);
}

static void refused_on_B(void) {
    strandomir_table t = new_B();
    refused_edit("B, flip 0", &t, STRANDOMIR_FLIP_EDGE, 0, 0, STRANDOMIR_BORDER);
    refused_edit("B, collapse 1", &t, STRANDOMIR_COLLAPSE_EDGE, 1, 0, STRANDOMIR_BORDER);
    refused_edit("B, flip 6", &t, STRANDOMIR_FLIP_EDGE, 6, 0, STRANDOMIR_NO_SUCH_TARGET);
    refused_edit("B, split face 2", &t, STRANDOMIR_SPLIT_FACE, 2, 0, STRANDOMIR_NO_SUCH_TARGET);
    refused_edit("B, split edge at NaN", &t, STRANDOMIR_SPLIT_EDGE, 1, NAN, STRANDOMIR_NOT_FINITE);
    refused_edit("kind 0", &t, 0, 1, 0, STRANDOMIR_UNKNOWN_KIND);
    refused_edit("kind 5", &t, 5, 1, 0, STRANDOMIR_UNKNOWN_KIND);
    free_table(&t);
}

static void refused_on_T(void) {
    strandomir_table t = new_T();
    expect_number("T, collapse 0", strandomir_table_edit(&t, STRANDOMIR_COLLAPSE_EDGE, 0, 0, 0, 0), STRANDOMIR_DONE);
    refused_edit("then collapse 3", &t, STRANDOMIR_COLLAPSE_EDGE, 3, 0, STRANDOMIR_SAME_VERTEX);
    refused_edit("then flip 3", &t, STRANDOMIR_FLIP_EDGE, 3, 0, STRANDOMIR_SAME_VERTEX);
    refused_edit("then flip 0", &t, STRANDOMIR_FLIP_EDGE, 0, 0, STRANDOMIR_TARGET_DELETED);
    refused_edit("then split face 3", &t, STRANDOMIR_SPLIT_FACE, 3, 0, STRANDOMIR_TARGET_DELETED);
    free_table(&t);

    /* Face 0 split at vertex 4: 0 and 1 then have the neighbours 2, 3 and 4 in common, and corner 2 names their edge. */
    t = new_T();
    expect_number("T, split face 0", strandomir_table_edit(&t, STRANDOMIR_SPLIT_FACE, 0, 0, 0, 0), STRANDOMIR_DONE);
    refused_edit("then collapse 2", &t, STRANDOMIR_COLLAPSE_EDGE, 2, 0, STRANDOMIR_UNSAFE_COLLAPSE);
    free_table(&t);
}

static void split_in_room(size_t vertex_room, size_t corner_room, uint32_t want) {
    strandomir_table t = new_table(vertex_room, corner_room);
    expect_number("A", build(&t, 3, faces_A, 3, NULL), STRANDOMIR_DONE);
    expect_number("A, split face 0 in little room", strandomir_table_edit(&t, STRANDOMIR_SPLIT_FACE, 0, 0, 0, 0), want);
    free_table(&t);
}

static void rooms(void) {
    split_in_room(3, 9, STRANDOMIR_NO_VERTEX_ROOM);
    split_in_room(4, 8, STRANDOMIR_NO_CORNER_ROOM);
    split_in_room(4, 9, STRANDOMIR_DONE);
}

/* ---- whole scripts */

static void scripts(void) {
    uint32_t script[3 * STRANDOMIR_COMMAND_WORDS], answers[4] = {77, 77, 77, 77};
    strandomir_table t = new_B();
    strandomir_ran r;
    strandomir_command(script, STRANDOMIR_FLIP_EDGE, 0, 0, 0, 0);
    strandomir_command(script + 5, STRANDOMIR_FLIP_EDGE, 1, 0, 0, 0);
    strandomir_command(script + 10, 9, 1, 0, 0, 0);

    r = strandomir_table_run(&t, script, 14, answers, 4);
    expect_number("fourteen words", r.answer, STRANDOMIR_BAD_SCRIPT);
    r = strandomir_table_run(&t, script, 15, answers, 2);
    expect_number("two answer words to three commands", r.answer, STRANDOMIR_BAD_SCRIPT);
    expect_text("no answer word is written", list_text(answers, NULL, 4).text, "77 77 77 77");

    r = strandomir_table_run(&t, script, 15, answers, 4);
    expect_number("a run goes on after a refused command", r.answer, STRANDOMIR_DONE);
    expect_text("an answer word to each command", list_text(answers, NULL, 4).text, "11 0 14 77");
    expect_table("B, flip 1 among others", &t, "1 2 3 1 3 0", "1-5", "5 0 1 2");

    t.corner_mark[4] = 2;
    r = strandomir_table_run(&t, script, 15, answers, 4);
    expect_number("a mark of 2", r.answer, STRANDOMIR_NOT_WELL_FORMED);
    expect_number("a mark of 2: rule", r.rule, 2);
    expect_number("a mark of 2: slot", r.slot, 4);
    expect_number("a mark of 2: counts", r.vertices == 4 && r.corners == 6, 1);
    free_table(&t);
}

static void checks(void) {
    strandomir_table t = new_B();
    strandomir_checked r;
    t.vertices = 7; /* room is 6 */
    r = strandomir_table_check(&t);
    expect_number("R1", r.answer == STRANDOMIR_NOT_WELL_FORMED && r.rule == 1 && r.slot == 0, 1);
    t.vertices = 4;
    t.corner_opposite[5] = 0;
    r = strandomir_table_check(&t);
    expect_number("R4 at the lowest slot", r.answer == STRANDOMIR_NOT_WELL_FORMED && r.rule == 4 && r.slot == 1, 1);
    t.corner_opposite[5] = 1;
    t.vertex_point[3] = INFINITY;
    r = strandomir_table_check(&t);
    expect_number("R6", r.answer == STRANDOMIR_NOT_WELL_FORMED && r.rule == 6 && r.slot == 1, 1);
    t.vertex_room = STRANDOMIR_MAX_VERTICES + 1; /* refused by the lengths alone */
    r = strandomir_table_check(&t);
    expect_number("room above the maximum", r.answer == STRANDOMIR_PARTS_DISAGREE && r.rule == 0 && r.slot == 0, 1);
    free_table(&t);
}

/* ---- rings */

typedef strandomir_listed ring_call(const strandomir_table *, uint32_t, uint32_t *, size_t);

static void ring(const char *what, ring_call *call, const strandomir_table *t, uint32_t vertex, uint32_t visited, const char *want) {
    uint32_t list[8] = {77, 77, 77, 77, 77, 77, 77, 77};
    strandomir_listed r = call(t, vertex, list, 8);
    expect_number(what, r.answer, STRANDOMIR_DONE);
    expect_number(what, r.visited, visited);
    expect_text(what, list_text(list, NULL, r.written).text, want);
    expect_number(what, list[r.written], 77);
}

static void refused_ring(const char *what, const strandomir_table *t, uint32_t vertex, size_t room, uint32_t want) {
    uint32_t list[8] = {77, 77, 77, 77, 77, 77, 77, 77};
    strandomir_listed r = strandomir_table_ring_vertices(t, vertex, list, room);
    expect_number(what, r.answer, want);
    expect_number(what, r.visited + r.written, 0);
    expect_text(what, list_text(list, NULL, 8).text, "77 77 77 77 77 77 77 77");
}

static void rings(void) {
    strandomir_table t = new_B();
    ring("B, vertex 0: corners", strandomir_table_ring_corners, &t, 0, 2, "3 0");
    ring("B, vertex 0: vertices", strandomir_table_ring_vertices, &t, 0, 2, "3 2 1");
    ring("B, vertex 0: faces", strandomir_table_ring_faces, &t, 0, 2, "1 0");
    ring("B, vertex 0: edges", strandomir_table_ring_edges, &t, 0, 2, "4 5 2");
    ring("B, vertex 0: bounding edges", strandomir_table_ring_bounding_edges, &t, 0, 2, "3 0");
    refused_ring("room for two of three", &t, 0, 2, STRANDOMIR_LIST_TOO_SMALL);
    refused_ring("B, vertex 4", &t, 4, 8, STRANDOMIR_NO_SUCH_TARGET);
    t.corner_opposite[5] = 77;
    refused_ring("an opposite that is not there", &t, 0, 8, STRANDOMIR_TANGLED);
    free_table(&t);

    t = new_T();
    ring("T, vertex 0: corners", strandomir_table_ring_corners, &t, 0, 3, "6 0 3");
    ring("T, vertex 0: vertices", strandomir_table_ring_vertices, &t, 0, 3, "1 2 3");
    ring("T, vertex 0: faces", strandomir_table_ring_faces, &t, 0, 3, "2 0 1");
    ring("T, vertex 0: edges", strandomir_table_ring_edges, &t, 0, 3, "7 1 4");
    ring("T, vertex 0: bounding edges", strandomir_table_ring_bounding_edges, &t, 0, 3, "6 0 3");
    expect_number("T, collapse 0", strandomir_table_edit(&t, STRANDOMIR_COLLAPSE_EDGE, 0, 0, 0, 0), STRANDOMIR_DONE);
    refused_ring("T, collapse 0: vertex 2", &t, 2, 8, STRANDOMIR_TARGET_DELETED);
    free_table(&t);
}

/* ---- walkers */

typedef strandomir_moved move_call(const strandomir_table *, uint32_t *);

static void walk(const char *what, move_call *call, const strandomir_table *t, uint32_t from, uint32_t to, uint32_t answer) {
    uint32_t corner = from;
    strandomir_moved r = call(t, &corner);
    expect_number(what, r.answer, answer);
    expect_number(what, corner, to);
    expect_number(what, r.moved, from != to);
}

static void walks(void) {
    strandomir_table t = new_B();
    walk("next of 5", strandomir_table_move_to_next, &t, 5, 3, STRANDOMIR_DONE);
    walk("previous of 3", strandomir_table_move_to_previous, &t, 3, 5, STRANDOMIR_DONE);
    walk("opposite of 5", strandomir_table_move_to_opposite, &t, 5, 1, STRANDOMIR_DONE);
    walk("opposite of 3: there is none", strandomir_table_move_to_opposite, &t, 3, 3, STRANDOMIR_DONE);
    walk("left of 0", strandomir_table_swing_left_or_stay, &t, 0, 3, STRANDOMIR_DONE);
    walk("left of 3: a border", strandomir_table_swing_left_or_stay, &t, 3, 3, STRANDOMIR_DONE);
    walk("right of 3", strandomir_table_swing_right_or_stay, &t, 3, 0, STRANDOMIR_DONE);
    walk("right of 0: a border", strandomir_table_swing_right_or_stay, &t, 0, 0, STRANDOMIR_DONE);
    walk("from a corner that is not used", strandomir_table_move_to_next, &t, 6, 6, STRANDOMIR_NO_SUCH_TARGET);
    t.corner_opposite[1] = 77;
    walk("left of 0, halfway", strandomir_table_swing_left_or_stay, &t, 0, 0, STRANDOMIR_TANGLED);
    t.corner_mark[3] = 1;
    walk("from a deleted corner", strandomir_table_move_to_next, &t, 3, 3, STRANDOMIR_TARGET_DELETED);
    t.corner_room += STRANDOMIR_MAX_CORNERS;
    walk("room above the maximum", strandomir_table_move_to_next, &t, 5, 5, STRANDOMIR_PARTS_DISAGREE);
    free_table(&t);
}

/* ---- the small functions */

static void numbers(void) {
    uint32_t word[STRANDOMIR_COMMAND_WORDS], answer;
    expect_number("next of 2", strandomir_next(2), 0);
    expect_number("next of 3", strandomir_next(3), 4);
    expect_number("previous of 3", strandomir_previous(3), 5);
    expect_number("previous of 5", strandomir_previous(5), 4);
    expect_number("first corner of face 4", strandomir_face_corner(4), 12);
    expect_number("face of corner 14", strandomir_corner_face(14), 4);
    strandomir_command(word, STRANDOMIR_SPLIT_EDGE, 12, 1.0f, -2.0f, 0.0f);
    expect_text("a command's words", list_text(word, NULL, 5).text, "3 12 1065353216 3221225472 0");
    for (answer = STRANDOMIR_DONE; answer <= STRANDOMIR_LIST_TOO_SMALL; answer++)
        expect_number("each answer has a sentence", strcmp(strandomir_says(answer), strandomir_says(17)) != 0, 1);
}

/* Parts that disagree can't be said with a strandomir_table: straight to the call. */
static void disagreeing(void) {
    strandomir_table t = new_A();
    strandomir_built r = strandomir_build(t.corner_vertex, 3, t.corner_opposite, 2, t.corner_mark, 3, t.vertex_corner, 3, t.vertex_mark, 3,
                                          t.vertex_point, 9, t.vertices, t.corners, t.vertex_point + 9, 0, faces_A, 3);
    expect_number("parts that disagree", r.answer, STRANDOMIR_PARTS_DISAGREE);
    expect_number("parts that disagree: counts come back", r.vertices == 3 && r.corners == 3, 1);
    expect_table("parts that disagree leave A", &t, "0 1 2", "", "0 1 2");
    free_table(&t);
}

int main(void) {
    builds();
    refused_builds();
    disagreeing();
    edits();
    points();
    refused_on_B();
    refused_on_T();
    rooms();
    scripts();
    checks();
    rings();
    walks();
    numbers();
    return verdict("worked.c");
}
