/* strandomir: a proved mesh editor over a corner table in memory that the caller lends. For C99 and C++11; link libstrandomir.a.
 *
 * A table is six arrays and two counts. Face f has the corners 3f, 3f+1 and 3f+2. A corner has a vertex, an opposite corner (or
 * STRANDOMIR_ABSENT) and a mark; a vertex has a corner, a point of three floats and a mark. Mark 0 is live, 1 is deleted. An edge is named by the
 * corner opposite to it: it runs from the next corner's vertex to the previous corner's vertex. New slots go on the end, and deleted ones are
 * not used again.
 *
 * Every call takes any contents, ends, and allocates nothing. What the caller owes is what C cannot check: each pointer is valid and
 * aligned for so many elements (and not null, also for none), and memory that a call writes overlaps no other memory that it is lent.
 *
 *     uint32_t words[STRANDOMIR_WORDS(1024, 6144)];
 *     float floats[STRANDOMIR_FLOATS(1024)];
 *     strandomir_table t = strandomir_table_over(words, floats, 1024, 6144);
 *     uint32_t answer = strandomir_table_build(&t, points, 3 * n, faces, 3 * m, NULL);
 *     if (answer != STRANDOMIR_DONE) puts(strandomir_says(answer));
 */
#ifndef STRANDOMIR_H
#define STRANDOMIR_H

#include <stddef.h>
#include <stdint.h>
#include <string.h>

#ifdef __cplusplus
extern "C" {
#endif

/* ---- numbers */

/* No corner: the opposite of a corner at a border. */
#define STRANDOMIR_ABSENT UINT32_MAX

/* The largest rooms that a table may have. */
#define STRANDOMIR_MAX_VERTICES 65535u
#define STRANDOMIR_MAX_CORNERS 196605u

/* The words and floats of a table with these rooms, for strandomir_table_over. */
#define STRANDOMIR_WORDS(vertex_room, corner_room) (3 * (size_t)(corner_room) + 2 * (size_t)(vertex_room))
#define STRANDOMIR_FLOATS(vertex_room) (3 * (size_t)(vertex_room))

/* Words to a command of a script. */
#define STRANDOMIR_COMMAND_WORDS 5

/* What a call, or a command of a script, answers. strandomir_says has a sentence for each. */
enum strandomir_answer {
    STRANDOMIR_DONE = 0,             /* done */
    STRANDOMIR_PARTS_DISAGREE = 1,   /* lent parts disagree in length, or room above the maximum; nothing written */
    STRANDOMIR_INDEX_TOO_LARGE = 2,  /* build: a face names a vertex that is not there; the table is blank */
    STRANDOMIR_REPEATED_VERTEX = 3,  /* build: a face names a vertex twice; the table is blank */
    STRANDOMIR_NOT_FINITE = 4,       /* a point holds an infinity or NaN; after a build the table is blank, after an edit unchanged */
    STRANDOMIR_NO_VERTEX_ROOM = 5,   /* no room for a vertex; the table is left as after 4 */
    STRANDOMIR_NO_CORNER_ROOM = 6,   /* no room for a face's corners; the table is left as after 4 */
    STRANDOMIR_NOT_WELL_FORMED = 7,  /* the table breaks a rule, which is named with a slot; nothing written */
    STRANDOMIR_BAD_SCRIPT = 8,       /* run: not five words to a command, or too few answer words; nothing written */
    STRANDOMIR_NO_SUCH_TARGET = 9,   /* the corner, face or vertex is not used; nothing changed, as after all below */
    STRANDOMIR_TARGET_DELETED = 10,  /* the corner, face or vertex is deleted */
    STRANDOMIR_BORDER = 11,          /* flip: the edge has one face; collapse: an end of the edge lies on the border */
    STRANDOMIR_SAME_VERTEX = 12,     /* flip, collapse: the edge has the same vertex on both sides */
    STRANDOMIR_UNSAFE_COLLAPSE = 13, /* collapse: a third face holds both ends, or they have not exactly two neighbours in common */
    STRANDOMIR_UNKNOWN_KIND = 14,    /* a command's kind is none of the four */
    STRANDOMIR_TANGLED = 15,         /* ring, move: the walk met a corner that is not live, or did not end; never on a well-formed table */
    STRANDOMIR_LIST_TOO_SMALL = 16   /* ring: the list has too little room */
};

/* The kinds of a script's commands. The target is an edge's corner; for the last kind a face. */
enum strandomir_kind {
    STRANDOMIR_COLLAPSE_EDGE = 1, /* moves next's vertex to the point, and deletes previous's vertex and the edge's two faces */
    STRANDOMIR_FLIP_EDGE = 2,     /* turns the edge inside its two faces; the point is not read */
    STRANDOMIR_SPLIT_EDGE = 3,    /* moves next's vertex to the point; a new vertex takes its old place, and each face of the edge becomes two */
    STRANDOMIR_SPLIT_FACE = 4     /* a new vertex at the point; the face becomes three */
};

/* ---- what the calls answer */

/* vertices and corners: the counts of the table after the call. skipped: faces left out, each for an edge that a face before it has already
 * in the same direction. */
typedef struct strandomir_built {
    uint32_t answer, vertices, corners;
    size_t skipped;
} strandomir_built;

/* rule and slot: after 7 the lowest broken rule, 1 to 6, and the lowest slot that breaks it; else 0. */
typedef struct strandomir_checked {
    uint32_t answer, rule, slot;
} strandomir_checked;

/* rule and slot as for a check; vertices and corners: the counts of the table after the call. */
typedef struct strandomir_ran {
    uint32_t answer, rule, slot, vertices, corners;
} strandomir_ran;

/* visited: the corners about the vertex; written: the entries at the front of the list. */
typedef struct strandomir_listed {
    uint32_t answer, visited, written;
} strandomir_listed;

/* moved: 1 where the walker moved, 0 where it stayed, by a refusal or for want of an opposite. */
typedef struct strandomir_moved {
    uint32_t answer, moved;
} strandomir_moved;

/* ---- the calls
 *
 * Each array goes as a pointer and its number of elements. The three arrays of the corners are of one length, at most
 * STRANDOMIR_MAX_CORNERS; those of the vertices are of one length, at most STRANDOMIR_MAX_VERTICES, and vertex_point has three floats to a
 * vertex. The two counts say how many slots are used. (The helpers further down take a strandomir_table for all of this.) */
#define STRANDOMIR_LENT(constant)                                    \
    constant uint32_t *corner_vertex, size_t corner_vertex_length,     \
    constant uint32_t *corner_opposite, size_t corner_opposite_length, \
    constant uint32_t *corner_mark, size_t corner_mark_length,         \
    constant uint32_t *vertex_corner, size_t vertex_corner_length,     \
    constant uint32_t *vertex_mark, size_t vertex_mark_length,         \
    constant float *vertex_point, size_t vertex_point_length,          \
    uint32_t vertices, uint32_t corners

/* Takes points, three floats each, and faces, three vertex numbers each (one or two left at the end are ignored). What the table held
 * does not matter. Answers 0 to 6. Leaves a well-formed table; a blank one where it is refused; after 1 everything as it was.
 * A point without a face is a deleted vertex; where faces meet at a vertex alone, each fan gets a vertex of its own at the same point. */
strandomir_built strandomir_build(STRANDOMIR_LENT(), const float *points, size_t points_length,
                                  const uint32_t *faces, size_t faces_length);

/* Takes any table. Answers 0 exactly where it is well-formed; else 1, or 7 with rule and slot. Only reads. */
strandomir_checked strandomir_check(STRANDOMIR_LENT(const));

/* Takes any table, a script (five words to a command; strandomir_command writes them) and an array with at least one answer word to a command.
 * Answers 0, 1, 8 or 7. After 0 each command has been done or refused, in order, and has its answer word; the table is well-formed, and
 * V-E+F is what it was. A refused command changes nothing, and the run goes on. After 1, 8 and 7 everything is as it was. */
strandomir_ran strandomir_run(STRANDOMIR_LENT(), const uint32_t *script, size_t script_length,
                              uint32_t *answers, size_t answers_length);

/* The rings of a vertex. Each takes any table, a vertex and a list with room for its entries: as many as the vertex has corners; for
 * vertices and edges one more at a border. Answers 0, 1, 9, 10, 15 or 16. Leaves the entries at the front of the list: swings to the left
 * from the vertex's corner and, past a border, the right side. The table is only read; a refused call writes nothing. */
strandomir_listed strandomir_ring_corners(STRANDOMIR_LENT(const), uint32_t vertex, uint32_t *list, size_t list_length);
/* ... the vertices that share an edge with it, */
strandomir_listed strandomir_ring_vertices(STRANDOMIR_LENT(const), uint32_t vertex, uint32_t *list, size_t list_length);
/* ... its faces, */
strandomir_listed strandomir_ring_faces(STRANDOMIR_LENT(const), uint32_t vertex, uint32_t *list, size_t list_length);
/* ... the edges that end at it, each as its corner, */
strandomir_listed strandomir_ring_edges(STRANDOMIR_LENT(const), uint32_t vertex, uint32_t *list, size_t list_length);
/* ... and the edges of its faces that do not, each as its corner. */
strandomir_listed strandomir_ring_bounding_edges(STRANDOMIR_LENT(const), uint32_t vertex, uint32_t *list, size_t list_length);

/* The moves of a walker. Each takes the corner that it stands at, and any table. Answers 0, 1, 9, 10 or 15, and whether it moved. Leaves
 * in *corner where it stands now: where it stood, if it was refused or there is no opposite. The table is only read. */
strandomir_moved strandomir_move_to_next(uint32_t *corner, STRANDOMIR_LENT(const));
strandomir_moved strandomir_move_to_previous(uint32_t *corner, STRANDOMIR_LENT(const));
strandomir_moved strandomir_move_to_opposite(uint32_t *corner, STRANDOMIR_LENT(const));
/* About its vertex: next, opposite, next. */
strandomir_moved strandomir_swing_left_or_stay(uint32_t *corner, STRANDOMIR_LENT(const));
/* About its vertex: previous, opposite, previous. */
strandomir_moved strandomir_swing_right_or_stay(uint32_t *corner, STRANDOMIR_LENT(const));

#undef STRANDOMIR_LENT

/* ---- corners, faces, answers, commands */

static inline uint32_t strandomir_face_corner(uint32_t face) { return 3 * face; }
static inline uint32_t strandomir_corner_face(uint32_t corner) { return corner / 3; }

/* The next and the previous corner of the face; not for STRANDOMIR_ABSENT. */
static inline uint32_t strandomir_next(uint32_t corner) { return corner % 3 == 2 ? corner - 2 : corner + 1; }
static inline uint32_t strandomir_previous(uint32_t corner) { return corner % 3 == 0 ? corner + 2 : corner - 1; }

/* A sentence for an answer. */
static inline const char *strandomir_says(uint32_t answer) {
    switch (answer) {
    case STRANDOMIR_DONE: return "Done.";
    case STRANDOMIR_PARTS_DISAGREE: return "The lent parts disagree in length, or the room is above the maximum.";
    case STRANDOMIR_INDEX_TOO_LARGE: return "A face names a vertex that is not there.";
    case STRANDOMIR_REPEATED_VERTEX: return "A face names a vertex twice.";
    case STRANDOMIR_NOT_FINITE: return "A point is not finite.";
    case STRANDOMIR_NO_VERTEX_ROOM: return "There is no room for a vertex more.";
    case STRANDOMIR_NO_CORNER_ROOM: return "There is no room for the corners of a face more.";
    case STRANDOMIR_NOT_WELL_FORMED: return "The table is not well-formed.";
    case STRANDOMIR_BAD_SCRIPT: return "The script is not five words to a command, or there are fewer answer words than commands.";
    case STRANDOMIR_NO_SUCH_TARGET: return "There is no such target.";
    case STRANDOMIR_TARGET_DELETED: return "The target is deleted.";
    case STRANDOMIR_BORDER: return "The edge lies on the border, or ends there.";
    case STRANDOMIR_SAME_VERTEX: return "The edge has the same vertex on both sides.";
    case STRANDOMIR_UNSAFE_COLLAPSE: return "The collapse is not safe.";
    case STRANDOMIR_UNKNOWN_KIND: return "The command is of an unknown kind.";
    case STRANDOMIR_TANGLED: return "The walk is tangled.";
    case STRANDOMIR_LIST_TOO_SMALL: return "The list has too little room.";
    default: return "This is no answer.";
    }
}

/* Writes one command to the five words at `word`: a kind, its target and a point (which a flip does not read). */
static inline void strandomir_command(uint32_t *word, uint32_t kind, uint32_t target, float x, float y, float z) {
    word[0] = kind;
    word[1] = target;
    memcpy(word + 2, &x, sizeof x);
    memcpy(word + 3, &y, sizeof y);
    memcpy(word + 4, &z, sizeof z);
}

/* ---- a table, and the same calls on it */

/* The lent parts, their rooms, and the counts, which the helpers that write keep up to date. */
typedef struct strandomir_table {
    uint32_t *corner_vertex, *corner_opposite, *corner_mark; /* corner_room each */
    uint32_t *vertex_corner, *vertex_mark;                   /* vertex_room each */
    float *vertex_point;                                     /* three to a vertex */
    size_t vertex_room, corner_room;
    uint32_t vertices, corners;
} strandomir_table;

/* A table with no slot used, over STRANDOMIR_WORDS words and STRANDOMIR_FLOATS floats. It writes nothing; a build blanks them. */
static inline strandomir_table strandomir_table_over(uint32_t *words, float *floats, size_t vertex_room, size_t corner_room) {
    strandomir_table t;
    t.corner_vertex = words;
    t.corner_opposite = t.corner_vertex + corner_room;
    t.corner_mark = t.corner_opposite + corner_room;
    t.vertex_corner = t.corner_mark + corner_room;
    t.vertex_mark = t.vertex_corner + vertex_room;
    t.vertex_point = floats;
    t.vertex_room = vertex_room;
    t.corner_room = corner_room;
    t.vertices = 0;
    t.corners = 0;
    return t;
}

/* Used and not deleted. */
static inline int strandomir_table_corner_is_live(const strandomir_table *t, uint32_t corner) {
    return corner < t->corners && corner < t->corner_room && t->corner_mark[corner] == 0;
}
static inline int strandomir_table_vertex_is_live(const strandomir_table *t, uint32_t vertex) {
    return vertex < t->vertices && vertex < t->vertex_room && t->vertex_mark[vertex] == 0;
}
static inline int strandomir_table_face_is_live(const strandomir_table *t, uint32_t face) {
    return face < t->corners / 3 && strandomir_table_corner_is_live(t, strandomir_face_corner(face));
}

#define STRANDOMIR_PARTS(t)                                                                                      \
    (t)->corner_vertex, (t)->corner_room, (t)->corner_opposite, (t)->corner_room, (t)->corner_mark, (t)->corner_room, \
    (t)->vertex_corner, (t)->vertex_room, (t)->vertex_mark, (t)->vertex_room,                                      \
    (t)->vertex_point, 3 * (t)->vertex_room, (t)->vertices, (t)->corners

/* The answer; `skipped` may be null. */
static inline uint32_t strandomir_table_build(strandomir_table *t, const float *points, size_t points_length,
                                              const uint32_t *faces, size_t faces_length, size_t *skipped) {
    strandomir_built r = strandomir_build(STRANDOMIR_PARTS(t), points, points_length, faces, faces_length);
    t->vertices = r.vertices;
    t->corners = r.corners;
    if (skipped) *skipped = r.skipped;
    return r.answer;
}

static inline strandomir_checked strandomir_table_check(const strandomir_table *t) {
    return strandomir_check(STRANDOMIR_PARTS(t));
}

static inline strandomir_ran strandomir_table_run(strandomir_table *t, const uint32_t *script, size_t script_length,
                                                  uint32_t *answers, size_t answers_length) {
    strandomir_ran r = strandomir_run(STRANDOMIR_PARTS(t), script, script_length, answers, answers_length);
    t->vertices = r.vertices;
    t->corners = r.corners;
    return r;
}

/* One command by itself: the answer of the run where that is refused, else the command's own. */
static inline uint32_t strandomir_table_edit(strandomir_table *t, uint32_t kind, uint32_t target, float x, float y, float z) {
    uint32_t word[STRANDOMIR_COMMAND_WORDS], answer = STRANDOMIR_DONE;
    strandomir_ran r;
    strandomir_command(word, kind, target, x, y, z);
    r = strandomir_table_run(t, word, STRANDOMIR_COMMAND_WORDS, &answer, 1);
    return r.answer == STRANDOMIR_DONE ? answer : r.answer;
}

static inline strandomir_listed strandomir_table_ring_corners(const strandomir_table *t, uint32_t vertex, uint32_t *list, size_t length) {
    return strandomir_ring_corners(STRANDOMIR_PARTS(t), vertex, list, length);
}
static inline strandomir_listed strandomir_table_ring_vertices(const strandomir_table *t, uint32_t vertex, uint32_t *list, size_t length) {
    return strandomir_ring_vertices(STRANDOMIR_PARTS(t), vertex, list, length);
}
static inline strandomir_listed strandomir_table_ring_faces(const strandomir_table *t, uint32_t vertex, uint32_t *list, size_t length) {
    return strandomir_ring_faces(STRANDOMIR_PARTS(t), vertex, list, length);
}
static inline strandomir_listed strandomir_table_ring_edges(const strandomir_table *t, uint32_t vertex, uint32_t *list, size_t length) {
    return strandomir_ring_edges(STRANDOMIR_PARTS(t), vertex, list, length);
}
static inline strandomir_listed strandomir_table_ring_bounding_edges(const strandomir_table *t, uint32_t vertex, uint32_t *list, size_t length) {
    return strandomir_ring_bounding_edges(STRANDOMIR_PARTS(t), vertex, list, length);
}

static inline strandomir_moved strandomir_table_move_to_next(const strandomir_table *t, uint32_t *corner) {
    return strandomir_move_to_next(corner, STRANDOMIR_PARTS(t));
}
static inline strandomir_moved strandomir_table_move_to_previous(const strandomir_table *t, uint32_t *corner) {
    return strandomir_move_to_previous(corner, STRANDOMIR_PARTS(t));
}
static inline strandomir_moved strandomir_table_move_to_opposite(const strandomir_table *t, uint32_t *corner) {
    return strandomir_move_to_opposite(corner, STRANDOMIR_PARTS(t));
}
static inline strandomir_moved strandomir_table_swing_left_or_stay(const strandomir_table *t, uint32_t *corner) {
    return strandomir_swing_left_or_stay(corner, STRANDOMIR_PARTS(t));
}
static inline strandomir_moved strandomir_table_swing_right_or_stay(const strandomir_table *t, uint32_t *corner) {
    return strandomir_swing_right_or_stay(corner, STRANDOMIR_PARTS(t));
}

#undef STRANDOMIR_PARTS

#ifdef __cplusplus
}
#endif
#endif
