/* What the tests in C and C++ share: tables of exact size, their contents as text, and expectations that are counted.
 *
 * A table's text is written as the rule book writes it: the vertices of all corners, the pairs of opposites, the corners of all vertices. A
 * deleted slot has an x after it, an absent corner is a dash, and an opposite that does not answer shows as 3>7. */
#ifndef STRANDOMIR_TRY_H
#define STRANDOMIR_TRY_H

#include "strandomir.h"
#include <stdio.h>
#include <stdlib.h>

static int tried, failed;

static inline void expect_number(const char *what, size_t got, size_t want) {
    tried++;
    if (got == want) return;
    failed++;
    printf("FAILED %s: got %lu, want %lu\n", what, (unsigned long)got, (unsigned long)want);
}

static inline void expect_text(const char *what, const char *got, const char *want) {
    tried++;
    if (strcmp(got, want) == 0) return;
    failed++;
    printf("FAILED %s: got \"%s\", want \"%s\"\n", what, got, want);
}

/* ---- text */

typedef struct line {
    char text[512];
    size_t length;
} line;

static inline void add(line *l, const char *text) {
    size_t length = strlen(text);
    if (l->length + length >= sizeof l->text) abort();
    memcpy(l->text + l->length, text, length + 1);
    l->length += length;
}

static inline void add_number(line *l, uint32_t n) {
    char digits[16];
    snprintf(digits, sizeof digits, "%lu", (unsigned long)n);
    add(l, n == STRANDOMIR_ABSENT ? "-" : digits);
}

static inline void add_gap(line *l) {
    if (l->length > 0) add(l, " ");
}

/* n numbers, each with an x where its mark says deleted; no marks: none is. */
static inline line list_text(const uint32_t *list, const uint32_t *mark, size_t n) {
    line l = {{0}, 0};
    size_t i;
    for (i = 0; i < n; i++) {
        add_gap(&l);
        add_number(&l, list[i]);
        if (mark && mark[i] != 0) add(&l, "x");
    }
    return l;
}

/* The pairs of live corners. */
static inline line pairs_text(const strandomir_table *t) {
    line l = {{0}, 0};
    uint32_t c;
    for (c = 0; c < t->corners; c++) {
        uint32_t o = t->corner_opposite[c];
        int answers = o < t->corners && t->corner_opposite[o] == c;
        if (t->corner_mark[c] != 0 || o == STRANDOMIR_ABSENT || (answers && o < c)) continue;
        add_gap(&l);
        add_number(&l, c);
        add(&l, answers ? "-" : ">");
        add_number(&l, o);
    }
    return l;
}

/* A null expectation is one that the rule book does not write out. */
static inline void expect_table(const char *what, const strandomir_table *t, const char *corners, const char *pairs, const char *vertices) {
    expect_text(what, list_text(t->corner_vertex, t->corner_mark, t->corners).text, corners);
    expect_text(what, pairs_text(t).text, pairs);
    if (vertices) expect_text(what, list_text(t->vertex_corner, t->vertex_mark, t->vertices).text, vertices);
    expect_number(what, strandomir_table_check(t).answer, STRANDOMIR_DONE);
}

static inline void expect_point(const char *what, const strandomir_table *t, uint32_t vertex, float x, float y, float z) {
    const float want[3] = {x, y, z};
    expect_number(what, (size_t)memcmp(t->vertex_point + 3 * vertex, want, sizeof want) == 0, 1);
}

/* ---- tables */

/* A table in memory of exactly its size. The contents are noise, since a build may not care what was there. */
static inline strandomir_table new_table(size_t vertex_room, size_t corner_room) {
    size_t words = STRANDOMIR_WORDS(vertex_room, corner_room) * sizeof(uint32_t);
    size_t floats = STRANDOMIR_FLOATS(vertex_room) * sizeof(float);
    uint32_t *word = (uint32_t *)malloc(words);
    float *number = (float *)malloc(floats);
    if (!word || !number) abort();
    memset(word, 0x5a, words);
    memset(number, 0x5a, floats);
    return strandomir_table_over(word, number, vertex_room, corner_room);
}

static inline void free_table(strandomir_table *t) {
    free(t->corner_vertex);
    free(t->vertex_point);
}

/* Point i of every test mesh: no two are the same. */
static inline void place(float *point, size_t i) {
    point[0] = (float)i;
    point[1] = (float)(i * i);
    point[2] = (float)i + 0.5f;
}

static inline uint32_t build(strandomir_table *t, size_t points, const uint32_t *faces, size_t faces_length, size_t *skipped) {
    float point[3 * 16];
    size_t i;
    if (points > 16) abort();
    for (i = 0; i < points; i++) place(point + 3 * i, i);
    return strandomir_table_build(t, point, 3 * points, faces, faces_length, skipped);
}

/* The meshes A, B and T of the rule book. */
static const uint32_t faces_A[] = {0, 1, 2};
static const uint32_t faces_B[] = {0, 1, 2, 0, 2, 3};
static const uint32_t faces_T[] = {0, 1, 2, 0, 2, 3, 0, 3, 1, 1, 3, 2};

static inline strandomir_table new_mesh(size_t points, const uint32_t *faces, size_t faces_length) {
    strandomir_table t = new_table(points + 2, faces_length + 12);
    expect_number("a mesh is built", build(&t, points, faces, faces_length, NULL), STRANDOMIR_DONE);
    return t;
}
static inline strandomir_table new_A(void) { return new_mesh(3, faces_A, 3); }
static inline strandomir_table new_B(void) { return new_mesh(4, faces_B, 6); }
static inline strandomir_table new_T(void) { return new_mesh(4, faces_T, 12); }

/* ---- the end */

static inline int verdict(const char *program) {
    printf("%s: %d expectations, %d failed\n", program, tried, failed);
    return failed == 0 ? 0 : 1;
}

#endif
