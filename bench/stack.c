/* How much stack each entry point uses, beyond what is lent to it: the call is made on a painted stack of its own, and the paint that is
 * gone afterwards is counted, less what a call that does nothing takes. */
#include "strandomir.h"
#include <stdio.h>
#include <string.h>
#include <ucontext.h>

enum { SIDE = 32, POINTS = SIDE * SIDE, FACES = 2 * (SIDE - 1) * (SIDE - 1), COMMANDS = 1000, STACK = 1 << 18, PAINT = 0xa7 };

static uint32_t words[STRANDOMIR_WORDS(4096, 24576)];
static float floats[STRANDOMIR_FLOATS(4096)];
static float points[3 * POINTS];
static uint32_t faces[3 * FACES], script[5 * COMMANDS], answers[COMMANDS], list[4096];
static strandomir_table table;
static unsigned char stack[STACK];
static ucontext_t caller, callee;

static void make_floor(void) {
    size_t p = 0, f = 0;
    for (uint32_t y = 0; y < SIDE; y++)
        for (uint32_t x = 0; x < SIDE; x++) {
            points[p++] = (float)x, points[p++] = (float)y, points[p++] = 0;
            if (x + 1 < SIDE && y + 1 < SIDE) {
                uint32_t a = y * SIDE + x, b = a + 1, c = a + SIDE, d = c + 1, face[] = {a, b, d, a, d, c};
                memcpy(faces + f, face, sizeof face);
                f += 6;
            }
        }
    for (uint32_t i = 0; i < COMMANDS; i++) strandomir_command(script + 5 * i, 1 + i % 4, (i * 7919) % (i % 4 == 3 ? FACES : 3 * FACES), 1, 2, 3);
}

static void nothing(void) {}
static void build(void) { strandomir_table_build(&table, points, 3 * POINTS, faces, 3 * FACES, NULL); }
static void check(void) { strandomir_table_check(&table); }
static void run(void) { strandomir_table_run(&table, script, 5 * COMMANDS, answers, COMMANDS); }
static void ring(void) {
    for (uint32_t v = 0; v < table.vertices; v++) {
        strandomir_table_ring_corners(&table, v, list, 4096);
        strandomir_table_ring_vertices(&table, v, list, 4096);
        strandomir_table_ring_faces(&table, v, list, 4096);
        strandomir_table_ring_edges(&table, v, list, 4096);
        strandomir_table_ring_bounding_edges(&table, v, list, 4096);
    }
}
static void walk(void) {
    uint32_t corner = 100;
    strandomir_table_move_to_next(&table, &corner);
    strandomir_table_move_to_previous(&table, &corner);
    strandomir_table_move_to_opposite(&table, &corner);
    strandomir_table_swing_left_or_stay(&table, &corner);
    strandomir_table_swing_right_or_stay(&table, &corner);
}

static size_t used(void (*call)(void)) {
    memset(stack, PAINT, STACK);
    getcontext(&callee);
    callee.uc_stack.ss_sp = stack;
    callee.uc_stack.ss_size = STACK;
    callee.uc_link = &caller;
    makecontext(&callee, call, 0);
    swapcontext(&caller, &callee);
    size_t clean = 0;
    while (clean < STACK && stack[clean] == PAINT) clean++;
    return STACK - clean;
}

int main(void) {
    struct { const char *name; void (*call)(void); } calls[] = {{"build", build}, {"check", check}, {"run", run}, {"rings", ring}, {"moves", walk}};
    make_floor();
    table = strandomir_table_over(words, floats, 4096, 24576);
    for (size_t i = 0; i < sizeof calls / sizeof *calls; i++) {
        size_t took = used(calls[i].call), none = used(nothing);
        printf("%-6s %5zu bytes\n", calls[i].name, took > none ? took - none : 0);
    }
    return 0;
}
