/* The header and the library from C: reads the snapshots named on the command line, document 01's ring and one that has an order, and asks each
 * function about them. */
#include "cadgweri.h"

#include <stdio.h>
#include <stdlib.h>
#include <string.h>

static int failed = 0;

/* Says so where an answer has not this refusal and this value. */
static void expect(const char *what, uint64_t answer, uint32_t refusal, uint32_t value) {
    if (cadgweri_refusal(answer) != refusal || cadgweri_value(answer) != value) {
        printf("%s: refusal %u, value %u\n", what, (unsigned)cadgweri_refusal(answer), (unsigned)cadgweri_value(answer));
        failed = 1;
    }
}

/* The bytes of a file. */
static size_t load(const char *name, uint8_t *bytes, size_t size) {
    FILE *file = fopen(name, "rb");
    if (file == NULL) {
        printf("no file %s\n", name);
        exit(EXIT_FAILURE);
    }
    size_t length = fread(bytes, 1, size, file);
    fclose(file);
    return length;
}

static uint8_t arena[CADGWERI_ARENA_BYTES];
static uint8_t before[CADGWERI_ARENA_BYTES];
static uint8_t bytes[65536];

static void ring(size_t length) {
    expect("count of an empty graph", cadgweri_count(arena, sizeof arena), 0, 0);
    expect("compare in an empty graph", cadgweri_compare_node_strength(arena, sizeof arena, 0, 0), 3, 0);
    expect("order an empty graph", cadgweri_finalize_strength_order(arena, sizeof arena), 3, 0);
    expect("read a part", cadgweri_read_snapshot(arena, sizeof arena, bytes, length - 1), 12, 0);
    expect("read", cadgweri_read_snapshot(arena, sizeof arena, bytes, length), 0, 6);
    expect("read into too little", cadgweri_read_snapshot(arena, sizeof arena - 1, bytes, length), 1, 0);
    expect("count", cadgweri_count(arena, sizeof arena), 0, 6);
    expect("3 and 4", cadgweri_compare_node_strength(arena, sizeof arena, 3, 4), 0, CADGWERI_LESS);
    expect("4 and 5", cadgweri_compare_sibling_node_strength(arena, sizeof arena, 4, 5), 0, CADGWERI_LESS);
    expect("3 and 5", cadgweri_compare_sibling_node_strength(arena, sizeof arena, 3, 5), 0, CADGWERI_GREATER);
    expect("3 and 3", cadgweri_compare_node_strength(arena, sizeof arena, 3, 3), 0, CADGWERI_EQUAL);
    expect("no node", cadgweri_compare_node_strength(arena, sizeof arena, 3, 6), 4, 0);
    expect("no siblings", cadgweri_compare_sibling_node_strength(arena, sizeof arena, 1, 2), 8, 0);
    memcpy(before, arena, sizeof arena);
    expect("no order", cadgweri_finalize_strength_order(arena, sizeof arena), 9, 0);
    expect("entry of no order", cadgweri_order_entry(arena, sizeof arena, 0), 10, 0);
    expect("no byte changed", memcmp(before, arena, sizeof arena) != 0, 0, 0);
}

static void order(size_t length) {
    static const uint32_t nodes[] = {0, 1, 5, 11, 2, 3, 4, 6, 9, 10, 12, 8, 7};
    static uint8_t order[CADGWERI_ORDER_BYTES + 1];
    memset(order, 255, sizeof order);
    expect("read a line", cadgweri_read_snapshot(arena, sizeof arena, bytes, length), 0, 13);
    expect("not ordered", cadgweri_strength_order(arena, sizeof arena, order, CADGWERI_ORDER_BYTES), 10, 0);
    expect("order", cadgweri_finalize_strength_order(arena, sizeof arena), 0, 0);
    expect("order again", cadgweri_finalize_strength_order(arena, sizeof arena), 0, 0);
    expect("arena too small", cadgweri_strength_order(arena, sizeof arena - 1, order, CADGWERI_ORDER_BYTES), 1, 0);
    expect("buffer too small", cadgweri_strength_order(arena, sizeof arena, order, CADGWERI_ORDER_BYTES - 1), 1, 0);
    expect("buffer too large", cadgweri_strength_order(arena, sizeof arena, order, CADGWERI_ORDER_BYTES + 1), 1, 0);
    expect("buffer of no bytes", cadgweri_strength_order(arena, sizeof arena, order, 0), 1, 0);
    for (size_t i = 0; i < sizeof order; i++) {
        expect("refused, no byte is written", order[i], 0, 255);
    }
    expect("the order", cadgweri_strength_order(arena, sizeof arena, order, CADGWERI_ORDER_BYTES), 0, 13);
    for (uint32_t place = 0; place < 13; place++) {
        expect("node", cadgweri_order_node(order, place), 0, nodes[place]);
        expect("entry", cadgweri_order_entry(arena, sizeof arena, place), 0, nodes[place]);
    }
    for (size_t i = 4 * 13; i < sizeof order; i++) {
        expect("the rest is as it was", order[i], 0, 255);
    }
    expect("no place", cadgweri_order_entry(arena, sizeof arena, 13), 4, 0);
}

int main(int count, char **words) {
    if (count != 3) {
        printf("usage: header RING LINE\n");
        return EXIT_FAILURE;
    }
    ring(load(words[1], bytes, sizeof bytes));
    order(load(words[2], bytes, sizeof bytes));
    arena[0] = 255;
    expect("no graph", cadgweri_count(arena, sizeof arena), 2, 0);
    expect("order no graph", cadgweri_finalize_strength_order(arena, sizeof arena), 2, 0);
    expect("entry of no graph", cadgweri_order_entry(arena, sizeof arena, 0), 2, 0);
    printf(failed ? "header: wrong answers\n" : "header: every answer is right\n");
    return failed ? EXIT_FAILURE : EXIT_SUCCESS;
}
