/* The strength graph of one prim index, for a viewer: a snapshot is read into an arena, and its nodes are compared and ordered.
 *
 * Link with target/staticlib/libc_api.a, which `tools/build c_api` writes. The functions are proved (crates/c_api_c). They need nothing of the bytes and
 * numbers that they are given. A slice is a pointer and a length: the pointer is not null and valid for so many bytes, and two slices of one call do
 * not overlap. Nothing is written but through a pointer that is not const.
 */
#ifndef CADGWERI_H
#define CADGWERI_H

#include <stddef.h>
#include <stdint.h>

#ifdef __cplusplus
extern "C" {
#endif

/* The bytes of an arena, which holds one graph. An arena whose bytes are all 0 holds the empty graph. */
#define CADGWERI_ARENA_BYTES 327744

/* The most that a call uses of the stack, whatever it is given: a thread that makes one must have so much left, or the process is killed. It is measured,
 * not proved (docs/LAYOUT.md, "The stack"). */
#define CADGWERI_STACK_BYTES 262144

/* The bytes of a buffer for an order: 4 for each node of the largest graph. */
#define CADGWERI_ORDER_BYTES 4096

/* Every function answers one number: a refusal times 4,294,967,296, plus a value.
 *
 * The refusal is 0 where the call is accepted. Otherwise it is the number of the first check that failed, the value is 0, and no byte has changed:
 *    1  the arena has not CADGWERI_ARENA_BYTES bytes, or the buffer for the order not CADGWERI_ORDER_BYTES
 *    2  the arena holds no graph
 *    3  the graph is empty
 *    4  a node's number or a place is not below the count; in a snapshot: a parent or origin that is not before its node, or a wrong record 0
 *    5  a path of the snapshot is malformed
 *    6  an arc, flags or has-specs of the snapshot is not allowed
 *    7  the snapshot has more than 1,024 nodes or 32,768 bytes of paths
 *    8  the two nodes have not one parent
 *    9  the children of some node have no order in which each is stronger than all after it
 *   10  the graph is not ordered
 *   12  the version, the count or a length of the snapshot is wrong
 */
static inline uint32_t cadgweri_refusal(uint64_t answer) { return (uint32_t)(answer >> 32); }
static inline uint32_t cadgweri_value(uint64_t answer) { return (uint32_t)answer; }

/* The value of a comparison: which node is the stronger. */
#define CADGWERI_LESS 0    /* the first */
#define CADGWERI_EQUAL 1   /* they are one node */
#define CADGWERI_GREATER 2 /* the second */

/* Reads a snapshot into the arena, whatever it held before. The value is how many nodes it has. Refused 1, 12, 4, 5, 6 or 7. */
uint64_t cadgweri_read_snapshot(uint8_t *arena, size_t arena_length, const uint8_t *bytes, size_t bytes_length);

/* The value is how many nodes the graph has. Refused 1 or 2. */
uint64_t cadgweri_count(const uint8_t *arena, size_t arena_length);

/* The value says which of the nodes a and b is the stronger. Refused 1, 2, 3 or 4. */
uint64_t cadgweri_compare_node_strength(const uint8_t *arena, size_t arena_length, uint32_t a, uint32_t b);

/* The same for two nodes with one parent, or for one node twice. Refused 1, 2, 3, 4 or 8. */
uint64_t cadgweri_compare_sibling_node_strength(const uint8_t *arena, size_t arena_length, uint32_t a, uint32_t b);

/* Orders the graph, the strongest node first: then it is ordered, and finalized unless it is shallow. A finalized graph stays as it is. There is no
 * value. Refused 1, 2, 3 or 9. */
uint64_t cadgweri_finalize_strength_order(uint8_t *arena, size_t arena_length);

/* Writes the order of an ordered graph to the front of a buffer. The value is how many nodes it has. Refused 1, 2, 3 or 10. */
uint64_t cadgweri_strength_order(const uint8_t *arena, size_t arena_length, uint8_t *order, size_t order_length);

/* The node at a place of an order so written. The place is below the number of its nodes. */
static inline uint32_t cadgweri_order_node(const uint8_t *order, uint32_t place) {
    const uint8_t *at = order + (size_t)4 * place;
    return (uint32_t)at[0] << 24 | (uint32_t)at[1] << 16 | (uint32_t)at[2] << 8 | at[3];
}

/* The value is the node at a place of the order of an ordered graph, from 0 on. Each call checks the arena, so that the whole order is had sooner from
 * `cadgweri_strength_order`. Refused 1, 2, 3, 4 or 10. */
uint64_t cadgweri_order_entry(const uint8_t *arena, size_t arena_length, uint32_t place);

#ifdef __cplusplus
}
#endif

#endif
