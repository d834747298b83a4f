/* Uvradine: open hypergraphs in a stored form, checked, built, cut and made explicit.
 *
 * Every function takes any bytes and any lists, checks them itself, and ends. A slice is a pointer and then its length in bytes.
 * Pointers must not be null, even where the length is 0, and no two of the slices of a call may overlap: no check can see that.
 * What is lent as `const` is never written. All numbers in slices are little-endian. A parameter means the same wherever it stands:
 *
 *   src                                   a stored graph
 *   sources, targets, ids, kept           a list of ids, as wide as in `src`: 2 bytes each in version 1, 4 in version 2
 *   labels, source_labels, target_labels  a list of labels, 4 bytes each
 *   label, v, w, edge                     one label, two node ids, an edge id
 *   steps                                 building and deleting steps, one after the other, as OHG_STEP_.. says
 *   out                                   gets the stored form of the answered graph, or what the function's comment says
 *   room                                  work room, at least as long as the function's OHG_ROOM_.. says; it may begin at any address and
 *                                         hold anything, and what it holds after the call is not fixed
 *
 * Every function returns code | a << 8 | b << 32: 8, 24 and 32 bits. Code is 0 on success, and a and b are what the function's comment says.
 * On a refusal code is the refusal's number, a is 0, but of ohg_build the index of the refused step (OHG_STEP), b is the place of what is
 * refused (OHG_PLACE), and no answer buffer has been written to.
 * On success the bytes of an answer buffer past the answer stay as they were.
 *
 * One graph has one form: an answered graph that fits version 1 is stored as version 1, any other as version 2, whichever version was read.
 * Lists and maps have the width of the graph that the call reads, whichever version its answer has: ohg_width.
 *
 * docs/INTERFACE.md says more. */
#ifndef OHG_H
#define OHG_H

#include <stddef.h>
#include <stdint.h>

#ifdef __cplusplus
extern "C" {
#endif

/* The three numbers of an answer. */
#define OHG_CODE(answer) ((uint32_t)((answer) & 0xFF))
#define OHG_A(answer) ((uint32_t)((answer) >> 8 & 0xFFFFFF))
#define OHG_B(answer) ((uint32_t)((answer) >> 32))

/* The place that a refusal carries: by 1 to 6 a byte of `src`, by 7 an entry of a list, both counted from 0. A place that is too large for
 * 32 bits is given as 4,294,967,295.
 *
 *   1                         the length
 *   2                         0
 *   3                         3
 *   4                         the first byte of the count that broke its limit: in the header the first such count; at an edge its source count
 *                             if the sum of the ports passes the limit with it, else its target count
 *   5                         the length, if the form is too short: a header of version 2, labels, an edge's counts or ids, or lists that are not
 *                             all there; else the first byte too many
 *   6                         the first byte of the first bad id in stored order: the edges, of each its sources and then its targets, the global
 *                             sources, the global targets, the pairs
 *   7                         0 for an id given singly; these are looked at first. Then each list in the call's order: if its end is broken the
 *                             number of its whole entries, else the index of its first bad id
 *   8, 9, 10, 11, 12, 13, 16  0 */
#define OHG_PLACE(answer) OHG_B(answer)

/* The step that ohg_build refuses, counted from 0; an index above 16,777,215 is given as that. It is 0 where the graph read is refused, and by
 * 10. Every other call has 0 here. */
#define OHG_STEP(answer) OHG_A(answer)

/* Why a call was refused; the first that holds, in this order, but OHG_SHORT_BUFFER for work room before all others, OHG_OTHER_LENGTH for a
 * header of version 2 that is cut before its counts are read, 4 and 5 after the header as they are met from left to right, and 12, 7 and 9 of
 * ohg_build step by step. */
enum ohg_refusal {
    OHG_DONE = 0,           /* not refused */
    OHG_NO_HEADER = 1,      /* fewer than 15 bytes: not a stored form, or cut in its header */
    OHG_NO_MARK = 2,        /* the first three bytes are not `OHG`: not a stored form */
    OHG_OTHER_VERSION = 3,  /* the version is neither 1 nor 2: written by a newer tool */
    OHG_OVER_LIMIT = 4,     /* a count in the header, or the sum of the ports, is above its version's limit */
    OHG_OTHER_LENGTH = 5,   /* the length is not what the counts call for: cut short, or bytes follow */
    OHG_FOREIGN_ID = 6,     /* a stored node id is not below the node count */
    OHG_OTHER_FORM = 13,    /* a form of version 2 whose graph fits version 1: one graph has one form; write it by version 1 */
    OHG_BAD_STEP = 12,      /* a step in the call has an unknown kind or is cut short: mend the list of steps */
    OHG_BAD_LIST = 7,       /* a list in the call ends in a broken entry, or an id in the call is not below its count */
    OHG_PENDING_PAIR = 8,   /* the graph has a pending pair, and the operation needs none: merge joined nodes first, by ohg_quotient */
    OHG_LABELS_DIFFER = 11, /* two nodes that pending pairs join have different labels: give them one label, or delete the pair's nodes */
    OHG_KEPT_CYCLE = 16,    /* some directed cycle has only kept nodes: free one of these wires, or redraw the loop */
    OHG_RESULT_LIMIT = 9,   /* the result would pass a limit of version 2: split the drawing */
    OHG_SHORT_BUFFER = 10   /* an answer buffer is shorter than the answer, or work room is shorter than its macro says */
};

/* The most bytes that a stored form has, so that an answer buffer of this length is never too short for a graph; and one of version 1. */
#define OHG_FORM_BYTES 655385
#define OHG_FORM_BYTES_1 49167

/* The bytes that ohg_read answers. */
#define OHG_SIZES_BYTES 24

/* The most bytes of an answered list or map: 4 for each of 16,384 nodes, and 2 for each of 2,048 where the graph read is of version 1. */
#define OHG_LIST_BYTES 65536
#define OHG_LIST_BYTES_1 4096

/* The most bytes of an answered loop, which has edges too: 4 for each of 32,768 nodes and edges, and 2 for each of 4,096. */
#define OHG_LOOP_BYTES 131072
#define OHG_LOOP_BYTES_1 8192

/* The bytes of an entry that ohg_reasons answers, in both versions, and the most of all of them: 16,384 nodes, and 2,048 in version 1. */
#define OHG_REASON_BYTES 16
#define OHG_REASONS_BYTES 262144
#define OHG_REASONS_BYTES_1 32768

/* The kinds of such an entry: its first number. */
#define OHG_CHOSEN 0        /* chosen at that stage, with so many arcs in and out in that stage's core */
#define OHG_NOT_LED_TO 1    /* freed before that stage's choice: no core vertex of that stage leads to it */
#define OHG_LEADS_TO_NONE 2 /* freed before that stage's choice: it leads to no core vertex, and some core vertex leads to it */

/* The kinds of steps that ohg_build takes. A step is one byte of kind and then 4-byte numbers, whichever version the graph read has; its
 * lists stand after its other numbers, ids in them are 4 bytes each too. Ids are those of the graph that the steps before it have made. */
#define OHG_STEP_NEW_NODE 1        /* label */
#define OHG_STEP_NEW_EDGE 2        /* label, source count, target count, sources, targets */
#define OHG_STEP_NEW_OPERATION 3   /* label, source count, target count, source labels, target labels */
#define OHG_STEP_UNIFY 4           /* v, w */
#define OHG_STEP_ADD_EDGE_SOURCE 5 /* edge, label */
#define OHG_STEP_ADD_EDGE_TARGET 6 /* edge, label */
#define OHG_STEP_DELETE_EDGES 7    /* count, ids */
#define OHG_STEP_DELETE_NODES 8    /* count, ids */

/* The edge label that says spider. */
#define OHG_SPIDER 4294967295u

/* What stands in a map for a node that went, of 4 bytes and, where the graph read is of version 1, of 2. */
#define OHG_GONE 4294967295u
#define OHG_GONE_1 65535u

/* The bytes of an id in the lists and maps of a call on this form: 4 where its version is 2, else 2. */
static inline uint32_t ohg_width(const uint8_t *src, size_t src_len) {
    return src_len >= 5 && src[3] == 2 && src[4] == 0 ? 4 : 2;
}

/* The bytes of work room that each function asks for. */
#define OHG_ROOM_DELETE_EDGES 16384
#define OHG_ROOM_DELETE_NODES 16384
#define OHG_ROOM_BUILD 1310720
#define OHG_ROOM_QUOTIENT 65536
#define OHG_ROOM_SPIDERIZE 196608
#define OHG_ROOM_SPIDERIZE_NODES 196608
#define OHG_ROOM_CYCLE_BREAKING_NODES 1390016
#define OHG_ROOM_CYCLE_BREAKING_NODES_KEEPING 1390016
#define OHG_ROOM_CYCLE_BREAKING_NODES_SCANNING 114688
#define OHG_ROOM_REASONS 1390016
#define OHG_ROOM_FIND_LOOP 1190656
#define OHG_ROOM_NO_LOOP 1190656
#define OHG_ROOM_ONCE_FED 16384

/* Reads a stored graph and answers its sizes: six 4-byte little-endian numbers, nodes, edges, ports, global sources, global
 * targets, pairs.
 * a: 24, the bytes written. b: 0. Refusals: 1 to 6, 13, 10. */
uint64_t ohg_read(const uint8_t *src, size_t src_len, uint8_t *sizes, size_t sizes_len);

/* Reads a stored graph and writes it. One graph has one form, so the answer is the bytes that were read.
 * a: bytes written. b: 0. Refusals: 1 to 6, 13, 10. */
uint64_t ohg_rewrite(const uint8_t *src, size_t src_len, uint8_t *out, size_t out_len);

/* The graph with nothing in it.
 * a: bytes written. b: 0. Refusals: 10. */
uint64_t ohg_empty(uint8_t *out, size_t out_len);

/* Nodes of these labels and nothing else.
 * a: bytes written. b: 0. Refusals: 7, 9, 10. */
uint64_t ohg_discrete(const uint8_t *labels, size_t labels_len, uint8_t *out, size_t out_len);

/* Nodes of these labels, each a global source and a global target, in order.
 * a: bytes written. b: 0. Refusals: 7, 9, 10. */
uint64_t ohg_identity(const uint8_t *labels, size_t labels_len, uint8_t *out, size_t out_len);

/* One edge alone, with a node for each of its source and target labels; its sources are the global sources, its targets the global
 * targets.
 * a: bytes written. b: 0. Refusals: 7, 9, 10. */
uint64_t ohg_singleton(uint32_t label, const uint8_t *source_labels, size_t source_labels_len, const uint8_t *target_labels,
                       size_t target_labels_len, uint8_t *out, size_t out_len);

/* One more node.
 * a: bytes written. b: the new node's id. Refusals: 1 to 6, 13, 9, 10. */
uint64_t ohg_new_node(const uint8_t *src, size_t src_len, uint32_t label, uint8_t *out, size_t out_len);

/* One more edge between nodes that are there. Label OHG_SPIDER makes a spider.
 * a: bytes written. b: the new edge's id. Refusals: 1 to 6, 13, 7, 9, 10. */
uint64_t ohg_new_edge(const uint8_t *src, size_t src_len, uint32_t label, const uint8_t *sources, size_t sources_len,
                      const uint8_t *targets, size_t targets_len, uint8_t *out, size_t out_len);

/* One more edge with new nodes: first one for each source label, then one for each target label, then the edge between them. The
 * new nodes' ids follow from the old node count.
 * a: bytes written. b: the new edge's id. Refusals: 1 to 6, 13, 7, 9, 10. */
uint64_t ohg_new_operation(const uint8_t *src, size_t src_len, uint32_t label, const uint8_t *source_labels,
                           size_t source_labels_len, const uint8_t *target_labels, size_t target_labels_len, uint8_t *out,
                           size_t out_len);

/* One more pending pair of nodes. No labels are compared.
 * a: bytes written. b: 0. Refusals: 1 to 6, 13, 7, 9, 10. */
uint64_t ohg_unify(const uint8_t *src, size_t src_len, uint32_t v, uint32_t w, uint8_t *out, size_t out_len);

/* One more node, at the end of an edge's sources.
 * a: bytes written. b: the new node's id. Refusals: 1 to 6, 13, 7, 9, 10. */
uint64_t ohg_add_edge_source(const uint8_t *src, size_t src_len, uint32_t edge, uint32_t label, uint8_t *out, size_t out_len);

/* One more node, at the end of an edge's targets.
 * a: bytes written. b: the new node's id. Refusals: 1 to 6, 13, 7, 9, 10. */
uint64_t ohg_add_edge_target(const uint8_t *src, size_t src_len, uint32_t edge, uint32_t label, uint8_t *out, size_t out_len);

/* The graph without these edges; the rest keep their order. Repeated ids count once.
 * a: bytes written. b: 0. Room: OHG_ROOM_DELETE_EDGES. Refusals: 10 (room), 1 to 6, 13, 7, 10. */
uint64_t ohg_delete_edges(const uint8_t *src, size_t src_len, const uint8_t *ids, size_t ids_len, uint8_t *out, size_t out_len,
                          uint8_t *room, size_t room_len);

/* The graph without these nodes: every entry of them is dropped from edge and global lists, a pair is dropped if either end goes,
 * the rest are numbered anew in order.
 * `map` gets, as wide as in `src`, the new id of each old node, or OHG_GONE (OHG_GONE_1 of 2 bytes). If either buffer is too short neither is
 * written.
 * a: bytes written to `out`. b: map entries written. Room: OHG_ROOM_DELETE_NODES. Refusals: 10 (room), 1 to 6, 13, 7, 10. */
uint64_t ohg_delete_nodes(const uint8_t *src, size_t src_len, const uint8_t *ids, size_t ids_len, uint8_t *out, size_t out_len,
                          uint8_t *map, size_t map_len, uint8_t *room, size_t room_len);

/* All of these steps, one after the other: the graph that ohg_new_node to ohg_delete_nodes would give, each called on the answer before it with
 * room enough. No maps or ids are answered; a new node or edge has the count of nodes or edges before it as its id. No steps give the graph back.
 * A refusal at a step refuses the whole call, and nothing is written before the last step has passed. 9 is tried at every step, also where a
 * later one would come back within the limits, and 10 for the last graph only.
 * a: bytes written, on a refusal the step's index. b: 0. Room: OHG_ROOM_BUILD. Refusals: 10 (room), 1 to 6, 13, 12, 7, 9, 10. */
uint64_t ohg_build(const uint8_t *src, size_t src_len, const uint8_t *steps, size_t steps_len, uint8_t *out, size_t out_len, uint8_t *room,
                   size_t room_len);

/* The pending pairs carried out: nodes that pairs join, directly or through others, become one node with their label, numbered in order of
 * the least of them. Entries of edges and global lists are renamed, edges keep order and labels, and no pairs are left. Without pairs it is the
 * same graph.
 * `map` gets, as wide as in `src`, the new id of each old node. If either buffer is too short neither is written.
 * a: bytes written to `out`. b: map entries written. Room: OHG_ROOM_QUOTIENT. Refusals: 10 (room), 1 to 6, 13, 11, 10. */
uint64_t ohg_quotient(const uint8_t *src, size_t src_len, uint8_t *out, size_t out_len, uint8_t *map, size_t map_len, uint8_t *room,
                      size_t room_len);

/* The graph with the implicit wiring of all its nodes made explicit, after its joined nodes were merged as by ohg_quotient: every entry of a
 * node gets a fresh node with its label, numbered on from the node count, and two spiders are appended for each node, which join what the
 * fresh nodes took apart. A spider already there stays one.
 * a: bytes written. b: 0. Room: OHG_ROOM_SPIDERIZE. Refusals: 10 (room), 1 to 6, 13, 11, 9, 10. */
uint64_t ohg_spiderize(const uint8_t *src, size_t src_len, uint8_t *out, size_t out_len, uint8_t *room, size_t room_len);

/* The same of the nodes in a list, whose ids are those before merging; repeats and order have no effect. Spiderizing the nodes that
 * ohg_cycle_breaking_nodes lists leaves no directed cycle.
 * a: bytes written. b: 0. Room: OHG_ROOM_SPIDERIZE_NODES. Refusals: 10 (room), 1 to 6, 13, 7, 11, 9, 10. */
uint64_t ohg_spiderize_nodes(const uint8_t *src, size_t src_len, const uint8_t *ids, size_t ids_len, uint8_t *out, size_t out_len,
                             uint8_t *room, size_t room_len);

/* Chooses nodes that every directed cycle passes through; `list` gets their ids, as wide as in `src`, ascending. It is empty exactly when
 * there is no directed cycle.
 * a: ids in the list. b: vertices removed freely. Room: OHG_ROOM_CYCLE_BREAKING_NODES. Refusals: 10 (room), 1 to 6, 13, 8, 10. */
uint64_t ohg_cycle_breaking_nodes(const uint8_t *src, size_t src_len, uint8_t *list, size_t list_len, uint8_t *room, size_t room_len);

/* The same among the nodes that are not in the list `kept`, by the same score and tie: no kept node is answered. Repeats and order have no
 * effect, and an empty list keeps nothing, which is ohg_cycle_breaking_nodes. Refused by 16 exactly if some directed cycle has only kept
 * nodes, whatever edges it passes.
 * a: ids in the list. b: vertices removed freely. Room: OHG_ROOM_CYCLE_BREAKING_NODES_KEEPING. Refusals: 10 (room), 1 to 6, 13, 7, 8, 16,
 * 10. */
uint64_t ohg_cycle_breaking_nodes_keeping(const uint8_t *src, size_t src_len, const uint8_t *kept, size_t kept_len, uint8_t *list,
                                          size_t list_len, uint8_t *room, size_t room_len);

/* The same answer and the same refusals, with their places, as ohg_cycle_breaking_nodes_keeping, found by sweeping over the drawing: in less
 * room and, on a large drawing, in more time.
 * a: ids in the list. b: vertices removed freely. Room: OHG_ROOM_CYCLE_BREAKING_NODES_SCANNING. Refusals: 10 (room), 1 to 6, 13, 7, 8, 16,
 * 10. */
uint64_t ohg_cycle_breaking_nodes_scanning(const uint8_t *src, size_t src_len, const uint8_t *kept, size_t kept_len, uint8_t *list,
                                           size_t list_len, uint8_t *room, size_t room_len);

/* Why each node is chosen by ohg_cycle_breaking_nodes, or was freed: `out` gets an entry of OHG_REASON_BYTES for each node, in the order of
 * ids, four 4-byte numbers whatever the version of `src`: kind, stage, arcs in, arcs out. Stages count from 1. A stage begins with what
 * remained after the choice before it; all that goes freely is freed, what is left is the stage's core, and one of its nodes is chosen. Whether
 * core vertices lead to a node, or it leads to one, is meant by paths through what remained when the stage began. The arcs are 0 where freed.
 * The last stage has an empty core, so what is freed there is OHG_NOT_LED_TO. OHG_CHOSEN stands exactly at the ids of
 * ohg_cycle_breaking_nodes.
 * a: entries, one for each node. b: nodes chosen. Room: OHG_ROOM_REASONS. Refusals: 10 (room), 1 to 6, 13, 8, 10. */
uint64_t ohg_reasons(const uint8_t *src, size_t src_len, uint8_t *out, size_t out_len, uint8_t *room, size_t room_len);

/* Shows one directed cycle: `list` gets its vertices, each once, as wide as in `src`, in the order in which it passes them. They are nodes and
 * edges by turns, and an edge is the node count and its id; the last leads to the first. Once all is removed that goes freely, a walk starts at
 * the lowest node that is left, goes from a node to the lowest edge there that it enters and from an edge to its lowest target there, and ends
 * where it meets a vertex again: the cycle is what it passed since it was there first.
 * a: vertices in the list. b: steps of the walk, the last one included. Both are 0 exactly if there is no directed cycle. Room:
 * OHG_ROOM_FIND_LOOP. Refusals: 10 (room), 1 to 6, 13, 8, 10. */
uint64_t ohg_find_loop(const uint8_t *src, size_t src_len, uint8_t *list, size_t list_len, uint8_t *room, size_t room_len);

/* Whether there is no directed cycle.
 * a: 1 yes, 0 no. b: 0. Room: OHG_ROOM_NO_LOOP. Refusals: 10 (room), 1 to 6, 13, 8. */
uint64_t ohg_no_loop(const uint8_t *src, size_t src_len, uint8_t *room, size_t room_len);

/* Whether each node is fed exactly once, counting edge targets and global sources, and used exactly once, counting edge sources and
 * global targets. A node that stands twice in a list is counted twice; a graph without nodes gets a yes.
 * a: 1 yes, 0 no. b: 0. Room: OHG_ROOM_ONCE_FED. Refusals: 10 (room), 1 to 6, 13, 8. */
uint64_t ohg_once_fed(const uint8_t *src, size_t src_len, uint8_t *room, size_t room_len);

#ifdef __cplusplus
}
#endif

#endif
