#include "hostile.h"

#define SRC l->src.at, l->src.len
#define LIST0 l->list[0].at, l->list[0].len
#define LIST1 l->list[1].at, l->list[1].len
#define OUT l->out[0].at, l->out[0].len
#define MAP l->out[1].at, l->out[1].len
#define ROOM l->room.at, l->room.len
#define FUNCTION(name, ...) \
    static uint64_t name(const struct lent *l) { return ohg_##name(__VA_ARGS__); }

FUNCTION(read, SRC, OUT)
FUNCTION(rewrite, SRC, OUT)
FUNCTION(empty, OUT)
FUNCTION(discrete, LIST0, OUT)
FUNCTION(identity, LIST0, OUT)
FUNCTION(singleton, l->number[0], LIST0, LIST1, OUT)
FUNCTION(new_node, SRC, l->number[0], OUT)
FUNCTION(new_edge, SRC, l->number[0], LIST0, LIST1, OUT)
FUNCTION(new_operation, SRC, l->number[0], LIST0, LIST1, OUT)
FUNCTION(unify, SRC, l->number[0], l->number[1], OUT)
FUNCTION(add_edge_source, SRC, l->number[0], l->number[1], OUT)
FUNCTION(add_edge_target, SRC, l->number[0], l->number[1], OUT)
FUNCTION(delete_edges, SRC, LIST0, OUT, ROOM)
FUNCTION(delete_nodes, SRC, LIST0, OUT, MAP, ROOM)
FUNCTION(spiderize, SRC, OUT, ROOM)
FUNCTION(spiderize_nodes, SRC, LIST0, OUT, ROOM)
FUNCTION(cycle_breaking_nodes, SRC, OUT, ROOM)
FUNCTION(no_loop, SRC, ROOM)
FUNCTION(once_fed, SRC, ROOM)
FUNCTION(quotient, SRC, OUT, MAP, ROOM)
FUNCTION(cycle_breaking_nodes_keeping, SRC, LIST0, OUT, ROOM)
FUNCTION(find_loop, SRC, OUT, ROOM)
FUNCTION(cycle_breaking_nodes_scanning, SRC, LIST0, OUT, ROOM)
FUNCTION(reasons, SRC, OUT, ROOM)
FUNCTION(price, SRC, OUT, ROOM)
FUNCTION(price_range, SRC, OUT, ROOM)
FUNCTION(build, SRC, LIST0, OUT, ROOM)

enum { DONE = 1 << 0, FORM_1_TO_6 = 0x7E, BAD_LIST = 1 << 7, PAIR = 1 << 8, LIMIT = 1 << 9, SHORT = 1 << 10, DIFFER = 1 << 11, BAD_STEP = 1 << 12, OTHER_FORM = 1 << 13, FAULTY = 1 << 14 | 1 << 15, KEPT = 1 << 16, NO_SLICE = 1 << 17 };
#define ALWAYS (DONE | SHORT)
#define READS (ALWAYS | FORM_1_TO_6 | OTHER_FORM)
#define MAKES (ALWAYS | BAD_LIST | LIMIT)
#define ROOM_OF(name) OHG_ROOM_##name

/* name, function, graph, numbers, entries, lists, outs, answers, second, room, codes; in the order of their numbers in recorded cases */
const struct function functions[FUNCTIONS] = {
    {"ohg_read", read, true, NO_NUMBER, NO_LIST, 0, 1, SIZES, NOTHING, 0, READS},
    {"ohg_rewrite", rewrite, true, NO_NUMBER, NO_LIST, 0, 1, FORM, NOTHING, 0, READS},
    {"ohg_empty", empty, false, NO_NUMBER, NO_LIST, 0, 1, FORM, NOTHING, 0, ALWAYS},
    {"ohg_discrete", discrete, false, NO_NUMBER, LABELS, 1, 1, FORM, NOTHING, 0, MAKES},
    {"ohg_identity", identity, false, NO_NUMBER, LABELS, 1, 1, FORM, NOTHING, 0, MAKES},
    {"ohg_singleton", singleton, false, LABEL, LABELS, 2, 1, FORM, NOTHING, 0, MAKES},
    {"ohg_new_node", new_node, true, LABEL, NO_LIST, 0, 1, FORM, NODE_ID, 0, READS | LIMIT},
    {"ohg_new_edge", new_edge, true, LABEL, NODES, 2, 1, FORM, EDGE_ID, 0, READS | MAKES},
    {"ohg_new_operation", new_operation, true, LABEL, LABELS, 2, 1, FORM, EDGE_ID, 0, READS | MAKES},
    {"ohg_unify", unify, true, TWO_NODES, NO_LIST, 0, 1, FORM, NOTHING, 0, READS | MAKES},
    {"ohg_add_edge_source", add_edge_source, true, EDGE_AND_LABEL, NO_LIST, 0, 1, FORM, NODE_ID, 0, READS | MAKES},
    {"ohg_add_edge_target", add_edge_target, true, EDGE_AND_LABEL, NO_LIST, 0, 1, FORM, NODE_ID, 0, READS | MAKES},
    {"ohg_delete_edges", delete_edges, true, NO_NUMBER, EDGES, 1, 1, FORM, NOTHING, ROOM_OF(DELETE_EDGES), READS | BAD_LIST},
    {"ohg_delete_nodes", delete_nodes, true, NO_NUMBER, NODES, 1, 2, FORM_AND_MAP, ENTRIES, ROOM_OF(DELETE_NODES), READS | BAD_LIST},
    {"ohg_spiderize", spiderize, true, NO_NUMBER, NO_LIST, 0, 1, FORM, NOTHING, ROOM_OF(SPIDERIZE), READS | DIFFER | LIMIT},
    {"ohg_spiderize_nodes", spiderize_nodes, true, NO_NUMBER, NODES, 1, 1, FORM, NOTHING, ROOM_OF(SPIDERIZE_NODES), READS | MAKES | DIFFER},
    {"ohg_cycle_breaking_nodes", cycle_breaking_nodes, true, NO_NUMBER, NO_LIST, 0, 1, LIST, FREE, ROOM_OF(CYCLE_BREAKING_NODES), READS | PAIR},
    {"ohg_no_loop", no_loop, true, NO_NUMBER, NO_LIST, 0, 0, YES, NOTHING, ROOM_OF(NO_LOOP), READS | PAIR},
    {"ohg_once_fed", once_fed, true, NO_NUMBER, NO_LIST, 0, 0, YES, NOTHING, ROOM_OF(ONCE_FED), READS | PAIR},
    {"ohg_quotient", quotient, true, NO_NUMBER, NO_LIST, 0, 2, FORM_AND_MAP, ENTRIES, ROOM_OF(QUOTIENT), READS | DIFFER},
    {"ohg_cycle_breaking_nodes_keeping", cycle_breaking_nodes_keeping, true, NO_NUMBER, NODES, 1, 1, LIST, FREE,
     ROOM_OF(CYCLE_BREAKING_NODES_KEEPING), READS | BAD_LIST | PAIR | KEPT},
    {"ohg_find_loop", find_loop, true, NO_NUMBER, NO_LIST, 0, 1, LOOP, STEPS, ROOM_OF(FIND_LOOP), READS | PAIR},
    {"ohg_cycle_breaking_nodes_scanning", cycle_breaking_nodes_scanning, true, NO_NUMBER, NODES, 1, 1, LIST, FREE,
     ROOM_OF(CYCLE_BREAKING_NODES_SCANNING), READS | BAD_LIST | PAIR | KEPT},
    {"ohg_reasons", reasons, true, NO_NUMBER, NO_LIST, 0, 1, EXPLAINED, CUTS, ROOM_OF(REASONS), READS | PAIR},
    {"ohg_price", price, true, NO_NUMBER, NO_LIST, 0, 1, PRICES, NOTHING, ROOM_OF(PRICE), READS | PAIR | FAULTY},
    {"ohg_price_range", price_range, true, NO_NUMBER, NO_LIST, 0, 1, REPORT, NOTHING, ROOM_OF(PRICE_RANGE), ALWAYS | NO_SLICE},
    {"ohg_build", build, true, NO_NUMBER, BUILDING, 1, 1, FORM, NOTHING, ROOM_OF(BUILD), READS | MAKES | BAD_STEP},
};
