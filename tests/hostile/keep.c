/* The choice with kept nodes as document 02 has it: the stages of document 01, in which only a node that is not kept may be chosen, each core and each
 * score found from nothing; and, apart from the stages, whether some directed cycle has only kept nodes. */
#include <string.h>

#include "hostile.h"

/* How many arcs lead to each vertex and from it, among those that stay. */
static void count_arcs(const struct arcs *a, const bool *stays, uint32_t *into, uint32_t *out) {
    memset(into, 0, a->vertices * sizeof *into);
    memset(out, 0, a->vertices * sizeof *out);
    for (uint32_t i = 0; i < a->count; i++) {
        if (!stays[a->from[i]] || !stays[a->to[i]]) continue;
        out[a->from[i]]++;
        into[a->to[i]]++;
    }
}

/* Whether a directed cycle passes through vertices that stay alone: not all of them can be taken away, each when no arc leads to it any more. */
static bool is_cyclic(const struct arcs *a, const bool *stays) {
    static uint32_t first[VERTICES_MOST], next[ARCS_MOST], into[VERTICES_MOST], out[VERTICES_MOST], waiting[VERTICES_MOST];
    uint32_t left = 0, wait = 0;
    memset(first, 0xFF, sizeof first);
    for (uint32_t i = 0; i < a->count; i++) {
        next[i] = first[a->from[i]];
        first[a->from[i]] = i;
    }
    count_arcs(a, stays, into, out);
    for (uint32_t v = 0; v < a->vertices; v++) {
        left += stays[v];
        if (stays[v] && into[v] == 0) waiting[wait++] = v;
    }
    for (; wait; left--) {
        uint32_t v = waiting[--wait];
        for (uint32_t i = first[v]; i != NONE; i = next[i])
            if (stays[a->to[i]] && --into[a->to[i]] == 0) waiting[wait++] = a->to[i];
    }
    return left > 0;
}

/* Takes away vertices without an arc in or without an arc out among the rest, all at once, until there are none; returns how many these were. */
static uint32_t take_loose(const struct arcs *a, bool *rest, uint32_t *into, uint32_t *out) {
    uint32_t taken = 0, before;
    do {
        before = taken;
        count_arcs(a, rest, into, out);
        for (uint32_t v = 0; v < a->vertices; v++) {
            if (!rest[v] || (into[v] && out[v])) continue;
            rest[v] = false;
            taken++;
        }
    } while (taken != before);
    return taken;
}

/* The stages; false where they are stuck. */
static bool choose(const struct arcs *a, const bool *kept, struct kept *k) {
    static bool rest[VERTICES_MOST];
    static uint32_t into[VERTICES_MOST], out[VERTICES_MOST];
    memset(rest, true, a->vertices);
    memset(k->chosen, false, sizeof k->chosen);
    k->ids = k->free = 0;
    while (true) {
        k->free += take_loose(a, rest, into, out);
        if (k->free + k->ids == a->vertices) return true;
        uint32_t best = NONE;
        for (uint32_t v = 0; v < a->nodes; v++)
            if (rest[v] && !kept[v] && (best == NONE || (uint64_t)into[v] * out[v] > (uint64_t)into[best] * out[best])) best = v;
        if (best == NONE) return false;
        rest[best] = false;
        k->chosen[best] = true;
        k->ids++;
    }
}

void keep(struct slice src, struct slice list, struct kept *k) {
    static struct arcs a;
    static bool stays[VERTICES_MOST];
    uint32_t width = ohg_width(src.at, src.len);
    read_arcs(src, &a);
    memset(k->kept, false, sizeof k->kept);
    for (size_t i = 0; i < list.len; i += width) k->kept[get(list.at + i, width)] = true;
    memcpy(stays, k->kept, a.nodes);
    memset(stays + a.nodes, true, a.vertices - a.nodes);
    k->blocked = is_cyclic(&a, stays);
    k->known = a.vertices <= STAGES_MOST && a.count <= 4 * STAGES_MOST;
    if (k->known && choose(&a, k->kept, k) == k->blocked) fail("keep.c", "the stages are stuck exactly where a cycle has only kept nodes");
}
