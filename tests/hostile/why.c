/* Why each node is chosen or freed, as document 02 has it: of each stage the core, found from nothing among what remained, and of what is outside of it what
 * paths lead to it from the core and from it to the core. */
#include <string.h>

#include "hostile.h"

enum { STEPS_MOST = 1 << 19 }; /* vertices and arcs that are looked at in all stages together, which takes long */

struct reason get_reason(const uint8_t *entry) {
    return (struct reason){get(entry, 4), get(entry + 4, 4), get(entry + 8, 4), get(entry + 12, 4)};
}

/* Leaves the arcs between vertices of the rest. */
static void retain(struct arcs *a, const bool *rest) {
    uint32_t count = 0;
    for (uint32_t i = 0; i < a->count; i++) {
        if (!rest[a->from[i]] || !rest[a->to[i]]) continue;
        a->from[count] = a->from[i];
        a->to[count++] = a->to[i];
    }
    a->count = count;
}

/* Marks what arcs lead to from what is marked. */
static void reach(uint32_t vertices, const uint32_t *from, const uint32_t *to, uint32_t count, bool *marked) {
    static uint32_t first[VERTICES_MOST], next[ARCS_MOST], waiting[VERTICES_MOST];
    uint32_t wait = 0;
    memset(first, 0xFF, vertices * sizeof *first);
    for (uint32_t i = 0; i < count; i++) {
        next[i] = first[from[i]];
        first[from[i]] = i;
    }
    for (uint32_t v = 0; v < vertices; v++)
        if (marked[v]) waiting[wait++] = v;
    while (wait) {
        uint32_t v = waiting[--wait];
        for (uint32_t i = first[v]; i != NONE; i = next[i]) {
            if (marked[to[i]]) continue;
            marked[to[i]] = true;
            waiting[wait++] = to[i];
        }
    }
}

/* The node of the core with the largest product of arcs in and out there, the lowest of several; NONE where the core is empty. */
static uint32_t best_of(const struct arcs *a, const bool *core, struct reason *r) {
    static uint32_t in[VERTICES_MOST], out[VERTICES_MOST];
    uint32_t best = NONE;
    memset(in, 0, a->vertices * sizeof *in);
    memset(out, 0, a->vertices * sizeof *out);
    for (uint32_t i = 0; i < a->count; i++) {
        if (!core[a->from[i]] || !core[a->to[i]]) continue;
        out[a->from[i]]++;
        in[a->to[i]]++;
    }
    for (uint32_t v = 0; v < a->nodes; v++)
        if (core[v] && (best == NONE || (uint64_t)in[v] * out[v] > (uint64_t)in[best] * out[best])) best = v;
    if (best != NONE) *r = (struct reason){OHG_CHOSEN, 0, in[best], out[best]};
    return best;
}

void explain(struct slice src, struct explained *e) {
    static struct arcs a;
    static bool rest[VERTICES_MOST], core[VERTICES_MOST], led[VERTICES_MOST], leads[VERTICES_MOST];
    read_arcs(src, &a);
    memset(rest, true, a.vertices);
    memset(e->reasons, 0, sizeof e->reasons);
    e->nodes = a.nodes;
    e->whole = false;
    uint32_t left = STEPS_MOST, steps = 0;
    for (e->chosen = 0; !e->whole && steps <= left; left -= steps) {
        uint32_t stage = e->chosen + 1;
        retain(&a, rest);
        steps = 1 + a.vertices + a.count;
        find_core(&a, core);
        memcpy(led, core, a.vertices);
        memcpy(leads, core, a.vertices);
        reach(a.vertices, a.from, a.to, a.count, led);
        reach(a.vertices, a.to, a.from, a.count, leads);
        for (uint32_t v = 0; v < a.vertices; v++) {
            if (rest[v] && !core[v] && led[v] && leads[v]) fail("why.c", "what lies on a way from the core to the core is in it");
            if (v < a.nodes && rest[v] && !core[v]) e->reasons[v] = (struct reason){led[v] ? OHG_LEADS_TO_NONE : OHG_NOT_LED_TO, stage, 0, 0};
        }
        memcpy(rest, core, a.vertices);
        struct reason r;
        uint32_t best = best_of(&a, core, &r);
        e->whole = best == NONE;
        if (e->whole) break;
        r.stage = stage;
        e->reasons[best] = r;
        rest[best] = false;
        e->chosen++;
    }
}
