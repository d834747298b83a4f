/* One loop as document 02 has it: the walk from the lowest node of what is left once all that goes freely has gone, always to the lowest vertex there. */
#include <string.h>

#include "hostile.h"

/* The arcs at each vertex, on one side: those from it or those to it. */
struct side {
    uint32_t first[VERTICES_MOST], next[ARCS_MOST], left[VERTICES_MOST];
};

static void lay_out(const uint32_t *at, uint32_t count, struct side *s) {
    memset(s->first, 0xFF, sizeof s->first);
    memset(s->left, 0, sizeof s->left);
    for (uint32_t i = 0; i < count; i++) {
        s->next[i] = s->first[at[i]];
        s->first[at[i]] = i;
        s->left[at[i]]++;
    }
}

/* Takes a vertex from what is at the other ends of its arcs on one side; returns how many of them have none left there and wait now. */
static uint32_t take(uint32_t v, const struct side *s, const uint32_t *ends, struct side *other, bool *core, uint32_t *waiting) {
    uint32_t more = 0;
    for (uint32_t i = s->first[v]; i != NONE; i = s->next[i]) {
        uint32_t end = ends[i];
        if (--other->left[end] || !core[end]) continue;
        core[end] = false;
        waiting[more++] = end;
    }
    return more;
}

void find_core(const struct arcs *a, bool *core) {
    static struct side out, into;
    static uint32_t waiting[VERTICES_MOST];
    uint32_t wait = 0;
    lay_out(a->from, a->count, &out);
    lay_out(a->to, a->count, &into);
    for (uint32_t v = 0; v < a->vertices; v++) {
        core[v] = out.left[v] && into.left[v];
        if (!core[v]) waiting[wait++] = v;
    }
    while (wait) {
        uint32_t v = waiting[--wait];
        wait += take(v, &out, a->to, &into, core, waiting + wait);
        wait += take(v, &into, a->from, &out, core, waiting + wait);
    }
}

void walk_on(const uint32_t *onward, uint32_t start, struct walked *w) {
    static uint32_t visit[VERTICES_MOST];
    uint32_t v = start;
    memset(visit, 0xFF, sizeof visit);
    for (w->steps = 0; visit[v] == NONE; v = onward[v]) {
        visit[v] = w->steps;
        w->visits[w->steps++] = v;
    }
    w->count = w->steps - visit[v];
}

void walk(struct slice src, struct walked *w) {
    static struct arcs a;
    static bool core[VERTICES_MOST];
    static uint32_t onward[VERTICES_MOST];
    read_arcs(src, &a);
    find_core(&a, core);
    memset(onward, 0xFF, sizeof onward);
    for (uint32_t i = 0; i < a.count; i++)
        if (core[a.from[i]] && core[a.to[i]] && a.to[i] < onward[a.from[i]]) onward[a.from[i]] = a.to[i];
    uint32_t start = 0;
    while (start < a.nodes && !core[start]) start++;
    w->steps = w->count = 0;
    if (start < a.nodes) walk_on(onward, start, w);
}

static uint8_t *put4(uint8_t *at, uint32_t n) {
    for (int i = 0; i < 4; i++) *at++ = n >> 8 * i;
    return at;
}

size_t ring_form(uint32_t nodes, uint8_t *form) {
    uint8_t *at = form;
    memcpy(at, "OHG\2\0", 5);
    at = put4(put4(at + 5, nodes), nodes);
    memset(at, 0, 12 + 8 * nodes);
    at += 12 + 8 * nodes;
    for (uint32_t v = 0; v < nodes; v++) at = put4(put4(put4(put4(at, 1), 1), v), (v + 1) % nodes);
    return at - form;
}
