#include "hostile.h"

static void put_arc(struct arcs *a, uint32_t from, uint32_t to) {
    a->from[a->count] = from;
    a->to[a->count++] = to;
}

void read_arcs(struct slice src, struct arcs *a) {
    uint32_t width = ohg_width(src.at, src.len), nodes = get(src.at + 5, width), edges = get(src.at + 5 + width, width);
    const uint8_t *at = src.at + 5 + 5 * width + 4 * (nodes + edges);
    a->nodes = nodes;
    a->vertices = nodes + edges;
    a->count = 0;
    for (uint32_t edge = nodes; edge < a->vertices; edge++) {
        uint32_t sources = get(at, width), targets = get(at + width, width);
        at += 2 * width;
        for (uint32_t i = 0; i < sources; i++, at += width) put_arc(a, get(at, width), edge);
        for (uint32_t i = 0; i < targets; i++, at += width) put_arc(a, edge, get(at, width));
    }
}
