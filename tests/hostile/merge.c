/* Merging as document 02 has it: nodes that pairs join, directly or through others, become one, numbered in order of the least of them. */
#include <string.h>

#include "hostile.h"

/* What a form's header says, and where its parts begin. */
struct parts {
    uint32_t width, nodes, edges, sources, targets, pairs;
    const uint8_t *labels, *edge_labels, *body, *pair;
};

static struct parts parts_of(struct slice src) {
    uint32_t width = ohg_width(src.at, src.len), count[5];
    for (int i = 0; i < 5; i++) count[i] = get(src.at + 5 + width * i, width);
    struct parts p = {width, count[0], count[1], count[2], count[3], count[4], src.at + 5 + 5 * width, NULL, NULL, NULL};
    p.edge_labels = p.labels + 4 * p.nodes;
    p.body = p.edge_labels + 4 * p.edges;
    p.pair = src.at + src.len - (size_t)width * 2 * p.pairs;
    return p;
}

/* From each node that has no number yet, in order, all that pairs lead to get the next one. */
static uint32_t number_classes(const struct parts *p, uint32_t class[NODES_MOST]) {
    /* the ends of pairs at each node, chained: end e of the list leads to the other end of its pair, e ^ 1 */
    static uint32_t first[NODES_MOST], next[2 * PAIRS_MOST], waiting[NODES_MOST];
    uint32_t classes = 0;
    memset(class, 0xFF, NODES_MOST * sizeof *class);
    memset(first, 0xFF, sizeof first);
    for (uint32_t e = 0; e < 2 * p->pairs; e++) {
        uint32_t v = get(p->pair + p->width * e, p->width);
        next[e] = first[v];
        first[v] = e;
    }
    for (uint32_t v = 0; v < p->nodes; v++) {
        if (class[v] != NONE) continue;
        uint32_t wait = 0;
        waiting[wait++] = v;
        class[v] = classes;
        while (wait) {
            uint32_t from = waiting[--wait];
            for (uint32_t e = first[from]; e != NONE; e = next[e]) {
                uint32_t to = get(p->pair + p->width * (e ^ 1), p->width);
                if (class[to] != NONE) continue;
                class[to] = classes;
                waiting[wait++] = to;
            }
        }
        classes++;
    }
    return classes;
}

static uint8_t *put(uint8_t *at, uint32_t n, uint32_t bytes) {
    for (; bytes--; n >>= 8) *at++ = n;
    return at;
}

/* Puts ids under their new names. Both places move on. */
static uint8_t *put_renamed(uint8_t *to, uint32_t width, const uint8_t **from, uint32_t old_width, uint32_t count, const uint32_t *class) {
    for (; count--; *from += old_width) to = put(to, class[get(*from, old_width)], width);
    return to;
}

/* The ports of all edges. */
static uint32_t ports_of(const struct parts *p) {
    return (p->pair - p->body) / p->width - 2 * p->edges - p->sources - p->targets;
}

/* The bytes of an id in the form of the merged graph, which has no pairs. */
static uint32_t merged_width(const struct parts *p, uint32_t nodes) {
    return nodes <= 2048 && p->edges <= 2048 && ports_of(p) <= 8192 && p->sources <= 1024 && p->targets <= 1024 ? 2 : 4;
}

/* Puts the label of each class, and tells whether all its members have it. */
static bool put_labels(uint8_t *labels, const struct parts *p, const uint32_t *class) {
    uint32_t known = 0;
    bool alike = true;
    for (uint32_t v = 0; v < p->nodes; v++) {
        uint8_t *at = labels + 4 * class[v], *label = (uint8_t *)p->labels + 4 * v;
        if (class[v] == known) { /* its least member */
            memcpy(at, label, 4);
            known++;
        }
        alike = alike && memcmp(at, label, 4) == 0;
    }
    return alike;
}

void merge(struct slice src, struct merged *m) {
    struct parts p = parts_of(src);
    m->nodes = number_classes(&p, m->class);
    uint32_t width = merged_width(&p, m->nodes), counts[] = {m->nodes, p.edges, p.sources, p.targets, 0};
    uint8_t *at = put(put(m->form, 0x47484F, 3), width / 2, 2);
    for (int i = 0; i < 5; i++) at = put(at, counts[i], width);
    m->differ = !put_labels(at, &p, m->class);
    at += 4 * m->nodes;
    memcpy(at, p.edge_labels, 4 * p.edges);
    at += 4 * p.edges;
    const uint8_t *from = p.body;
    for (uint32_t i = 0; i < p.edges; i++) {
        uint32_t sources = get(from, p.width), targets = get(from + p.width, p.width);
        at = put(put(at, sources, width), targets, width);
        from += 2 * p.width;
        at = put_renamed(at, width, &from, p.width, sources + targets, m->class);
    }
    at = put_renamed(at, width, &from, p.width, p.sources + p.targets, m->class);
    m->len = at - m->form;
}
