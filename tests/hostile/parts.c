/* The parts of a drawing as document 02's T-07 has them: which edge is at fault first, how many there are of each kind, and what they cost. */
#include <string.h>

#include "hostile.h"

const struct kind catalogue[KINDS] = {
    {0, 1, 4200}, {1, 0, 4200}, {1, 2, 1150}, {2, 1, 640}, {1, 1, 2300}, {2, 1, 390},
    {2, 1, 870}, {1, 1, 510}, {1, 1, 120}, {1, 2, 95}, {2, 1, 95}, {2, 2, 3100},
};

void count_parts(struct slice src, struct counted *p) {
    uint32_t width = ohg_width(src.at, src.len), nodes = get(src.at + 5, width), edges = get(src.at + 5 + width, width);
    const uint8_t *label = src.at + 5 + 5 * width + 4 * (size_t)nodes, *at = label + 4 * (size_t)edges;
    memset(p, 0, sizeof *p);
    for (uint32_t edge = 0; edge < edges; edge++, label += 4) {
        uint32_t kind = get(label, 4), sources = get(at, width), targets = get(at + width, width);
        unsigned fault = 0;
        at += width * (2 + (size_t)sources + targets);
        if (kind == 0xFFFFFFFF) {
            p->spiders++;
            continue;
        }
        if (kind < 1 || kind > KINDS) {
            fault = OHG_UNKNOWN_KIND;
        } else if (sources != catalogue[kind - 1].sources || targets != catalogue[kind - 1].targets) {
            fault = OHG_OTHER_PORTS;
        } else {
            p->count[kind - 1]++;
            p->total += catalogue[kind - 1].price;
        }
        if (!p->fault) p->fault = fault;
        if (fault) p->last_fault = fault;
    }
}
