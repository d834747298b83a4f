/* The report on a slice of drawings as document 02's T-13 has it: where the drawings lie, and what they are and cost together. */
#include <string.h>

#include "hostile.h"

bool take_drawing(struct slice *rest, struct slice *drawing) {
    if (rest->len < 4) return false;
    size_t len = get(rest->at, 4);
    if (rest->len - 4 < len) return false;
    *drawing = (struct slice){rest->at + 4, len};
    *rest = (struct slice){rest->at + 4 + len, rest->len - 4 - len};
    return true;
}

bool is_range(struct slice src) {
    struct slice drawing;
    unsigned drawings = 0;
    while (src.len) {
        if (!take_drawing(&src, &drawing)) return false;
        drawings++;
    }
    return drawings <= OHG_MOST_DRAWINGS;
}

void make_report(const unsigned *codes, const struct counted *parts, const uint32_t *buffers, uint32_t drawings, struct report *r) {
    memset(r, 0, sizeof *r);
    r->dearest = OHG_NO_DRAWING;
    uint64_t most = 0;
    for (uint32_t i = drawings; i-- > 0;) { /* from the last on, so that of those that cost alike the first stays */
        if (codes[i]) {
            r->refused[codes[i] - 1]++;
            continue;
        }
        uint64_t total = parts[i].total + 260ull * buffers[i];
        for (int k = 0; k < KINDS; k++) r->count[k] += parts[i].count[k];
        r->buffers += buffers[i];
        r->sum += total;
        r->priced++;
        if (total >= most) {
            most = total;
            r->dearest = i;
        }
    }
    if (!r->priced) return;
    r->mean = r->sum / r->priced;
    r->remainder = r->sum - r->mean * r->priced;
}

static uint64_t get8(const uint8_t *at) {
    return get(at, 4) | (uint64_t)get(at + 4, 4) << 32;
}

void get_report(const uint8_t *bytes, struct report *r) {
    memset(r, 0, sizeof *r);
    r->priced = get(bytes, 4);
    for (int i = 0; i < REFUSALS; i++) r->refused[i] = get(bytes + 4 + 4 * i, 4);
    for (int i = 0; i < KINDS; i++) r->count[i] = get(bytes + 72 + 4 * i, 4);
    r->buffers = get(bytes + 120, 4);
    r->sum = get8(bytes + 124);
    r->dearest = get(bytes + 132, 4);
    r->mean = get8(bytes + 136);
    r->remainder = get(bytes + 144, 4);
}
