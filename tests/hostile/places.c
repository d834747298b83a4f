#define _GNU_SOURCE
#include <stdio.h>
#include <stdlib.h>
#include <sys/mman.h>

#include "hostile.h"

/* Whether a list is broken at an entry: its end is, or else the id there is not below its count. */
static bool broken_at(struct slice list, uint32_t width, uint64_t count, uint32_t entry) {
    size_t whole = list.len / width;
    if (list.len % width) return entry == whole;
    return entry < whole && get(list.at + (size_t)width * entry, width) >= count;
}

bool is_node_list(struct slice src, struct slice list) {
    uint32_t width = ohg_width(src.at, src.len), nodes = get(src.at + 5, width);
    for (size_t entry = 0; entry <= list.len / width; entry++)
        if (broken_at(list, width, nodes, entry)) return false;
    return true;
}

/* Ids that are given singly have no place; which of two lists is meant the refusal does not say. */
static bool in_a_list(const struct function *f, const struct lent *l, uint32_t entry) {
    uint32_t width = ohg_width(l->src.at, l->src.len);
    uint64_t count = UINT64_MAX; /* any number is a label */
    if (f->lists == 0) return entry == 0;
    if (f->entries == BUILDING) return entry <= l->list[0].len / 4; /* where it is, single calls tell: cases.c */
    if (f->entries == LABELS) width = 4;
    else count = get(l->src.at + 5 + (f->entries == EDGES ? width : 0), width);
    for (int i = 0; i < f->lists; i++)
        if (broken_at(l->list[i], width, count, entry)) return true;
    return false;
}

bool is_place(const struct function *f, const struct lent *l, unsigned code, uint32_t place) {
    const uint8_t *form = l->src.at;
    size_t len = l->src.len, width = ohg_width(form, len);
    switch (code) {
    case OHG_NO_HEADER: return place == len;
    case OHG_NO_MARK: return place == 0;
    case OHG_OTHER_VERSION: return place == 3;
    case OHG_OVER_LIMIT: return place >= 5 && place + width <= len && get(form + place, width) > 0;
    case OHG_OTHER_LENGTH: return place >= 15 && place <= len;
    case OHG_FOREIGN_ID: return place >= 5 + 5 * width && place + width <= len && get(form + place, width) >= get(form + 5, width);
    case OHG_BAD_LIST: return in_a_list(f, l, place);
    default: return place == 0;
    }
}

void run_long_lists(struct desk *d) {
    const uint64_t most = UINT32_MAX;
    size_t bytes = 4 * (most + 2);
    uint8_t out[15], *labels = mmap(NULL, bytes, PROT_READ, MAP_PRIVATE | MAP_ANONYMOUS | MAP_NORESERVE, -1, 0);
    if (labels == MAP_FAILED) {
        perror("mmap");
        exit(1);
    }
    for (uint64_t whole = most - 1; whole <= most + 1; whole++) {
        uint64_t returned = ohg_discrete(labels, 4 * whole + 1, out, sizeof out), due = whole < most ? whole : most;
        if (returned != (OHG_BAD_LIST | due << 32)) fail(functions[DISCRETE].name, "a place of more than 32 bits is given as the highest number");
        d->calls++;
        d->counts[DISCRETE][OHG_BAD_LIST]++;
    }
    munmap(labels, bytes);
}
