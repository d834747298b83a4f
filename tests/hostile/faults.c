/* The port with a fault planted in it, which OHG_FAULT numbers. Linked in between (ld's --wrap), so that it can be seen that each is found. */
#include <sched.h>
#include <stdlib.h>
#include <string.h>

#include "hostile.h"

uint64_t __real_ohg_read(const uint8_t *src, size_t src_len, uint8_t *sizes, size_t sizes_len);
uint64_t __wrap_ohg_read(const uint8_t *src, size_t src_len, uint8_t *sizes, size_t sizes_len);
uint64_t __real_ohg_rewrite(const uint8_t *src, size_t src_len, uint8_t *out, size_t out_len);
uint64_t __wrap_ohg_rewrite(const uint8_t *src, size_t src_len, uint8_t *out, size_t out_len);
uint64_t __real_ohg_discrete(const uint8_t *labels, size_t labels_len, uint8_t *out, size_t out_len);
uint64_t __wrap_ohg_discrete(const uint8_t *labels, size_t labels_len, uint8_t *out, size_t out_len);
uint64_t __real_ohg_delete_nodes(const uint8_t *src, size_t src_len, const uint8_t *ids, size_t ids_len, uint8_t *out, size_t out_len, uint8_t *map,
                                 size_t map_len, uint8_t *room, size_t room_len);
uint64_t __wrap_ohg_delete_nodes(const uint8_t *src, size_t src_len, const uint8_t *ids, size_t ids_len, uint8_t *out, size_t out_len, uint8_t *map,
                                 size_t map_len, uint8_t *room, size_t room_len);
uint64_t __real_ohg_cycle_breaking_nodes(const uint8_t *src, size_t src_len, uint8_t *list, size_t list_len, uint8_t *room, size_t room_len);
uint64_t __wrap_ohg_cycle_breaking_nodes(const uint8_t *src, size_t src_len, uint8_t *list, size_t list_len, uint8_t *room, size_t room_len);

uint64_t __real_ohg_cycle_breaking_nodes_keeping(const uint8_t *src, size_t src_len, const uint8_t *kept, size_t kept_len, uint8_t *list,
                                                 size_t list_len, uint8_t *room, size_t room_len);
uint64_t __wrap_ohg_cycle_breaking_nodes_keeping(const uint8_t *src, size_t src_len, const uint8_t *kept, size_t kept_len, uint8_t *list,
                                                 size_t list_len, uint8_t *room, size_t room_len);
uint64_t __real_ohg_cycle_breaking_nodes_scanning(const uint8_t *src, size_t src_len, const uint8_t *kept, size_t kept_len, uint8_t *list,
                                                  size_t list_len, uint8_t *room, size_t room_len);
uint64_t __wrap_ohg_cycle_breaking_nodes_scanning(const uint8_t *src, size_t src_len, const uint8_t *kept, size_t kept_len, uint8_t *list,
                                                  size_t list_len, uint8_t *room, size_t room_len);
uint64_t __real_ohg_find_loop(const uint8_t *src, size_t src_len, uint8_t *list, size_t list_len, uint8_t *room, size_t room_len);
uint64_t __wrap_ohg_find_loop(const uint8_t *src, size_t src_len, uint8_t *list, size_t list_len, uint8_t *room, size_t room_len);
uint64_t __real_ohg_reasons(const uint8_t *src, size_t src_len, uint8_t *out, size_t out_len, uint8_t *room, size_t room_len);
uint64_t __wrap_ohg_reasons(const uint8_t *src, size_t src_len, uint8_t *out, size_t out_len, uint8_t *room, size_t room_len);
uint64_t __real_ohg_price(const uint8_t *src, size_t src_len, uint8_t *out, size_t out_len, uint8_t *room, size_t room_len);
uint64_t __wrap_ohg_price(const uint8_t *src, size_t src_len, uint8_t *out, size_t out_len, uint8_t *room, size_t room_len);
uint64_t __real_ohg_price_range(const uint8_t *src, size_t src_len, uint8_t *out, size_t out_len, uint8_t *room, size_t room_len);
uint64_t __wrap_ohg_price_range(const uint8_t *src, size_t src_len, uint8_t *out, size_t out_len, uint8_t *room, size_t room_len);
uint64_t __real_ohg_build(const uint8_t *src, size_t src_len, const uint8_t *steps, size_t steps_len, uint8_t *out, size_t out_len, uint8_t *room,
                          size_t room_len);
uint64_t __wrap_ohg_build(const uint8_t *src, size_t src_len, const uint8_t *steps, size_t steps_len, uint8_t *out, size_t out_len, uint8_t *room,
                          size_t room_len);
uint64_t __real_ohg_spiderize(const uint8_t *src, size_t src_len, uint8_t *out, size_t out_len, uint8_t *room, size_t room_len);
uint64_t __wrap_ohg_spiderize(const uint8_t *src, size_t src_len, uint8_t *out, size_t out_len, uint8_t *room, size_t room_len);
uint64_t __real_ohg_spiderize_nodes(const uint8_t *src, size_t src_len, const uint8_t *ids, size_t ids_len, uint8_t *out, size_t out_len,
                                    uint8_t *room, size_t room_len);
uint64_t __wrap_ohg_spiderize_nodes(const uint8_t *src, size_t src_len, const uint8_t *ids, size_t ids_len, uint8_t *out, size_t out_len,
                                    uint8_t *room, size_t room_len);
uint64_t __real_ohg_quotient(const uint8_t *src, size_t src_len, uint8_t *out, size_t out_len, uint8_t *map, size_t map_len, uint8_t *room,
                             size_t room_len);
uint64_t __wrap_ohg_quotient(const uint8_t *src, size_t src_len, uint8_t *out, size_t out_len, uint8_t *map, size_t map_len, uint8_t *room,
                             size_t room_len);

static int planted(void) {
    static int number = -1;
    if (number < 0) number = getenv("OHG_FAULT") ? atoi(getenv("OHG_FAULT")) : 0;
    return number;
}

static volatile uint8_t seen;

/* Keeps the answer in memory that all threads share. */
static void through_shared(uint8_t *out, size_t n) {
    static uint8_t shared[OHG_FORM_BYTES];
    memcpy(shared, out, n);
    sched_yield();
    memcpy(out, shared, n);
}

/* The refusal with another place. */
static uint64_t placed(uint64_t r, uint64_t place) {
    return (uint32_t)r | place << 32;
}

static void deep_stack(void) {
    volatile uint8_t deep[300 * 1024];
    for (size_t i = 0; i < sizeof deep; i += 512) deep[i] = 1;
}

uint64_t __wrap_ohg_rewrite(const uint8_t *src, size_t src_len, uint8_t *out, size_t out_len) {
    uint64_t r = __real_ohg_rewrite(src, src_len, out, out_len);
    bool done = OHG_CODE(r) == OHG_DONE;
    size_t n = OHG_A(r);
    uint64_t place = OHG_PLACE(r);
    switch (planted()) {
    case 1: out[out_len] ^= 1; break;
    case 2: out[-1] ^= 1; break;
    case 3: seen = src[src_len]; break;
    case 4: seen = src[-1]; break;
    case 5: if (src_len) *(volatile uint8_t *)src = *src; break;
    case 6: if (done && n < out_len) out[n] ^= 1; break;
    case 7: if (!done && out_len) out[out_len - 1] ^= 1; break;
    case 8: return done ? r : r | 256;
    case 9: return OHG_CODE(r) == OHG_OTHER_LENGTH ? OHG_PENDING_PAIR : r;
    case 10: return OHG_CODE(r) == OHG_OTHER_LENGTH ? placed(OHG_NO_HEADER, src_len) : r;
    case 11: if (n > 15) out[n - 1] ^= 1; break;
    case 12: if (done) through_shared(out, n); break;
    case 13: deep_stack(); break;
    case 22: return OHG_CODE(r) == OHG_NO_HEADER ? placed(r, 0) : r;
    case 23: return OHG_CODE(r) == OHG_NO_MARK ? placed(r, 1) : r;
    case 24: return OHG_CODE(r) == OHG_OTHER_VERSION ? placed(r, 4) : r;
    case 25: return OHG_CODE(r) == OHG_OVER_LIMIT ? placed(r, src_len) : r;
    case 26: return OHG_CODE(r) == OHG_OTHER_LENGTH ? placed(r, place + 1) : r;
    case 27: return OHG_CODE(r) == OHG_OTHER_LENGTH ? placed(r, src_len) : r;
    case 28: return OHG_CODE(r) == OHG_FOREIGN_ID ? placed(r, place + ohg_width(src, src_len)) : r;
    case 29: return OHG_CODE(r) == OHG_SHORT_BUFFER ? placed(r, src_len) : r;
    case 30: return OHG_CODE(r) == OHG_OTHER_FORM ? placed(r, 3) : r;
    }
    return r;
}

/* Makes a map one of the width that the result has. */
static void narrow(uint8_t *map, size_t entries, uint32_t width, uint32_t to) {
    for (size_t i = 0; to < width && i < entries; i++) memcpy(map + to * i, map + width * i, to);
}

uint64_t __wrap_ohg_delete_nodes(const uint8_t *src, size_t src_len, const uint8_t *ids, size_t ids_len, uint8_t *out, size_t out_len, uint8_t *map,
                                 size_t map_len, uint8_t *room, size_t room_len) {
    uint8_t garbage = room_len ? *room : 0;
    uint64_t r = __real_ohg_delete_nodes(src, src_len, ids, ids_len, out, out_len, map, map_len, room, room_len);
    switch (planted()) {
    case 14: room[room_len] ^= 1; break;
    case 15: room[-1] ^= 1; break;
    case 16: if (OHG_A(r) > 15) out[15] ^= garbage & 1; break;
    case 17: if (OHG_B(r)) map[0] ^= 1; break;
    case 18: if (!OHG_CODE(r)) narrow(map, OHG_B(r), ohg_width(src, src_len), ohg_width(out, OHG_A(r))); break;
    case 31: return OHG_CODE(r) == OHG_BAD_LIST ? placed(r, OHG_PLACE(r) + 1) : r;
    }
    return r;
}

uint64_t __wrap_ohg_cycle_breaking_nodes(const uint8_t *src, size_t src_len, uint8_t *list, size_t list_len, uint8_t *room, size_t room_len) {
    uint64_t r = __real_ohg_cycle_breaking_nodes(src, src_len, list, list_len, room, room_len);
    size_t n = OHG_A(r), width = ohg_width(src, src_len);
    if (planted() == 19 && n > 1) memcpy(list + width * (n - 1), list, width);
    if (planted() == 20 && n == 1 && list[0]) list[0] = 0;
    return r;
}

/* Gives the low 32 bits of a place. */
uint64_t __wrap_ohg_discrete(const uint8_t *labels, size_t labels_len, uint8_t *out, size_t out_len) {
    uint64_t r = __real_ohg_discrete(labels, labels_len, out, out_len);
    return planted() == 32 && OHG_CODE(r) == OHG_BAD_LIST ? placed(r, labels_len / 4) : r;
}

/* The place of a form's last id where that one is foreign too. */
static uint64_t last_foreign(const uint8_t *src, size_t src_len, uint64_t first) {
    uint32_t width = ohg_width(src, src_len);
    return get(src + src_len - width, width) >= get(src + 5, width) ? src_len - width : first;
}

/* Gives a later place than the first, or one that is too early by a byte; or takes a form of version 2 whose graph fits version 1: of the sizes only
 * the ports do not stand in its header. */
uint64_t __wrap_ohg_read(const uint8_t *src, size_t src_len, uint8_t *sizes, size_t sizes_len) {
    uint64_t r = __real_ohg_read(src, src_len, sizes, sizes_len);
    if (planted() == 33 && OHG_CODE(r) == OHG_FOREIGN_ID) return placed(r, last_foreign(src, src_len, OHG_PLACE(r)));
    if (planted() == 34 && OHG_CODE(r) == OHG_OTHER_LENGTH && OHG_PLACE(r) < src_len) return placed(r, OHG_PLACE(r) - 1);
    if (planted() == 35 && OHG_CODE(r) == OHG_OVER_LIMIT) return placed(r, OHG_PLACE(r) + ohg_width(src, src_len));
    if (planted() != 21 || r != OHG_OTHER_FORM || sizes_len < OHG_SIZES_BYTES) return r;
    memcpy(sizes, src + 5, 8);
    memset(sizes + 8, 0, 4);
    memcpy(sizes + 12, src + 13, 12);
    return OHG_SIZES_BYTES << 8;
}

/* A count in the header of a form: nodes, edges, global sources, global targets, pairs. */
static uint32_t count_of(const uint8_t *form, size_t len, int i) {
    uint32_t width = ohg_width(form, len);
    return get(form + 5 + width * i, width);
}

static void put(uint8_t *at, uint32_t n, uint32_t bytes) {
    for (; bytes--; n >>= 8) *at++ = n;
}

/* A form that was taken, to be changed and given to the port in its place. */
static uint8_t *changed(const uint8_t *src, size_t src_len) {
    static uint8_t form[OHG_FORM_BYTES];
    return memcpy(form, src, src_len);
}

/* All nodes have one label, so that labels are as good as not compared. */
static const uint8_t *alike(const uint8_t *src, size_t src_len) {
    uint8_t *form = changed(src, src_len);
    memset(form + 5 + 5 * ohg_width(src, src_len), 0, 4 * count_of(src, src_len, 0));
    return form;
}

/* A pair that meets an earlier one becomes a node's with itself, so that nothing is joined through another. */
static const uint8_t *direct(const uint8_t *src, size_t src_len) {
    static bool met[OHG_LIST_BYTES / 4];
    uint8_t *form = changed(src, src_len);
    uint32_t width = ohg_width(src, src_len), pairs = count_of(src, src_len, 4);
    memset(met, 0, sizeof met);
    for (uint8_t *pair = form + src_len - 2 * width * pairs; pairs--; pair += 2 * width) {
        uint32_t v = get(pair, width), w = get(pair + width, width);
        if (met[v] || met[w]) memcpy(pair + width, pair, width);
        met[v] = met[w] = true;
    }
    return form;
}

/* Numbers the nodes of a form from the last to the first. */
static void turn(uint8_t *form, size_t len) {
    uint32_t width = ohg_width(form, len), nodes = count_of(form, len, 0), edges = count_of(form, len, 1);
    uint8_t *labels = form + 5 + 5 * width, *at = labels + 4 * (nodes + edges);
    for (uint32_t v = 0; v < nodes / 2; v++) {
        uint32_t label = get(labels + 4 * v, 4);
        memcpy(labels + 4 * v, labels + 4 * (nodes - 1 - v), 4);
        put(labels + 4 * (nodes - 1 - v), label, 4);
    }
    for (uint32_t ids = 0; at < form + len; at += width) {
        if (edges && !ids) { /* an edge's counts */
            ids = get(at, width) + get(at + width, width);
            at += width;
            edges--;
        } else {
            put(at, nodes - 1 - get(at, width), width);
            if (ids) ids--;
        }
    }
}

/* Merges with the classes numbered in order of the greatest of them. */
static uint64_t by_greatest(const uint8_t *src, size_t src_len, uint8_t *out, size_t out_len, uint8_t *map, size_t map_len, uint8_t *room,
                            size_t room_len) {
    static uint8_t turned[OHG_LIST_BYTES];
    uint8_t *form = changed(src, src_len);
    turn(form, src_len);
    uint64_t r = __real_ohg_quotient(form, src_len, out, out_len, map, map_len, room, room_len);
    if (OHG_CODE(r)) return r;
    uint32_t width = ohg_width(src, src_len), nodes = OHG_B(r), classes = count_of(out, OHG_A(r), 0);
    turn(out, OHG_A(r));
    memcpy(turned, map, width * nodes);
    for (uint32_t v = 0; v < nodes; v++) put(map + width * v, classes - 1 - get(turned + width * (nodes - 1 - v), width), width);
    return r;
}

/* Where the edges of a form begin, and where its global lists do. */
static size_t edges_at(const uint8_t *form, size_t len) {
    return 5 + 5 * ohg_width(form, len) + 4 * (count_of(form, len, 0) + count_of(form, len, 1));
}

static size_t globals_at(const uint8_t *form, size_t len) {
    return len - ohg_width(form, len) * (count_of(form, len, 2) + count_of(form, len, 3) + 2 * count_of(form, len, 4));
}

/* An entry of the answer is given the id that it had in the graph that was read. */
static void keep_id(uint8_t *out, size_t at, uint32_t to, const uint8_t *src, size_t was_at, uint32_t width) {
    put(out + at, get(src + was_at, width), to);
}

/* Spoils an answer of merging; returns what is added to its length. */
static size_t spoil(const uint8_t *src, size_t src_len, uint8_t *out, size_t out_len, size_t n, uint8_t *map) {
    uint32_t width = ohg_width(src, src_len), to = ohg_width(out, n);
    uint32_t nodes = count_of(src, src_len, 0), edges = count_of(src, src_len, 1), pairs = count_of(src, src_len, 4), classes = count_of(out, n, 0);
    uint8_t *labels = out + 5 + 5 * to;
    size_t edge = edges_at(out, n), was_edge = edges_at(src, src_len);
    switch (planted()) {
    case 36: narrow(map, nodes, width, to); break;
    case 37: if (globals_at(out, n) < n) keep_id(out, globals_at(out, n), to, src, globals_at(src, src_len), width); break;
    case 38: if (edges && get(out + edge, to)) keep_id(out, edge + 2 * to, to, src, was_edge + 2 * width, width); break;
    case 39: memcpy(labels, src + 5 + 5 * width, 4 * classes); break; /* of the nodes that had these numbers */
    case 40: if (edges > 1) memcpy(labels + 4 * classes, labels + 4 * classes + 4, 4); break;
    case 41: /* a pair stays */
        if (!pairs || out_len < n + 2 * to) break;
        put(out + 5 + 4 * to, 1, to);
        memset(out + n, 0, 2 * to);
        return 2 * to;
    }
    return 0;
}

uint64_t __wrap_ohg_quotient(const uint8_t *src, size_t src_len, uint8_t *out, size_t out_len, uint8_t *map, size_t map_len, uint8_t *room,
                             size_t room_len) {
    uint64_t r = __real_ohg_quotient(src, src_len, out, out_len, map, map_len, room, room_len);
    bool done = OHG_CODE(r) == OHG_DONE, differ = OHG_CODE(r) == OHG_LABELS_DIFFER;
    switch (planted()) {
    case 42: return done ? by_greatest(src, src_len, out, out_len, map, map_len, room, room_len) : r;
    case 43: return done ? __real_ohg_quotient(direct(src, src_len), src_len, out, out_len, map, map_len, room, room_len) : r;
    case 44: return differ ? __real_ohg_quotient(alike(src, src_len), src_len, out, out_len, map, map_len, room, room_len) : r;
    case 45: return done && count_of(src, src_len, 4) ? OHG_PENDING_PAIR : r;
    case 46: return differ ? placed(r, 1) : r;
    case 47: if (differ && out_len) out[0] ^= 1; break;
    case 48: if (differ && map_len) map[map_len - 1] ^= 1; break;
    case 49: if (OHG_CODE(r) == OHG_SHORT_BUFFER && out_len && !map_len) out[0] ^= 1; break;
    }
    return done ? r + (spoil(src, src_len, out, out_len, OHG_A(r), map) << 8) : r;
}

/* Without its pairs, as if there were nothing to merge. */
static struct slice unpaired(const uint8_t *src, size_t src_len) {
    uint32_t width = ohg_width(src, src_len);
    struct slice form = {changed(src, src_len), src_len - 2 * width * count_of(src, src_len, 4)};
    memset(form.at + 5 + 4 * width, 0, width);
    return form;
}

uint64_t __wrap_ohg_spiderize(const uint8_t *src, size_t src_len, uint8_t *out, size_t out_len, uint8_t *room, size_t room_len) {
    uint64_t r = __real_ohg_spiderize(src, src_len, out, out_len, room, room_len);
    bool done = OHG_CODE(r) == OHG_DONE, differ = OHG_CODE(r) == OHG_LABELS_DIFFER;
    struct slice plain = {0};
    switch (planted()) {
    case 50: return done && count_of(src, src_len, 4) ? OHG_PENDING_PAIR : r;
    case 51: if (done) plain = unpaired(src, src_len); break;
    case 52: if (differ && out_len) out[out_len - 1] ^= 1; break;
    case 53: return differ ? placed(r, 1) : r;
    case 54: /* 9 before 11 */
        if (differ && __real_ohg_spiderize(alike(src, src_len), src_len, out, 0, room, room_len) == OHG_RESULT_LIMIT) return OHG_RESULT_LIMIT;
        break;
    }
    return plain.at ? __real_ohg_spiderize(plain.at, plain.len, out, out_len, room, room_len) : r;
}

/* The merged graph of a form. */
static struct slice merged_with(const uint8_t *src, size_t src_len, uint8_t *room, size_t room_len) {
    static uint8_t form[OHG_FORM_BYTES], map[OHG_LIST_BYTES];
    return (struct slice){form, OHG_A(__real_ohg_quotient(src, src_len, form, sizeof form, map, sizeof map, room, room_len))};
}

/* The first entry of a list of so wide ids that is no node of a graph, or the number of entries. */
static size_t first_bad(struct slice form, const uint8_t *ids, size_t ids_len, uint32_t width) {
    size_t i = 0;
    while (i < ids_len / width && get(ids + width * i, width) < count_of(form.at, form.len, 0)) i++;
    return i;
}

uint64_t __wrap_ohg_spiderize_nodes(const uint8_t *src, size_t src_len, const uint8_t *ids, size_t ids_len, uint8_t *out, size_t out_len,
                                    uint8_t *room, size_t room_len) {
    uint64_t r = __real_ohg_spiderize_nodes(src, src_len, ids, ids_len, out, out_len, room, room_len);
    bool done = OHG_CODE(r) == OHG_DONE, differ = OHG_CODE(r) == OHG_LABELS_DIFFER;
    struct slice plain = {0};
    uint32_t width = ohg_width(src, src_len);
    size_t bad;
    switch (planted()) {
    case 55: return done && count_of(src, src_len, 4) ? OHG_PENDING_PAIR : r;
    case 56: if (done) plain = unpaired(src, src_len); break;
    case 57: if (differ && out_len) out[0] ^= 1; break;
    case 58: if (differ) plain = (struct slice){(uint8_t *)alike(src, src_len), src_len}; break;
    case 59: /* 11 before 7 */
        if (OHG_CODE(r) == OHG_BAD_LIST && __real_ohg_spiderize_nodes(src, src_len, ids, 0, out, 0, room, room_len) == OHG_LABELS_DIFFER)
            return OHG_LABELS_DIFFER;
        break;
    case 60: /* the list is not mapped, where it is one of the merged graph's too */
        if (done) plain = merged_with(src, src_len, room, room_len);
        if (done && (first_bad(plain, ids, ids_len, width) < ids_len / width || ohg_width(plain.at, plain.len) != width)) plain.at = NULL;
        break;
    case 61: /* ids that the merged graph has not are refused */
        bad = done ? first_bad(merged_with(src, src_len, room, room_len), ids, ids_len, width) : ids_len;
        return bad < ids_len / width ? placed(OHG_BAD_LIST, bad) : r;
    }
    return plain.at ? __real_ohg_spiderize_nodes(plain.at, plain.len, ids, ids_len, out, out_len, room, room_len) : r;
}

/* Whether a list has an id. */
static bool lists(struct slice list, uint32_t width, uint32_t id) {
    for (size_t i = 0; i + width <= list.len; i += width)
        if (get(list.at + i, width) == id) return true;
    return false;
}

/* The first entry of a list whose id stands before it already, or the number of entries. */
static size_t first_repeat(struct slice list, uint32_t width) {
    size_t i = 0;
    while (i < list.len / width && !lists((struct slice){list.at, width * i}, width, get(list.at + width * i, width))) i++;
    return i;
}

/* A form without the entries of kept nodes at edges, so that these nodes are removed freely at once. */
static struct slice freed(const uint8_t *src, size_t src_len, struct slice kept) {
    uint32_t width = ohg_width(src, src_len), edges = count_of(src, src_len, 1);
    uint8_t *form = changed(src, src_len), *at = form + edges_at(src, src_len);
    const uint8_t *from = src + edges_at(src, src_len), *end = src + src_len;
    while (edges--) {
        uint8_t *counts = at;
        uint32_t count[] = {get(from, width), get(from + width, width)}, left[] = {0, 0};
        from += 2 * width;
        at += 2 * width;
        for (int side = 0; side < 2; side++)
            for (; count[side]--; from += width) {
                if (lists(kept, width, get(from, width))) continue;
                memcpy(at, from, width);
                at += width;
                left[side]++;
            }
        for (int side = 0; side < 2; side++) put(counts + width * side, left[side], width);
    }
    memcpy(at, from, end - from);
    return (struct slice){form, at + (end - from) - form};
}

/* A kept list and, after it, the first of those that were chosen. */
static struct slice and_first(struct slice kept, const uint8_t *list, uint32_t width) {
    static uint8_t more[LIST_MOST + 4];
    memcpy(more, kept.at, kept.len);
    memcpy(more + kept.len, list, width);
    return (struct slice){more, kept.len + width};
}

/* What a call with kept nodes is given. */
struct given {
    struct slice form, kept;
};

static uint64_t keep_as(struct given g, uint8_t *list, size_t list_len, uint8_t *room, size_t room_len) {
    return __real_ohg_cycle_breaking_nodes_keeping(g.form.at, g.form.len, g.kept.at, g.kept.len, list, list_len, room, room_len);
}

/* Whether what is chosen when no node is kept has a kept node. */
static bool wants_kept(struct given g, uint8_t *room, size_t room_len) {
    static uint8_t list[OHG_LIST_BYTES];
    uint32_t width = ohg_width(g.form.at, g.form.len);
    uint64_t r = __real_ohg_cycle_breaking_nodes(g.form.at, g.form.len, list, sizeof list, room, room_len);
    for (uint32_t i = 0; i < OHG_A(r); i++)
        if (lists(g.kept, width, get(list + width * i, width))) return true;
    return false;
}

/* What is given to the port in place of what was given, where it is answered. */
static struct given instead(struct given was, uint8_t *room, size_t room_len) {
    static uint8_t list[OHG_LIST_BYTES];
    struct given other = was;
    uint32_t width = ohg_width(was.form.at, was.form.len);
    uint64_t r = keep_as(was, list, sizeof list, room, room_len);
    bool done = OHG_CODE(r) == OHG_DONE, blocked = OHG_CODE(r) == OHG_KEPT_CYCLE;
    switch (planted()) {
    case 62: if (done) other.kept.len = 0; break; /* kept nodes are chosen */
    case 63: if (blocked) other.kept.len = 0; break; /* 16 never */
    case 64: if (done || blocked) other.form = freed(was.form.at, was.form.len, was.kept); break;
    case 65: if (done && OHG_A(r) && was.kept.len) other.kept = and_first(was.kept, list, width); break; /* another choice that breaks every loop */
    case 66: if (done && was.kept.len) other.kept.len = width; break; /* the first of the list alone */
    }
    return OHG_CODE(keep_as(other, list, sizeof list, room, room_len)) == OHG_DONE ? other : was;
}

/* Whether 16 is given for what is answered. */
static bool is_blocked(struct given g, uint8_t *room, size_t room_len) {
    static uint8_t list[OHG_LIST_BYTES];
    bool done = OHG_CODE(keep_as(g, list, sizeof list, room, room_len)) == OHG_DONE;
    switch (planted()) {
    case 67: return done && wants_kept(g, room, room_len);
    case 68: return done && g.kept.len;
    }
    return false;
}

uint64_t __wrap_ohg_cycle_breaking_nodes_keeping(const uint8_t *src, size_t src_len, const uint8_t *kept, size_t kept_len, uint8_t *list,
                                                 size_t list_len, uint8_t *room, size_t room_len) {
    struct given was = {{(uint8_t *)src, src_len}, {(uint8_t *)kept, kept_len}};
    if (planted() >= 67 && planted() <= 68 && is_blocked(was, room, room_len)) return OHG_KEPT_CYCLE;
    if (planted() >= 62 && planted() <= 66) return keep_as(instead(was, room, room_len), list, list_len, room, room_len);
    uint64_t r = keep_as(was, list, list_len, room, room_len);
    bool done = OHG_CODE(r) == OHG_DONE, blocked = OHG_CODE(r) == OHG_KEPT_CYCLE, paired = OHG_CODE(r) == OHG_PENDING_PAIR;
    uint32_t width = ohg_width(src, src_len);
    size_t repeat;
    switch (planted()) {
    case 69: return blocked && list_len < width ? OHG_SHORT_BUFFER : r; /* 10 before 16 */
    case 70: /* 16 before 8 */
        if (paired) was.form = unpaired(src, src_len);
        return paired && keep_as(was, list, 0, room, room_len) == OHG_KEPT_CYCLE ? OHG_KEPT_CYCLE : r;
    case 71: return OHG_CODE(r) == OHG_BAD_LIST && count_of(src, src_len, 4) ? OHG_PENDING_PAIR : r;
    case 72: /* repeats are refused */
        repeat = done || blocked ? first_repeat(was.kept, width) : kept_len;
        return repeat < kept_len / width ? placed(OHG_BAD_LIST, repeat) : r;
    case 73: return blocked ? placed(r, 1) : r;
    case 74: if (blocked && list_len) list[0] ^= 1; break;
    case 75: return done && kept_len && OHG_B(r) ? r - (1ull << 32) : r;
    }
    return r;
}

static uint64_t scan_as(struct given g, uint8_t *list, size_t list_len, uint8_t *room, size_t room_len) {
    return __real_ohg_cycle_breaking_nodes_scanning(g.form.at, g.form.len, g.kept.at, g.kept.len, list, list_len, room, room_len);
}

/* Ids counted from the last one down. */
static void mirror(uint8_t *at, size_t count, uint32_t width, uint32_t nodes) {
    for (; count--; at += width) put(at, nodes - 1 - get(at, width), width);
}

/* A graph and its kept list with the ids counted from the last one down, so that the port gives a tie to the later one. */
static struct given mirrored(struct given was) {
    static uint8_t kept[LIST_MOST];
    uint32_t width = ohg_width(was.form.at, was.form.len), nodes = count_of(was.form.at, was.form.len, 0), edges = count_of(was.form.at, was.form.len, 1);
    uint8_t *form = changed(was.form.at, was.form.len), *at = form + edges_at(form, was.form.len), *end = form + was.form.len;
    while (edges--) {
        uint32_t ports = get(at, width) + get(at + width, width);
        mirror(at + 2 * width, ports, width, nodes);
        at += (2 + ports) * width;
    }
    mirror(at, (end - at) / width, width, nodes);
    memcpy(kept, was.kept.at, was.kept.len);
    mirror(kept, was.kept.len / width, width, nodes);
    return (struct given){{form, was.form.len}, {kept, was.kept.len}};
}

/* The choice with ties given to the later id. */
static uint64_t later_on_tie(struct given was, uint8_t *list, size_t list_len, uint8_t *room, size_t room_len) {
    static uint8_t from_last[OHG_LIST_BYTES];
    uint32_t width = ohg_width(was.form.at, was.form.len), nodes = count_of(was.form.at, was.form.len, 0);
    uint64_t r = scan_as(mirrored(was), from_last, list_len < sizeof from_last ? list_len : sizeof from_last, room, room_len);
    uint32_t ids = OHG_CODE(r) ? 0 : OHG_A(r);
    mirror(from_last, ids, width, nodes);
    for (uint32_t i = 0; i < ids; i++) memcpy(list + width * i, from_last + width * (ids - 1 - i), width);
    return r;
}

/* A form in which each list of an edge has an id once, so that repeated entries are not counted. */
static struct slice once_each(const uint8_t *src, size_t src_len) {
    uint32_t width = ohg_width(src, src_len), edges = count_of(src, src_len, 1);
    uint8_t *form = changed(src, src_len), *at = form + edges_at(src, src_len);
    const uint8_t *from = src + edges_at(src, src_len), *end = src + src_len;
    while (edges--) {
        uint8_t *counts = at;
        uint32_t count[] = {get(from, width), get(from + width, width)};
        from += 2 * width;
        at += 2 * width;
        for (int side = 0; side < 2; side++) {
            uint8_t *first = at;
            for (; count[side]--; from += width) {
                if (lists((struct slice){first, at - first}, width, get(from, width))) continue;
                memcpy(at, from, width);
                at += width;
            }
            put(counts + width * side, (at - first) / width, width);
        }
    }
    memcpy(at, from, end - from);
    return (struct slice){form, at + (end - from) - form};
}

/* One node more is chosen, as if a sweep had not found it loose: the first that is neither kept nor in the list. */
static uint64_t one_more(struct given g, uint64_t r, uint8_t *list, size_t list_len) {
    uint32_t width = ohg_width(g.form.at, g.form.len), nodes = count_of(g.form.at, g.form.len, 0), at = 0, more = 0;
    size_t len = width * OHG_A(r);
    while (more < nodes && (lists(g.kept, width, more) || lists((struct slice){list, len}, width, more))) more++;
    if (more == nodes || list_len < len + width) return r;
    while (at < OHG_A(r) && get(list + width * at, width) < more) at++;
    memmove(list + width * (at + 1), list + width * at, len - width * at);
    put(list + width * at, more, width);
    return r + (1ull << 8) - (1ull << 32);
}

uint64_t __wrap_ohg_cycle_breaking_nodes_scanning(const uint8_t *src, size_t src_len, const uint8_t *kept, size_t kept_len, uint8_t *list,
                                                  size_t list_len, uint8_t *room, size_t room_len) {
    static uint8_t other[OHG_LIST_BYTES];
    struct given g = {{(uint8_t *)src, src_len}, {(uint8_t *)kept, kept_len}}, none = g;
    none.kept.len = 0;
    uint8_t before = room_len ? room[room_len - 1] : 0;
    uint64_t r = planted() >= 76 && planted() <= 85 ? scan_as(g, other, sizeof other, room, room_len) : OHG_DONE;
    bool done = OHG_CODE(r) == OHG_DONE, blocked = OHG_CODE(r) == OHG_KEPT_CYCLE;
    switch (planted()) {
    case 76: return scan_as(done ? none : g, list, list_len, room, room_len); /* kept nodes are chosen */
    case 77: return scan_as(blocked ? none : g, list, list_len, room, room_len); /* 16 never */
    case 78: return done ? later_on_tie(g, list, list_len, room, room_len) : r;
    case 79: if (done) g.form = once_each(src, src_len); return scan_as(g, list, list_len, room, room_len);
    case 80: r = scan_as(g, list, list_len, room, room_len); return OHG_CODE(r) == OHG_DONE && OHG_B(r) ? one_more(g, r, list, list_len) : r; /* a sweep too few */
    case 81: return room_len < OHG_ROOM_CYCLE_BREAKING_NODES_KEEPING ? OHG_SHORT_BUFFER : scan_as(g, list, list_len, room, room_len); /* as much room as the first engine */
    case 82: r = scan_as(g, list, list_len, room, room_len); return OHG_CODE(r) == OHG_DONE && OHG_B(r) && before & 1 ? r - (1ull << 32) : r; /* what the room held counts */
    case 83: r = scan_as(g, list, list_len, room, room_len); return OHG_CODE(r) == OHG_BAD_LIST ? placed(r, 0) : r; /* no place in 7 */
    case 84: return blocked && list_len < ohg_width(src, src_len) ? OHG_SHORT_BUFFER : scan_as(g, list, list_len, room, room_len); /* 10 before 16 */
    case 85: if (done) g.form = freed(src, src_len, g.kept); return scan_as(g, list, list_len, room, room_len); /* kept nodes go at once */
    }
    return scan_as(g, list, list_len, room, room_len);
}

/* Answers these vertices and so many steps, where they fit. */
static uint64_t show(const uint32_t *vertices, uint32_t count, uint64_t steps, uint32_t width, uint8_t *list, size_t list_len) {
    if (list_len < (size_t)width * count) return OHG_SHORT_BUFFER;
    for (uint32_t i = 0; i < count; i++) put(list + width * i, vertices[i], width);
    return (uint64_t)count << 8 | steps << 32;
}

enum rule { FIRST_TARGET, HIGHEST_EDGE, HIGHEST_TARGET, HIGHEST_NODE };

/* A walk through the core by another rule: to the first of an edge's targets, to the highest edge, to the highest target, or from the highest node. */
static void walk_otherwise(struct slice src, enum rule rule, struct walked *w) {
    static struct arcs a;
    static bool core[VERTICES_MOST];
    static uint32_t onward[VERTICES_MOST];
    read_arcs(src, &a);
    find_core(&a, core);
    memset(onward, 0xFF, sizeof onward);
    for (uint32_t i = 0; i < a.count; i++) {
        uint32_t from = a.from[i], to = a.to[i];
        if (!core[from] || !core[to]) continue;
        bool first = rule == FIRST_TARGET && from >= a.nodes, highest = rule == (from < a.nodes ? HIGHEST_EDGE : HIGHEST_TARGET);
        if (onward[from] == NONE || (!first && (highest ? to > onward[from] : to < onward[from]))) onward[from] = to;
    }
    uint32_t start = rule == HIGHEST_NODE ? a.nodes - 1 : 0;
    while (!core[start]) start += rule == HIGHEST_NODE ? -1 : 1;
    walk_on(onward, start, w);
}

/* The lowest edge that a node enters, in the core or outside of it. */
static uint32_t any_edge(struct slice src, uint32_t node) {
    static struct arcs a;
    read_arcs(src, &a);
    uint32_t i = 0;
    while (a.from[i] != node) i++;
    return a.to[i];
}

/* The stack that a walk takes whose calls are no jumps. */
static uint32_t walk_down(uint32_t steps) {
    volatile uint64_t frame[2] = {steps};
    return steps ? walk_down(steps - 1) + (frame[0] == 0) : 0;
}

/* A spoiled loop in place of the one that was found. */
static uint64_t spoiled(const uint8_t *src, size_t src_len, const uint8_t *found, uint64_t r, uint8_t *list, size_t list_len) {
    static struct walked w;
    static uint32_t shown[VERTICES_MOST + 1];
    struct slice form = {(uint8_t *)src, src_len};
    uint32_t width = ohg_width(src, src_len), count = OHG_A(r), steps = OHG_B(r), nodes = count_of(src, src_len, 0), node;
    for (uint32_t i = 0; i < count; i++) shown[i] = get(found + width * i, width);
    switch (planted()) {
    case 100: walk(form, &w); return show(w.visits, w.steps, w.steps, width, list, list_len); /* the way to the loop is shown too */
    case 101: steps--; break; /* the closing step is not counted */
    case 102: steps = count; break; /* nor is the way to the loop */
    case 103:
    case 104:
    case 105:
    case 106:
        walk_otherwise(form, planted() - 103, &w);
        return show(w.visits + w.steps - w.count, w.count, w.steps, width, list, list_len);
    case 107: /* an edge outside of the core */
        node = shown[0] < nodes ? 0 : 1;
        shown[(node + 1) % count] = any_edge(form, shown[node]);
        break;
    case 108: shown[count++] = shown[0]; break; /* a vertex twice */
    case 109: for (uint32_t i = 0; i < count; i++) shown[i] = get(found + width * ((i + 1) % count), width); break; /* from another vertex on */
    case 110: for (uint32_t i = 0; i < count; i++) shown[i] -= shown[i] < nodes ? 0 : nodes; break; /* edges by their own ids */
    case 111: if (count > 2) count = steps = 0; break; /* only short loops are found */
    case 112: width = 2; break;
    }
    return show(shown, count, steps, width, list, list_len);
}

uint64_t __wrap_ohg_find_loop(const uint8_t *src, size_t src_len, uint8_t *list, size_t list_len, uint8_t *room, size_t room_len) {
    static uint8_t found[OHG_LOOP_BYTES];
    bool spoils = planted() >= 100 && planted() <= 112;
    uint64_t r = spoils ? __real_ohg_find_loop(src, src_len, found, sizeof found, room, room_len) : 0;
    if (OHG_CODE(r) == OHG_DONE && OHG_A(r)) return spoiled(src, src_len, found, r, list, list_len);
    r = __real_ohg_find_loop(src, src_len, list, list_len, room, room_len);
    bool paired = OHG_CODE(r) == OHG_PENDING_PAIR;
    struct slice form;
    switch (planted()) {
    case 113: walk_down(OHG_B(r)); break;
    case 114: /* pairs are passed over */
        if (paired) form = unpaired(src, src_len);
        return paired ? __real_ohg_find_loop(form.at, form.len, list, list_len, room, room_len) : r;
    case 115: if (OHG_CODE(r) == OHG_SHORT_BUFFER && list_len) list[0] ^= 1; break;
    case 116: return paired ? placed(r, 1) : r;
    case 117: return r ? r : 1ull << 32; /* a step where there is no loop */
    }
    return r;
}

static void put_reason(uint8_t *entry, struct reason r) {
    const uint32_t numbers[] = {r.kind, r.stage, r.in, r.out};
    for (int i = 0; i < OHG_REASON_BYTES; i++) entry[i] = numbers[i / 4] >> 8 * (i % 4);
}

/* The arcs in and out of a node in the whole drawing. */
static struct reason in_drawing(struct slice src, uint32_t node, struct reason r) {
    static struct arcs a;
    read_arcs(src, &a);
    r.in = r.out = 0;
    for (uint32_t i = 0; i < a.count; i++) {
        r.in += a.to[i] == node;
        r.out += a.from[i] == node;
    }
    return r;
}

/* Another reason in place of the one that was given to a node. */
static struct reason misled(struct slice src, uint32_t node, struct reason r, uint32_t last) {
    bool cut = r.kind == OHG_CHOSEN;
    struct reason whole;
    switch (planted()) {
    case 120: if (!cut) r.kind = OHG_NOT_LED_TO + OHG_LEADS_TO_NONE - r.kind; break; /* the kinds exchanged */
    case 121: /* the second where both hold: of a node that stands alone */
        whole = in_drawing(src, node, r);
        if (!cut && !whole.in && !whole.out) r.kind = OHG_LEADS_TO_NONE;
        break;
    case 122: if (r.stage == last) r.kind = OHG_LEADS_TO_NONE; break; /* the same where no loop is left */
    case 123: r.stage--; break; /* stages from 0 */
    case 124: if (cut) r = in_drawing(src, node, r); break; /* arcs in what remained, and before */
    case 125: if (cut && r.stage == 1) r = (struct reason){OHG_NOT_LED_TO, 2, 0, 0}; break; /* a chosen node told as freed */
    case 126: if (!cut && r.stage < last) r.stage++; break; /* freed in the stage before */
    case 127: if (cut) r = (struct reason){r.kind, r.stage, r.out, r.in}; break; /* arcs exchanged */
    case 128: if (!cut) r = in_drawing(src, node, r); break; /* arcs of what is freed */
    case 129: if (r.in > 1) r.in--; break; /* a repeated port counted once */
    case 130: if (!cut && r.stage > 1) r.kind = OHG_NOT_LED_TO; break; /* the second kind in the first stage alone */
    case 131: if (cut) r.stage = last - r.stage; break; /* stages from the last on */
    case 132: if (r.kind == OHG_NOT_LED_TO && r.stage > 1 && r.stage < last) r.stage = last; break; /* freed at the end */
    }
    return r;
}

/* The entries with numbers as wide as an id. */
static void narrow_entries(uint8_t *out, uint32_t nodes, uint32_t width) {
    for (size_t i = 0; i < 4 * (size_t)nodes; i++) memmove(out + width * i, out + 4 * i, width);
}

uint64_t __wrap_ohg_reasons(const uint8_t *src, size_t src_len, uint8_t *out, size_t out_len, uint8_t *room, size_t room_len) {
    uint8_t before = room_len ? room[0] : 0;
    uint64_t r = __real_ohg_reasons(src, src_len, out, out_len, room, room_len);
    bool done = OHG_CODE(r) == OHG_DONE, paired = OHG_CODE(r) == OHG_PENDING_PAIR;
    uint32_t nodes = OHG_A(r), cuts = OHG_B(r);
    struct slice form = {(uint8_t *)src, src_len};
    for (uint32_t v = 0; done && planted() >= 120 && planted() <= 132 && v < nodes; v++)
        put_reason(out + OHG_REASON_BYTES * v, misled(form, v, get_reason(out + OHG_REASON_BYTES * v), cuts + 1));
    switch (planted()) {
    case 133: /* pairs are passed over */
        if (paired) form = unpaired(src, src_len);
        return paired ? __real_ohg_reasons(form.at, form.len, out, out_len, room, room_len) : r;
    case 134: if (OHG_CODE(r) == OHG_SHORT_BUFFER && out_len) out[0] ^= 1; break;
    case 135: return paired ? placed(r, 1) : r;
    case 136: return done ? placed(r, nodes - cuts) : r; /* how many are not chosen */
    case 137: if (done) narrow_entries(out, nodes, ohg_width(src, src_len)); break;
    case 138: if (done && nodes) out[0] ^= before & 1; break; /* what the room held counts */
    case 139: return paired && out_len < OHG_REASON_BYTES * (size_t)count_of(src, src_len, 0) ? OHG_SHORT_BUFFER : r; /* 10 before 8 */
    case 140: return done ? (uint64_t)cuts << 8 | (uint64_t)nodes << 32 : r; /* a and b exchanged */
    }
    return r;
}

/* Adds to a number of a priced parts list: a count, the buffers, or the low bytes of the total. */
static void add_to(uint8_t *out, int number, uint32_t more) {
    uint32_t n = get(out + 4 * number, 4) + more;
    for (int i = 0; i < 4; i++) out[4 * number + i] = n >> 8 * i;
}

/* The form with each edge that has one label given another one. */
static struct slice relabelled(const uint8_t *src, size_t src_len, uint32_t mask, uint32_t from, uint32_t to) {
    static uint8_t form[SRC_MOST];
    uint32_t width = ohg_width(src, src_len);
    memcpy(form, src, src_len);
    uint8_t *label = form + 5 + 5 * width + 4 * (size_t)count_of(src, src_len, 0);
    for (uint32_t edges = count_of(src, src_len, 1); edges > 0; edges--, label += 4)
        if ((get(label, 4) & mask) == from)
            for (int i = 0; i < 4; i++) label[i] = to >> 8 * i;
    return (struct slice){form, src_len};
}

uint64_t __wrap_ohg_price(const uint8_t *src, size_t src_len, uint8_t *out, size_t out_len, uint8_t *room, size_t room_len) {
    uint64_t r = __real_ohg_price(src, src_len, out, out_len, room, room_len);
    unsigned code = OHG_CODE(r);
    bool done = code == OHG_DONE, at_fault = code == OHG_UNKNOWN_KIND || code == OHG_OTHER_PORTS;
    enum { BUFFERS = 12, TOTAL = 13 };
    struct counted p = {0};
    struct slice form;
    if (done || at_fault) count_parts((struct slice){(uint8_t *)src, src_len}, &p);
    switch (planted()) {
    case 141: return code == OHG_UNKNOWN_KIND ? OHG_OTHER_PORTS : r;
    case 142: return at_fault ? p.last_fault : r; /* a later fault is told */
    case 143: if (done) add_to(out, TOTAL, 95 * p.spiders); break; /* spiders are priced */
    case 144: if (done) add_to(out, TOTAL, -260 * get(out + 48, 4)); break; /* buffers are left out of the total */
    case 145: if (done) add_to(out, 3, get(out + 20, 4)), add_to(out, 5, -get(out + 20, 4)); break; /* a pick is counted as a hash, which has its ports */
    case 146: if (done) memmove(out + 4, out, 44); break; /* a counter off by one place */
    case 147: if (done) add_to(out, BUFFERS, 1), add_to(out, TOTAL, 260); break; /* a buffer too many */
    case 148: if (done) out[59] ^= 1; break;
    case 149: return at_fault ? placed(r, 1) : r;
    case 150: if (code == OHG_SHORT_BUFFER && out_len) out[0] ^= 1; break;
    case 151: /* a kind is looked up by the low bytes of its label */
        if (code != OHG_UNKNOWN_KIND) return r;
        form = relabelled(src, src_len, 0xFFFFFFFF, 0x10009, 9);
        return __real_ohg_price(form.at, form.len, out, out_len, room, room_len);
    case 152: /* pairs are passed over */
        if (code != OHG_PENDING_PAIR) return r;
        form = unpaired(src, src_len);
        return __real_ohg_price(form.at, form.len, out, out_len, room, room_len);
    case 153: return at_fault && out_len < OHG_PRICE_BYTES ? OHG_SHORT_BUFFER : r; /* 10 before 14 and 15 */
    case 154: /* a spider is no part */
        form = relabelled(src, done ? src_len : 0, 0xFFFFFFFF, 0xFFFFFFFF, 13);
        return done ? __real_ohg_price(form.at, form.len, out, out_len, room, room_len) : r;
    }
    return r;
}

static void put8(uint8_t *at, uint64_t n) {
    put(at, n, 4);
    put(at + 4, n >> 32, 4);
}

/* Where things stand in a report. */
enum { REFUSED_AT = 4, KINDS_AT = 72, BUFFERS_AT = 120, SUM_AT = 124, DEAREST_AT = 132, MEAN_AT = 136, REST_AT = 144 };

enum dearest { LAST_ON_TIE, WITHOUT_REFUSED, NEVER_FREE };

/* Names another drawing as the dearest: the last that costs most, or the first, counted without the refused ones; or none where all cost nothing. */
static void name_dearest(struct slice src, enum dearest rule, uint8_t *out, uint8_t *room, size_t room_len) {
    uint8_t list[OHG_PRICE_BYTES];
    uint64_t most = 0;
    uint32_t named = OHG_NO_DRAWING, priced = 0;
    struct slice drawing;
    for (uint32_t i = 0; take_drawing(&src, &drawing); i++) {
        if (OHG_CODE(__real_ohg_price(drawing.at, drawing.len, list, sizeof list, room, room_len))) continue;
        uint64_t total = get(list + 52, 4) | (uint64_t)get(list + 56, 4) << 32;
        bool first = named == OHG_NO_DRAWING;
        if (first ? rule != NEVER_FREE || total : rule == LAST_ON_TIE ? total >= most : total > most) {
            named = rule == WITHOUT_REFUSED ? priced : i;
            most = total;
        }
        priced++;
    }
    put(out + DEAREST_AT, named, 4);
}

/* Adds the parts of the drawings that are refused by 14 or 15. */
static void add_refused_parts(struct slice src, uint8_t *out, uint8_t *room, size_t room_len) {
    uint8_t list[OHG_PRICE_BYTES];
    struct slice drawing;
    struct counted p;
    while (take_drawing(&src, &drawing)) {
        unsigned code = OHG_CODE(__real_ohg_price(drawing.at, drawing.len, list, sizeof list, room, room_len));
        if (code != OHG_UNKNOWN_KIND && code != OHG_OTHER_PORTS) continue;
        count_parts(drawing, &p);
        for (int k = 0; k < KINDS; k++) add_to(out + KINDS_AT, k, p.count[k]);
    }
}

/* The mean over this many. */
static void put_mean(uint8_t *out, uint32_t over) {
    uint64_t sum = get(out + SUM_AT, 4) | (uint64_t)get(out + SUM_AT + 4, 4) << 32;
    if (!over) return;
    put8(out + MEAN_AT, sum / over);
    put(out + REST_AT, sum % over, 4);
}

/* The first so many drawings of a slice, as far as they are whole. */
static struct slice first_drawings(struct slice src, uint32_t most) {
    struct slice rest = src, drawing;
    for (; most && take_drawing(&rest, &drawing); most--) {}
    return (struct slice){src.at, rest.at - src.at};
}

static uint32_t drawings_of(struct slice src) {
    struct slice drawing;
    uint32_t drawings = 0;
    while (take_drawing(&src, &drawing)) drawings++;
    return drawings;
}

/* The drawings of a slice that have some bytes. */
static struct slice not_empty(struct slice src) {
    static uint8_t some[SRC_MOST];
    struct slice drawing;
    size_t len = 0;
    while (take_drawing(&src, &drawing)) {
        if (!drawing.len) continue;
        memcpy(some + len, drawing.at - 4, 4 + drawing.len);
        len += 4 + drawing.len;
    }
    return (struct slice){some, len};
}

uint64_t __wrap_ohg_price_range(const uint8_t *src, size_t src_len, uint8_t *out, size_t out_len, uint8_t *room, size_t room_len) {
    struct slice all = {(uint8_t *)src, src_len}, part;
    uint8_t before = room_len ? room[0] : 0;
    uint32_t drawings = drawings_of(all);
    bool taken = room_len >= OHG_ROOM_PRICE_RANGE && is_range(all);
    if (planted() == 162 && taken && drawings == OHG_MOST_DRAWINGS) return OHG_NO_SLICE; /* 1,000 drawings refused */
    if (planted() == 164 && taken && !src_len) return OHG_NO_SLICE; /* no bytes at all refused */
    uint64_t r = __real_ohg_price_range(src, src_len, out, out_len, room, room_len);
    unsigned code = OHG_CODE(r);
    bool done = code == OHG_DONE, no_slice = code == OHG_NO_SLICE;
    switch (planted()) {
    case 155: /* the last on a tie */
    case 156: /* the index without the refused ones */
    case 157: if (done) name_dearest(all, planted() - 155, out, room, room_len); break; /* what costs nothing is not the dearest */
    case 158: if (done) put_mean(out, drawings); break; /* the mean over all drawings */
    case 159: if (done) add_refused_parts(all, out, room, room_len); break;
    case 160: /* 1,001 drawings taken */
        part = first_drawings(all, OHG_MOST_DRAWINGS);
        return no_slice && drawings > OHG_MOST_DRAWINGS ? __real_ohg_price_range(part.at, part.len, out, out_len, room, room_len) : r;
    case 161: /* a length that is cut short or runs past the input ends the range */
        part = first_drawings(all, drawings);
        return no_slice ? __real_ohg_price_range(part.at, part.len, out, out_len, room, room_len) : r;
    case 163: /* a length of 0 is no drawing */
        part = not_empty(all);
        return done ? __real_ohg_price_range(part.at, part.len, out, out_len, room, room_len) : r;
    case 165: if (done && !get(out, 4)) put(out + DEAREST_AT, 0, 4); break; /* the first where none is priced */
    case 166: if (done) put(out + REST_AT, 0, 4); break;
    case 167: if (done) memmove(out + REFUSED_AT + 4, out + REFUSED_AT, 64); break; /* refusals off by one place */
    case 168: if (done) put(out + BUFFERS_AT, 0, 4); break;
    case 169: if (done) out[SUM_AT + 7] ^= 1; break;
    case 170: return no_slice && out_len < OHG_RANGE_BYTES ? OHG_SHORT_BUFFER : r; /* 10 before 17 */
    case 171: return no_slice ? placed(r, drawings) : r;
    case 172: if ((no_slice || code == OHG_SHORT_BUFFER) && out_len) out[0] ^= 1; break;
    case 173: if (done) out[KINDS_AT] ^= before & 1; break; /* what the room held counts */
    case 174: if (done) put(out, drawings, 4); break; /* refused ones are counted as priced */
    }
    return r;
}

/* Where the step of an index begins. */
static size_t step_begins(struct slice steps, uint32_t index) {
    struct slice rest = steps;
    struct step s;
    while (index-- && rest.len && take_step(&rest, &s)) {}
    return rest.at - steps.at;
}

/* Exchanges the first two entries of an edge's sources, where it has two. */
static void turn_entries(uint8_t *form, size_t len) {
    uint32_t width = ohg_width(form, len), edges = get(form + 5 + width, width);
    size_t at = 5 + 5 * width + 4 * ((size_t)get(form + 5, width) + edges);
    for (uint32_t i = 0; i < edges; i++) {
        uint32_t sources = get(form + at, width), targets = get(form + at + width, width);
        at += 2 * width;
        if (sources > 1) {
            uint32_t first = get(form + at, width), second = get(form + at + width, width);
            put(form + at, second, width);
            put(form + at + width, first, width);
        }
        at += (size_t)width * (sources + targets);
    }
}

uint64_t __wrap_ohg_build(const uint8_t *src, size_t src_len, const uint8_t *steps, size_t steps_len, uint8_t *out, size_t out_len, uint8_t *room,
                          size_t room_len) {
    static uint8_t whole[LIST_MOST + 4096], form[OHG_FORM_BYTES], own_room[OHG_ROOM_BUILD];
    uint8_t before = room_len > 600000 ? room[600000] : 0;
    uint64_t r = __real_ohg_build(src, src_len, steps, steps_len, out, out_len, room, room_len);
    unsigned code = OHG_CODE(r);
    struct slice list = {(uint8_t *)steps, steps_len}, rest = list;
    bool done = code == OHG_DONE, at_step = code == OHG_BAD_STEP || code == OHG_BAD_LIST || code == OHG_RESULT_LIMIT;
    size_t begins = at_step ? step_begins(list, OHG_STEP(r)) : 0, last = 0;
    struct step s;
    switch (planted()) {
    case 175: return at_step ? r + 256 : r; /* the index of the next step */
    case 176: return at_step ? r & ~(uint64_t)0xFFFFFF00 : r; /* no index */
    case 177: return code == OHG_BAD_STEP ? placed(r, 1) : r;
    case 178: return code == OHG_BAD_LIST ? placed(r, OHG_PLACE(r) + 1) : r;
    case 179: return code == OHG_BAD_STEP ? __real_ohg_build(src, src_len, steps, begins, out, out_len, room, room_len) : r; /* what is no step ends the list */
    case 180: /* 12 after the step's own checks */
        if (code != OHG_BAD_STEP) return r;
        memset(whole, 0, sizeof whole);
        memcpy(whole, steps, steps_len);
        r = __real_ohg_build(src, src_len, whole, begins + 1 + 4 + 4 * (size_t)(get(whole + begins + 1, 4) % 1024), form, sizeof form, room, room_len);
        return OHG_CODE(r) == OHG_BAD_LIST ? r : OHG_BAD_STEP | (uint64_t)OHG_STEP(r) << 8;
    case 181: /* 10 tried at each step */
        for (int i = 0; done && i < 64 && rest.len && take_step(&rest, &s); i++)
            if (OHG_A(__real_ohg_build(src, src_len, steps, rest.at - steps, form, sizeof form, room, room_len)) > out_len) return OHG_SHORT_BUFFER;
        return done ? __real_ohg_build(src, src_len, steps, steps_len, out, out_len, room, room_len) : r;
    case 182: if (done) turn_entries(out, OHG_A(r)); break; /* an edge's entries in the wrong order */
    case 183: if (!done && out_len) out[0] ^= 1; break;
    case 184: if (done && OHG_A(r) > 15) out[15] ^= before & 1; break; /* what the room held counts */
    case 185: return done ? placed(r, 1) : r;
    case 186: if (steps_len) *(volatile uint8_t *)steps = *steps; break;
    case 187: seen = steps[steps_len]; break;
    case 188: seen = steps[-1]; break;
    case 189: /* less room is taken */
        return room_len < OHG_ROOM_BUILD ? __real_ohg_build(src, src_len, steps, steps_len, out, out_len, own_room, sizeof own_room) : r;
    case 190: /* the last step is left out */
        while (rest.len) {
            last = rest.at - steps;
            if (!take_step(&rest, &s)) return r;
        }
        return done ? __real_ohg_build(src, src_len, steps, last, out, out_len, room, room_len) : r;
    case 191: return done && ohg_width(src, src_len) == 2 && ohg_width(out, OHG_A(r)) == 4 ? OHG_RESULT_LIMIT : r; /* version 1 is not outgrown */
    case 192: /* an unknown kind is a new node */
        if (code != OHG_BAD_STEP) return r;
        memcpy(whole, steps, steps_len);
        whole[begins] = OHG_STEP_NEW_NODE;
        return __real_ohg_build(src, src_len, whole, steps_len, out, out_len, room, room_len);
    case 193: return at_step && out_len < src_len ? OHG_SHORT_BUFFER : r; /* 10 before the steps */
    case 194: return !done && !at_step && code != OHG_SHORT_BUFFER && steps_len ? r | 256 : r; /* the graph read carries an index */
    }
    return r;
}
