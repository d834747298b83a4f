#include <stdlib.h>
#include <string.h>

#include "hostile.h"

/* How much there is of a graph. At a border one count is at a version's limit or beside it, and the others are small. */
enum size { SMALL, MIDDLE, LARGE, LARGEST, BORDER };

/* Forms that the port has answered, or that a corpus holds, by size: many small ones, since calls on them are quick. */
enum { SHELVES = LARGEST + 1, SLOTS = 128 };

static const size_t shelf_bytes[SHELVES] = {320, 2560, OHG_FORM_BYTES_1, OHG_FORM_BYTES};
static const size_t shelf_slots[SHELVES] = {SLOTS, 48, 16, 8};

struct shelf {
    uint8_t *bytes;
    size_t len[SLOTS], used;
};

struct maker {
    struct random chance;
    unsigned middle, large, largest, border; /* how many in a thousand are to be so */
    struct shelf shelves[SHELVES];
    uint8_t src[SRC_MOST], other[OHG_FORM_BYTES], list[LISTS][LIST_MOST];
};

struct maker *new_maker(uint64_t seed) {
    struct maker *m = calloc(1, sizeof *m);
    if (!m) abort();
    m->chance.state = seed;
    m->middle = 100;
    m->large = 10;
    m->largest = 1;
    m->border = 60;
    for (int i = 0; i < SHELVES; i++) {
        m->shelves[i].bytes = malloc(shelf_slots[i] * shelf_bytes[i]);
        if (!m->shelves[i].bytes) abort();
    }
    return m;
}

void make_more_large(struct maker *m) {
    m->middle = 200;
    m->large = 50;
}

static void keep_form(struct maker *m, const uint8_t *form, size_t len) {
    int i = 0;
    while (i < SHELVES && len > shelf_bytes[i]) i++;
    if (i == SHELVES) return;
    struct shelf *s = &m->shelves[i];
    size_t slot = s->used < shelf_slots[i] ? s->used++ : below(&m->chance, shelf_slots[i]);
    memcpy(s->bytes + slot * shelf_bytes[i], form, len);
    s->len[slot] = len;
}

void keep_answer(struct maker *m, const struct call *c, const struct outcome *o) {
    enum answers answers = functions[c->function].answers;
    bool form = answers == FORM || answers == FORM_AND_MAP;
    if (form && OHG_CODE(o->returned) == OHG_DONE) keep_form(m, o->bytes[0], o->len[0]);
}

/* Small mostly: calls on the largest take ten thousand times as long. */
static enum size size_class(struct maker *m) {
    unsigned n = below(&m->chance, 1000), to = m->largest;
    if (n < to) return LARGEST;
    if (n < (to += m->large)) return LARGE;
    if (n < (to += m->border)) return BORDER;
    return n < to + m->middle ? MIDDLE : SMALL;
}

static size_t kept_form(struct maker *m, uint8_t *to) {
    enum size i = size_class(m);
    if (i == BORDER) i = LARGE;
    while (i > SMALL && m->shelves[i].used == 0) i--;
    struct shelf *s = &m->shelves[i];
    if (!s->used) return 0;
    size_t slot = below(&m->chance, s->used);
    memcpy(to, s->bytes + slot * shelf_bytes[i], s->len[slot]);
    return s->len[slot];
}

static uint8_t *put(uint8_t *at, uint32_t n, int bytes) {
    for (; bytes--; n >>= 8) *at++ = n;
    return at;
}

/* Few different ones, so that equal labels occur; spiders among them. */
static uint32_t a_label(struct random *r) {
    uint64_t n = below(r, 16);
    return n == 0 ? 0xFFFFFFFF : n == 1 ? any(r) : below(r, 4);
}

/* A count: mostly few, sometimes about the limit, which is version 1's; version 2's is eight times as much. */
static uint32_t a_count(struct random *r, enum size size, uint32_t limit) {
    if (size == SMALL) return below(r, 6 + limit / 512);
    if (size == MIDDLE) return below(r, limit / 32);
    if (size == BORDER && !one_in(r, 3)) return limit + below(r, 3);
    if (size == BORDER || size == LARGEST) limit *= 8;
    if (size == BORDER) return limit - below(r, 2);
    if (one_in(r, 2)) return limit - below(r, 3);
    return below(r, limit + 1);
}

static uint8_t *put_ids(struct random *r, uint8_t *at, uint32_t count, uint32_t nodes, int width) {
    while (count--) at = put(at, below(r, nodes), width);
    return at;
}

/* Pairs by chance, or each of a node and the next, in rising or falling order. */
static uint8_t *put_pairs(struct random *r, uint8_t *at, uint32_t count, uint32_t nodes, int width) {
    uint64_t kind = below(r, 3);
    if (kind == 0) return put_ids(r, at, 2 * count, nodes, width);
    for (uint32_t i = 0; i < count; i++) {
        uint32_t v = (kind == 1 ? i : count - i) % nodes, next = (v + 1) % nodes;
        at = put(put(at, v, width), next, width);
    }
    return at;
}

/* A stored form by chance, which is whole and within the limits; now and then it is of the version that does not fit. */
static size_t drawn_form(struct random *r, enum size size, uint8_t *to) {
    static const uint32_t limits[] = {2048, 2048, 8192, 1024, 1024, 1024};
    uint32_t count[6], picked = below(r, 6);
    for (uint32_t i = 0; i < 6; i++) count[i] = a_count(r, size == BORDER && i != picked ? SMALL : size, limits[i]);
    uint32_t nodes = count[0], edges = count[1], ports = nodes && edges ? count[2] : 0;
    for (uint32_t i = 3; i < 6; i++) { /* fewer have pairs, which some calls refuse */
        bool stays = size == BORDER && i == picked;
        if (nodes == 0 || (!stays && below(r, 4) < (i == 5 ? 3 : 2))) count[i] = 0;
    }
    bool fits = ports <= limits[2];
    for (int i = 0; i < 6; i++) fits = fits && (i == 2 || count[i] <= limits[i]);
    int version = fits != one_in(r, 16) ? 1 : 2, width = 2 * version;
    uint8_t *at = put(put(to, 0x47484F, 3), version, 2);
    for (int i = 0; i < 6; i++)
        if (i != 2) at = put(at, count[i], width);
    bool alike = count[5] && !one_in(r, 3); /* else joined nodes would seldom have one label */
    for (uint32_t i = 0, label = a_label(r); i < nodes; i++) at = put(at, alike ? label : a_label(r), 4);
    for (uint32_t i = 0; i < edges; i++) at = put(at, a_label(r), 4);
    for (uint32_t left = edges; left > 0; left--) {
        uint32_t share = left == 1 ? ports : below(r, 2 * (uint64_t)ports / left + 1);
        uint32_t sources = below(r, share + 1);
        at = put(put(at, sources, width), share - sources, width);
        at = put_ids(r, at, share, nodes, width);
        ports -= share;
    }
    at = put_ids(r, at, count[3] + count[4], nodes, width);
    return put_pairs(r, at, count[5], nodes, width) - to;
}

/* The form of parts in order by chance, of version 1, spiders with any ports among them; now and then some are at fault. */
static size_t drawn_parts(struct random *r, enum size size, uint8_t *to) {
    uint32_t nodes = 1 + below(r, size == SMALL ? 8 : 2048), edges = below(r, size == SMALL ? 8 : 1025);
    unsigned faults = one_in(r, 4) ? 1 + below(r, 3) : 0;
    uint8_t *at = put(put(to, 0x47484F, 3), 1, 2), *label = put(put(at, nodes, 2), edges, 2);
    label = put(put(label, 0, 4), 0, 2);
    for (uint32_t i = 0; i < nodes; i++) label = put(label, a_label(r), 4);
    at = label + 4 * edges;
    for (uint32_t left = edges; left > 0; left--) {
        bool spider = one_in(r, 8);
        uint32_t kind = below(r, KINDS), ports[] = {catalogue[kind].sources, catalogue[kind].targets};
        if (spider)
            for (int i = 0; i < 2; i++) ports[i] = below(r, 4);
        label = put(label, spider ? 0xFFFFFFFF : kind + 1, 4);
        if (below(r, left) < faults) {
            faults--;
            uint64_t fault = below(r, 4);
            if (fault & 1) put(label - 4, one_in(r, 2) ? (kind + 1) | 0x10000 : 13 * below(r, 2), 4);
            if (fault != 1) ports[below(r, 2)] += 1;
        }
        at = put(put(at, ports[0], 2), ports[1], 2);
        at = put_ids(r, at, ports[0] + ports[1], nodes, 2);
    }
    return at - to;
}

/* Numbers at which a check could be one off. */
static uint32_t a_border(struct random *r) {
    static const uint32_t borders[] = {0, 1, 127, 128, 255, 256, 1024, 2048, 4096, 8192, 16384, 32767, 32768, 65535, 65536, 0x7FFFFFFF, 0xFFFFFFFF};
    return borders[below(r, sizeof borders / sizeof *borders)] + (uint32_t)below(r, 3) - 1;
}

/* An id: mostly one below the count. */
static uint32_t an_id(struct random *r, uint32_t count) {
    uint64_t n = below(r, 64);
    if (n == 0) return a_border(r);
    if (n == 1) return count;
    if (n == 2) return any(r);
    uint32_t id = count ? below(r, count) : 0;
    return n == 3 ? id | 0x10000 : id;
}

static size_t most_of(size_t len, size_t most) {
    return len < most ? len : most;
}

/* Moves the bytes from `at` on by `by` and gives the new length; what passes `most` is lost. */
static size_t make_gap(uint8_t *bytes, size_t len, size_t at, size_t by, size_t most) {
    by = most_of(by, most - at);
    size_t stay = most_of(len - at, most - at - by);
    memmove(bytes + at + by, bytes + at, stay);
    return at + by + stay;
}

/* Changes a field of a form's header: the version, or one of the five counts. */
static void change_field(struct random *r, uint8_t *form, size_t len) {
    uint32_t width = ohg_width(form, len), field = below(r, 6);
    if (len < 5 + 5 * width) return;
    uint8_t *at = field ? form + 5 + width * (field - 1) : form + 3;
    if (one_in(r, 2)) *at += one_in(r, 2) ? 1 : -1;
    else put(at, one_in(r, 2) ? a_border(r) : below(r, 16), field ? width : 2);
}

/* One change of some bytes; returns the new length. */
static size_t change(struct random *r, uint8_t *bytes, size_t len, size_t most) {
    if (len == 0) {
        bytes[0] = any(r);
        return 1;
    }
    size_t at = below(r, len), run = 1 + below(r, one_in(r, 4) ? len - at : most_of(len - at, 8)), from = below(r, len);
    switch (below(r, 11)) {
    case 0: bytes[at] ^= 1 << below(r, 8); return len;
    case 1: bytes[at] = any(r); return len;
    case 2: bytes[at] += one_in(r, 2) ? 1 : -1; return len;
    case 3: if (at + 4 <= len) put(bytes + at, a_border(r), one_in(r, 2) ? 2 : 4); return len;
    case 4:
    case 5: change_field(r, bytes, len); return len;
    case 6: return one_in(r, 2) ? at : len - 1;
    case 7: memmove(bytes + at, bytes + at + run, len - at - run); return len - run;
    case 8: memmove(bytes + at, bytes + from, most_of(run, len - from)); return len;
    case 9:
        len = make_gap(bytes, len, at, run, most);
        for (size_t i = 0; i < run && at + i < len; i++) bytes[at + i] = any(r);
        return len;
    default:
        for (size_t i = 0; len < most && i < run; i++) bytes[len++] = any(r);
        return len;
    }
}

static size_t noise(struct random *r, uint8_t *to, size_t len) {
    for (size_t i = 0; i < len; i++) to[i] = any(r);
    return len;
}

static size_t make_src(struct maker *m) {
    struct random *r = &m->chance;
    uint64_t kind = below(r, 100);
    size_t len;
    if (kind < 50) {
        len = kept_form(m, m->src);
    } else if (kind < 88) {
        len = drawn_form(r, size_class(m), m->src);
    } else if (kind < 94) { /* the beginning of one form and the end of another */
        size_t head = below(r, kept_form(m, m->src) + 1), other = kept_form(m, m->other);
        size_t tail = most_of(below(r, other + 1), SRC_MOST - head);
        memcpy(m->src + head, m->other + other - tail, tail);
        len = head + tail;
    } else if (kind < 96) { /* bytes after a good beginning */
        size_t head = most_of(kept_form(m, m->src), 15 + below(r, 48));
        len = head + noise(r, m->src + head, below(r, 64));
    } else {
        len = noise(r, m->src, below(r, one_in(r, 50) ? SRC_MOST : 64));
    }
    if (one_in(r, 3))
        for (uint64_t n = 1 + below(r, 3); n > 0; n--) len = change(r, m->src, len, SRC_MOST);
    return len;
}

/* Puts a drawing behind a slice with its length before it, as far as there is room. */
static size_t put_drawing(uint8_t *slice, size_t len, const uint8_t *drawing, size_t bytes) {
    if (len + 4 + bytes > SRC_MOST) return len;
    put(slice + len, bytes, 4);
    memcpy(slice + len + 4, drawing, bytes);
    return len + 4 + bytes;
}

/* One drawing for a range: parts mostly, some of them nothing but spiders or no bytes, and whatever comes. */
static size_t make_drawing(struct maker *m, enum size size) {
    struct random *r = &m->chance;
    uint64_t kind = below(r, 16);
    if (kind == 0) return 0;
    if (kind == 1) return noise(r, m->other, below(r, 32));
    if (kind == 2 && size != SMALL) return kept_form(m, m->other);
    if (kind == 3) return drawn_form(r, SMALL, m->other);
    size_t len = drawn_parts(r, kind == 4 ? size : SMALL, m->other);
    if (kind == 5) len = change(r, m->other, len, OHG_FORM_BYTES);
    return len;
}

/* A range: few drawings mostly, the one before again now and then, and about as many as there may be; sometimes its lengths are broken. */
static size_t make_range(struct maker *m) {
    struct random *r = &m->chance;
    bool many = one_in(r, 64);
    size_t len = 0, last = 0, count = many ? OHG_MOST_DRAWINGS - 1 + below(r, 3) : below(r, 8);
    for (size_t i = 0; i < count; i++) {
        if (i == 0 || !one_in(r, many ? 2 : 4)) last = many && !one_in(r, 8) ? 0 : make_drawing(m, many ? SMALL : size_class(m));
        len = put_drawing(m->src, len, m->other, last);
    }
    uint64_t kind = below(r, 24);
    if (kind == 0) len = most_of(len, below(r, len + 1));
    else if (kind == 1) len += noise(r, m->src + len, most_of(1 + below(r, 4), SRC_MOST - len));
    else if (kind == 2 && len) m->src[below(r, 4)] ^= 1 << below(r, 8);
    else if (kind == 3) len = change(r, m->src, len, SRC_MOST);
    return len;
}

/* A list of labels, or of ids that are as wide as the graph's, or now and then of the other width. */
static size_t make_list(struct maker *m, uint8_t *to, enum entries entries, const uint32_t counts[2], uint32_t width) {
    struct random *r = &m->chance;
    if (one_in(r, 32)) width = 6 - width;
    uint64_t kind = below(r, 2000);
    size_t n = kind < 1900 ? below(r, 6) : kind < 1990 ? below(r, 100) : kind < 1998 ? below(r, 2100) : below(r, LIST_MOST / 4);
    uint8_t *at = to;
    for (size_t i = 0; i < n; i++) at = entries == LABELS ? put(at, a_label(r), 4) : put(at, an_id(r, counts[entries == EDGES]), width);
    size_t len = at - to;
    if (one_in(r, 24)) len += noise(r, at, below(r, 4));
    return most_of(len, LIST_MOST);
}

/* Steps on a graph of so many nodes and edges: few mostly, ids mostly those that are there then; now and then cut, changed or with bytes after the last. */
static size_t make_steps(struct maker *m, uint8_t *to, const uint32_t counts[2]) {
    struct random *r = &m->chance;
    uint32_t nodes = counts[0], edges = counts[1];
    size_t n = one_in(r, 64) ? below(r, 400) : below(r, 9);
    bool builds = one_in(r, 3);
    uint8_t *at = to;
    while (n-- && at + 128 < to + LIST_MOST) {
        uint32_t kind = 1 + below(r, builds ? 6 : 8), count[LISTS] = {below(r, 4), below(r, 4)};
        if (one_in(r, 100)) kind = any(r);
        at = put(at, kind, 1);
        switch (kind) {
        case OHG_STEP_NEW_NODE: at = put(at, a_label(r), 4); nodes++; break;
        case OHG_STEP_NEW_EDGE:
        case OHG_STEP_NEW_OPERATION:
            at = put(at, a_label(r), 4);
            for (int i = 0; i < LISTS; i++) at = put(at, count[i], 4);
            for (uint32_t i = 0; i < count[0] + count[1]; i++) at = put(at, kind == OHG_STEP_NEW_EDGE ? an_id(r, nodes) : a_label(r), 4);
            if (kind == OHG_STEP_NEW_OPERATION) nodes += count[0] + count[1];
            edges++;
            break;
        case OHG_STEP_UNIFY: for (int i = 0; i < 2; i++) at = put(at, an_id(r, nodes), 4); break;
        case OHG_STEP_ADD_EDGE_SOURCE:
        case OHG_STEP_ADD_EDGE_TARGET: at = put(put(at, an_id(r, edges), 4), a_label(r), 4); nodes++; break;
        case OHG_STEP_DELETE_EDGES:
        case OHG_STEP_DELETE_NODES: {
            uint32_t *of = kind == OHG_STEP_DELETE_NODES ? &nodes : &edges, first = *of ? below(r, *of) : 0;
            if (one_in(r, 8)) count[0]++, first = an_id(r, *of);
            else if (count[0] > *of - (*of ? first : 0)) count[0] = *of - (*of ? first : 0);
            at = put(at, count[0], 4);
            for (uint32_t i = 0; i < count[0]; i++) at = put(at, first + i, 4);
            *of -= count[0] < *of ? count[0] : *of;
            break;
        }
        }
    }
    size_t len = at - to;
    uint64_t broken = below(r, 24);
    if (broken == 0) len = below(r, len + 1);
    else if (broken == 1) len += noise(r, at, below(r, 9));
    else if (broken == 2) len = change(r, to, len, LIST_MOST);
    return len;
}

/* Many nodes of a graph, so that now and then a cycle has no others: half of them, most, or all. */
static size_t make_kept(struct maker *m, uint8_t *to, uint32_t nodes, uint32_t width) {
    struct random *r = &m->chance;
    uint64_t kind = below(r, 3);
    uint8_t *at = to;
    for (uint32_t v = 0; v < nodes && v < NODES_MOST; v++)
        if (kind == 2 || below(r, 8) < (kind ? 7 : 4)) at = put(at, v, width);
    return at - to;
}

static void make_numbers(struct random *r, struct call *c, const uint32_t counts[2]) {
    switch (functions[c->function].numbers) {
    case NO_NUMBER: break;
    case LABEL: c->number[0] = one_in(r, 8) ? a_border(r) : a_label(r); break;
    case TWO_NODES: for (int i = 0; i < 2; i++) c->number[i] = an_id(r, counts[0]); break;
    case EDGE_AND_LABEL: c->number[0] = an_id(r, counts[1]); c->number[1] = a_label(r); break;
    }
}

struct call make_call(struct maker *m) {
    struct random *r = &m->chance;
    struct call c = {.function = below(r, FUNCTIONS), .sides = any(r), .src = {m->src, 0}};
    const struct function *f = &functions[c.function];
    for (int i = 0; i < LENGTHS; i++) c.fit[i] = one_in(r, 3) ? any(r) : 2;
    if (c.function == PRICE_RANGE && !one_in(r, 16)) c.src.len = make_range(m);
    else if (f->graph) c.src.len = c.function == PRICE && !one_in(r, 4) ? drawn_parts(r, size_class(m), m->src) : make_src(m);
    uint32_t counts[2] = {0, 0}, width = ohg_width(c.src.at, c.src.len);
    if (c.src.len >= 15)
        for (int i = 0; i < 2; i++) counts[i] = get(m->src + 5 + width * i, width);
    make_numbers(r, &c, counts);
    for (int i = 0; i < LISTS; i++) c.list[i] = (struct slice){m->list[i], i < f->lists ? make_list(m, m->list[i], f->entries, counts, width) : 0};
    if (c.function == BUILD && !one_in(r, 16)) c.list[0].len = make_steps(m, m->list[0], counts);
    if ((c.function == KEEPING || c.function == SCANNING) && one_in(r, 2)) c.list[0].len = make_kept(m, m->list[0], counts[0], width);
    return c;
}

struct call change_call(struct maker *m, const struct call *old) {
    struct random *r = &m->chance;
    struct call c = *old;
    memcpy(m->src, old->src.at, old->src.len);
    c.src.at = m->src;
    for (int i = 0; i < LISTS; i++) {
        memcpy(m->list[i], old->list[i].at, old->list[i].len);
        c.list[i].at = m->list[i];
    }
    uint64_t kind = below(r, 16);
    if (kind == 0) c.function = below(r, FUNCTIONS);
    else if (kind == 1) c.fit[below(r, LENGTHS)] = any(r);
    else if (kind == 2) c.sides = any(r);
    else if (kind == 3) c.number[below(r, 2)] = one_in(r, 2) ? a_border(r) : below(r, 16);
    else if (kind < 7) {
        struct slice *list = &c.list[below(r, LISTS)];
        list->len = change(r, list->at, list->len, LIST_MOST);
    } else c.src.len = change(r, m->src, c.src.len, SRC_MOST);
    return c;
}
