#include <string.h>

#include "hostile.h"

/* What ohg_read says of a case's graph. */
struct graph {
    uint64_t refused; /* the returned number, 0 where it is read or there is no graph */
    uint32_t nodes, edges, pairs;
};

size_t fitted(uint8_t fit, size_t exact, size_t most) {
    size_t len;
    switch (fit % FITS) {
    case 0: len = 0; break;
    case 1: len = exact ? exact - 1 : 0; break;
    case 2: len = exact; break;
    case 3: len = exact + 1; break;
    case 4: len = exact + 32768; break;
    default: len = exact * fit / 255; break;
    }
    return len < most ? len : most;
}

void ample(const struct call *c, size_t length[LENGTHS]) {
    /* each node of 4 bytes becomes at most a node and two edges, in version 2 36; each entry of 2 at most a node and two entries, 12 */
    size_t len = OHG_RANGE_BYTES + 9 * c->src.len + 4 * (c->list[0].len + c->list[1].len);
    for (int i = 0; i < OUTS; i++) length[i] = len < OUT_MOST ? len : OUT_MOST;
    length[OUTS] = functions[c->function].room;
}

/* A call on the case's graph or on an answer, with ample buffers. */
static uint64_t follow(struct desk *d, unsigned function, struct slice src, struct slice list, struct lent *l) {
    struct call c = {.function = function, .sides = any(&d->garbage), .src = src, .list = {list}};
    size_t length[LENGTHS];
    ample(&c, length);
    *l = lend_inputs(d, &c);
    uint64_t returned = call_once(d, function, l, length, any(&d->garbage));
    take_inputs_back(l);
    return returned;
}

/* Whether these sizes are within so many times the limits of version 1; those of version 2 are eight times as much. */
static bool within(const uint8_t *sizes, uint32_t times) {
    static const uint32_t limits[] = {2048, 2048, 8192, 1024, 1024, 1024};
    for (int i = 0; i < 6; i++)
        if (get(sizes + 4 * i, 4) > times * limits[i]) return false;
    return true;
}

static struct graph read_graph(struct desk *d, struct slice src) {
    struct lent l;
    uint64_t returned = follow(d, READ, src, (struct slice){0}, &l);
    if (OHG_CODE(returned)) return (struct graph){.refused = returned};
    struct graph g = {0};
    const uint8_t *sizes = answered(d, &l, 0);
    bool first = ohg_width(src.at, src.len) == 2;
    if (within(sizes, 1) != first || !within(sizes, 8)) fail(functions[READ].name, "a graph has the one version that it fits");
    g.nodes = get(sizes, 4);
    g.edges = get(sizes + 4, 4);
    g.pairs = get(sizes + 20, 4);
    return g;
}

/* What a and b may be on success. */
static void check_numbers(const struct function *f, const struct graph *g, uint64_t returned) {
    uint32_t a = OHG_A(returned), b = OHG_B(returned), due = 0;
    if (f->second == NODE_ID || f->second == ENTRIES) due = g->nodes;
    if (f->second == EDGE_ID) due = g->edges;
    if (f->second == FREE) due = g->nodes + g->edges - a; /* each vertex is chosen or removed freely */
    if (f->second != STEPS && f->second != CUTS && b != due) fail(f->name, "b is what its comment says");
    if (f->answers == SIZES && a != OHG_SIZES_BYTES) fail(f->name, "the sizes have 24 bytes");
    if (f->answers == EXPLAINED && a != g->nodes) fail(f->name, "each node has an entry");
    if (f->answers == YES && a > 1) fail(f->name, "a check answers 0 or 1");
    if (f->answers == PRICES && a != OHG_PRICE_BYTES) fail(f->name, "a priced parts list has 60 bytes");
    if (f->answers == REPORT && a != OHG_RANGE_BYTES) fail(f->name, "a report has 148 bytes");
    if ((f->answers == FORM || f->answers == FORM_AND_MAP) && (a < 15 || a > OHG_FORM_BYTES)) fail(f->name, "a form has 15 to 655,385 bytes");
}

/* The refusals that follow from what ohg_read says of the graph. */
static void check_refusal(const struct function *f, const struct graph *g, uint64_t returned) {
    unsigned code = OHG_CODE(returned);
    if (code == OHG_SHORT_BUFFER) fail(f->name, "long buffers are not refused");
    bool reading = (code >= OHG_NO_HEADER && code <= OHG_FOREIGN_ID) || code == OHG_OTHER_FORM;
    if (g->refused ? returned != g->refused : reading) fail(f->name, "every function reads the graph alike");
    if (code == OHG_PENDING_PAIR && !g->pairs) fail(f->name, "8 is for a graph with a pair");
    bool needs_none = f->codes >> OHG_PENDING_PAIR & 1;
    if (!g->refused && g->pairs && needs_none && code != OHG_PENDING_PAIR && code != OHG_BAD_LIST) fail(f->name, "a pair is refused");
}

/* A form is refused later or not at all once it is mended at the place: bytes too many are cut off, and a count or an id becomes 0. */
static void check_mended(struct desk *d, struct slice src, uint64_t refused) {
    static uint8_t mended[SRC_MOST];
    unsigned was = OHG_CODE(refused);
    uint32_t place = OHG_PLACE(refused), width = ohg_width(src.at, src.len);
    bool longer = was == OHG_OTHER_LENGTH && place < src.len;
    bool number = was == OHG_OVER_LIMIT || (was == OHG_FOREIGN_ID && get(src.at + 5, width) > 0);
    if (!longer && !number) return;
    struct slice form = {mended, longer ? place : src.len};
    memcpy(mended, src.at, form.len);
    if (number) memset(mended + place, 0, width);
    struct lent l;
    uint64_t returned = follow(d, READ, form, (struct slice){0}, &l);
    unsigned is = OHG_CODE(returned);
    bool later = is == was ? OHG_PLACE(returned) > place : is == OHG_DONE || is > was;
    if (!later) fail(functions[READ].name, "a form that is mended at the place is refused later or not at all");
}

/* An answered form is read, and written again as the same bytes. Returns its node count. */
static uint32_t check_form(struct desk *d, const struct function *f, struct slice form) {
    struct graph g = read_graph(d, form);
    if (g.refused) fail(f->name, "ohg_read takes the answered form");
    struct lent l;
    uint64_t returned = follow(d, REWRITE, form, (struct slice){0}, &l);
    if (returned != (uint64_t)form.len << 8 || memcmp(answered(d, &l, 0), form.at, form.len) != 0)
        fail(f->name, "ohg_rewrite gives the answered form again");
    return g.nodes;
}

/* The nodes that stay are numbered in order, in ids as wide as those of the graph that was read. */
static void check_map(const struct function *f, struct slice map, uint32_t width, uint32_t stay) {
    uint32_t next = 0, gone = width == 2 ? OHG_GONE_1 : OHG_GONE;
    for (size_t i = 0; i < map.len; i += width) {
        uint32_t to = get(map.at + i, width);
        if (to != gone && to != next++) fail(f->name, "the map numbers what stays in order");
    }
    if (next != stay) fail(f->name, "the map numbers each node of the answer");
}

static bool yes(struct desk *d, struct slice form) {
    struct lent l;
    uint64_t returned = follow(d, NO_LOOP, form, (struct slice){0}, &l);
    if (OHG_CODE(returned)) fail(functions[NO_LOOP].name, "it answers on a form without pairs");
    return OHG_A(returned);
}

/* The chosen list ascends, is empty only without a loop, and breaks every loop, by deleting and by spiderizing. */
static void check_list(struct desk *d, const struct function *f, struct slice src, struct slice list, const struct graph *g) {
    static uint8_t kept[OUT_MOST];
    uint32_t width = ohg_width(src.at, src.len);
    for (size_t i = 0; i < list.len; i += width) {
        if (get(list.at + i, width) >= g->nodes) fail(f->name, "the list has nodes of the graph");
        if (i && get(list.at + i - width, width) >= get(list.at + i, width)) fail(f->name, "the list ascends");
    }
    if (yes(d, src) != (list.len == 0)) fail(f->name, "the list is empty exactly when there is no loop");
    static const unsigned cuts[] = {DELETE_NODES, SPIDERIZE_NODES};
    for (int i = 0; i < 2; i++) {
        struct lent l;
        uint64_t returned = follow(d, cuts[i], src, list, &l);
        unsigned code = OHG_CODE(returned);
        if (code == OHG_RESULT_LIMIT) continue;
        if (code) fail(functions[cuts[i]].name, "it takes a chosen list");
        struct slice cut = {kept, OHG_A(returned)};
        memcpy(kept, answered(d, &l, 0), cut.len);
        if (!yes(d, cut)) fail(functions[cuts[i]].name, "a chosen list leaves no loop");
    }
}

/* The merged graph and the map are those of merge.c. */
static void check_quotient(const struct function *f, const struct merged *m, const struct outcome *o, uint32_t width) {
    if (o->len[0] != m->len || memcmp(o->bytes[0], m->form, m->len) != 0) fail(f->name, "it gives the merged graph");
    for (size_t i = 0; i < o->len[1] / width; i++)
        if (get(o->bytes[1] + width * i, width) != m->class[i]) fail(f->name, "the map gives the new id of each old node");
}

/* Spiderizing gives what it gives on the merged graph, with the ids of the list under their new names. */
static void check_spiderized(struct desk *d, const struct call *c, const struct outcome *o, struct merged *m) {
    static uint8_t ids[LIST_MOST]; /* a merged graph's ids are no wider */
    const struct function *f = &functions[c->function];
    struct slice form = {m->form, m->len}, list = {ids, 0};
    uint32_t width = ohg_width(c->src.at, c->src.len), new_width = ohg_width(form.at, form.len);
    for (size_t i = 0; f->lists && i < c->list[0].len; i += width) {
        uint32_t id = m->class[get(c->list[0].at + i, width)];
        for (uint32_t k = 0; k < new_width; k++) ids[list.len++] = id >> 8 * k;
    }
    struct lent l;
    uint64_t returned = follow(d, c->function, form, list, &l);
    if (returned != o->returned || memcmp(answered(d, &l, 0), o->bytes[0], o->len[0]) != 0) fail(f->name, "it merges first, and maps its list");
}

/* What pairs do to the three calls that carry them out: after a bad list, and before all that the result could be refused by. */
static void check_merging(struct desk *d, const struct call *c, const struct outcome *o) {
    static struct merged m;
    const struct function *f = &functions[c->function];
    unsigned code = OHG_CODE(o->returned);
    if (code == OHG_BAD_LIST) return;
    if (f->lists && !is_node_list(c->src, c->list[0])) fail(f->name, "a bad list is refused before labels are compared");
    merge(c->src, &m);
    if (m.differ != (code == OHG_LABELS_DIFFER)) fail(f->name, "11 is for nodes of one class with different labels");
    if (m.differ) return;
    if (c->function == QUOTIENT) check_quotient(f, &m, o, ohg_width(c->src.at, c->src.len));
    else check_spiderized(d, c, o, &m);
}

/* The same answer where the kept list is turned round and given twice. */
static void check_repeats(struct desk *d, const struct call *c, const struct outcome *o) {
    static uint8_t turned[LIST_MOST];
    uint32_t width = ohg_width(c->src.at, c->src.len);
    size_t len = c->list[0].len;
    if (2 * len > LIST_MOST) return;
    for (size_t i = 0; i < 2 * len; i += width) memcpy(turned + i, c->list[0].at + (2 * len - width - i) % len, width);
    struct lent l;
    uint64_t returned = follow(d, c->function, c->src, (struct slice){turned, 2 * len}, &l);
    if (returned != o->returned || memcmp(answered(d, &l, 0), o->bytes[0], o->len[0]) != 0)
        fail(functions[c->function].name, "repeats and order have no effect");
}

/* With no kept nodes it is the choice without them. */
static void check_none_kept(struct desk *d, const struct call *c, const struct outcome *o) {
    struct lent l;
    uint64_t returned = follow(d, CHOOSE, c->src, (struct slice){0}, &l);
    if (returned != o->returned || memcmp(answered(d, &l, 0), o->bytes[0], o->len[0]) != 0)
        fail(functions[c->function].name, "with no kept nodes it is as before");
}

/* The list is the choice of keep.c, as far as it is known, and has no kept node. */
static void check_chosen(const struct function *f, const struct kept *k, const struct outcome *o, uint32_t width) {
    for (size_t i = 0; i < o->len[0]; i += width) {
        uint32_t id = get(o->bytes[0] + i, width);
        if (k->kept[id]) fail(f->name, "no kept node is chosen");
        if (k->known && !k->chosen[id]) fail(f->name, "it gives the choice among the nodes that are not kept");
    }
    if (k->known && (OHG_A(o->returned) != k->ids || OHG_B(o->returned) != k->free)) fail(f->name, "it gives the choice's numbers");
}

/* What a kept list does: a bad one is refused before a pair, and a cycle of kept nodes after it. */
static void check_keeping(struct desk *d, const struct call *c, const struct outcome *o, const struct graph *g) {
    static struct kept k;
    const struct function *f = &functions[c->function];
    unsigned code = OHG_CODE(o->returned);
    if (c->list[0].len == 0) check_none_kept(d, c, o);
    if (code == OHG_BAD_LIST) return;
    if (!is_node_list(c->src, c->list[0])) fail(f->name, "a bad list is refused before pairs and cycles are looked at");
    check_repeats(d, c, o);
    if (g->pairs) return;
    keep(c->src, c->list[0], &k);
    if (k.blocked != (code == OHG_KEPT_CYCLE)) fail(f->name, "16 is for a directed cycle that has only kept nodes");
    if (code == OHG_DONE) check_chosen(f, &k, o, ohg_width(c->src.at, c->src.len));
}

/* An arc leads from each vertex of the list to the next and from the last to the first, and none is there twice. */
static void check_cycle(const struct function *f, struct slice src, struct slice list) {
    static struct arcs a;
    static uint32_t next[VERTICES_MOST];
    uint32_t width = ohg_width(src.at, src.len), left = list.len / width;
    read_arcs(src, &a);
    memset(next, 0xFF, sizeof next);
    for (size_t i = 0; i < list.len; i += width) {
        uint32_t v = get(list.at + i, width);
        if (v >= a.vertices) fail(f->name, "the loop has vertices of the graph");
        if (next[v] != NONE) fail(f->name, "the loop has each vertex once");
        next[v] = get(list.at + (i + width) % list.len, width);
    }
    for (uint32_t i = 0; i < a.count; i++) {
        if (next[a.from[i]] != a.to[i]) continue;
        next[a.from[i]] = NONE;
        left--;
    }
    if (left) fail(f->name, "an arc leads from each vertex of the loop to the next");
}

/* It is a loop where there is one, and the one that the walk of walk.c finds. */
static void check_loop(struct desk *d, const struct call *c, const struct outcome *o, const struct graph *g) {
    static struct walked w;
    const struct function *f = &functions[c->function];
    uint32_t width = ohg_width(c->src.at, c->src.len), count = OHG_A(o->returned), steps = OHG_B(o->returned);
    if (yes(d, c->src) != (count == 0)) fail(f->name, "a loop is shown exactly when there is one");
    if (steps < count || steps > g->nodes + g->edges || !steps != !count) fail(f->name, "each vertex of a walk is left by one step");
    check_cycle(f, c->src, (struct slice){(uint8_t *)o->bytes[0], o->len[0]});
    walk(c->src, &w);
    if (steps != w.steps || count != w.count) fail(f->name, "it takes the steps of the walk");
    for (uint32_t i = 0; i < count; i++)
        if (get(o->bytes[0] + width * i, width) != w.visits[steps - count + i]) fail(f->name, "it shows the loop that the walk closes");
}

/* The entries of the ids in the chosen list say chosen, and no others do. */
static void check_said(struct desk *d, const struct call *c, const struct outcome *o) {
    const struct function *f = &functions[c->function];
    struct lent l;
    uint64_t returned = follow(d, CHOOSE, c->src, (struct slice){0}, &l);
    if (OHG_CODE(returned) || OHG_A(returned) != OHG_B(o->returned)) fail(f->name, "as many are chosen as by the choice");
    const uint8_t *list = answered(d, &l, 0);
    uint32_t width = ohg_width(c->src.at, c->src.len), said = 0;
    for (uint32_t v = 0; v < OHG_A(o->returned); v++) {
        if (get_reason(o->bytes[0] + OHG_REASON_BYTES * v).kind != OHG_CHOSEN) continue;
        if (said == OHG_A(returned) || get(list + width * said++, width) != v) fail(f->name, "chosen is said of the chosen nodes");
    }
    if (said != OHG_A(returned)) fail(f->name, "chosen is said of each chosen node");
}

/* Each stage but the last chooses one node; what is freed has no arcs, and in the last stage the first kind. */
static void check_stages(const struct function *f, const struct outcome *o) {
    static bool chooses[NODES_MOST + 1];
    uint32_t chosen = OHG_B(o->returned);
    memset(chooses, false, sizeof chooses);
    for (uint32_t v = 0; v < OHG_A(o->returned); v++) {
        struct reason r = get_reason(o->bytes[0] + OHG_REASON_BYTES * v);
        bool cut = r.kind == OHG_CHOSEN;
        if (r.kind > OHG_LEADS_TO_NONE) fail(f->name, "a reason is of one of three kinds");
        if (r.stage < 1 || r.stage > chosen + !cut) fail(f->name, "a reason is of a stage");
        if (cut ? !r.in || !r.out : r.in || r.out) fail(f->name, "a chosen node has arcs in the core, and a freed one is told none");
        if (r.kind == OHG_LEADS_TO_NONE && r.stage > chosen) fail(f->name, "the last stage has no core");
        if (cut && chooses[r.stage]) fail(f->name, "a stage chooses one node");
        chooses[r.stage] |= cut;
    }
}

/* They are the reasons of why.c, as far as these are known. */
static void check_reasons(struct desk *d, const struct call *c, const struct outcome *o) {
    static struct explained e;
    const struct function *f = &functions[c->function];
    check_stages(f, o);
    check_said(d, c, o);
    explain(c->src, &e);
    if (e.whole && e.chosen != OHG_B(o->returned)) fail(f->name, "b is how many are chosen");
    for (uint32_t v = 0; v < e.nodes; v++) {
        struct reason due = e.reasons[v], r = get_reason(o->bytes[0] + OHG_REASON_BYTES * v);
        if (!due.stage) continue;
        if (r.kind != due.kind || r.stage != due.stage) fail(f->name, "it gives the reason that paths show");
        if (r.in != due.in || r.out != due.out) fail(f->name, "it counts the arcs in the core");
    }
}

/* The second engine answers what the first does, whatever it is given. */
static void check_engines(struct desk *d, const struct call *c, const struct outcome *o) {
    struct lent l;
    uint64_t returned = follow(d, KEEPING, c->src, c->list[0], &l);
    if (returned != o->returned || memcmp(answered(d, &l, 0), o->bytes[0], o->len[0]) != 0)
        fail(functions[c->function].name, "both engines answer the same");
}

/* The first edge at fault decides, by parts.c; else the list has its counts, the choice's nodes as buffers, and their sum. */
static void check_price(struct desk *d, const struct call *c, const struct outcome *o) {
    struct counted p;
    struct lent l;
    const struct function *f = &functions[c->function];
    const uint8_t *list = o->bytes[0];
    count_parts(c->src, &p);
    if (OHG_CODE(o->returned) != p.fault) fail(f->name, "the first edge at fault decides");
    if (p.fault) return;
    uint64_t chosen = follow(d, CHOOSE, c->src, (struct slice){0}, &l);
    if (OHG_CODE(chosen)) fail(functions[CHOOSE].name, "it answers where a drawing is priced");
    uint64_t total = p.total + 260ull * OHG_A(chosen);
    for (int i = 0; i < KINDS; i++)
        if (get(list + 4 * i, 4) != p.count[i]) fail(f->name, "it gives the count of each kind");
    if (get(list + 48, 4) != OHG_A(chosen)) fail(f->name, "the buffers are the nodes of the choice");
    if (get(list + 52, 4) != (uint32_t)total || get(list + 56, 4) != total >> 32) fail(f->name, "the total is what counts and buffers cost");
}

/* What one drawing of a range is refused by, or its parts and the choice's nodes. */
static unsigned price_alone(struct desk *d, struct slice src, struct counted *p, uint32_t *buffers) {
    struct graph g = read_graph(d, src);
    if (g.refused) return OHG_CODE(g.refused);
    if (g.pairs) return OHG_PENDING_PAIR;
    count_parts(src, p);
    if (p->fault) return p->fault;
    struct lent l;
    uint64_t chosen = follow(d, CHOOSE, src, (struct slice){0}, &l);
    if (OHG_CODE(chosen)) fail(functions[CHOOSE].name, "it answers where a drawing is priced");
    *buffers = OHG_A(chosen);
    return OHG_DONE;
}

/* 17 is for what is no range, by range.c; else the report is the one over the drawings, each priced by itself. */
static void check_range(struct desk *d, const struct call *c, const struct outcome *o) {
    static unsigned codes[OHG_MOST_DRAWINGS];
    static struct counted parts[OHG_MOST_DRAWINGS];
    static uint32_t buffers[OHG_MOST_DRAWINGS];
    const struct function *f = &functions[c->function];
    struct slice rest = c->src, drawing;
    struct report due, r;
    uint32_t drawings = 0;
    if (is_range(rest) != (o->returned != OHG_NO_SLICE)) fail(f->name, "17 is for what is no range of up to 1,000 drawings");
    if (o->returned == OHG_NO_SLICE) return;
    for (; take_drawing(&rest, &drawing); drawings++) codes[drawings] = price_alone(d, drawing, &parts[drawings], &buffers[drawings]);
    make_report(codes, parts, buffers, drawings, &due);
    get_report(o->bytes[0], &r);
    if (r.priced != due.priced) fail(f->name, "it counts the drawings that are priced");
    if (memcmp(r.refused, due.refused, sizeof r.refused) != 0) fail(f->name, "it counts the refused drawings by their numbers");
    if (memcmp(r.count, due.count, sizeof r.count) != 0) fail(f->name, "it counts the parts of the priced drawings");
    if (r.buffers != due.buffers) fail(f->name, "it counts their loop buffers");
    if (r.sum != due.sum) fail(f->name, "the sum is what they cost");
    if (r.dearest != due.dearest) fail(f->name, "it names the first of the dearest drawings");
    if (r.mean != due.mean || r.remainder != due.remainder) fail(f->name, "the mean is over the priced drawings");
}

/* Single calls for steps that are gone through: as many bytes of forms are read and written at most. */
enum { SINGLY_MOST = 1 << 21 };

/* One call gives what single calls give one after the other, or the first refusal with the step's index. */
static void check_build(struct desk *d, const struct call *c, const struct outcome *o) {
    static uint8_t form[OHG_FORM_BYTES];
    const struct function *f = &functions[c->function];
    struct slice rest = c->list[0], now = {form, c->src.len};
    size_t work = 0;
    memcpy(form, c->src.at, c->src.len);
    for (uint64_t index = 0; rest.len; index++) {
        struct step s;
        uint64_t refused = OHG_BAD_STEP;
        if (take_step(&rest, &s)) {
            struct call single = single_call(&s, now);
            size_t length[LENGTHS];
            if ((work += now.len) > SINGLY_MOST) return;
            ample(&single, length);
            struct lent l = lend_inputs(d, &single);
            refused = call_once(d, single.function, &l, length, any(&d->garbage));
            take_inputs_back(&l);
            if (!OHG_CODE(refused)) {
                now.len = OHG_A(refused);
                memcpy(form, answered(d, &l, 0), now.len);
                continue;
            }
        }
        if (OHG_CODE(o->returned) != OHG_CODE(refused)) fail(f->name, "a step is refused by what refuses its call, or by 12");
        if (OHG_PLACE(o->returned) != OHG_PLACE(refused)) fail(f->name, "and at its place");
        if (OHG_STEP(o->returned) != index) fail(f->name, "a refusal carries the step's index");
        return;
    }
    if (o->returned != (uint64_t)now.len << 8) fail(f->name, "steps are taken that single calls take, and give as long a form");
    if (memcmp(o->bytes[0], form, now.len) != 0) fail(f->name, "steps give the form of the single calls one after the other");
}

/* The call with the buffers that the case names: the same answer, or 10 where one is too short. */
static void call_again(struct desk *d, const struct call *c, const struct outcome *o) {
    const struct function *f = &functions[c->function];
    size_t length[LENGTHS];
    uint64_t due = o->returned;
    for (int i = 0; i < f->outs; i++) {
        size_t exact = OHG_CODE(o->returned) ? c->src.len : o->len[i];
        length[i] = fitted(c->fit[i], exact, OUT_MOST);
        if (!OHG_CODE(o->returned) && length[i] < o->len[i]) due = OHG_SHORT_BUFFER;
    }
    length[OUTS] = fitted(c->fit[OUTS], f->room, f->room + 4096);
    if (length[OUTS] < f->room) due = OHG_SHORT_BUFFER;
    struct call other = *c;
    other.sides = ~c->sides;
    struct lent l = lend_inputs(d, &other);
    uint64_t returned = call_once(d, c->function, &l, length, other.sides >> 3);
    take_inputs_back(&l);
    if (returned != due) fail(f->name, "the same arguments with other buffers return the same, or 10");
    for (int i = 0; !OHG_CODE(returned) && i < f->outs; i++)
        if (memcmp(answered(d, &l, i), o->bytes[i], o->len[i]) != 0) fail(f->name, "the same arguments answer the same bytes");
}

/* What holds of an answer, by itself and by calls on it. */
static void check_answer(struct desk *d, const struct call *c, const struct outcome *o, const struct graph *g) {
    const struct function *f = &functions[c->function];
    struct slice first = {(uint8_t *)o->bytes[0], o->len[0]}, second = {(uint8_t *)o->bytes[1], o->len[1]};
    check_numbers(f, g, o->returned);
    if (f->answers == FORM || f->answers == FORM_AND_MAP) {
        uint32_t nodes = check_form(d, f, first);
        if (c->function == DELETE_NODES) check_map(f, second, ohg_width(c->src.at, c->src.len), nodes);
    }
    bool same = first.len == c->src.len && memcmp(first.at, c->src.at, first.len) == 0;
    if (c->function == REWRITE && !same) fail(f->name, "it gives the bytes that it read");
    if (f->answers == LIST) check_list(d, f, c->src, first, g);
    if (f->answers == LOOP) check_loop(d, c, o, g);
    if (f->answers == EXPLAINED) check_reasons(d, c, o);
}

void run_case(struct desk *d, const struct call *c, struct outcome *o) {
    current = c;
    const struct function *f = &functions[c->function];
    struct graph g = {0};
    if (f->graph && c->function != PRICE_RANGE) g = read_graph(d, c->src);
    if (g.refused) check_mended(d, c->src, g.refused);
    size_t length[LENGTHS];
    ample(c, length);
    struct lent l = lend_inputs(d, c);
    o->returned = call_once(d, c->function, &l, length, c->sides >> 3);
    take_inputs_back(&l);
    check_refusal(f, &g, o->returned);
    for (int i = 0; i < OUTS; i++) {
        o->len[i] = i < f->outs ? written(f, ohg_width(c->src.at, c->src.len), o->returned, i) : 0;
        if (o->len[i]) memcpy(o->bytes[i], answered(d, &l, i), o->len[i]);
    }
    call_again(d, c, o);
    bool merges = c->function == QUOTIENT || ((c->function == SPIDERIZE || c->function == SPIDERIZE_NODES) && g.pairs);
    if (merges && !g.refused) check_merging(d, c, o);
    if (OHG_CODE(o->returned) == OHG_DONE) check_answer(d, c, o, &g);
    bool keeps = c->function == KEEPING || c->function == SCANNING;
    if (keeps && !g.refused) check_keeping(d, c, o, &g);
    if (c->function == SCANNING) check_engines(d, c, o);
    if (c->function == PRICE && !g.refused && !g.pairs) check_price(d, c, o);
    if (c->function == PRICE_RANGE) check_range(d, c, o);
    if (c->function == BUILD && !g.refused) check_build(d, c, o);
    current = NULL;
}
