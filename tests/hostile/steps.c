#include "hostile.h"

bool take_step(struct slice *rest, struct step *s) {
    static const uint8_t heads[] = {0, 1, 3, 3, 2, 2, 2, 1, 1};
    uint8_t kind = rest->at[0];
    if (kind == 0 || kind > 8) return false;
    const uint8_t *at = rest->at + 1;
    size_t left = (rest->len - 1) / 4, head = heads[kind];
    if (left < head) return false;
    *s = (struct step){.kind = kind, .number = {get(at, 4), head > 1 ? get(at + 4, 4) : 0}};
    size_t count[LISTS] = {0};
    if (kind == OHG_STEP_NEW_EDGE || kind == OHG_STEP_NEW_OPERATION)
        for (int i = 0; i < LISTS; i++) count[i] = get(at + 4 + 4 * i, 4);
    if (kind == OHG_STEP_DELETE_EDGES || kind == OHG_STEP_DELETE_NODES) count[0] = get(at, 4);
    if (left - head < count[0] + count[1]) return false;
    at += 4 * head;
    for (int i = 0; i < LISTS; i++) {
        s->list[i] = (struct slice){(uint8_t *)at, 4 * count[i]};
        at += 4 * count[i];
    }
    rest->len -= at - rest->at;
    rest->at = (uint8_t *)at;
    return true;
}

/* Ids become as wide as those of the form; one that does not fit is the highest that does, which no graph has. */
static struct slice in_width(struct slice list, uint32_t width, uint8_t *to) {
    for (size_t i = 0; i < list.len / 4; i++) {
        uint32_t id = get(list.at + 4 * i, 4);
        if (width == 2 && id > OHG_GONE_1) id = OHG_GONE_1;
        for (uint32_t b = 0; b < width; b++) to[width * i + b] = id >> 8 * b;
    }
    return (struct slice){to, list.len / 4 * width};
}

struct call single_call(const struct step *s, struct slice form) {
    static const unsigned calls[] = {0, NEW_NODE, NEW_EDGE, NEW_OPERATION, UNIFY, ADD_EDGE_SOURCE, ADD_EDGE_TARGET, DELETE_EDGES, DELETE_NODES};
    static uint8_t lists[LISTS][LIST_MOST];
    struct call c = {.function = calls[s->kind], .number = {s->number[0], s->number[1]}, .src = form};
    bool labels = s->kind == OHG_STEP_NEW_OPERATION;
    for (int i = 0; i < LISTS; i++) c.list[i] = in_width(s->list[i], labels ? 4 : ohg_width(form.at, form.len), lists[i]);
    return c;
}
