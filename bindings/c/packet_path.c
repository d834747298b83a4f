/* A load balancer's packet path: drawn in one call, its joined pins merged, asked for loops, cut where the choice says, but not at a wire that is kept,
 * and asked again.
 *
 * bindings/rust/examples/packet_path.rs does the same and prints the same. It has the path as a picture, and what is printed worked
 * out by hand.
 *
 *     cc -I bindings bindings/c/packet_path.c target/staticlib/libohg.a -o packet_path */
#include <stdio.h>
#include <stdlib.h>

#include "ohg.h"

#define COUNT(array) (sizeof(array) / sizeof(array)[0])

/* The pins' names and, as labels, how many bits they carry at once; a pin's place is its id. */
enum { ARRIVED, MERGED, BODY, KEY, SERVER, HEALTH, READY, LEAVING, RETRY, AGAIN };
static const struct {
    const char *name;
    uint32_t bits;
} pins[] = {
    {"arrived", 512}, {"merged", 512}, {"body", 512},    {"key", 104},   {"server", 16},
    {"health", 1},    {"ready", 512},  {"leaving", 512}, {"retry", 512}, {"again", 512},
};

/* The blocks: kinds as labels, how many sources and targets they have, and these, sources first. */
static const struct {
    uint32_t kind;
    uint32_t sources, targets;
    uint32_t ids[3];
} blocks[] = {
    {1, 0, 1, {ARRIVED}},                 /* receive */
    {11, 2, 1, {ARRIVED, AGAIN, MERGED}}, /* joiner */
    {3, 1, 2, {MERGED, BODY, KEY}},       /* parser */
    {6, 2, 1, {KEY, HEALTH, SERVER}},     /* pick */
    {8, 1, 1, {SERVER, HEALTH}},          /* probe */
    {7, 2, 1, {BODY, SERVER, READY}},     /* rewriter */
    {10, 1, 2, {READY, LEAVING, RETRY}},  /* splitter */
    {2, 1, 0, {LEAVING}},                 /* transmit */
};

/* Work room for every call: the choice asks for the most. */
static uint8_t room[OHG_ROOM_CYCLE_BREAKING_NODES];

/* The answer of a call; a refusal ends the program. */
static uint64_t answered(const char *function, uint64_t answer) {
    if (OHG_CODE(answer) != OHG_DONE) {
        fprintf(stderr, "%s refused by %u at %u\n", function, OHG_CODE(answer), OHG_PLACE(answer));
        exit(1);
    }
    return answer;
}

/* Numbers in lists and answers are little-endian, of 2 bytes or of 4. */
static void put(uint8_t *at, size_t bytes, uint32_t number) {
    for (size_t i = 0; i < bytes; i++) at[i] = (uint8_t)(number >> 8 * i);
}

/* A step that ohg_build takes: one byte of kind, then its numbers, of 4 bytes each. What follows it stands at the answer. */
static uint8_t *put_step(uint8_t *at, uint8_t kind, const uint32_t *numbers, size_t count) {
    *at++ = kind;
    for (size_t i = 0; i < count; i++, at += 4) put(at, 4, numbers[i]);
    return at;
}

static uint32_t get(const uint8_t *at, size_t bytes) {
    uint32_t number = 0;
    for (size_t i = 0; i < bytes; i++) number |= (uint32_t)at[i] << 8 * i;
    return number;
}

/* The sizes of a graph, of which the first is how many nodes it has, and the last how many pairs. */
static void read_sizes(const uint8_t *form, size_t len, uint32_t sizes[6]) {
    uint8_t bytes[OHG_SIZES_BYTES];
    answered("ohg_read", ohg_read(form, len, bytes, sizeof bytes));
    for (size_t i = 0; i < 6; i++) sizes[i] = get(bytes + 4 * i, 4);
}

static void show(const char *name, const uint8_t *form, size_t len) {
    uint32_t sizes[6];
    read_sizes(form, len, sizes);
    uint64_t no_loop = answered("ohg_no_loop", ohg_no_loop(form, len, room, sizeof room));
    uint64_t once_fed = answered("ohg_once_fed", ohg_once_fed(form, len, room, sizeof room));
    printf("%s: %u wires, %u blocks, %u ports\n", name, sizes[0], sizes[1], sizes[2]);
    printf("  no loop: %s\n", OHG_A(no_loop) ? "yes" : "no");
    printf("  once fed: %s\n", OHG_A(once_fed) ? "yes" : "no");
}

/* The chosen wires, of ids as wide as this. A wire is named by the first of its pins. */
static void show_buffers(const char *name, uint64_t answer, const uint8_t *list, size_t width, const uint32_t *wires) {
    printf("%s: %u (removed freely: %u)\n", name, OHG_A(answer), OHG_B(answer));
    for (size_t i = 0; i < OHG_A(answer); i++) {
        uint32_t id = get(list + width * i, width);
        size_t pin = 0;
        while (wires[pin] != id) pin++;
        printf("  wire %u, %s\n", id, pins[pin].name);
    }
}

/* A call reads the graph in one of two buffers and writes its answer to the other, which is the graph from then on. */
static void turn(uint8_t **path, uint8_t **next) {
    uint8_t *old = *path;
    *path = *next;
    *next = old;
}

int main(void) {
    static uint8_t forms[2][OHG_FORM_BYTES];
    uint8_t *path = forms[0], *next = forms[1];

    /* A step for each pin, whose id is its place, one for each block, and one for the pins that are joined. */
    uint8_t steps[5 * COUNT(pins) + 25 * COUNT(blocks) + 9], *end = steps;
    for (size_t i = 0; i < COUNT(pins); i++) end = put_step(end, OHG_STEP_NEW_NODE, &pins[i].bits, 1);
    for (size_t i = 0; i < COUNT(blocks); i++) {
        const uint32_t *ids = blocks[i].ids, sources = blocks[i].sources, targets = blocks[i].targets;
        uint32_t edge[6] = {blocks[i].kind, sources, targets, ids[0], ids[1], ids[2]};
        end = put_step(end, OHG_STEP_NEW_EDGE, edge, 3 + sources + targets);
    }
    uint32_t joined[2] = {RETRY, AGAIN};
    end = put_step(end, OHG_STEP_UNIFY, joined, 2);

    size_t len = OHG_A(answered("ohg_empty", ohg_empty(path, OHG_FORM_BYTES)));
    uint64_t answer = ohg_build(path, len, steps, (size_t)(end - steps), next, OHG_FORM_BYTES, room, sizeof room);
    len = OHG_A(answered("ohg_build", answer));
    turn(&path, &next);
    uint32_t drawn[6];
    read_sizes(path, len, drawn);
    printf("drawn: %u pins, %u pair joined\n", drawn[0], drawn[5]);

    /* The map is as wide as the graph before merging. */
    uint8_t map[4 * COUNT(pins)];
    uint32_t wires[COUNT(pins)];
    size_t width = ohg_width(path, len);
    answer = ohg_quotient(path, len, next, OHG_FORM_BYTES, map, sizeof map, room, sizeof room);
    len = OHG_A(answered("ohg_quotient", answer));
    for (size_t pin = 0; pin < COUNT(pins); pin++) wires[pin] = get(map + width * pin, width);
    turn(&path, &next);
    show("packet path", path, len);

    uint8_t list[4 * COUNT(pins)];
    width = ohg_width(path, len);
    answer = ohg_cycle_breaking_nodes(path, len, list, sizeof list, room, sizeof room);
    show_buffers("loop buffers", answered("ohg_cycle_breaking_nodes", answer), list, width, wires);
    /* Pins have become wires, by which a kept one is named. */
    uint8_t kept[4];
    put(kept, width, wires[MERGED]);
    answer = ohg_cycle_breaking_nodes_keeping(path, len, kept, width, list, sizeof list, room, sizeof room);
    show_buffers("loop buffers, merged kept", answered("ohg_cycle_breaking_nodes_keeping", answer), list, width, wires);

    answer = ohg_spiderize_nodes(path, len, list, width * OHG_A(answer), next, OHG_FORM_BYTES, room, sizeof room);
    len = OHG_A(answered("ohg_spiderize_nodes", answer));
    show("spiderized", next, len);
    return 0;
}
