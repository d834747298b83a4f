#include <stdio.h>
#include "ohg.h"

/* One byte more than the largest form, so that a longer file is refused and not cut. */
static uint8_t form[OHG_FORM_BYTES + 1], cut[OHG_FORM_BYTES], list[OHG_LOOP_BYTES], room[OHG_ROOM_CYCLE_BREAKING_NODES];

static int refused(uint64_t answer) {
    fprintf(stderr, "refused by %u at %u: docs/INTERFACE.md says what to do\n", OHG_CODE(answer), OHG_PLACE(answer));
    return 1;
}

static uint32_t number(const uint8_t *at, uint32_t width) {
    uint32_t n = 0;
    while (width--) n = n << 8 | at[width];
    return n;
}

int main(void) {
    size_t n = fread(form, 1, sizeof form, stdin);
    uint64_t loop = ohg_find_loop(form, n, list, sizeof list, room, sizeof room);
    if (OHG_CODE(loop) != OHG_DONE) return refused(loop);
    uint32_t width = ohg_width(form, n), nodes = number(form + 5, width);
    for (uint32_t i = 0; i < OHG_A(loop); i++) {
        uint32_t v = number(list + width * i, width);
        printf("%s %s %u", i ? "" : "loop:", v < nodes ? "node" : "edge", v < nodes ? v : v - nodes);
    }
    if (OHG_A(loop)) putchar('\n');
    uint64_t choice = ohg_cycle_breaking_nodes(form, n, list, sizeof list, room, sizeof room);
    if (OHG_CODE(choice) != OHG_DONE) return refused(choice);
    printf("cut %u free %u\n", OHG_A(choice), OHG_B(choice));
    size_t chosen = width * OHG_A(choice);
    uint64_t answer = ohg_spiderize_nodes(form, n, list, chosen, cut, sizeof cut, room, sizeof room);
    if (OHG_CODE(answer) != OHG_DONE) return refused(answer);
    uint64_t yes = ohg_no_loop(cut, OHG_A(answer), room, sizeof room);
    printf("no loop: %s\n", OHG_A(yes) ? "yes" : "no");
    return 0;
}
