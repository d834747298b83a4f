/* Why each wire of a drawing gets a loop buffer or does not, in words.
 *
 * A stage begins with what remained after the choice before it. What goes freely is freed, the rest is the stage's core, and one of its wires is
 * chosen; where the core is empty no loop is left. bindings/rust/examples/why.rs prints the same.
 *
 *     cc -I bindings bindings/c/why.c target/staticlib/libohg.a -o why
 *     ./why <examples/packet-path.ohg */
#include <stdio.h>

#include "ohg.h"

/* One byte more than the largest form, so that a longer file is refused and not cut. */
static uint8_t form[OHG_FORM_BYTES + 1], reasons[OHG_REASONS_BYTES], room[OHG_ROOM_REASONS];

static uint32_t number(const uint8_t *at) { return at[0] | at[1] << 8 | at[2] << 16 | (uint32_t)at[3] << 24; }

int main(void) {
    size_t n = fread(form, 1, sizeof form, stdin);
    uint64_t answer = ohg_reasons(form, n, reasons, sizeof reasons, room, sizeof room);
    if (OHG_CODE(answer) != OHG_DONE) {
        fprintf(stderr, "refused by %u at %u: docs/INTERFACE.md says what to do\n", OHG_CODE(answer), OHG_PLACE(answer));
        return 1;
    }
    uint32_t last = OHG_B(answer) + 1;
    for (uint32_t node = 0; node < OHG_A(answer); node++) {
        const uint8_t *entry = reasons + OHG_REASON_BYTES * node;
        uint32_t kind = number(entry), stage = number(entry + 4), in = number(entry + 8), out = number(entry + 12);
        printf("node %u: ", node);
        if (kind == OHG_CHOSEN)
            printf("chosen at stage %u, arcs in the core: %u in, %u out\n", stage, in, out);
        else if (stage == last)
            printf("freed at stage %u, no loop is left\n", stage);
        else if (kind == OHG_NOT_LED_TO)
            printf("freed at stage %u, nothing in the core leads to it\n", stage);
        else
            printf("freed at stage %u, it leads to nothing in the core\n", stage);
    }
    return 0;
}
