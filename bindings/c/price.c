/* Prices the drawing on standard input: its parts by kind, its loop buffers, and the total.
 *
 *     cc -I bindings bindings/c/price.c target/staticlib/libprice.a -o price && ./price <examples/packet-path.ohg */
#include <stdio.h>

#include "price.h"

/* One byte more than the largest form, so that a longer file is refused and not cut. */
static uint8_t form[OHG_FORM_BYTES + 1], list[OHG_PRICE_BYTES], room[OHG_ROOM_PRICE];

static unsigned long number(const uint8_t *at, int bytes) {
    unsigned long n = 0;
    while (bytes--) n = n << 8 | at[bytes];
    return n;
}

int main(void) {
    size_t n = fread(form, 1, sizeof form, stdin);
    uint64_t answer = ohg_price(form, n, list, sizeof list, room, sizeof room);
    if (OHG_CODE(answer) != OHG_DONE) {
        fprintf(stderr, "refused by %u at %u: docs/INTERFACE.md says what to do\n", OHG_CODE(answer), OHG_PLACE(answer));
        return 1;
    }
    for (int kind = 1; kind <= 12; kind++) {
        unsigned long count = number(list + 4 * (kind - 1), 4);
        if (count) printf("kind %d: %lu\n", kind, count);
    }
    unsigned long total = number(list + 52, 8);
    printf("loop buffers: %lu\ntotal: %lu.%02lu cents\n", number(list + 48, 4), total / 100, total % 100);
    return 0;
}
