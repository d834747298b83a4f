/* A call as bytes: function (1), fits (1 each), sides (1), numbers (4 each), lengths of the lists (4 each), the lists, and the stored graph to the end. */
#include <string.h>

#include "hostile.h"

uint32_t get(const uint8_t *at, int bytes) {
    uint32_t n = 0;
    while (bytes--) n = n << 8 | at[bytes];
    return n;
}

static void put4(uint8_t *at, uint32_t n) {
    for (int i = 0; i < 4; i++) at[i] = n >> 8 * i;
}

static size_t least(size_t a, size_t b) {
    return a < b ? a : b;
}

struct call decode(const uint8_t *bytes, size_t len) {
    uint8_t header[RECORD_HEADER] = {0};
    size_t at = least(len, RECORD_HEADER);
    memcpy(header, bytes, at);
    struct call c = {.function = header[0] % FUNCTIONS, .sides = header[4]};
    memcpy(c.fit, header + 1, LENGTHS);
    for (int i = 0; i < 2; i++) c.number[i] = get(header + 5 + 4 * i, 4);
    for (int i = 0; i < LISTS; i++) {
        size_t left = least(len - at, LIST_MOST);
        c.list[i] = (struct slice){(uint8_t *)bytes + at, get(header + 13 + 4 * i, 4) % (left + 1)};
        at += c.list[i].len;
    }
    c.src = (struct slice){(uint8_t *)bytes + at, least(len - at, SRC_MOST)};
    return c;
}

size_t encode(const struct call *c, uint8_t *bytes, size_t most) {
    size_t len = RECORD_HEADER + c->list[0].len + c->list[1].len + c->src.len;
    if (len > most) return 0;
    bytes[0] = c->function;
    memcpy(bytes + 1, c->fit, LENGTHS);
    bytes[4] = c->sides;
    for (int i = 0; i < 2; i++) put4(bytes + 5 + 4 * i, c->number[i]);
    uint8_t *at = bytes + RECORD_HEADER;
    for (int i = 0; i < LISTS; i++) {
        put4(bytes + 13 + 4 * i, c->list[i].len);
        memcpy(at, c->list[i].at, c->list[i].len);
        at += c->list[i].len;
    }
    memcpy(at, c->src.at, c->src.len);
    return len;
}
