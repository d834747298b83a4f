/* Uvradine: the priced parts list of a drawing. Archive libprice.a; it can be linked beside libohg.a, and needs nothing of it.
 *
 * The catalogue has twelve kinds; an edge's label is its kind, and a price is in hundredths of a cent:
 *
 *   kind  name          sources  targets  price
 *      1  receive             0        1   4200
 *      2  transmit            1        0   4200
 *      3  parser              1        2   1150
 *      4  hash                2        1    640
 *      5  server table        1        1   2300
 *      6  pick                2        1    390
 *      7  rewriter            2        1    870
 *      8  probe               1        1    510
 *      9  counter             1        1    120
 *     10  splitter            1        2     95
 *     11  joiner              2        1     95
 *     12  flow store          2        2   3100
 *
 * A spider is free and has any ports. Each node that ohg_cycle_breaking_nodes lists adds a loop buffer at 260.
 *
 * What ohg.h says of every function holds here too: any bytes may be given, pointers must not be null, slices must not overlap, and
 * OHG_CODE, OHG_A and OHG_B take the returned number apart. */
#ifndef OHG_PRICE_H
#define OHG_PRICE_H

#include "ohg.h"

#ifdef __cplusplus
extern "C" {
#endif

/* Refusals beside those of ohg.h, after OHG_PENDING_PAIR: the first edge at fault decides, and the place is 0. */
enum ohg_price_refusal {
    OHG_UNKNOWN_KIND = 14, /* an edge's label is outside the catalogue, and it is no spider */
    OHG_OTHER_PORTS = 15,  /* an edge has other numbers of sources and targets than its kind */
    OHG_NO_SLICE = 17      /* of a range: a length is cut short or runs past the input, or there are more than 1,000 drawings */
};

/* The bytes that ohg_price answers. */
#define OHG_PRICE_BYTES 60

/* The bytes that ohg_price_range answers, and the most drawings of a slice. */
#define OHG_RANGE_BYTES 148
#define OHG_MOST_DRAWINGS 1000

/* The index that ohg_price_range answers where no drawing is priced. */
#define OHG_NO_DRAWING 4294967295u

/* The bytes of work room that the functions ask for. */
#define OHG_ROOM_PRICE 1390016
#define OHG_ROOM_PRICE_RANGE 1390016

/* Prices a drawing: twelve 4-byte little-endian counts in the order of the kinds, the number of loop buffers (4), and the exact total in
 * hundredths of a cent (8).
 * a: 60, the bytes written. b: 0. Room: OHG_ROOM_PRICE. Refusals: 10 (room), 1 to 6, 13, 8, 14, 15, 10. */
uint64_t ohg_price(const uint8_t *src, size_t src_len, uint8_t *out, size_t out_len, uint8_t *room, size_t room_len);

/* Prices a range: src has up to 1,000 drawings, each stored form with its length before it, 4 bytes little-endian. The report, 4 bytes
 * each but where another number stands: drawings priced; refused by 1, by 2, .. by 17; parts of each of the twelve kinds; loop buffers; the
 * exact sum (8); the dearest drawing's index from 0, refused ones counted too and the first on a tie, OHG_NO_DRAWING where none is priced;
 * the mean over the priced ones, whole part (8) and remainder.
 * A refused drawing adds to nothing but its number; a length of 0 is a drawing, refused by 1; no bytes at all are a report of nothing.
 * a: 148, the bytes written. b: 0. Room: OHG_ROOM_PRICE_RANGE. Refusals: 10 (room), 17 before any drawing is priced, 10. */
uint64_t ohg_price_range(const uint8_t *src, size_t src_len, uint8_t *out, size_t out_len, uint8_t *room, size_t room_len);

#ifdef __cplusplus
}
#endif

#endif
