/* Numbers by chance (splitmix64). */
#include "hostile.h"

uint64_t any(struct random *r) {
    uint64_t z = r->state += 0x9E3779B97F4A7C15;
    z = (z ^ z >> 30) * 0xBF58476D1CE4E5B9;
    z = (z ^ z >> 27) * 0x94D049BB133111EB;
    return z ^ z >> 31;
}

uint64_t below(struct random *r, uint64_t n) {
    return (any(r) >> 32) * n >> 32;
}

bool one_in(struct random *r, uint64_t n) {
    return below(r, n) == 0;
}
