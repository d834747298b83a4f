#define _GNU_SOURCE
#include <stdio.h>
#include <stdlib.h>
#include <string.h>
#include <sys/mman.h>
#include <unistd.h>

#include "hostile.h"

/* With AddressSanitizer, what is not lent may not be touched. */
#ifdef ADDRESS_SANITIZER
#include <sanitizer/asan_interface.h>
#define allow(at, len) ASAN_UNPOISON_MEMORY_REGION(at, len)
#define forbid(at, len) ASAN_POISON_MEMORY_REGION(at, len)
#else
#define allow(at, len) ((void)(at), (void)(len))
#define forbid(at, len) ((void)(at), (void)(len))
#endif

/* With MemorySanitizer, what answer buffers and work room hold before a call may decide nothing. */
#ifdef MEMORY_SANITIZER
#include <sanitizer/msan_interface.h>
#define unset(at, len) __msan_poison(at, len)
#define is_set(at, len) (__msan_test_shadow(at, len) < 0)
#else
#define unset(at, len) ((void)(at), (void)(len))
#define is_set(at, len) ((void)(at), (void)(len), true)
#endif

static void *mapped(void *at, size_t size, int rights, int flags, int file) {
    void *memory = mmap(at, size, rights, flags, file, 0);
    if (memory == MAP_FAILED) {
        perror("mmap");
        exit(1);
    }
    return memory;
}

static struct arena new_arena(size_t most, int rights) {
    size_t page = sysconf(_SC_PAGESIZE);
    size_t size = (most + GUARD + page - 1) / page * page;
    int file = memfd_create("lent", 0);
    if (file < 0 || ftruncate(file, size)) {
        perror("memfd_create");
        exit(1);
    }
    struct arena a = {.size = size};
    a.own = mapped(NULL, size, PROT_READ | PROT_WRITE, MAP_SHARED, file);
    uint8_t *around = mapped(NULL, page + size + page, PROT_NONE, MAP_PRIVATE | MAP_ANONYMOUS, -1);
    a.lent = mapped(around + page, size, rights, MAP_SHARED | MAP_FIXED, file);
    close(file);
    forbid(a.lent, size);
    return a;
}

void set_up_inputs(struct desk *d) {
    d->src = new_arena(SRC_MOST, PROT_READ);
    for (int i = 0; i < LISTS; i++) d->list[i] = new_arena(LIST_MOST, PROT_READ);
}

void set_up_answers(struct desk *d, uint64_t seed) {
    d->garbage.state = seed;
    for (int i = 0; i < OUTS; i++) d->out[i] = new_arena(OUT_MOST, PROT_READ | PROT_WRITE);
    d->room = new_arena(ROOM_MOST, PROT_READ | PROT_WRITE);
}

/* A part of an arena that ends before the forbidden page above or begins after the one below. */
static struct slice part(const struct arena *a, size_t len, bool above) {
    struct slice s = {a->lent + (above ? a->size - len : 0), len};
    allow(s.at, len);
    return s;
}

/* The sanitizer knows memory by eights, and all around a part is forbidden already. */
static void take_back(struct slice s) {
    size_t before = (uintptr_t)s.at % 8;
    forbid(s.at - before, (before + s.len + 7) / 8 * 8);
}

static uint8_t *own(const struct arena *a, struct slice s) {
    return a->own + (s.at - a->lent);
}

/* The bytes at the side of a part where no page is forbidden. */
static uint8_t *guard(const struct arena *a, struct slice s) {
    bool below = s.at == a->lent;
    return below ? own(a, s) + s.len : own(a, s) - GUARD;
}

static bool all_are(const uint8_t *at, size_t len, uint8_t byte) {
    return len == 0 || (*at == byte && memcmp(at, at + 1, len - 1) == 0);
}

static struct slice copied(const struct arena *a, struct slice from, bool above) {
    struct slice s = part(a, from.len, above);
    if (from.len) memcpy(own(a, s), from.at, from.len);
    return s;
}

struct lent lend_inputs(struct desk *d, const struct call *c) {
    const struct function *f = &functions[c->function];
    struct lent l = {.number = {c->number[0], c->number[1]}};
    if (f->graph) l.src = copied(&d->src, c->src, c->sides & 1);
    for (int i = 0; i < f->lists; i++) l.list[i] = copied(&d->list[i], c->list[i], c->sides >> (1 + i) & 1);
    return l;
}

void take_inputs_back(const struct lent *l) {
    if (l->src.at) take_back(l->src);
    for (int i = 0; i < LISTS; i++)
        if (l->list[i].at) take_back(l->list[i]);
}

/* Work room holds what earlier calls left in it, and garbage in some places or, now and then, in all. */
static struct slice lend_room(struct desk *d, size_t len, bool above) {
    struct slice s = part(&d->room, len, above);
    uint8_t *at = own(&d->room, s);
    uint64_t word = any(&d->garbage);
    size_t step = one_in(&d->garbage, 64) ? sizeof word : 64 + below(&d->garbage, 4096);
    if (one_in(&d->garbage, 256)) memset(at, word, len);
    for (size_t i = 0; i + sizeof word <= len; i += step) {
        memcpy(at + i, &word, sizeof word);
        word = word * 0x9E3779B97F4A7C15 + 1;
    }
    memset(guard(&d->room, s), d->fill, GUARD);
    return s;
}

const uint8_t *answered(const struct desk *d, const struct lent *l, int out) {
    return own(&d->out[out], l->out[out]);
}

size_t written(const struct function *f, uint32_t width, uint64_t returned, int out) {
    if (OHG_CODE(returned) != OHG_DONE) return 0;
    if (out == 1) return width * (size_t)OHG_B(returned);
    if (f->answers == EXPLAINED) return OHG_REASON_BYTES * (size_t)OHG_A(returned);
    return f->answers == LIST || f->answers == LOOP ? width * (size_t)OHG_A(returned) : OHG_A(returned);
}

static void check_call(const struct desk *d, const struct function *f, const struct lent *l, uint64_t returned) {
    unsigned code = OHG_CODE(returned);
    uint32_t width = ohg_width(l->src.at, l->src.len);
    if (code >= CODES || !(f->codes >> code & 1)) fail(f->name, "the code is one that is listed for the function");
    bool at_step = f->entries == BUILDING && (code == OHG_BAD_STEP || code == OHG_BAD_LIST || code == OHG_RESULT_LIMIT);
    if (code != OHG_DONE && OHG_A(returned) && !at_step) fail(f->name, "a is 0 on a refusal");
    if (code != OHG_DONE && !is_place(f, l, code, OHG_PLACE(returned))) fail(f->name, "a refusal carries the place of its fault");
    for (int i = 0; i < f->outs; i++) {
        size_t len = l->out[i].len, n = written(f, width, returned, i);
        if (n > len) fail(f->name, "the answer is not longer than its buffer");
        if (!is_set(l->out[i].at, n)) fail(f->name, "the arguments decide each byte of the answer");
        if (!all_are(answered(d, l, i) + n, len - n, d->fill))
            fail(f->name, code ? "an answer buffer is as it was on a refusal" : "bytes past the answer are as they were");
        if (!all_are(guard(&d->out[i], l->out[i]), GUARD, ~d->fill)) fail(f->name, "the bytes beside an answer buffer are as they were");
    }
    if (f->room && !all_are(guard(&d->room, l->room), GUARD, d->fill)) fail(f->name, "the bytes beside the work room are as they were");
}

uint64_t call_once(struct desk *d, unsigned function, struct lent *l, const size_t length[LENGTHS], unsigned sides) {
    const struct function *f = &functions[function];
    d->fill += 1 + below(&d->garbage, 255);
    for (int i = 0; i < f->outs; i++) {
        l->out[i] = part(&d->out[i], length[i], sides >> i & 1);
        memset(own(&d->out[i], l->out[i]), d->fill, length[i]);
        memset(guard(&d->out[i], l->out[i]), ~d->fill, GUARD);
        unset(l->out[i].at, length[i]);
    }
    if (f->room) l->room = lend_room(d, length[OUTS], sides >> OUTS & 1);
    if (f->room) unset(l->room.at, length[OUTS]);
    uint64_t returned = f->call(l);
    d->calls++;
    d->counts[function][OHG_CODE(returned) % CODES]++;
    check_call(d, f, l, returned);
    for (int i = 0; i < f->outs; i++) take_back(l->out[i]);
    if (f->room) take_back(l->room);
    return returned;
}
