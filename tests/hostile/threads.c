#define _GNU_SOURCE
#include <pthread.h>
#include <stdio.h>
#include <stdlib.h>
#include <string.h>
#include <sys/mman.h>
#include <unistd.h>

#include "hostile.h"

enum { THREADS = 100, STACK = 256 * 1024, CASES = 40, ROUNDS = 8, SHARED = 1 << 30, INPUTS_MOST = 1 << 17 };

/* A call, with what it answered when one thread ran alone. */
struct due {
    struct call call;
    size_t length[LENGTHS], len[OUTS];
    uint64_t returned;
    uint8_t *bytes[OUTS];
};

static struct due dues[FUNCTIONS * CASES];
static pthread_barrier_t start;

struct thread {
    pthread_t id;
    unsigned number;
    uint8_t *stack;
    size_t before_walks; /* bytes of it that all functions but ohg_find_loop used */
    struct desk desk;
};

static void *memory(size_t size, int flags) {
    void *at = mmap(NULL, size, PROT_READ | PROT_WRITE, MAP_PRIVATE | MAP_ANONYMOUS | flags, -1, 0);
    if (at == MAP_FAILED) {
        perror("mmap");
        exit(1);
    }
    return at;
}

/* Copies bytes behind what is shared already. */
static uint8_t *share(uint8_t **next, const uint8_t *from, size_t len) {
    uint8_t *at = *next;
    if (len) memcpy(at, from, len);
    *next += len;
    return at;
}

static struct lent inputs_of(const struct call *c) {
    return (struct lent){.number = {c->number[0], c->number[1]}, .src = c->src, .list = {c->list[0], c->list[1]}};
}

/* Lengths as the case names them, beside what it answers with long buffers. */
static void set_lengths(struct due *u, const struct outcome *o) {
    const struct function *f = &functions[u->call.function];
    for (int i = 0; i < f->outs; i++) u->length[i] = fitted(u->call.fit[i], o->len[i], OUT_MOST);
    u->length[OUTS] = fitted(u->call.fit[OUTS], f->room, f->room + 4096);
}

static void record_due(struct desk *d, struct due *u, const struct call *c, uint8_t **next) {
    static struct outcome o;
    run_case(d, c, &o);
    u->call = *c;
    u->call.src.at = share(next, c->src.at, c->src.len);
    for (int i = 0; i < LISTS; i++) u->call.list[i].at = share(next, c->list[i].at, c->list[i].len);
    set_lengths(u, &o);
    struct lent l = lend_inputs(d, c);
    u->returned = call_once(d, c->function, &l, u->length, c->sides);
    take_inputs_back(&l);
    for (int i = 0; i < functions[c->function].outs; i++) {
        u->len[i] = written(&functions[c->function], ohg_width(c->src.at, c->src.len), u->returned, i);
        u->bytes[i] = share(next, answered(d, &l, i), u->len[i]);
    }
}

/* The deepest walk that there is: all nodes and edges of version 2. */
static void record_deepest(struct desk *d, struct due *u, uint8_t **next) {
    static uint8_t form[SRC_MOST];
    struct call c = {.function = FIND_LOOP, .fit = {2, 2, 2}, .src = {form, ring_form(NODES_MOST, form)}};
    record_due(d, u, &c, next);
    if (OHG_A(u->returned) != VERTICES_MOST || OHG_B(u->returned) != VERTICES_MOST) fail(functions[FIND_LOOP].name, "the deepest walk has 32,768 moves");
}

/* As many calls of each function, in memory that may only be read from then on. */
static void record_dues(struct desk *d, struct maker *m) {
    uint8_t *block = memory(SHARED, MAP_NORESERVE), *next = block;
    unsigned have[FUNCTIONS] = {0}, all = 1;
    record_deepest(d, &dues[have[FIND_LOOP]++ * FUNCTIONS + FIND_LOOP], &next);
    while (all < FUNCTIONS * CASES) {
        struct call c = make_call(m);
        size_t inputs = c.src.len + c.list[0].len + c.list[1].len;
        if (have[c.function] == CASES || inputs > INPUTS_MOST) continue;
        record_due(d, &dues[have[c.function]++ * FUNCTIONS + c.function], &c, &next);
        all++;
    }
    mprotect(block, SHARED, PROT_READ);
}

/* What was never touched of a stack is still 0. */
static size_t stack_used(const struct thread *t) {
    size_t unused = 0;
    while (unused < STACK && t->stack[unused] == 0) unused++;
    return STACK - unused;
}

static void call_due(struct thread *t, const struct due *u) {
    const struct function *f = &functions[u->call.function];
    current = &u->call;
    struct lent l = inputs_of(&u->call);
    uint64_t returned = call_once(&t->desk, u->call.function, &l, u->length, any(&t->desk.garbage));
    if (returned != u->returned) fail(f->name, "a thread among others is returned the same number");
    for (int k = 0; k < f->outs; k++)
        if (memcmp(answered(&t->desk, &l, k), u->bytes[k], u->len[k]) != 0) fail(f->name, "a thread among others is answered the same bytes");
    current = NULL;
}

/* Either the calls that walk, or all others. */
static void call_dues(struct thread *t, bool walks) {
    for (unsigned i = 0; i < ROUNDS * FUNCTIONS * CASES; i++) {
        const struct due *u = &dues[(t->number * 7 + i) % (FUNCTIONS * CASES)];
        if ((u->call.function == FIND_LOOP) == walks) call_due(t, u);
    }
}

static void *work(void *argument) {
    struct thread *t = argument;
    stack_for_signals();
    pthread_barrier_wait(&start);
    call_dues(t, false);
    t->before_walks = stack_used(t);
    call_dues(t, true);
    return NULL;
}

/* A stack of which the page below is forbidden. */
static void start_thread(struct thread *t, unsigned number) {
    size_t page = sysconf(_SC_PAGESIZE);
    t->number = number;
    set_up_answers(&t->desk, number);
    uint8_t *block = memory(page + STACK, 0);
    mprotect(block, page, PROT_NONE);
    t->stack = block + page;
    pthread_attr_t attributes;
    pthread_attr_init(&attributes);
    if (pthread_attr_setstack(&attributes, t->stack, STACK) || pthread_create(&t->id, &attributes, work, t)) {
        fprintf(stderr, "a thread could not be started\n");
        exit(1);
    }
    pthread_attr_destroy(&attributes);
}

void run_threads(struct desk *d, struct maker *m) {
    static struct thread threads[THREADS];
    make_more_large(m);
    record_dues(d, m);
    pthread_barrier_init(&start, NULL, THREADS);
    alarm(600);
    for (unsigned i = 0; i < THREADS; i++) start_thread(&threads[i], i);
    uint64_t calls = 0;
    size_t deepest = 0, before_walks = 0;
    for (unsigned i = 0; i < THREADS; i++) {
        pthread_join(threads[i].id, NULL);
        size_t used = stack_used(&threads[i]);
        if (used > deepest) deepest = used;
        if (threads[i].before_walks > before_walks) before_walks = threads[i].before_walks;
        calls += threads[i].desk.calls;
        for (int f = 0; f < FUNCTIONS; f++)
            for (int code = 0; code < CODES; code++) d->counts[f][code] += threads[i].desk.counts[f][code];
    }
    d->calls += calls;
    printf("%d threads with stacks of %d bytes: %llu calls, at most %zu bytes of a stack used, and %zu by ohg_find_loop, whose deepest walk has %d moves\n",
           THREADS, STACK, (unsigned long long)calls, before_walks, deepest, VERTICES_MOST);
}
