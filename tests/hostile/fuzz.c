/* The same cases, chosen by libFuzzer. */
#include <stdio.h>
#include <stdlib.h>
#include <string.h>

#include "hostile.h"

int LLVMFuzzerInitialize(int *count, char ***words);
int LLVMFuzzerTestOneInput(const uint8_t *bytes, size_t len);
size_t LLVMFuzzerCustomMutator(uint8_t *bytes, size_t len, size_t most, unsigned seed);
size_t LLVMFuzzerMutate(uint8_t *bytes, size_t len, size_t most);

static struct desk desk;
static struct outcome outcome;
static struct maker *maker;

static void at_end(void) {
    print_counts(desk.counts);
    printf("%llu passed, 0 failed\n", (unsigned long long)desk.calls);
}

int LLVMFuzzerInitialize(int *count, char ***words) {
    (void)count, (void)words;
    set_up_inputs(&desk);
    set_up_answers(&desk, 1);
    maker = new_maker(1);
    atexit(at_end);
    return 0;
}

int LLVMFuzzerTestOneInput(const uint8_t *bytes, size_t len) {
    struct call c = decode(bytes, len);
    run_case(&desk, &c, &outcome);
    keep_answer(maker, &c, &outcome);
    return 0;
}

/* By its own means, by ours, or anew. */
size_t LLVMFuzzerCustomMutator(uint8_t *bytes, size_t len, size_t most, unsigned seed) {
    struct random r = {seed};
    uint64_t kind = below(&r, 8);
    if (kind < 3) return LLVMFuzzerMutate(bytes, len, most);
    struct call c = kind == 3 ? make_call(maker) : decode(bytes, len);
    for (uint64_t n = kind == 3 ? 0 : 1 + below(&r, 4); n > 0; n--) c = change_call(maker, &c);
    size_t changed = encode(&c, bytes, most);
    return changed ? changed : LLVMFuzzerMutate(bytes, len, most);
}
