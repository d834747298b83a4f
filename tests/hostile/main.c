/* hostile [--calls N] [--seed N] [--save PATH] FILE..: cases from files, cases by chance until so many calls are made, lists
 * that no 32 bits count, and a hundred threads at once. */
#include <stdio.h>
#include <stdlib.h>
#include <string.h>
#include <time.h>
#include <unistd.h>

#include "hostile.h"

enum { SECONDS_AT_MOST = 60 }; /* for what takes less than one */

static struct desk desk;
static struct outcome outcome;
static struct maker *maker;

static double seconds(void) {
    struct timespec now;
    clock_gettime(CLOCK_MONOTONIC, &now);
    return now.tv_sec + now.tv_nsec / 1e9;
}

static void replay(const char *path) {
    static uint8_t record[RECORD_MOST];
    FILE *file = fopen(path, "rb");
    if (!file) {
        perror(path);
        exit(1);
    }
    struct call c = decode(record, fread(record, 1, sizeof record, file));
    fclose(file);
    alarm(SECONDS_AT_MOST);
    run_case(&desk, &c, &outcome);
    keep_answer(maker, &c, &outcome);
    for (int fit = 0; fit < FITS; fit++) { /* and with other buffers, at both sides */
        memset(c.fit, fit, sizeof c.fit);
        c.sides = ~c.sides;
        run_case(&desk, &c, &outcome);
    }
}

static void by_chance(uint64_t calls) {
    double from = seconds();
    uint64_t before = desk.calls, cases = 0;
    for (; desk.calls - before < calls; cases++) {
        if (cases % 1024 == 0) alarm(SECONDS_AT_MOST);
        struct call c = make_call(maker);
        run_case(&desk, &c, &outcome);
        keep_answer(maker, &c, &outcome);
    }
    printf("by chance: %llu calls in %llu cases, %.1f s\n", (unsigned long long)(desk.calls - before), (unsigned long long)cases, seconds() - from);
    fflush(stdout);
}

int main(int count, char **words) {
    uint64_t calls = 200000, seed = 1;
    const char *save = "failed-case";
    int i = 1;
    for (; i + 1 < count && strncmp(words[i], "--", 2) == 0; i += 2) {
        if (strcmp(words[i], "--calls") == 0) calls = strtoull(words[i + 1], NULL, 10);
        else if (strcmp(words[i], "--seed") == 0) seed = strtoull(words[i + 1], NULL, 10);
        else if (strcmp(words[i], "--save") == 0) save = words[i + 1];
        else break;
    }
    printf("seed %llu\n", (unsigned long long)seed);
    fflush(stdout);
    watch(save);
    set_up_inputs(&desk);
    set_up_answers(&desk, seed);
    maker = new_maker(seed);
    for (int file = i; file < count; file++) replay(words[file]);
    printf("%d cases from files: %llu calls\n", count - i, (unsigned long long)desk.calls);
    by_chance(calls);
    run_long_lists(&desk);
    run_threads(&desk, maker);
    print_counts(desk.counts);
    printf("%llu passed, 0 failed\n", (unsigned long long)desk.calls);
    return 0;
}
