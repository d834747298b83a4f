#define _GNU_SOURCE
#include <fcntl.h>
#include <signal.h>
#include <stdatomic.h>
#include <stdio.h>
#include <stdlib.h>
#include <unistd.h>

#include "hostile.h"

#ifdef ADDRESS_SANITIZER
#include <sanitizer/common_interface_defs.h>
#endif

_Thread_local const struct call *current;

static const char *save_as;

static void save_current(void) {
    static uint8_t record[RECORD_MOST];
    if (!current) return;
    size_t len = encode(current, record, sizeof record);
    int file = open(save_as, O_WRONLY | O_CREAT | O_TRUNC, 0644);
    if (file >= 0 && write(file, record, len) == (ssize_t)len) dprintf(1, "the case is saved as %s\n", save_as);
    if (file >= 0) close(file);
}

static _Noreturn void give_up(void) {
    if (!save_as) abort();
    save_current();
    dprintf(1, "0 passed, 1 failed\n");
    _exit(1);
}

void fail(const char *function, const char *sentence) {
    static atomic_flag told = ATOMIC_FLAG_INIT;
    while (atomic_flag_test_and_set(&told)) pause(); /* one thread tells */
    dprintf(1, "not so of %s: %s\n", function, sentence);
    give_up();
}

static void on_signal(int number) {
    const char *function = current ? functions[current->function].name : "the program";
    fail(function, number == SIGALRM ? "every call ends" : "no call makes a fault");
}

void stack_for_signals(void) {
#ifndef ADDRESS_SANITIZER /* which has its own */
    size_t size = 1 << 16;
    stack_t own = {.ss_sp = malloc(size), .ss_size = size};
    sigaltstack(&own, NULL);
#endif
}

void watch(const char *path) {
    save_as = path;
    stack_for_signals();
    struct sigaction action = {.sa_handler = on_signal, .sa_flags = SA_ONSTACK};
    sigaction(SIGALRM, &action, NULL);
#ifdef ADDRESS_SANITIZER
    __sanitizer_set_death_callback(give_up); /* after its own report */
#else
    static const int faults[] = {SIGSEGV, SIGBUS, SIGILL, SIGTRAP, SIGFPE, SIGABRT};
    for (size_t i = 0; i < sizeof faults / sizeof *faults; i++) sigaction(faults[i], &action, NULL);
#endif
}

void print_counts(uint64_t counts[FUNCTIONS][CODES]) {
    printf("%-33s %11s", "calls by returned code", "0");
    for (int code = 1; code < CODES; code++) printf(" %9d", code);
    printf("\n");
    for (int i = 0; i < FUNCTIONS; i++) {
        printf("%-33s %11llu", functions[i].name, (unsigned long long)counts[i][0]);
        for (int code = 1; code < CODES; code++) printf(" %9llu", (unsigned long long)counts[i][code]);
        printf("\n");
    }
}
