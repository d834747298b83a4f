/* The deepest walk that there is: a ring of 16,384 nodes and as many edges, which ohg_find_loop walks wholly, on a thread with 256 KB of stack. Ends well if
 * the answer is the ring and no more than a quarter of the stack was written to. */
#define _GNU_SOURCE
#include <pthread.h>
#include <stdio.h>
#include <stdlib.h>
#include <string.h>

#include "ohg.h"

enum { NODES = 16384, STACK = 256 * 1024, UNTOUCHED = 0xA5 };

static uint8_t form[OHG_FORM_BYTES], list[OHG_LOOP_BYTES], room[OHG_ROOM_FIND_LOOP];
static size_t length;
static uint64_t answer;

static void put(uint32_t number) {
    for (int i = 0; i < 4; i++) form[length++] = (uint8_t)(number >> (8 * i));
}

static uint32_t listed(size_t i) {
    const uint8_t *at = list + 4 * i;
    return at[0] | (uint32_t)at[1] << 8 | (uint32_t)at[2] << 16 | (uint32_t)at[3] << 24;
}

/* Edge i leads from node i to the next one. */
static void draw_ring(void) {
    memcpy(form, "OHG\2\0", 5);
    length = 5;
    put(NODES);
    put(NODES);
    for (int i = 0; i < 3 + 2 * NODES; i++) put(0);
    for (uint32_t i = 0; i < NODES; i++) {
        put(1);
        put(1);
        put(i);
        put((i + 1) % NODES);
    }
}

static void *walk(void *unused) {
    answer = ohg_find_loop(form, length, list, sizeof list, room, sizeof room);
    return unused;
}

int main(void) {
    pthread_attr_t attributes;
    pthread_t thread;
    void *stack;
    draw_ring();
    if (posix_memalign(&stack, 65536, STACK)) return 1;
    memset(stack, UNTOUCHED, STACK);
    pthread_attr_init(&attributes);
    if (pthread_attr_setstack(&attributes, stack, STACK) || pthread_create(&thread, &attributes, walk, NULL)) return 1;
    pthread_join(thread, NULL);
    size_t left = 0;
    while (left < STACK && ((uint8_t *)stack)[left] == UNTOUCHED) left++;
    printf("the deepest walk took %zu bytes of stack\n", STACK - left);
    if (OHG_CODE(answer) != 0 || OHG_A(answer) != 2 * NODES || OHG_B(answer) != 2 * NODES) return 1;
    for (uint32_t i = 0; i < NODES; i++) {
        if (listed(2 * i) != i || listed(2 * i + 1) != NODES + i) return 1;
    }
    return STACK - left > STACK / 4;
}
