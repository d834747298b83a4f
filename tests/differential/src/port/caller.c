/* Calls the port's functions for the test program.
 *
 * The port is code for x86-64, and the test program is code for the machine that it runs on. So this program is linked
 * with the port's archive, stands alone with no C library, and runs beside the test program, under an emulator where
 * that is needed. A fault in the port ends this program and not the tests.
 *
 * A request, on standard input: the numbers of `struct request`, then the image, which holds all that is lent to the
 * function but work room. That is kept here, since it is large and nobody looks at what it holds. It lies between
 * guards; before every call some of it or all is filled anew, and the rest is as calls before have left it.
 *
 * The reply, on standard output: the numbers of `struct reply`, then the image as the function left it. */

typedef unsigned char u8;
typedef unsigned long u64;

/* A word at any address. */
typedef u64 __attribute__((aligned(1), may_alias)) word;

enum { ARGUMENTS = 12, IMAGE_BYTES = 1 << 24, ROOM_BYTES = (1 << 24) + 64, GUARD = 256, FILLED = 64 };

struct request {
    u64 function;
    u64 image_bytes;
    u64 room_bytes;
    u64 room_fill; /* the eight bytes that it is filled with, over and over */
    u64 room_step; /* of every so many bytes of it, the first FILLED are filled */
    u64 places;    /* bit i: argument i is a place in the image */
    u64 rooms;     /* bit i: argument i is the work room, which begins so many bytes on, below 8 */
    u64 arguments[ARGUMENTS];
};

/* Every parameter is a number or a pointer, and passes as one 64-bit word; a function leaves the words past its own
 * parameters alone. */
typedef u64 function(u64, u64, u64, u64, u64, u64, u64, u64, u64, u64, u64, u64);

extern function *const functions[];

static struct reply {
    u64 returned;
    u64 beside_room; /* whether a guard of the room was written to */
    u8 image[IMAGE_BYTES];
} reply;

static u8 room_and_guards[GUARD + ROOM_BYTES + GUARD];

static long system_call(long number, long a, long b, long c) {
    long result;
    __asm__ volatile("syscall"
                     : "=a"(result)
                     : "a"(number), "D"(a), "S"(b), "d"(c)
                     : "rcx", "r11", "memory");
    return result;
}

static void end(int status) {
    for (;;) system_call(60, status, 0, 0);
}

static void get(void *to, u64 n) {
    for (u64 at = 0; at < n;) {
        long got = system_call(0, 0, (long)to + at, n - at);
        if (got <= 0) end(got != 0);
        at += got;
    }
}

static void put(const void *from, u64 n) {
    for (u64 at = 0; at < n;) {
        long sent = system_call(1, 1, (long)from + at, n - at);
        if (sent <= 0) end(1);
        at += sent;
    }
}

/* Fills bytes with a word, over and over. */
static void fill(u8 *to, u64 n, u64 with) {
    u64 at = 0;
    for (; at + 8 <= n; at += 8) *(word *)(to + at) = with;
    for (; at < n; at++, with >>= 8) to[at] = with;
}

/* Whether a guard still holds the word that it was filled with. */
static int holds(const u8 *guard, u64 with) {
    u64 changed = 0;
    for (u64 at = 0; at < GUARD; at += 8) changed |= *(const word *)(guard + at) ^ with;
    return !changed;
}

void serve(void) {
    for (;;) {
        struct request r;
        get(&r, sizeof r);
        if (r.image_bytes > IMAGE_BYTES || r.room_bytes > ROOM_BYTES - 8) end(1);
        get(reply.image, r.image_bytes);

        u64 *a = r.arguments;
        u8 *room = room_and_guards + GUARD;
        for (int i = 0; i < ARGUMENTS; i++) {
            if (r.places >> i & 1) a[i] += (u64)reply.image;
            if (r.rooms >> i & 1) a[i] = (u64)(room += a[i]);
        }
        u8 *before = room - GUARD, *after = room + r.room_bytes;
        fill(before, GUARD, ~r.room_fill);
        for (u8 *part = room; part < after; part += r.room_step) {
            u64 left = after - part;
            fill(part, left < FILLED ? left : FILLED, r.room_fill);
        }
        fill(after, GUARD, ~r.room_fill);

        function *f = functions[r.function];
        reply.returned = f(a[0], a[1], a[2], a[3], a[4], a[5], a[6], a[7], a[8], a[9], a[10], a[11]);
        reply.beside_room = !holds(before, ~r.room_fill) || !holds(after, ~r.room_fill);
        put(&reply, sizeof reply - IMAGE_BYTES + r.image_bytes);
    }
}

__asm__(".globl _start\n_start:\n\tand $-16, %rsp\n\tcall serve\n");

/* What compiled code may call of a C library. */

void *memcpy(u8 *to, const u8 *from, u64 n) {
    for (u64 i = 0; i < n; i++) to[i] = from[i];
    return to;
}

void *memmove(u8 *to, const u8 *from, u64 n) {
    if (to < from) return memcpy(to, from, n);
    while (n--) to[n] = from[n];
    return to;
}

void *memset(u8 *to, int byte, u64 n) {
    for (u64 i = 0; i < n; i++) to[i] = byte;
    return to;
}
