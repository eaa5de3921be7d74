/*
 * Measures how much stack each call takes: makes it in a thread whose stack was filled with a pattern, and looks how far down the
 * pattern is gone. Each call is made on a word of every m and t at full length, with 0 to 5 wrong bits. Prints the most that it took, in
 * bytes; fails where that is more than RECEIVER_STACK.
 */
#define _POSIX_C_SOURCE 200809L
#include "receiver.h"

#include <pthread.h>
#include <stdio.h>
#include <stdlib.h>
#include <string.h>

enum { STACK = 1 << 20, PATTERN = 0xA5, DEPTH = 6, HEADER = 12, LONGEST = 255, STRIP = 50 };

/* What the calls are made on. */
static size_t m, t, n, k;
static uint8_t message[LONGEST], codeword[LONGEST], bits[LONGEST], kinds[LONGEST], take[HEADER + LONGEST], *const symbols = take + HEADER;
static uint8_t output[LONGEST], mark;
static float edges[15], levels[LONGEST];

static receiver_refusal encode(void) { return receiver_encode(m, t, n, message, k, output, n).refusal; }
static receiver_refusal decode_hard(void) { return receiver_decode_hard(m, t, n, bits, n, output, n).refusal; }
static receiver_refusal decode_soft(void) { return receiver_decode_soft(m, t, n, DEPTH, symbols, n, output, n).refusal; }
static receiver_refusal check_ladder(void) { return receiver_check_ladder(edges, 15).refusal; }
static receiver_refusal quantise(void) { return receiver_quantise(edges, 15, kinds, n, levels, n, output, n).refusal; }
static receiver_refusal open_take(void) { return receiver_open_take(take, HEADER + n).refusal; }
static receiver_refusal read_take(void) { return receiver_read_take(take, HEADER + n, output, k, &mark, 1).refusal; }
static receiver_refusal strip_length(void) { return receiver_strip_length(take, HEADER + n).refusal; }
static receiver_refusal print_take(void) { return receiver_print_take(take, HEADER + n, output, STRIP).refusal; }

static struct call {
    const char *name;
    receiver_refusal (*make)(void);
    size_t most;
} calls[] = {
    {"encode", encode, 0},
    {"decode_hard", decode_hard, 0},
    {"decode_soft", decode_soft, 0},
    {"check_ladder", check_ladder, 0},
    {"quantise", quantise, 0},
    {"open_take", open_take, 0},
    {"read_take", read_take, 0},
    {"strip_length", strip_length, 0},
    {"print_take", print_take, 0},
};

enum { CALLS = sizeof calls / sizeof *calls };

static void stop(const char *why)
{
    fprintf(stderr, "%s\n", why);
    exit(1);
}

static _Alignas(4096) uint8_t stack[STACK];

/* Makes a call, and measures from this function's frame down to the lowest byte that was changed. */
static void *measured(void *argument)
{
    struct call *call = argument;
    uint8_t here;
    size_t lowest = 0;

    if (call->make().number != 0)
        stop("a call refused");
    while (stack[lowest] == PATTERN)
        lowest++;
    size_t taken = (uintptr_t)&here - (uintptr_t)&stack[lowest];
    if (taken > call->most)
        call->most = taken;
    return NULL;
}

static void measure(struct call *call)
{
    pthread_attr_t attributes;
    pthread_t thread;

    memset(stack, PATTERN, STACK);
    if (pthread_attr_init(&attributes) != 0 || pthread_attr_setstack(&attributes, stack, STACK) != 0 ||
        pthread_create(&thread, &attributes, measured, call) != 0 || pthread_join(thread, NULL) != 0)
        stop("no thread can be started");
    pthread_attr_destroy(&attributes);
}

/* A message, its codeword, and the codeword with wrong bits among those that are less reliable. */
static void fill(size_t wrong)
{
    const uint8_t header[HEADER] = {1, 0, (uint8_t)m, (uint8_t)t, (uint8_t)n, 0, DEPTH, 0, HEADER};

    for (size_t i = 0; i < k; i++)
        message[i] = i % 3 == 0;
    if (receiver_encode(m, t, n, message, k, codeword, n).refusal.number != 0)
        stop("encode refused");
    memcpy(take, header, HEADER);
    for (size_t i = 0; i < n; i++) {
        bits[i] = codeword[i] ^ (i % 5 == 2 && i / 5 < wrong);
        symbols[i] = (uint8_t)(16 * bits[i] + (i < 30 ? i % 10 : 15));
        kinds[i] = i % 4 != 0;
        levels[i] = bits[i] ? -3.5f : 3.5f;
    }
}

int main(void)
{
    size_t most = 0;

    for (int i = 0; i < 15; i++)
        edges[i] = (float)(i + 1);
    for (m = 5; m <= 8; m++) {
        for (t = 1; t <= 3; t++) {
            n = ((size_t)1 << m) - 1, k = n - m * t;
            for (size_t wrong = 0; wrong <= 5; wrong++) {
                fill(wrong);
                for (int i = 0; i < CALLS; i++)
                    measure(&calls[i]);
            }
        }
    }
    for (int i = 0; i < CALLS; i++) {
        printf("%s: %zu\n", calls[i].name, calls[i].most);
        if (calls[i].most > most)
            most = calls[i].most;
    }
    printf("%zu bytes at the most; RECEIVER_STACK is %d\n", most, RECEIVER_STACK);
    return most > RECEIVER_STACK;
}
