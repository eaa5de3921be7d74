/*
 * Every call of the receiver once, on a code of 63 bits that carry 51 message bits and repair 2 flips, and on the take that is named.
 *
 *     tools/archive
 *     cc -o target/example bindings/example.c target/staticlib/libreceiver_c.a
 *     target/example examples/round.take
 *
 * After tools/install it is built by `cc $(pkg-config --cflags receiver) example.c $(pkg-config --libs receiver)`.
 */
#include "receiver.h"

#include <inttypes.h>
#include <stdio.h>
#include <stdlib.h>

enum { M = 6, T = 2, N = 63, K = N - M * T, DEPTH = 4 };

static const char *const mark_names[] = {"lost", "fair", "sure"};

/* Ends the program where a call refused. */
static void accept(const char *call, receiver_refusal refusal)
{
    if (refusal.number != 0) {
        fprintf(stderr, "%s: refused %u at %" PRIu64 ": %s\n", call, refusal.number, refusal.place, receiver_refusal_text(refusal.number));
        exit(1);
    }
}

static void print_bits(const char *name, const uint8_t *bits, size_t length)
{
    printf("%s ", name);
    for (size_t i = 0; i < length; i++)
        putchar('0' + bits[i]);
    putchar('\n');
}

/* Encodes a measure and repairs two wrong bits of it. */
static void hard_stage(uint8_t codeword[N])
{
    uint8_t message[K] = {1, 0, 1, 1, 0, 0, 1}, received[N];

    receiver_encoded encoded = receiver_encode(M, T, N, message, K, codeword, N);
    accept("encode", encoded.refusal);
    print_bits("message ", message, K);
    print_bits("codeword", codeword, N);

    for (size_t i = 0; i < N; i++)
        received[i] = codeword[i] ^ (i == 20 || i == 40);
    receiver_hard hard = receiver_decode_hard(M, T, N, received, N, codeword, N);
    accept("decode_hard", hard.refusal);
    if (hard.found) {
        printf("hard stage: %u flips", hard.flips);
        for (unsigned i = 0; i < hard.flips; i++)
            printf("%s %u", i == 0 ? ", at" : " and", hard.positions[i]);
        putchar('\n');
    } else {
        puts("hard stage: lost");
    }
}

/* Sends a codeword as levels, of which four arrive weak and wrong, more than the hard stage repairs, and one not at all. */
static void soft_stage(uint8_t codeword[N])
{
    float edges[15], levels[N];
    uint8_t kinds[N], symbols[N];

    for (int i = 0; i < 15; i++)
        edges[i] = (float)(i + 1);
    receiver_ladder ladder = receiver_check_ladder(edges, 15);
    accept("check_ladder", ladder.refusal);

    for (size_t i = 0; i < N; i++) {
        kinds[i] = i != 30;     /* 1 heard, 0 blank */
        levels[i] = codeword[i] ? -8.0f : 8.0f;
        if (i % 16 == 5)
            levels[i] *= -0.2f;
    }
    receiver_quantised quantised = receiver_quantise(edges, 15, kinds, N, levels, N, symbols, N);
    accept("quantise", quantised.refusal);

    receiver_soft soft = receiver_decode_soft(M, T, N, DEPTH, symbols, N, codeword, N);
    accept("decode_soft", soft.refusal);
    printf("soft stage: %s, distance %u, margin %d, flips %u, place %u, tries %u\n", mark_names[soft.mark], soft.distance, soft.margin,
           soft.flips, soft.place, soft.tries);
    if (soft.mark != RECEIVER_LOST)
        print_bits("message ", codeword + M * T, K);
}

/* Opens a take to learn how much room it needs, and reads it. */
static void read_take(const uint8_t *take, size_t length)
{
    receiver_header header = receiver_open_take(take, length);
    accept("open_take", header.refusal);
    printf("take: %zu words of the code m %zu, t %zu, n %zu, depth %zu\n", header.words, header.m, header.t, header.n, header.depth);

    size_t bits = header.words * header.k;
    uint8_t *messages = malloc(bits), *marks = malloc(header.words);
    if (header.words > 0 && (messages == NULL || marks == NULL)) {
        fprintf(stderr, "no room for %zu words\n", header.words);
        exit(1);
    }
    receiver_totals totals = receiver_read_take(take, length, messages, bits, marks, header.words);
    accept("read_take", totals.refusal);
    for (size_t i = 0; i < totals.words; i++) {
        if (marks[i] == RECEIVER_LOST)
            puts(mark_names[RECEIVER_LOST]);
        else
            print_bits(mark_names[marks[i]], messages + i * header.k, header.k);
    }
    printf("%zu words: %zu sure, %zu fair, %zu lost; %zu tries\n", totals.words, totals.sure, totals.fair, totals.lost, totals.tries);
    free(messages);
    free(marks);
}

/* Prints a take's results on a strip. */
static void print_take(const uint8_t *take, size_t length)
{
    receiver_strip strip = receiver_strip_length(take, length);
    accept("strip_length", strip.refusal);
    uint8_t *text = malloc(strip.length);
    if (text == NULL) {
        fprintf(stderr, "no room for %zu bytes\n", strip.length);
        exit(1);
    }
    receiver_totals totals = receiver_print_take(take, length, text, strip.length);
    accept("print_take", totals.refusal);
    printf("strip: %zu bytes for %zu words\n", strip.length, totals.words);
    fwrite(text, 1, strip.length, stdout);
    free(text);
}

int main(int argc, char **argv)
{
    static uint8_t take[1 << 20];
    uint8_t codeword[N];
    FILE *file = argc == 2 ? fopen(argv[1], "rb") : NULL;

    if (file == NULL) {
        fprintf(stderr, "usage: example FILE   (a take of less than 1 MiB)\n");
        return 2;
    }
    size_t length = fread(take, 1, sizeof take, file);
    fclose(file);
    if (length == sizeof take) {
        fprintf(stderr, "%s: too long\n", argv[1]);
        return 1;
    }

    hard_stage(codeword);
    soft_stage(codeword);
    read_take(take, length);
    print_take(take, length);
    return 0;
}
