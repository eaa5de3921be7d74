/*
 * What the receiver's times are measured against, in C: an encoder, two decoders of binary BCH codes and a quantiser. Nothing is
 * checked here, and the tables of a code are filled before any word is decoded. It needs SSE2, which every x86-64 has.
 *
 * - core_decode_hard, core_decode_soft and core_read_words decode as the receiver does: the syndromes of a test word are those of the
 *   received bits plus those of the flipped weak positions, the roots of the locator come in closed form from tables of solutions, and
 *   the search ends with the first codeword that is sure.
 *
 * - core_textbook_hard, core_textbook_soft and core_textbook_words decode as a textbook has it: each of the 2^p test words is written out
 *   and decoded for itself, with the syndromes added up over its n positions and the locator's roots searched among n positions.
 */
#ifndef CORE_H
#define CORE_H

#include <stddef.h>
#include <stdint.h>

/* A code and its tables. */
struct code;

/* What the hard stage answers: how many positions are flipped, -1 for a lost word, and which, rising; unused places are 0. */
struct flips {
    int32_t count;
    uint32_t positions[3];
};

/* What the soft stage answers. */
enum { LOST, FAIR, SURE };

struct answer {
    uint32_t mark, distance;
    int32_t margin;
    uint32_t flips, place, tries;
};

/* How many words have each mark, and the tries of all. */
struct totals {
    uint32_t marks[3], tries;
};

struct code *core_new_code(uint32_t m, uint32_t t, uint32_t n);
void core_free_code(struct code *);

void core_encode(const struct code *, const uint8_t *message, uint8_t *codeword);

struct flips core_decode_hard(const struct code *, const uint8_t *bits, uint8_t *codeword);
struct answer core_decode_soft(const struct code *, uint32_t depth, const uint8_t *symbols, uint8_t *codeword);
struct totals core_read_words(const struct code *, uint32_t depth, size_t words, const uint8_t *symbols, uint8_t *messages,
                               uint8_t *marks);

struct flips core_textbook_hard(const struct code *, const uint8_t *bits, uint8_t *codeword);
struct answer core_textbook_soft(const struct code *, uint32_t depth, const uint8_t *symbols, uint8_t *codeword);
struct totals core_textbook_words(const struct code *, uint32_t depth, size_t words, const uint8_t *symbols, uint8_t *messages,
                                   uint8_t *marks);

void core_quantise(const float *edges, size_t samples, const uint8_t *kinds, const float *levels, uint8_t *symbols);

#endif
