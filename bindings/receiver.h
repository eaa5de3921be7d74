/*
 * A soft-decision receiver of binary BCH codes, for C (C99 or later) and C++ (C++11 or later). Its functions are in libreceiver_c.a, which
 * tools/archive makes and tools/install puts in place with this header; they are proved, for all inputs, to answer as docs/01-scope.md
 * and the requests of docs/02-change-requests.md that landed say. What stands here hands arguments on to them and gives each answer back
 * as a struct of the call's own type (printing a take has that of reading it); that is tested. example.c makes each call once.
 *
 * A code is named by m (the field has 2^m elements, m 5 to 8), t (1 to 3 flips are repaired) and n (the length). It has m t parity bits,
 * k = n - m t message bits, and n is m t + 1 to 2^m - 1. A bit is one byte, 0 or 1. A symbol is one byte: 16 times the bit plus a
 * reliability of 0 to 15.
 *
 * Any values may be handed in, and a buffer of any length: a call answers, or it refuses and writes nothing. Look at `refusal.number`
 * first, which every answer has: 0 means that the call did not refuse. One word of 63 symbols, at depth 4:
 *
 *     receiver_soft word = receiver_decode_soft(6, 2, 63, 4, symbols, 63, codeword, 63);
 *     if (word.refusal.number != 0)
 *         printf("refused: %s\n", receiver_refusal_text(word.refusal.number));
 *     else if (word.mark == RECEIVER_LOST)
 *         puts("lost");
 *     else
 *         printf("%s, distance %u, margin %d\n", word.mark == RECEIVER_SURE ? "sure" : "fair", word.distance, word.margin);
 *
 * A take, which is a measuring round of many words. Its header says how much room it needs (none, where it is refused):
 *
 *     receiver_header header = receiver_open_take(take, length);
 *     size_t bits = header.words * header.k;
 *     uint8_t *messages = malloc(bits + 1), *marks = malloc(header.words + 1);
 *     if (header.refusal.number != 0) {
 *         printf("refused: %s\n", receiver_refusal_text(header.refusal.number));
 *     } else if (messages != NULL && marks != NULL) {
 *         receiver_totals totals = receiver_read_take(take, length, messages, bits, marks, header.words);
 *         for (size_t i = 0; i < totals.words; i++)
 *             if (marks[i] != RECEIVER_LOST)
 *                 printf("word %zu begins with bit %d\n", i, messages[i * header.k]);
 *         printf("%zu words: %zu sure, %zu fair, %zu lost\n", totals.words, totals.sure, totals.fair, totals.lost);
 *     }
 *     free(messages);
 *     free(marks);
 *
 * The same take as a strip of text to be printed, in lines of 24 characters. It has as many bytes as receiver_strip_length says:
 *
 *     receiver_strip strip = receiver_strip_length(take, length);
 *     uint8_t *text = malloc(strip.length + 1);
 *     if (strip.refusal.number != 0)
 *         printf("refused: %s\n", receiver_refusal_text(strip.refusal.number));
 *     else if (text != NULL && receiver_print_take(take, length, text, strip.length).refusal.number == 0)
 *         fwrite(text, 1, strip.length, stdout);
 *     free(text);
 *
 * The caller must see to what no C compiler checks:
 * - each pointer is valid for as many elements as the length behind it says, and a `const float *` is aligned as a float is;
 * - a buffer that is written overlaps no other buffer of the call. Those that are only read may overlap;
 * - RECEIVER_STACK bytes of stack are free.
 * A pointer whose length is 0 is never followed, and may be NULL.
 *
 * The calls keep nothing from one to the next, and call nothing outside the archive but memcpy and memset: several threads may make them
 * at once, each with its own outputs.
 */
#ifndef RECEIVER_H
#define RECEIVER_H

#include <stddef.h>
#include <stdint.h>

#ifdef __cplusplus
extern "C" {
#endif

/* Enough stack for any call, in bytes. stack.c measures what each call takes, and fails where that is more. */
#define RECEIVER_STACK 32768

/* The mark of a word in the soft stage's answer, and its byte in a take that was read. */
typedef enum receiver_mark {
    RECEIVER_LOST = 0,      /* the search found no codeword */
    RECEIVER_FAIR = 1,      /* of the codewords that the search found this is the nearest */
    RECEIVER_SURE = 2       /* no codeword of the whole code is nearer */
} receiver_mark;

/* ---- refusals */

/* Why a call refused. The place is 0 unless it is named here. */
enum {
    RECEIVER_REFUSED_M = 1,                 /* m is outside 5 to 8 */
    RECEIVER_REFUSED_T = 2,                 /* t is outside 1 to 3 */
    RECEIVER_REFUSED_N = 3,                 /* n is outside m t + 1 to 2^m - 1 */
    RECEIVER_REFUSED_DEPTH = 4,             /* the depth is above 6 */
    RECEIVER_REFUSED_LADDER = 5,            /* the edges are not fifteen, the first above zero and each above the one before */
    RECEIVER_REFUSED_INPUT_LENGTH = 6,      /* an input does not have the length that the call needs */
    RECEIVER_REFUSED_OUTPUT_LENGTH = 7,     /* an output does not have exactly the length that the call writes */
    RECEIVER_REFUSED_BIT = 8,               /* a bit is above 1; place: its position in its input */
    RECEIVER_REFUSED_SYMBOL = 9,            /* a symbol is above 31; place: its position, or its byte offset from a take's start */
    RECEIVER_REFUSED_KIND = 10,             /* a kind is above 1; place: its position */
    RECEIVER_REFUSED_LEVEL = 11,            /* a heard level is not a number; place: its position */
    RECEIVER_REFUSED_TAKE_HEADER = 12,      /* a take has fewer than 12 bytes */
    RECEIVER_REFUSED_TAKE_ZERO = 13,        /* byte 7 of a take is not zero */
    RECEIVER_REFUSED_TAKE_LENGTH = 14       /* a take's words do not begin behind its label, or it does not end with its last symbol */
};

/* Every answer has one. Where its number is not 0, all other fields of the answer are 0, and no buffer was written. */
typedef struct receiver_refusal {
    unsigned number;        /* 0 not refused, otherwise RECEIVER_REFUSED_.. */
    uint64_t place;
} receiver_refusal;

/* The cause of a refusal by its number, in words. */
static inline const char *receiver_refusal_text(unsigned number)
{
    switch (number) {
    case RECEIVER_REFUSED_M: return "m is outside 5 to 8";
    case RECEIVER_REFUSED_T: return "t is outside 1 to 3";
    case RECEIVER_REFUSED_N: return "n is outside m t + 1 to 2^m - 1";
    case RECEIVER_REFUSED_DEPTH: return "the depth is over 6";
    case RECEIVER_REFUSED_LADDER: return "the edges are no ladder";
    case RECEIVER_REFUSED_INPUT_LENGTH: return "an input's length is not the one that the call needs";
    case RECEIVER_REFUSED_OUTPUT_LENGTH: return "an output's length is not exact";
    case RECEIVER_REFUSED_BIT: return "a bit is above 1";
    case RECEIVER_REFUSED_SYMBOL: return "a symbol is above 31";
    case RECEIVER_REFUSED_KIND: return "a kind is above 1";
    case RECEIVER_REFUSED_LEVEL: return "a heard level is not a number";
    case RECEIVER_REFUSED_TAKE_HEADER: return "a take has fewer than 12 bytes";
    case RECEIVER_REFUSED_TAKE_ZERO: return "byte 7 of a take is not zero";
    case RECEIVER_REFUSED_TAKE_LENGTH: return "a take's offset or length is wrong";
    default: return "unknown refusal";
    }
}

/* ---- the archive's own calls
 *
 * Not for programs: the functions further below make them, each the one of its own name, and read the answer, one number of 64 bits. Its
 * byte 0, the lowest, is below 128, or 128 plus the number of a refusal, whose place then stands in bytes 1-7.
 */

/* 0 */
uint64_t receiver_encode_packed(size_t m, size_t t, size_t n, const uint8_t *message, size_t message_length, uint8_t *codeword,
                                size_t codeword_length);

/* byte 0: 1 found, 0 lost; byte 1: the flips; bytes 2-3, 4-5 and 6-7: their positions, rising, and 0 in the places that are left */
uint64_t receiver_decode_hard_packed(size_t m, size_t t, size_t n, const uint8_t *bits, size_t bits_length, uint8_t *codeword,
                                     size_t codeword_length);

/* byte 0: the mark; byte 1: the flips; byte 2: the tries; byte 3: the place; bytes 4-5: the distance; bytes 6-7: 32768 + the margin */
uint64_t receiver_decode_soft_packed(size_t m, size_t t, size_t n, size_t depth, const uint8_t *symbols, size_t symbols_length,
                                     uint8_t *codeword, size_t codeword_length);

/* 0 */
uint64_t receiver_check_ladder_packed(const float *edges, size_t edges_length);

/* 0 */
uint64_t receiver_quantise_packed(const float *edges, size_t edges_length, const uint8_t *kinds, size_t kinds_length, const float *levels,
                                  size_t levels_length, uint8_t *symbols, size_t symbols_length);

/* byte 0: 0; bytes 1-2: the words; bytes 3-4: n; byte 5: m; byte 6: t; byte 7: the depth */
uint64_t receiver_open_take_packed(const uint8_t *take, size_t take_length);

/* byte 0: 0; bytes 1-2: how many words are sure; bytes 3-4: how many are fair; bytes 5-7: the tries of all words */
uint64_t receiver_read_take_packed(const uint8_t *take, size_t take_length, uint8_t *messages, size_t messages_length, uint8_t *marks,
                                   size_t marks_length);

/* byte 0: 0; bytes 1-7: the length of the strip in bytes */
uint64_t receiver_strip_length_packed(const uint8_t *take, size_t take_length);

/* as receiver_read_take_packed */
uint64_t receiver_print_take_packed(const uint8_t *take, size_t take_length, uint8_t *strip, size_t strip_length);

/* Internal: the refusal in such a number. */
static inline receiver_refusal receiver_refusal_(uint64_t packed)
{
    receiver_refusal refusal;
    int refused = (packed & 128) != 0;
    refusal.number = refused ? (unsigned)(packed & 127) : 0;
    refusal.place = refused ? packed >> 8 : 0;
    return refusal;
}

/* Internal: what so many of its bytes hold, from byte `first` on; 0 where it is a refusal. */
static inline unsigned receiver_bytes_(uint64_t packed, unsigned first, unsigned count)
{
    return (packed & 128) != 0 ? 0 : (unsigned)((packed >> (8 * first)) & ((UINT64_C(1) << (8 * count)) - 1));
}

/* ---- encoding */

typedef struct receiver_encoded {
    receiver_refusal refusal;
} receiver_encoded;

/*
 * Writes the codeword that carries a message: parity at positions 0 to m t - 1, the message behind it.
 * Takes k message bits; writes n bits.
 * Refuses with the first of 1, 2, 3, 6, 7, 8 that applies; `codeword` is then as it was.
 */
static inline receiver_encoded receiver_encode(size_t m, size_t t, size_t n, const uint8_t *message, size_t message_length,
                                               uint8_t *codeword, size_t codeword_length)
{
    uint64_t packed = receiver_encode_packed(m, t, n, message, message_length, codeword, codeword_length);
    receiver_encoded answer;
    answer.refusal = receiver_refusal_(packed);
    return answer;
}

/* ---- the hard stage */

/* All fields of a lost word are 0. Position 0 and an unused place look alike: look at the flips first. */
typedef struct receiver_hard {
    receiver_refusal refusal;
    int found;              /* 1 found, 0 lost */
    unsigned flips;         /* in how many positions the codeword differs from the bits */
    unsigned positions[3];  /* where, rising; unused places are 0 */
} receiver_hard;

/*
 * Writes the codeword that differs from a word in at most t positions, where there is one, and tells these positions.
 * Takes n bits; writes n bits.
 * Refuses with the first of 1, 2, 3, 6, 7, 8 that applies. Lost or refused, `codeword` is as it was.
 */
static inline receiver_hard receiver_decode_hard(size_t m, size_t t, size_t n, const uint8_t *bits, size_t bits_length, uint8_t *codeword,
                                                 size_t codeword_length)
{
    uint64_t packed = receiver_decode_hard_packed(m, t, n, bits, bits_length, codeword, codeword_length);
    receiver_hard answer;
    answer.refusal = receiver_refusal_(packed);
    answer.found = receiver_bytes_(packed, 0, 1) == 1;
    answer.flips = receiver_bytes_(packed, 1, 1);
    answer.positions[0] = receiver_bytes_(packed, 2, 2);
    answer.positions[1] = receiver_bytes_(packed, 4, 2);
    answer.positions[2] = receiver_bytes_(packed, 6, 2);
    return answer;
}

/* ---- the soft stage */

/*
 * All fields of a lost word but its tries are 0. Every other codeword has at least the distance plus the margin, and a codeword found is
 * sure exactly where its margin is 0 or more. The margin of a lost word is 0 too: look at the mark first.
 */
typedef struct receiver_soft {
    receiver_refusal refusal;
    receiver_mark mark;
    unsigned distance;      /* the reliabilities of the changed bits, added up */
    int margin;
    unsigned flips;         /* how many bits the codeword changes */
    unsigned place;         /* which of the words that were tried gave the codeword, from 0 */
    unsigned tries;         /* how many words went to the hard stage */
} receiver_soft;

/*
 * Tries every flip of the `depth` least reliable bits by the hard stage, until a codeword is sure, and writes the nearest codeword that it
 * finds. Of equally reliable bits the lower position counts as the weaker, and of equally near codewords the first is taken.
 * Takes n symbols, depth 0 to 6; writes n bits.
 * Refuses with the first of 1, 2, 3, 4, 6, 7, 9 that applies. Lost or refused, `codeword` is as it was.
 */
static inline receiver_soft receiver_decode_soft(size_t m, size_t t, size_t n, size_t depth, const uint8_t *symbols, size_t symbols_length,
                                                 uint8_t *codeword, size_t codeword_length)
{
    uint64_t packed = receiver_decode_soft_packed(m, t, n, depth, symbols, symbols_length, codeword, codeword_length);
    receiver_soft answer;
    answer.refusal = receiver_refusal_(packed);
    answer.mark = (receiver_mark)receiver_bytes_(packed, 0, 1);
    answer.distance = receiver_bytes_(packed, 4, 2);
    answer.margin = answer.refusal.number != 0 ? 0 : (int)receiver_bytes_(packed, 6, 2) - 32768;
    answer.flips = receiver_bytes_(packed, 1, 1);
    answer.place = receiver_bytes_(packed, 3, 1);
    answer.tries = receiver_bytes_(packed, 2, 1);
    return answer;
}

/* ---- samples */

typedef struct receiver_ladder {
    receiver_refusal refusal;
} receiver_ladder;

/*
 * Checks a ladder: fifteen edges, the first above zero and each above the one before.
 * Refuses with 5. Writes nothing.
 */
static inline receiver_ladder receiver_check_ladder(const float *edges, size_t edges_length)
{
    uint64_t packed = receiver_check_ladder_packed(edges, edges_length);
    receiver_ladder answer;
    answer.refusal = receiver_refusal_(packed);
    return answer;
}

typedef struct receiver_quantised {
    receiver_refusal refusal;
} receiver_quantised;

/*
 * Writes the symbol of each sample by a ladder. A sample is a kind, 0 blank or 1 heard, and a level. A blank gives the symbol 0, and its
 * level is not looked at. A heard level below zero gives bit 1, otherwise bit 0; its reliability is the number of edges that are at most
 * its magnitude. Levels may be infinite.
 * Takes fifteen edges, and equally many kinds and levels; writes as many symbols.
 * Refuses with the first of 5, 6, 7 that applies, and then with 10 or 11 for the first sample that has a fault, where a kind above 1 gives
 * 10 whatever the level; `symbols` is then as it was.
 */
static inline receiver_quantised receiver_quantise(const float *edges, size_t edges_length, const uint8_t *kinds, size_t kinds_length,
                                                   const float *levels, size_t levels_length, uint8_t *symbols, size_t symbols_length)
{
    uint64_t packed = receiver_quantise_packed(edges, edges_length, kinds, kinds_length, levels, levels_length, symbols, symbols_length);
    receiver_quantised answer;
    answer.refusal = receiver_refusal_(packed);
    return answer;
}

/* ---- takes */

/* What the header of a take says. Reading the take needs words * k bytes for its messages, and `words` bytes for its marks. */
typedef struct receiver_header {
    receiver_refusal refusal;
    size_t words;
    size_t m, t, n;         /* the code of its words */
    size_t k;               /* the message length n - m t of that code */
    size_t depth;           /* the depth of the search */
} receiver_header;

/*
 * Checks a take whole and answers what its header says. A take's bytes, two-byte numbers with the low byte first: 0-1 the word count W,
 * 2 m, 3 t, 4-5 n, 6 the depth, 7 zero, 8-9 where the words begin, 10-11 the length of the label; then the label (any bytes), and W times
 * n symbols.
 * Refuses with the first of 12, 13, 1, 2, 3, 4, 14, 9 that applies. Writes nothing.
 */
static inline receiver_header receiver_open_take(const uint8_t *take, size_t take_length)
{
    uint64_t packed = receiver_open_take_packed(take, take_length);
    receiver_header answer;
    answer.refusal = receiver_refusal_(packed);
    answer.words = receiver_bytes_(packed, 1, 2);
    answer.m = receiver_bytes_(packed, 5, 1);
    answer.t = receiver_bytes_(packed, 6, 1);
    answer.n = receiver_bytes_(packed, 3, 2);
    answer.k = answer.n - answer.m * answer.t;
    answer.depth = receiver_bytes_(packed, 7, 1);
    return answer;
}

/* What the words of a take add up to. Two calls answer it: reading a take, and printing it. */
typedef struct receiver_totals {
    receiver_refusal refusal;
    size_t words;           /* how many there are: sure + fair + lost */
    size_t sure, fair, lost;
    size_t tries;           /* the tries of all words */
} receiver_totals;

/* Internal: the totals of so many words in such a number. */
static inline receiver_totals receiver_totals_(uint64_t packed, size_t words)
{
    receiver_totals answer;
    answer.refusal = receiver_refusal_(packed);
    answer.words = words;
    answer.sure = receiver_bytes_(packed, 1, 2);
    answer.fair = receiver_bytes_(packed, 3, 2);
    answer.lost = words - answer.sure - answer.fair;
    answer.tries = receiver_bytes_(packed, 5, 3);
    return answer;
}

/*
 * Reads a take: each of its words goes to the soft stage at the take's depth.
 * Writes W k message bits, word after word, and W marks (RECEIVER_LOST, RECEIVER_FAIR, RECEIVER_SURE). The message bits of a lost word
 * are 0.
 * Refuses with the first of 12, 13, 1, 2, 3, 4, 14, 7, 9 that applies; `messages` and `marks` are then as they were. A take that
 * receiver_open_take accepts is refused only where the lengths of the buffers are not W k and W.
 */
static inline receiver_totals receiver_read_take(const uint8_t *take, size_t take_length, uint8_t *messages, size_t messages_length,
                                                 uint8_t *marks, size_t marks_length)
{
    uint64_t packed = receiver_read_take_packed(take, take_length, messages, messages_length, marks, marks_length);
    return receiver_totals_(packed, (packed & 128) != 0 ? 0 : marks_length);
}

/* ---- strips */

typedef struct receiver_strip {
    receiver_refusal refusal;
    size_t length;          /* how many bytes the strip of the take has */
} receiver_strip;

/*
 * Checks a take whole and answers how many bytes its strip has: 25 for each of its words and for each page. There is a page for every 40
 * words begun, and one where there are no words.
 * Refuses with the first of 12, 13, 1, 2, 3, 4, 14, 9 that applies. Writes nothing.
 */
static inline receiver_strip receiver_strip_length(const uint8_t *take, size_t take_length)
{
    uint64_t packed = receiver_strip_length_packed(take, take_length);
    receiver_strip answer;
    answer.refusal = receiver_refusal_(packed);
    answer.length = (packed & 128) != 0 ? 0 : (size_t)(packed >> 8);
    return answer;
}

/*
 * Reads a take and lays its results out as text, in ASCII and without a zero at its end: pages of the heading `INDEX MARK DIST MARGN TR`
 * and up to 40 words. Every line has 24 characters and a line feed. That of a word has its index from 0, its mark (sure, fair or lost),
 * the distance, the margin and the tries, in columns of 5, 4, 4, 5 and 2, each filled from the left with spaces, and one space between
 * them; the distance and the margin of a lost word are 0. A take without words gives the heading alone.
 * Writes the strip, and answers what receiver_read_take answers of the same take.
 * Refuses with the first of 12, 13, 1, 2, 3, 4, 14, 7, 9 that applies; `strip` is then as it was. A take that receiver_strip_length accepts
 * is refused only where the length of the strip is another.
 */
static inline receiver_totals receiver_print_take(const uint8_t *take, size_t take_length, uint8_t *strip, size_t strip_length)
{
    uint64_t packed = receiver_print_take_packed(take, take_length, strip, strip_length);
    return receiver_totals_(packed, (packed & 128) != 0 ? 0 : (size_t)take[0] + 256 * (size_t)take[1]);
}

#ifdef __cplusplus
}
#endif

#endif
