/*
 * Holds the calls of receiver.h to document 01 (docs/01-scope.md), as a program in C meets them: the worked cases of its small code, each
 * refusal that a call can give with its place, the order of the refusals, all fields of an answer and the buffers after a refusal or a
 * lost word, the positions of three flips, numbers that fill several bytes of the archive's answer, and NULL with length 0; and strips to
 * request 3 of document 02. Prints a line for each difference, and last how many checks were made; fails where there is a difference.
 */
#include "receiver.h"

#include <inttypes.h>
#include <limits.h>
#include <math.h>
#include <stdio.h>
#include <string.h>

static unsigned checks, differences;

static void check(int holds, const char *call, const char *input, const char *what)
{
    checks++;
    if (!holds) {
        differences++;
        printf("%s, %s: %s\n", call, input, what);
    }
}

/* ---- refusals */

static const receiver_refusal ACCEPTED = {0, 0};

static receiver_refusal refused(unsigned number, uint64_t place) { return (receiver_refusal){number, place}; }

static void check_refusal(receiver_refusal refusal, receiver_refusal wanted, const char *call, const char *input)
{
    char what[120];

    snprintf(what, sizeof what, "refuses with %u at %" PRIu64 " and not %u at %" PRIu64, refusal.number, refusal.place, wanted.number,
             wanted.place);
    check(refusal.number == wanted.number && refusal.place == wanted.place, call, input, what);
}

static void check_text(unsigned number, const char *wanted)
{
    check(strcmp(receiver_refusal_text(number), wanted) == 0, "refusal_text", wanted, receiver_refusal_text(number));
}

static void check_texts(void)
{
    check_text(1, "m is outside 5 to 8");
    check_text(2, "t is outside 1 to 3");
    check_text(3, "n is outside m t + 1 to 2^m - 1");
    check_text(4, "the depth is over 6");
    check_text(5, "the edges are no ladder");
    check_text(6, "an input's length is not the one that the call needs");
    check_text(7, "an output's length is not exact");
    check_text(8, "a bit is above 1");
    check_text(9, "a symbol is above 31");
    check_text(10, "a kind is above 1");
    check_text(11, "a heard level is not a number");
    check_text(12, "a take has fewer than 12 bytes");
    check_text(13, "byte 7 of a take is not zero");
    check_text(14, "a take's offset or length is wrong");
    check_text(0, "unknown refusal");
    check_text(15, "unknown refusal");
    check_text(127, "unknown refusal");
    check_text(UINT_MAX, "unknown refusal");
}

/* ---- buffers */

enum { ROOM = 200, AROUND = 16, PATTERN = 0xA5 };

/* A buffer that is lent to a call, with bytes around it that no call may touch. */
struct lent {
    uint8_t bytes[AROUND + ROOM + AROUND];
};

/* Fills it with the pattern, for the next call. */
static uint8_t *lend(struct lent *lent)
{
    memset(lent->bytes, PATTERN, sizeof lent->bytes);
    return lent->bytes + AROUND;
}

/* Whether it begins with these bytes, each written as a character so far behind another, and holds the pattern everywhere else. */
static int holds_behind(char zero, const struct lent *lent, const char *text)
{
    size_t length = strlen(text);

    for (size_t i = 0; i < sizeof lent->bytes; i++) {
        int inside = i >= AROUND && i < AROUND + length;
        if (lent->bytes[i] != (inside ? text[i - AROUND] - zero : PATTERN))
            return 0;
    }
    return 1;
}

/* The same of bytes that are written as digits, and of a text. */
static int holds(const struct lent *lent, const char *digits) { return holds_behind('0', lent, digits); }
static int holds_text(const struct lent *lent, const char *text) { return holds_behind(0, lent, text); }

static const char UNTOUCHED[] = "";

/* Writes the number of each digit. */
static size_t numbers(const char *digits, uint8_t *bytes)
{
    size_t length = strlen(digits);

    for (size_t i = 0; i < length; i++)
        bytes[i] = (uint8_t)(digits[i] - '0');
    return length;
}

/* ---- the encoder and the hard stage, which take the same arguments */

/* The fields of either answer; the encoder's has no more than the refusal. */
struct bits_answer {
    receiver_refusal refusal;
    int found;
    unsigned flips, positions[3];
};

static const struct bits_answer ENCODED = {{0, 0}, 0, 0, {0, 0, 0}}, LOST = {{0, 0}, 0, 0, {0, 0, 0}};

/* So many flips, and all three places. */
static struct bits_answer found(unsigned flips, unsigned first, unsigned second, unsigned third)
{
    return (struct bits_answer){ACCEPTED, 1, flips, {first, second, third}};
}

static struct bits_answer bits_refused(unsigned number, uint64_t place)
{
    return (struct bits_answer){{number, place}, 0, 0, {0, 0, 0}};
}

typedef struct bits_answer bits_call(size_t, size_t, size_t, const uint8_t *, size_t, uint8_t *, size_t);

static struct bits_answer encode(size_t m, size_t t, size_t n, const uint8_t *message, size_t length, uint8_t *codeword, size_t room)
{
    return (struct bits_answer){receiver_encode(m, t, n, message, length, codeword, room).refusal, 0, 0, {0, 0, 0}};
}

static struct bits_answer decode_hard(size_t m, size_t t, size_t n, const uint8_t *bits, size_t length, uint8_t *codeword, size_t room)
{
    receiver_hard answer = receiver_decode_hard(m, t, n, bits, length, codeword, room);
    const unsigned *at = answer.positions;

    return (struct bits_answer){answer.refusal, answer.found, answer.flips, {at[0], at[1], at[2]}};
}

struct code {
    size_t m, t, n;
};

static const struct code E = {5, 1, 6};

static void check_bits_answer(struct bits_answer answer, struct bits_answer wanted, const char *name, const char *input)
{
    check_refusal(answer.refusal, wanted.refusal, name, input);
    check(answer.found == wanted.found && answer.flips == wanted.flips, name, input, "found or flips is another");
    check(memcmp(answer.positions, wanted.positions, sizeof wanted.positions) == 0, name, input, "other positions");
}

static void check_bits(bits_call *call, const char *name, struct code code, const char *bits, size_t room, struct bits_answer wanted,
                       const char *codeword)
{
    uint8_t input[ROOM];
    size_t length = numbers(bits, input);
    struct lent output;

    check_bits_answer(call(code.m, code.t, code.n, input, length, lend(&output), room), wanted, name, bits);
    check(holds(&output, codeword), name, bits, "the codeword buffer is not as it should be");
}

static void check_bits_refused(bits_call *call, const char *name, struct code code, const char *bits, size_t room, unsigned number,
                               uint64_t place)
{
    check_bits(call, name, code, bits, room, bits_refused(number, place), UNTOUCHED);
}

/* All faults at once, and then one fault less in each line: the refusals in their order. `bits` has the right length for (5, 1, 10). */
static void check_bits_refusals(bits_call *call, const char *name, const char *bits)
{
    check_bits_refused(call, name, (struct code){4, 0, 0}, "2", 11, RECEIVER_REFUSED_M, 0);
    check_bits_refused(call, name, (struct code){5, 0, 0}, "2", 11, RECEIVER_REFUSED_T, 0);
    check_bits_refused(call, name, (struct code){5, 1, 5}, "2", 11, RECEIVER_REFUSED_N, 0);
    check_bits_refused(call, name, (struct code){5, 1, 10}, "2", 11, RECEIVER_REFUSED_INPUT_LENGTH, 0);
    check_bits_refused(call, name, (struct code){5, 1, 10}, bits, 11, RECEIVER_REFUSED_OUTPUT_LENGTH, 0);
    check_bits_refused(call, name, (struct code){5, 1, 10}, bits, 9, RECEIVER_REFUSED_OUTPUT_LENGTH, 0);
    check_bits_refused(call, name, (struct code){5, 1, 10}, bits, 10, RECEIVER_REFUSED_BIT, 3);

    check_bits_refused(call, name, (struct code){9, 1, 10}, "0", 10, RECEIVER_REFUSED_M, 0);
    check_bits_refused(call, name, (struct code){SIZE_MAX, 1, 10}, "0", 10, RECEIVER_REFUSED_M, 0);
    check_bits_refused(call, name, (struct code){5, 4, 21}, "0", 21, RECEIVER_REFUSED_T, 0);
    check_bits_refused(call, name, (struct code){5, SIZE_MAX, 21}, "0", 21, RECEIVER_REFUSED_T, 0);
    check_bits_refused(call, name, (struct code){5, 1, 32}, "0", 32, RECEIVER_REFUSED_N, 0);
    check_bits_refused(call, name, (struct code){5, 1, SIZE_MAX}, "0", 32, RECEIVER_REFUSED_N, 0);
    check_bits_answer(call(5, 1, 6, NULL, 0, NULL, 0), bits_refused(RECEIVER_REFUSED_INPUT_LENGTH, 0), name, "NULL");
}

static void check_encode(void)
{
    const char *name = "encode";
    const uint8_t message[] = {1};

    check_bits(encode, name, E, "1", 6, ENCODED, "101001");
    check_bits(encode, name, E, "0", 6, ENCODED, "000000");
    check_bits(encode, name, (struct code){5, 1, 31}, "00000000000000000000000000", 31, ENCODED, "0000000000000000000000000000000");
    check_bits_refusals(encode, name, "01022");
    check_bits_answer(encode(5, 1, 6, message, 1, NULL, 0), bits_refused(RECEIVER_REFUSED_OUTPUT_LENGTH, 0), name, "codeword NULL");
}

enum { LONGEST = 255 };

/* Whether the codeword 0 with three wrong bits is found, and their positions, which rise, are told. */
static int tells(struct code code, unsigned first, unsigned second, unsigned third)
{
    uint8_t bits[LONGEST] = {0}, codeword[LONGEST];

    bits[first] = bits[second] = bits[third] = 1;
    receiver_hard answer = receiver_decode_hard(code.m, code.t, code.n, bits, code.n, codeword, code.n);
    const unsigned *at = answer.positions;
    return answer.found && answer.flips == 3 && at[0] == first && at[1] == second && at[2] == third;
}

static void check_three_flips(void)
{
    const struct code full = {5, 3, 31}, longest = {8, 3, LONGEST};
    unsigned others = 0;

    for (unsigned third = 2; third < full.n; third++)
        for (unsigned second = 1; second < third; second++)
            for (unsigned first = 0; first < second; first++)
                others += !tells(full, first, second, third);
    check(others == 0, "decode_hard", "all three flips of 31 bits", "other positions");
    check(tells(longest, 0, 127, 254), "decode_hard", "three flips of 255 bits", "other positions");
}

static void check_decode_hard(void)
{
    const char *name = "decode_hard";

    check_bits(decode_hard, name, E, "100000", 6, found(1, 0, 0, 0), "000000");
    check_bits(decode_hard, name, E, "110000", 6, LOST, UNTOUCHED);
    check_bits(decode_hard, name, E, "101000", 6, found(1, 5, 0, 0), "101001");
    check_bits(decode_hard, name, E, "101001", 6, found(0, 0, 0, 0), "101001");
    check_bits(decode_hard, name, (struct code){5, 2, 11}, "10000001000", 11, found(2, 0, 7, 0), "00000000000");
    check_bits(decode_hard, name, (struct code){5, 3, 16}, "0100100000000001", 16, found(3, 1, 4, 15), "0000000000000000");
    check_three_flips();
    check_bits_refusals(decode_hard, name, "0002200000");
}

/* ---- the soft stage */

/* The fields of an answer that is no refusal. */
struct soft {
    receiver_mark mark;
    unsigned distance;
    int margin;
    unsigned flips, place, tries;
};

static void check_soft(receiver_soft answer, receiver_refusal refusal, struct soft wanted, const char *input)
{
    const char *call = "decode_soft";

    check_refusal(answer.refusal, refusal, call, input);
    check(answer.mark == wanted.mark, call, input, "another mark");
    check(answer.distance == wanted.distance, call, input, "another distance");
    check(answer.margin == wanted.margin, call, input, "another margin");
    check(answer.flips == wanted.flips, call, input, "other flips");
    check(answer.place == wanted.place, call, input, "another place");
    check(answer.tries == wanted.tries, call, input, "other tries");
}

/* Symbols from bits and reliabilities, each a digit ('?' stands for 15, as in ASCII); returns how many. */
static size_t symbols_of(const char *bits, const char *reliabilities, uint8_t *symbols)
{
    size_t length = strlen(bits);

    for (size_t i = 0; i < length; i++)
        symbols[i] = (uint8_t)(16 * (bits[i] - '0') + reliabilities[i] - '0');
    return length;
}

static void check_found(const char *input, const char *bits, const char *reliabilities, size_t depth, struct soft wanted,
                        const char *codeword)
{
    uint8_t symbols[ROOM];
    size_t length = symbols_of(bits, reliabilities, symbols);
    struct lent output;

    check_soft(receiver_decode_soft(5, 1, 6, depth, symbols, length, lend(&output), 6), ACCEPTED, wanted, input);
    check(holds(&output, codeword), "decode_soft", input, "the codeword buffer is not as it should be");
}

static const struct soft NOTHING = {RECEIVER_LOST, 0, 0, 0, 0, 0};

static void check_soft_refused(struct code code, size_t depth, const char *bits, size_t room, unsigned number, uint64_t place)
{
    uint8_t symbols[ROOM];
    size_t length = symbols_of(bits, bits, symbols);
    struct lent output;
    receiver_soft answer = receiver_decode_soft(code.m, code.t, code.n, depth, symbols, length, lend(&output), room);

    check_soft(answer, refused(number, place), NOTHING, bits);
    check(holds(&output, UNTOUCHED), "decode_soft", bits, "a refusal wrote to the codeword buffer");
}

static void check_decode_soft(void)
{
    check_found("case 5", "110000", "115555", 2, (struct soft){RECEIVER_SURE, 2, 3, 2, 1, 2}, "000000");
    check_found("case 6", "110000", "115555", 0, (struct soft){RECEIVER_LOST, 0, 0, 0, 0, 1}, UNTOUCHED);
    check_found("lost at depth 1", "110000", "555551", 1, (struct soft){RECEIVER_LOST, 0, 0, 0, 0, 2}, UNTOUCHED);
    check_found("case 7", "000000", "000000", 0, (struct soft){RECEIVER_SURE, 0, 0, 0, 0, 1}, "000000");
    check_found("case 8", "100000", "912112", 2, (struct soft){RECEIVER_FAIR, 9, -7, 1, 0, 4}, "000000");
    check_found("case 9", "100000", "912112", 4, (struct soft){RECEIVER_FAIR, 4, -3, 2, 8, 16}, "101001");
    check_found("case 10", "100000", "155555", 0, (struct soft){RECEIVER_SURE, 1, 9, 1, 0, 1}, "000000");
    check_found("reliability 15, depth 6", "000000", "??????", 6, (struct soft){RECEIVER_SURE, 0, 45, 0, 0, 1}, "000000");

    /* The digit 2 is the symbol 34, which is above 31. All faults at once, and then one fault less in each line. */
    check_soft_refused((struct code){4, 0, 0}, 7, "2", 7, RECEIVER_REFUSED_M, 0);
    check_soft_refused((struct code){5, 0, 0}, 7, "2", 7, RECEIVER_REFUSED_T, 0);
    check_soft_refused((struct code){5, 1, 5}, 7, "2", 7, RECEIVER_REFUSED_N, 0);
    check_soft_refused(E, 7, "2", 7, RECEIVER_REFUSED_DEPTH, 0);
    check_soft_refused(E, SIZE_MAX, "2", 7, RECEIVER_REFUSED_DEPTH, 0);
    check_soft_refused(E, 6, "2", 7, RECEIVER_REFUSED_INPUT_LENGTH, 0);
    check_soft_refused(E, 6, "000022", 7, RECEIVER_REFUSED_OUTPUT_LENGTH, 0);
    check_soft_refused(E, 6, "000022", 5, RECEIVER_REFUSED_OUTPUT_LENGTH, 0);
    check_soft_refused(E, 6, "000022", 6, RECEIVER_REFUSED_SYMBOL, 4);
    check_soft(receiver_decode_soft(5, 1, 6, 0, NULL, 0, NULL, 0), refused(RECEIVER_REFUSED_INPUT_LENGTH, 0), NOTHING, "NULL");
}

/* ---- ladders and samples */

static const float EDGES[16] = {1, 2, 3, 4, 5, 6, 7, 8, 9, 10, 11, 12, 13, 14, 15, 16};

/* A ladder with one edge changed. */
static void check_edge(size_t position, float edge, receiver_refusal wanted, const char *input)
{
    float edges[15];

    memcpy(edges, EDGES, sizeof edges);
    edges[position] = edge;
    check_refusal(receiver_check_ladder(edges, 15).refusal, wanted, "check_ladder", input);
}

static void check_ladder(void)
{
    receiver_refusal no_ladder = refused(RECEIVER_REFUSED_LADDER, 0);

    check_refusal(receiver_check_ladder(EDGES, 15).refusal, ACCEPTED, "check_ladder", "1 to 15");
    check_refusal(receiver_check_ladder(EDGES, 14).refusal, no_ladder, "check_ladder", "fourteen edges");
    check_refusal(receiver_check_ladder(EDGES, 16).refusal, no_ladder, "check_ladder", "sixteen edges");
    check_refusal(receiver_check_ladder(NULL, 0).refusal, no_ladder, "check_ladder", "NULL");
    check_edge(0, 0.0f, no_ladder, "first edge zero");
    check_edge(7, 7.0f, no_ladder, "two edges equal");
    check_edge(7, NAN, no_ladder, "an edge that is not a number");
    check_edge(14, INFINITY, ACCEPTED, "last edge infinite");
}

static void check_samples(size_t edges, const char *kinds_text, const float *levels, size_t levels_length, size_t room,
                          receiver_refusal wanted, const char *input)
{
    uint8_t kinds[ROOM];
    size_t kinds_length = numbers(kinds_text, kinds);
    struct lent output;
    receiver_quantised answer = receiver_quantise(EDGES, edges, kinds, kinds_length, levels, levels_length, lend(&output), room);

    check_refusal(answer.refusal, wanted, "quantise", input);
    check(holds(&output, UNTOUCHED), "quantise", input, "a refusal wrote to the symbols");
}

static void check_quantise(void)
{
    const float levels[] = {-2.5f, 2.0f, 16.0f, -0.0f, -INFINITY, INFINITY, 0.5f, NAN};
    const uint8_t kinds[] = {1, 1, 1, 1, 1, 1, 0, 0}, wanted[] = {18, 2, 15, 0, 31, 15, 0, 0};
    const float bad[] = {1.0f, 1.0f, NAN, 1.0f};
    uint8_t symbols[8];

    check_refusal(receiver_quantise(EDGES, 15, kinds, 8, levels, 8, symbols, 8).refusal, ACCEPTED, "quantise", "eight samples");
    check(memcmp(symbols, wanted, 8) == 0, "quantise", "eight samples", "other symbols");
    check_refusal(receiver_quantise(EDGES, 15, NULL, 0, NULL, 0, NULL, 0).refusal, ACCEPTED, "quantise", "no samples, NULL");
    check_refusal(receiver_quantise(NULL, 0, NULL, 0, NULL, 0, NULL, 0).refusal, refused(RECEIVER_REFUSED_LADDER, 0), "quantise",
                  "edges NULL");

    check_samples(14, "0112", bad, 3, 5, refused(RECEIVER_REFUSED_LADDER, 0), "every fault");
    check_samples(15, "0112", bad, 3, 5, refused(RECEIVER_REFUSED_INPUT_LENGTH, 0), "a level too few");
    check_samples(15, "0112", bad, 4, 5, refused(RECEIVER_REFUSED_OUTPUT_LENGTH, 0), "a symbol too many");
    check_samples(15, "0112", bad, 4, 3, refused(RECEIVER_REFUSED_OUTPUT_LENGTH, 0), "a symbol too few");
    check_samples(15, "0112", bad, 4, 4, refused(RECEIVER_REFUSED_LEVEL, 2), "a level before a kind");
    check_samples(15, "0201", bad, 4, 4, refused(RECEIVER_REFUSED_KIND, 1), "a kind");
    check_samples(15, "0121", bad, 4, 4, refused(RECEIVER_REFUSED_KIND, 2), "a kind and its level");
}

/* ---- takes */

enum { TAKE = 24 };

/* The example of document 01: a sure word and a lost one. */
static const uint8_t EXAMPLE[TAKE] = {
    0x02, 0x00, 0x05, 0x01, 0x06, 0x00, 0x00, 0x00, 0x0C, 0x00, 0x00, 0x00,
    0x11, 0x05, 0x05, 0x05, 0x05, 0x05, 0x11, 0x11, 0x05, 0x05, 0x05, 0x05,
};

/* Cases 9 and 10 at depth 4: a fair word with the message 1, and a sure one. */
static const uint8_t MIXED[TAKE] = {
    0x02, 0x00, 0x05, 0x01, 0x06, 0x00, 0x04, 0x00, 0x0C, 0x00, 0x00, 0x00,
    0x19, 0x01, 0x02, 0x01, 0x01, 0x02, 0x11, 0x05, 0x05, 0x05, 0x05, 0x05,
};

/* No words, and a label of one byte. */
static const uint8_t EMPTY[] = {0, 0, 8, 3, 255, 0, 6, 0, 13, 0, 1, 0, 'x'};

static void check_open(const uint8_t *take, size_t length, receiver_header wanted, const char *input)
{
    const char *call = "open_take";
    receiver_header header = receiver_open_take(take, length);

    check_refusal(header.refusal, wanted.refusal, call, input);
    check(header.words == wanted.words, call, input, "other words");
    check(header.m == wanted.m, call, input, "another m");
    check(header.t == wanted.t, call, input, "another t");
    check(header.n == wanted.n, call, input, "another n");
    check(header.k == wanted.k, call, input, "another k");
    check(header.depth == wanted.depth, call, input, "another depth");
}

static void check_totals(receiver_totals totals, receiver_totals wanted, const char *call, const char *input)
{
    check_refusal(totals.refusal, wanted.refusal, call, input);
    check(totals.words == wanted.words, call, input, "other words");
    check(totals.sure == wanted.sure, call, input, "another number of sure words");
    check(totals.fair == wanted.fair, call, input, "another number of fair words");
    check(totals.lost == wanted.lost, call, input, "another number of lost words");
    check(totals.tries == wanted.tries, call, input, "other tries");
}

static void check_read(const uint8_t *take, size_t length, size_t messages_room, size_t marks_room, receiver_totals wanted,
                       const char *messages, const char *marks, const char *input)
{
    struct lent messages_lent, marks_lent;

    check_totals(receiver_read_take(take, length, lend(&messages_lent), messages_room, lend(&marks_lent), marks_room), wanted, "read_take",
                 input);
    check(holds(&messages_lent, messages), "read_take", input, "the messages are not as they should be");
    check(holds(&marks_lent, marks), "read_take", input, "the marks are not as they should be");
}

static void check_read_refused(const uint8_t *take, size_t length, size_t messages_room, size_t marks_room, unsigned number, uint64_t place,
                               const char *input)
{
    check_read(take, length, messages_room, marks_room, (receiver_totals){{number, place}, 0, 0, 0, 0, 0}, UNTOUCHED, UNTOUCHED, input);
}

static void check_strip_length(const uint8_t *take, size_t length, receiver_strip wanted, const char *input)
{
    receiver_strip strip = receiver_strip_length(take, length);

    check_refusal(strip.refusal, wanted.refusal, "strip_length", input);
    check(strip.length == wanted.length, "strip_length", input, "another length");
}

static void check_print(const uint8_t *take, size_t length, size_t room, receiver_totals wanted, const char *text, const char *input)
{
    struct lent lent;

    check_totals(receiver_print_take(take, length, lend(&lent), room), wanted, "print_take", input);
    check(holds_text(&lent, text), "print_take", input, "the strip is not as it should be");
}

static void check_print_refused(const uint8_t *take, size_t length, size_t room, unsigned number, uint64_t place, const char *input)
{
    check_print(take, length, room, (receiver_totals){{number, place}, 0, 0, 0, 0, 0}, UNTOUCHED, input);
}

/* All four calls refuse a take alike. A strip of two words has 75 bytes. */
static void check_take_refused(const uint8_t *take, size_t length, unsigned number, uint64_t place, const char *input)
{
    check_open(take, length, (receiver_header){{number, place}, 0, 0, 0, 0, 0, 0}, input);
    check_read_refused(take, length, 2, 2, number, place, input);
    check_strip_length(take, length, (receiver_strip){{number, place}, 0}, input);
    check_print_refused(take, length, 75, number, place, input);
}

static void check_take_refusals(void)
{
    uint8_t take[TAKE];

    /* All faults at once, and then one fault less in each line. */
    memcpy(take, EXAMPLE, TAKE);
    take[2] = 4, take[3] = 0, take[4] = 5, take[6] = 7, take[7] = 1, take[8] = 13, take[15] = 32, take[20] = 255;
    check_take_refused(take, 11, RECEIVER_REFUSED_TAKE_HEADER, 0, "11 bytes");
    check_take_refused(take, TAKE, RECEIVER_REFUSED_TAKE_ZERO, 0, "byte 7");
    take[7] = 0;
    check_take_refused(take, TAKE, RECEIVER_REFUSED_M, 0, "m 4");
    take[2] = 5;
    check_take_refused(take, TAKE, RECEIVER_REFUSED_T, 0, "t 0");
    take[3] = 1;
    check_take_refused(take, TAKE, RECEIVER_REFUSED_N, 0, "n 5");
    take[4] = 6;
    check_take_refused(take, TAKE, RECEIVER_REFUSED_DEPTH, 0, "depth 7");
    take[6] = 0;
    check_take_refused(take, TAKE, RECEIVER_REFUSED_TAKE_LENGTH, 0, "offset 13");
    take[8] = 12;
    check_take_refused(take, TAKE - 1, RECEIVER_REFUSED_TAKE_LENGTH, 0, "a symbol too few");
    check_read_refused(take, TAKE, 3, 2, RECEIVER_REFUSED_OUTPUT_LENGTH, 0, "a message byte too many");
    check_read_refused(take, TAKE, 2, 1, RECEIVER_REFUSED_OUTPUT_LENGTH, 0, "a mark too few");
    check_print_refused(take, TAKE, 74, RECEIVER_REFUSED_OUTPUT_LENGTH, 0, "a byte too few");
    check_print_refused(take, TAKE, 76, RECEIVER_REFUSED_OUTPUT_LENGTH, 0, "a byte too many");
    check_print_refused(take, TAKE, 50, RECEIVER_REFUSED_OUTPUT_LENGTH, 0, "no heading");
    check_print_refused(take, TAKE, 0, RECEIVER_REFUSED_OUTPUT_LENGTH, 0, "no room");
    check_take_refused(take, TAKE, RECEIVER_REFUSED_SYMBOL, 15, "a symbol of 32 at 15");
    take[15] = 31;
    check_take_refused(take, TAKE, RECEIVER_REFUSED_SYMBOL, 20, "a symbol of 255 at 20");
    take[20] = 31;
    check_open(take, TAKE, (receiver_header){ACCEPTED, 2, 5, 1, 6, 1, 0}, "symbols of 31");
    check_take_refused(NULL, 0, RECEIVER_REFUSED_TAKE_HEADER, 0, "NULL");
}

enum { LENGTH = 6, FAIR = 1100, SURE = 300, MANY = FAIR + SURE };

/* A strip's line, how many words a page has, and how many lines the strip of so many words has: 35 pages. */
enum { LINE = 25, PAGE = 40, LINES = MANY + 35 };

static const char HEADING[] = "INDEX MARK DIST MARGN TR\n";

/* Case 9 so many times at depth 6, then case 10: the totals, a strip's length, and the place of a symbol, take more than one byte each. */
static void check_many(void)
{
    static uint8_t take[12 + MANY * LENGTH], messages[MANY], marks[MANY], strip[LINES * LINE];
    const uint8_t header[12] = {MANY % 256, MANY / 256, 5, 1, LENGTH, 0, 6, 0, 12, 0, 0, 0};
    size_t others = 0, bad = 12 + 1000 * LENGTH + 5;
    const char *input = "1100 fair words and 300 sure";

    memcpy(take, header, sizeof header);
    for (size_t i = 0; i < MANY; i++)
        memcpy(take + 12 + i * LENGTH, MIXED + (i < FAIR ? 12 : 12 + LENGTH), LENGTH);
    check_open(take, sizeof take, (receiver_header){ACCEPTED, MANY, 5, 1, LENGTH, 1, 6}, input);
    receiver_totals totals = {ACCEPTED, MANY, SURE, FAIR, 0, FAIR * 64 + SURE};
    check_totals(receiver_read_take(take, sizeof take, messages, MANY, marks, MANY), totals, "read_take", input);
    for (size_t i = 0; i < MANY; i++)
        others += messages[i] != (i < FAIR) || marks[i] != (i < FAIR ? RECEIVER_FAIR : RECEIVER_SURE);
    check(others == 0, "read_take", input, "other messages or marks");

    check_strip_length(take, sizeof take, (receiver_strip){ACCEPTED, sizeof strip}, input);
    check_totals(receiver_print_take(take, sizeof take, strip, sizeof strip), totals, "print_take", input);
    others = 0;
    for (size_t line = 0; line < LINES; line++) {
        char text[LINE + 1];
        size_t i = line / (PAGE + 1) * PAGE + line % (PAGE + 1) - 1;

        if (line % (PAGE + 1) == 0)
            strcpy(text, HEADING);
        else
            snprintf(text, sizeof text, "%5u %s\n", (unsigned)i % 100000, i < FAIR ? "fair    4    -3 64" : "sure    1     9  1");
        others += memcmp(strip + line * LINE, text, LINE) != 0;
    }
    check(others == 0, "print_take", input, "other lines");

    take[bad] = 32;
    check_open(take, sizeof take, (receiver_header){{RECEIVER_REFUSED_SYMBOL, bad}, 0, 0, 0, 0, 0, 0}, "a symbol far behind");
    check_strip_length(take, sizeof take, (receiver_strip){{RECEIVER_REFUSED_SYMBOL, bad}, 0}, "a symbol far behind");
}

static void check_strips(void)
{
    check_strip_length(EXAMPLE, TAKE, (receiver_strip){ACCEPTED, 75}, "the example");
    check_print(EXAMPLE, TAKE, 75, (receiver_totals){ACCEPTED, 2, 1, 0, 1, 2},
                "INDEX MARK DIST MARGN TR\n"
                "    0 sure    1     9  1\n"
                "    1 lost    0     0  1\n",
                "the example");
    check_print(MIXED, TAKE, 75, (receiver_totals){ACCEPTED, 2, 1, 1, 0, 17},
                "INDEX MARK DIST MARGN TR\n"
                "    0 fair    4    -3 16\n"
                "    1 sure    1     9  1\n",
                "cases 9 and 10");
    check_strip_length(EMPTY, sizeof EMPTY, (receiver_strip){ACCEPTED, 25}, "no words");
    check_print(EMPTY, sizeof EMPTY, 25, (receiver_totals){ACCEPTED, 0, 0, 0, 0, 0}, HEADING, "no words");
    check_totals(receiver_print_take(EMPTY, sizeof EMPTY, NULL, 0), (receiver_totals){{RECEIVER_REFUSED_OUTPUT_LENGTH, 0}, 0, 0, 0, 0, 0},
                 "print_take", "no words, NULL");
}

static void check_takes(void)
{
    check_open(EXAMPLE, TAKE, (receiver_header){ACCEPTED, 2, 5, 1, 6, 1, 0}, "the example");
    check_open(EMPTY, sizeof EMPTY, (receiver_header){ACCEPTED, 0, 8, 3, 255, 231, 6}, "no words");
    check_read(EXAMPLE, TAKE, 2, 2, (receiver_totals){ACCEPTED, 2, 1, 0, 1, 2}, "00", "20", "the example");
    check_read(MIXED, TAKE, 2, 2, (receiver_totals){ACCEPTED, 2, 1, 1, 0, 17}, "10", "12", "cases 9 and 10");
    check_totals(receiver_read_take(EMPTY, sizeof EMPTY, NULL, 0, NULL, 0), (receiver_totals){ACCEPTED, 0, 0, 0, 0, 0}, "read_take",
                 "no words, NULL");
    check_strips();
    check_many();
    check_take_refusals();
}

int main(void)
{
    check_texts();
    check_encode();
    check_decode_hard();
    check_decode_soft();
    check_ladder();
    check_quantise();
    check_takes();
    printf("%u checks, %u differences\n", checks, differences);
    return differences != 0;
}
