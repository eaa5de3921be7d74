#include "itpp.h"

#include <itpp/comm/bch.h>

struct itpp_code {
    int n;
    itpp::BCH bch;
};

/* IT++ has the bit of the highest power first. */
static itpp::bvec turned(const uint8_t *bits, size_t words, int length)
{
    itpp::bvec vector(static_cast<int>(words) * length);

    for (size_t w = 0; w < words; w++)
        for (int i = 0; i < length; i++)
            vector[w * length + i] = bits[w * length + length - 1 - i];
    return vector;
}

static void turn_back(const itpp::bvec &vector, size_t words, int length, uint8_t *bits)
{
    for (size_t w = 0; w < words; w++)
        for (int i = 0; i < length; i++)
            bits[w * length + length - 1 - i] = vector[w * length + i].value();
}

itpp_code *itpp_new_code(uint32_t n, uint32_t t)
{
    bool systematic = true;

    return new itpp_code{ static_cast<int>(n), itpp::BCH(n, t, systematic) };
}

void itpp_free_code(itpp_code *code)
{
    delete code;
}

void itpp_encode(itpp_code *code, size_t words, const uint8_t *messages, uint8_t *codewords)
{
    itpp::bvec coded;

    code->bch.encode(turned(messages, words, code->bch.get_k()), coded);
    turn_back(coded, words, code->n, codewords);
}

void itpp_decode(itpp_code *code, size_t words, const uint8_t *bits, uint8_t *messages, uint8_t *decoded)
{
    itpp::bvec message, valid;

    code->bch.decode(turned(bits, words, code->n), message, valid);
    turn_back(message, words, code->bch.get_k(), messages);
    turn_back(valid, words, 1, decoded);
}
