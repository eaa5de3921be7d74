/* Stands in for itpp.cpp where IT++ is not installed. */
#include "itpp.h"

struct itpp_code *itpp_new_code(uint32_t n, uint32_t t)
{
    (void)n, (void)t;
    return NULL;
}

void itpp_free_code(struct itpp_code *code)
{
    (void)code;
}

void itpp_encode(struct itpp_code *code, size_t words, const uint8_t *messages, uint8_t *codewords)
{
    (void)code, (void)words, (void)messages, (void)codewords;
}

void itpp_decode(struct itpp_code *code, size_t words, const uint8_t *bits, uint8_t *messages, uint8_t *decoded)
{
    (void)code, (void)words, (void)bits, (void)messages, (void)decoded;
}
