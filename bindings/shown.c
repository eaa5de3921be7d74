/*
 * Runs the three examples that receiver.h shows in its first comment. tools/bindings cuts them out, to word.inc, take.inc and strip.inc, and
 * holds what this prints to its own text.
 */
#include "receiver.h"

#include <stdio.h>
#include <stdlib.h>
#include <string.h>

static void show_word(const uint8_t symbols[63])
{
    uint8_t codeword[63];
#include "word.inc"
}

static void show_take(const uint8_t *take, size_t length)
{
#include "take.inc"
}

static void show_strip(const uint8_t *take, size_t length)
{
#include "strip.inc"
}

int main(void)
{
    /* Document 01's example: a sure word and a lost one. */
    const uint8_t take[24] = {2, 0, 5, 1, 6, 0, 0, 0, 12, 0, 0, 0, 17, 5, 5, 5, 5, 5, 17, 17, 5, 5, 5, 5};
    uint8_t symbols[63];

    memset(symbols, 5, sizeof symbols);
    show_word(symbols);
    symbols[0] = symbols[9] = symbols[30] = 16 + 4;
    show_word(symbols);
    symbols[62] = 32;
    show_word(symbols);
    show_take(take, sizeof take);
    show_take(take, sizeof take - 1);
    show_strip(take, sizeof take);
    show_strip(take, sizeof take - 1);
    return 0;
}
