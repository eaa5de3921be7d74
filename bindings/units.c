/*
 * One of the two files of a program that both include receiver.h and make calls. tools/bindings compiles it with and without MAIN, as C99,
 * C11 and C++11, and links and runs what comes out.
 */
#include "receiver.h"

receiver_soft other_file(void);

#ifdef MAIN

int main(void)
{
    const uint8_t message[1] = {1};
    uint8_t codeword[6];

    return receiver_encode(5, 1, 6, message, 1, codeword, 6).refusal.number != 0 ||
           other_file().refusal.number != RECEIVER_REFUSED_INPUT_LENGTH;
}

#else

receiver_soft other_file(void) { return receiver_decode_soft(5, 1, 6, 0, NULL, 0, NULL, 0); }

#endif
