/*
 * The BCH codes of IT++ behind names that Rust can call. Words stand one behind the other, a byte for each bit, in the receiver's order:
 * position 0 first, the message behind the parity. All words go to IT++ in one call, which is faster there than a call for each.
 */
#ifndef ITPP_SHIM_H
#define ITPP_SHIM_H

#include <stddef.h>
#include <stdint.h>

#ifdef __cplusplus
extern "C" {
#endif

struct itpp_code;

/* The code of length n that repairs t errors; null where IT++ is not installed. */
struct itpp_code *itpp_new_code(uint32_t n, uint32_t t);
void itpp_free_code(struct itpp_code *);

void itpp_encode(struct itpp_code *, size_t words, const uint8_t *messages, uint8_t *codewords);

/* Writes the messages, and for each word whether it was decoded. */
void itpp_decode(struct itpp_code *, size_t words, const uint8_t *bits, uint8_t *messages, uint8_t *decoded);

#ifdef __cplusplus
}
#endif

#endif
