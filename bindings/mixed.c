/*
 * Gives the answer of CALL back as ANSWER. tools/bindings compiles it for each call with each type of answer, and with the archive's number:
 * it compiles with the call's own type alone. (receiver_read_take and receiver_print_take have the same, receiver_totals.)
 */
#include "receiver.h"

ANSWER kept(void);

ANSWER kept(void) { return CALL; }
