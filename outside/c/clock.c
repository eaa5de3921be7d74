#define _POSIX_C_SOURCE 199309L
#include <stdint.h>
#include <time.h>

/* The processor time that this thread has used, in nanoseconds. */
uint64_t processor_time(void)
{
    struct timespec used;

    clock_gettime(CLOCK_THREAD_CPUTIME_ID, &used);
    return (uint64_t)used.tv_sec * 1000000000 + (uint64_t)used.tv_nsec;
}
