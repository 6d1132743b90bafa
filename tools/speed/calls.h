/* What programs that make hail's calls share: a clock, and the end where a call fails. */
#include <stdio.h>
#include <stdlib.h>
#include <time.h>

/* Nanoseconds of a clock that never goes back. */
static double now(void)
{
    struct timespec t;
    clock_gettime(CLOCK_MONOTONIC, &t);
    return (double)t.tv_sec * 1e9 + (double)t.tv_nsec;
}

/* Ends the program, with what the system says, where something does not hold. */
static void expect(int holds)
{
    if (holds) return;
    perror("speed");
    exit(1);
}
