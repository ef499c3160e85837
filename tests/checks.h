/* What tests of the library in C and C++ count: what holds, and what doesn't, which is named; and numbers at random, the same in each run. */
#ifndef GWB_TESTS_CHECKS_H
#define GWB_TESTS_CHECKS_H
#include <stdbool.h>
#include <stdint.h>
#include <stdio.h>

static long passed, failed;

static inline bool check(bool holds, const char *what)
{
    holds ? passed++ : failed++;
    if (!holds)
        printf("%s\n", what);
    return holds;
}

#ifdef __cplusplus
#include <string>
static inline bool check(bool holds, const std::string &what) { return check(holds, what.c_str()); }
#endif

/* A number below another, by this state, which changes. */
static inline uint32_t at_random(uint64_t *state, uint32_t n)
{
    *state = *state * UINT64_C(6364136223846793005) + UINT64_C(1442695040888963407);
    const uint32_t high = *state >> 33;
    return high % n;
}

/* The status of a program, when it has told how many hold. */
static inline int counted(void)
{
    printf("%ld passed, %ld failed\n", passed, failed);
    return failed != 0;
}
#endif
