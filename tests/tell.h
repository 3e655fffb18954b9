/* What every test needs: random numbers from a seed, and a line for each test. */
#ifndef TELL_H
#define TELL_H
#include <stdint.h>
#include <stdio.h>
#include <stdlib.h>

static uint64_t seed;
static int passed, failed;

/* xorshift: a number below n. */
__attribute__((unused)) static uint64_t below(uint64_t n) {
    seed ^= seed << 13;
    seed ^= seed >> 7;
    seed ^= seed << 17;
    return seed % n;
}

static void told(const char *what, int ok) {
    printf("%s: %s\n", ok ? "ok" : "FAILED", what);
    fflush(stdout);
    if (ok)
        passed++;
    else
        failed++;
}
#endif
