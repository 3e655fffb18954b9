/* Weeks by document 02, asks 4 and 13, in plain C: what the proved code is timed beside and compared with. */
#ifndef PLAINWEEKS_H
#define PLAINWEEKS_H
#include <stddef.h>
#include <stdint.h>

enum { DAYS = 7, TIMES = 14, OLD = 14, NEW = 28, DUAL = 30, QUARTER = 15 };

/* The edition that a length names, 0 if it names none. */
static uint64_t plain_edition(size_t size) { return size == OLD ? 1 : size == NEW ? 2 : size == DUAL ? 3 : 0; }

/* Time k of a week, in quarter hours or in minutes. */
static unsigned plain_time(const uint8_t *week, size_t size, int k) {
    return size == OLD ? week[k] : week[2 * k] + 256u * week[2 * k + 1];
}

/* Fewer than two keyholders: without its lowest one a mask is empty. */
static int plain_few(unsigned mask) { return (mask & (mask - 1)) == 0; }

/* The lowest day with a time above the limit, or that closes before it opens; 0 if there is none. */
static uint64_t plain_wrong(const uint8_t *week, size_t size) {
    unsigned limit = size == OLD ? 96 : 1440;
    for (int d = 1; d <= DAYS; d++) {
        unsigned opens = plain_time(week, size, 2 * d - 2), closes = plain_time(week, size, 2 * d - 1);
        if (opens > limit || closes > limit || closes < opens)
            return (uint64_t)d;
    }
    return 0;
}

/* The edition, or a refusal: its number, and the day that it names 256 times. */
__attribute__((noinline, unused)) static uint64_t plain_week_test(const uint8_t *week, size_t size) {
    if (!plain_edition(size))
        return 15;
    uint64_t wrong = plain_wrong(week, size);
    if (wrong)
        return 16 + 256 * wrong;
    if (size == DUAL && plain_few(week[28] + 256u * week[29]))
        return 29;
    return plain_edition(size);
}

/* 0 if the output is written, or a refusal. */
__attribute__((noinline, unused)) static uint64_t plain_convert(const uint8_t *week, size_t size, uint16_t mask, uint8_t *out, size_t room) {
    if (!plain_edition(size) || !plain_edition(room) || size == room)
        return 15;
    if (size == DUAL)
        return 30;
    uint64_t wrong = plain_wrong(week, size);
    if (wrong)
        return 16 + 256 * wrong;
    if (room == DUAL && plain_few(mask))
        return 29;
    for (int k = 0; room == OLD && k < TIMES; k++)
        if (plain_time(week, size, k) % QUARTER)
            return 17 + 256 * (uint64_t)(k / 2 + 1);
    for (int k = 0; k < TIMES; k++) {
        unsigned minute = plain_time(week, size, k) * (size == OLD ? QUARTER : 1);
        if (room == OLD)
            out[k] = (uint8_t)(minute / QUARTER);
        else {
            out[2 * k] = (uint8_t)minute;
            out[2 * k + 1] = (uint8_t)(minute / 256);
        }
    }
    if (room == DUAL) {
        out[28] = (uint8_t)mask;
        out[29] = (uint8_t)(mask / 256);
    }
    return 0;
}
#endif
