/* The proved week test and converter beside the plain ones of plainweeks.h: every length, every value of every time, every mask, and random
   weeks. Where they are compared, each run of bytes is lent from memory of exactly its length, so that a byte too far is found.
   Prints a line for each test and 'N passed, M failed'; the seed may be given, so that a failure can be run again. */
#include "../c/desk.h"
#include "plainweeks.h"
#include "tell.h"
#include <string.h>

enum { LENGTHS = 65, WEEKS = 200000, MASKS = 65536, BITS = 16, UNTOUCHED = 0x77, ANSWERS = 31, EDITIONS = 3 };
static const size_t sizes[EDITIONS] = {OLD, NEW, DUAL};
static uint64_t answers[ANSWERS][DAYS + 1]; /* how often the converter gave each answer, with which day */

/* A run of bytes in memory of its own. */
static uint8_t *lent(const uint8_t *bytes, size_t n) {
    uint8_t *run = malloc(n ? n : 1);
    if (!run)
        abort();
    if (bytes)
        memcpy(run, bytes, n);
    else
        memset(run, UNTOUCHED, n);
    return run;
}

/* Both functions on a run, with a mask and an output of this length: the answers, and every byte. */
static int alike(const uint8_t *bytes, size_t n, unsigned mask, size_t room) {
    uint8_t *week = lent(bytes, n), *out = lent(NULL, room), *expected = lent(NULL, room);
    uint64_t test = plain_week_test(week, n), step = plain_convert(week, n, (uint16_t)mask, expected, room);
    uint64_t got = desk_week_test(week, n), made = desk_convert(week, n, (uint16_t)mask, out, room);
    int ok = got == test && made == step && !memcmp(out, expected, room) && !memcmp(week, bytes, n);
    if (ok)
        answers[DESK_WEEK_REFUSAL(step)][DESK_WEEK_DAY(step)]++;
    else {
        printf("%zu bytes to %zu with %04x: %llu not %llu, %llu not %llu:", n, room, mask, (unsigned long long)got, (unsigned long long)test,
               (unsigned long long)made, (unsigned long long)step);
        for (size_t i = 0; i < n; i++)
            printf(" %02x", bytes[i]);
        printf("\n");
    }
    free(week), free(out), free(expected);
    return ok;
}

/* To each edition, its own length included. */
static int alike_to_each(const uint8_t *week, size_t size, unsigned mask) {
    for (int i = 0; i < EDITIONS; i++)
        if (!alike(week, size, mask, sizes[i]))
            return 0;
    return 1;
}

static unsigned limit(size_t size) { return size == OLD ? 96 : 1440; }

static void put(uint8_t *week, size_t size, int k, unsigned t) {
    if (size == OLD)
        week[k] = (uint8_t)t;
    else
        week[2 * k] = (uint8_t)t, week[2 * k + 1] = (uint8_t)(t / 256);
}

static void put_mask(uint8_t *week, unsigned mask) { week[28] = (uint8_t)mask, week[29] = (uint8_t)(mask / 256); }

/* No bit, one, two, all, or any. */
static unsigned some_mask(void) {
    unsigned bit = 1u << below(BITS), another = 1u << below(BITS);
    switch (below(5)) {
    case 0: return 0;
    case 1: return bit;
    case 2: return bit | another;
    case 3: return 0xFFFF;
    default: return (unsigned)below(MASKS);
    }
}

/* A week that passes its test; in minutes one that an old head can take, or one with other minutes. */
static void good_week(uint8_t *week, size_t size) {
    unsigned unit = size != OLD && below(4) ? QUARTER : 1;
    for (int d = 0; d < DAYS; d++) {
        unsigned opens = (unsigned)below(limit(size) / unit + 1), closes = opens + (unsigned)below(limit(size) / unit + 1 - opens);
        put(week, size, 2 * d, opens * unit);
        put(week, size, 2 * d + 1, (below(4) ? closes : opens) * unit);
    }
    if (size == DUAL)
        put_mask(week, 3u << below(BITS - 1) | (unsigned)below(MASKS));
}

/* Something done to one day, or to the mask. */
static void spoil(uint8_t *week, size_t size) {
    int k = (int)below(TIMES);
    unsigned t = plain_time(week, size, k);
    switch (below(size == DUAL ? 7 : 6)) {
    case 0: put(week, size, k, limit(size) + 1); break;
    case 1: put(week, size, k, limit(size)); break;
    case 2: put(week, size, k | 1, plain_time(week, size, k & ~1) - 1); break;
    case 3: put(week, size, k, t + 1); break;
    case 4: put(week, size, k, 0); break;
    case 5: week[below(size)] = (uint8_t)below(256); break;
    case 6: put_mask(week, some_mask()); break;
    }
}

/* Every length from 0 to 64 with every other: only two different ones of 14, 28 and 30 go further; else nothing is written. */
static int every_length(void) {
    uint8_t bytes[LENGTHS];
    for (size_t n = 0; n < LENGTHS; n++)
        for (size_t room = 0; room < LENGTHS; room++) {
            for (size_t i = 0; i < n; i++)
                bytes[i] = (uint8_t)(below(2) ? 0 : below(256));
            if ((n == OLD || n == NEW || n == DUAL) && below(2))
                good_week(bytes, n);
            if (!alike(bytes, n, some_mask(), room))
                return 0;
        }
    return 1;
}

/* Every value that the bytes of each time can hold, in a week that is good but for it. */
static int every_value(size_t size) {
    uint8_t week[DUAL];
    unsigned most = size == OLD ? 256 : 65536;
    for (int k = 0; k < TIMES; k++)
        for (unsigned t = 0; t < most; t++) {
            memset(week, 0, sizeof week);
            put(week, size, k, t);
            if (k % 2 == 0)
                put(week, size, k + 1, limit(size));
            if (size == DUAL)
                put_mask(week, 3);
            if (!alike_to_each(week, size, 3))
                return 0;
        }
    return 1;
}

/* Every opening with every closing of a day of an old head's week. */
static int every_pair(void) {
    uint8_t week[OLD] = {0};
    for (unsigned opens = 0; opens < 256; opens++)
        for (unsigned closes = 0; closes < 256; closes++) {
            int d = (int)below(DAYS);
            memset(week, 0, sizeof week);
            week[2 * d] = (uint8_t)opens, week[2 * d + 1] = (uint8_t)closes;
            if (!alike_to_each(week, OLD, 3))
                return 0;
        }
    return 1;
}

/* Every mask, the week's own and the caller's, to each edition: with a week that is good, and with one that is not. */
static int every_mask(size_t size, int is_good) {
    uint8_t week[DUAL];
    for (unsigned mask = 0; mask < MASKS; mask++) {
        good_week(week, size);
        if (!is_good)
            put(week, size, (int)below(TIMES), limit(size) + 1);
        if (size == DUAL)
            put_mask(week, mask);
        if (!alike_to_each(week, size, mask))
            return 0;
    }
    return 1;
}

/* What a week with this mask is answered, and what a step up with it: 3 and done, or 29 and nothing. */
static int has_enough(unsigned mask, int is_enough) {
    uint8_t week[DUAL] = {0}, out[DUAL], untouched[DUAL];
    put_mask(week, mask);
    memset(untouched, UNTOUCHED, sizeof untouched);
    for (int i = 0; i < 2; i++) {
        memcpy(out, untouched, sizeof out);
        if (desk_convert(week, sizes[i], (uint16_t)mask, out, DUAL) != (is_enough ? 0 : 29) || memcmp(out, is_enough ? week : untouched, DUAL))
            return 0;
    }
    return desk_week_test(week, DUAL) == (is_enough ? 3 : 29);
}

/* From document 02 and not from the plain version: no bit and each bit alone are too few; each two of them, and all 16, are enough. */
static int bounding_masks(void) {
    if (!has_enough(0, 0) || !has_enough(0xFFFF, 1))
        return 0;
    for (int i = 0; i < BITS; i++)
        for (int j = 0; j < BITS; j++)
            if (!has_enough(1u << i | 1u << j, i != j))
                return 0;
    return 1;
}

/* Every pair of days with a fault each, limit, order or minute, with and without enough keyholders, named in the order of the checks: 16 of any
   day before 29 and before 17. */
static int every_two_faults(size_t size) {
    for (int d = 0; d < DAYS; d++)
        for (int f = 0; f < DAYS; f++)
            for (int what = 0; what < 18; what++) {
                uint8_t week[DUAL] = {0};
                int days[2] = {d, f}, faults[2] = {what % 3, what / 3 % 3};
                unsigned mask = what < 9 ? 0x8001 : 0x8000;
                for (int i = 0; i < 2; i++) {
                    if (faults[i] == 0)
                        put(week, size, 2 * days[i] + 1, limit(size) + 1);
                    else if (faults[i] == 1)
                        put(week, size, 2 * days[i], 1 + plain_time(week, size, 2 * days[i] + 1));
                    else
                        put(week, size, 2 * days[i] + 1, 7);
                }
                if (size == DUAL)
                    put_mask(week, mask);
                if (!alike_to_each(week, size, mask))
                    return 0;
            }
    return 1;
}

static int random_weeks(size_t size) {
    uint8_t week[DUAL];
    for (int i = 0; i < WEEKS; i++) {
        good_week(week, size);
        for (uint64_t n = below(3); n; n--)
            spoil(week, size);
        unsigned mask = some_mask();
        if (!(below(20) ? alike_to_each(week, size, mask) : alike(week, size, mask, below(LENGTHS))))
            return 0;
    }
    return 1;
}

/* There and back: what is converted passes the test of the other edition, and comes back as it was, whatever the masks. */
static int there_and_back(size_t size, size_t other) {
    uint8_t week[NEW], out[NEW], again[NEW];
    uint64_t converted = 0;
    for (int i = 0; i < WEEKS; i++) {
        good_week(week, size);
        if (desk_convert(week, size, (uint16_t)some_mask(), out, other))
            continue;
        converted++;
        if (desk_week_test(out, other) != plain_edition(other) || desk_convert(out, other, (uint16_t)some_mask(), again, size)
            || memcmp(again, week, size))
            return 0;
    }
    return converted > WEEKS / 2;
}

/* Up to edition 3: the week in edition 2 and the mask; and no way back. */
static int up_and_not_back(size_t size) {
    uint8_t week[NEW], second[NEW], out[DUAL], again[NEW], untouched[NEW];
    memset(untouched, UNTOUCHED, sizeof untouched);
    for (int i = 0; i < WEEKS; i++) {
        unsigned mask = 3u << below(BITS - 1) | (unsigned)below(MASKS);
        good_week(week, size);
        memcpy(second, week, size);
        memcpy(again, untouched, sizeof again);
        if ((size == OLD && desk_convert(week, OLD, 0, second, NEW)) || desk_convert(week, size, (uint16_t)mask, out, DUAL)
            || memcmp(out, second, NEW) || out[28] + 256u * out[29] != mask || desk_week_test(out, DUAL) != 3)
            return 0;
        for (int j = 0; j < 2; j++)
            if (desk_convert(out, DUAL, (uint16_t)mask, again, sizes[j]) != 30 || memcmp(again, untouched, NEW))
                return 0;
    }
    return 1;
}

/* A week of edition 3 passes exactly if its first 28 bytes pass as one of edition 2 and its mask has two bits; else 16 comes before 29. */
static int third_by_second(void) {
    uint8_t week[DUAL];
    uint64_t met[3] = {0};
    for (int i = 0; i < WEEKS; i++) {
        good_week(week, DUAL);
        for (uint64_t n = below(3); n; n--)
            spoil(week, DUAL);
        int bits = 0;
        for (int j = 0; j < BITS; j++)
            bits += week[28 + j / 8] >> j % 8 & 1;
        uint64_t second = desk_week_test(week, NEW), third = desk_week_test(week, DUAL);
        if (third != (second != 2 ? second : bits < 2 ? 29 : 3))
            return 0;
        met[second != 2 ? 0 : bits < 2 ? 1 : 2]++;
    }
    return met[0] && met[1] && met[2];
}

/* The boundaries by hand, from document 02 and not from the plain version: 96 quarter hours are 1,440 minutes, which is 5A0 in hex. */
static int by_hand(void) {
    const uint8_t old[OLD] = {0, 96, 96, 96, 1, 2, [12] = 34, 76}, late[OLD] = {[13] = 97}, turned[OLD] = {[4] = 5, 4};
    const uint8_t new[NEW] = {0, 0, 0xA0, 5, 0xA0, 5, 0xA0, 5, 15, 0, 30, 0, [24] = 0xFE, 1, 0x74, 4};
    const uint8_t minute[NEW] = {[2] = 7, [26] = 0xA1, 5}, seven[NEW] = {[2] = 7, [26] = 8};
    uint8_t out[NEW];
    return desk_week_test(old, OLD) == 1 && desk_week_test(new, NEW) == 2 && desk_week_test(late, OLD) == 16 + 256 * 7
           && desk_week_test(turned, OLD) == 16 + 256 * 3 && desk_week_test(minute, NEW) == 16 + 256 * 7
           && desk_week_test(seven, NEW) == 2 && desk_week_test(old, 13) == 15 && desk_convert(old, OLD, 0, out, NEW) == 0
           && !memcmp(out, new, NEW) && desk_convert(new, NEW, 0, out, OLD) == 0 && !memcmp(out, old, OLD)
           && desk_convert(minute, NEW, 0, out, OLD) == 16 + 256 * 7 && desk_convert(seven, NEW, 0, out, OLD) == 17 + 256 * 1
           && desk_convert(old, OLD, 0, out, OLD) == 15 && desk_convert(new, NEW, 0, out, NEW) == 15 && !memcmp(out, old, OLD);
}

/* Edition 3 by hand. Keyholders 1 and 10 are mask 201 in hex, bytes 01 02. */
static int dual_by_hand(void) {
    const uint8_t old[OLD] = {[1] = 96, [13] = 1}, seven[NEW] = {[2] = 7}, late[OLD] = {[13] = 97};
    const uint8_t dual[DUAL] = {[2] = 0xA0, 5, [26] = 15, 0, 1, 2}, alone[DUAL] = {[29] = 2}, both[DUAL] = {[26] = 0xA1, 5, 0, 2};
    const uint8_t dual_seven[DUAL] = {[2] = 7, [28] = 1, 2};
    uint8_t out[DUAL];
    return desk_week_test(dual, DUAL) == 3 && desk_week_test(alone, DUAL) == 29 && desk_week_test(both, DUAL) == 16 + 256 * 7
           && desk_week_test(dual, 29) == 15 && desk_convert(seven, NEW, 0x201, out, DUAL) == 0 && !memcmp(out, dual_seven, DUAL)
           && desk_convert(old, OLD, 0x201, out, DUAL) == 0 && !memcmp(out, dual, DUAL) && desk_convert(old, OLD, 0x200, out, DUAL) == 29
           && desk_convert(late, OLD, 0x200, out, DUAL) == 16 + 256 * 7 && desk_convert(dual, DUAL, 0x201, out, NEW) == 30
           && desk_convert(both, DUAL, 0, out, OLD) == 30 && desk_convert(alone, DUAL, 3, out, DUAL) == 15 && !memcmp(out, dual, DUAL);
}

/* Every answer came, with every day. */
static int all_met(void) {
    for (int d = 1; d <= DAYS; d++)
        if (!answers[16][d] || !answers[17][d])
            return 0;
    return answers[0][0] && answers[15][0] && answers[29][0] && answers[30][0];
}

int main(int count, char **words) {
    seed = count > 1 ? strtoull(words[1], NULL, 10) : 20261118;
    printf("seed %llu\n", (unsigned long long)seed);
    told("weeks by hand", by_hand());
    told("weeks of edition 3 by hand", dual_by_hand());
    told("every length with every other", every_length());
    told("every value of every time, old", every_value(OLD));
    told("every value of every time, new", every_value(NEW));
    told("every value of every time, dual", every_value(DUAL));
    told("every opening with every closing", every_pair());
    told("no bit, each bit, each two and all", bounding_masks());
    told("every mask, old", every_mask(OLD, 1) && every_mask(OLD, 0));
    told("every mask, new", every_mask(NEW, 1) && every_mask(NEW, 0));
    told("every mask, dual", every_mask(DUAL, 1) && every_mask(DUAL, 0));
    told("two faults, old", every_two_faults(OLD));
    told("two faults, new", every_two_faults(NEW));
    told("two faults, dual", every_two_faults(DUAL));
    told("random weeks, old", random_weeks(OLD));
    told("random weeks, new", random_weeks(NEW));
    told("random weeks, dual", random_weeks(DUAL));
    told("old to new to old", there_and_back(OLD, NEW));
    told("new to old to new", there_and_back(NEW, OLD));
    told("old to dual, and not back", up_and_not_back(OLD));
    told("new to dual, and not back", up_and_not_back(NEW));
    told("dual tested by new and its mask", third_by_second());
    told("every answer with every day", all_met());
    printf("%d passed, %d failed\n", passed, failed);
    return failed != 0;
}
