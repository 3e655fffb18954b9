/* The move to a fresh sheet in plain C, as document 02 (ask 10) says it: every file's current version is carried to a blank sheet. */
#ifndef PLAINMOVE_H
#define PLAINMOVE_H
#include "plainsheet.h"

enum { LONGEST = 65536, DOOR_FILES = 256 }; /* the most pages of a sheet, and files */

/* Line 1 but for the lengths of what is kept, which are right here. */
static int move_is_sized(const struct kept *k, size_t fresh_size) {
    return k->end <= pages && k->undecided <= k->end && fresh_size % PAGE == 0 && fresh_size >= PAGE && fresh_size <= PAGE * LONGEST;
}

/* The lowest place up to the end with fate 1, 0 if there is none. */
static uint64_t lowest_undecided(const struct kept *k) {
    for (uint64_t p = 1; p <= k->end; p++)
        if (k->fates[p - 1] == 1)
            return p;
    return 0;
}

/* All cold rows are rebuilt, also those above a damaged one. The lowest damaged file, 0 if there is none. */
static uint64_t warm_all(struct kept *k) {
    uint64_t damaged = 0, a[TOLD];
    for (uint64_t f = 1; f <= file_count; f++)
        if (!warm(a, k, f) && damaged == 0)
            damaged = f;
    return damaged;
}

static uint64_t version_count(struct kept *k) {
    uint64_t count = 0;
    for (uint64_t f = 1; f <= file_count; f++)
        count += row_in(k, f)[CURRENT] != 0;
    return count;
}

/* The largest of the old floor and every row's two ends. */
static uint64_t floor_after(struct kept *k) {
    uint64_t floor = k->floor;
    for (uint64_t f = 1; f <= file_count; f++) {
        const uint64_t *row = row_in(k, f);
        floor = row[CURRENT_END] > floor ? row[CURRENT_END] : floor;
        floor = row[TOKEN_END] > floor ? row[TOKEN_END] : floor;
    }
    return floor;
}

static int all_zero(const uint8_t *bytes, size_t size) {
    for (size_t i = 0; i < size; i++)
        if (bytes[i])
            return 0;
    return 1;
}

/* The carried opening, an image for each file with a version, in file order, and the committed outcome. */
static void carry_over(struct kept *k, uint8_t *fresh) {
    static const uint8_t zeros[32];
    uint64_t place = 1;
    plain_pack(fresh, 1, 1, 0, 1, 0, 0, zeros, 1);
    for (uint64_t f = 1; f <= file_count; f++) {
        uint64_t old = row_in(k, f)[CURRENT];
        if (old == 0)
            continue;
        place++;
        plain_pack(fresh + PAGE * (place - 1), 2, page_at(old)[1], f, 1, 0, start_of(old), page_at(old) + 24, place);
    }
    plain_pack(fresh + PAGE * place, 3, 1, 0, 1, 0, 0, zeros, place + 1);
}

/* The old sheet, fates and state stay; the answer is the floor for the fresh sheet's opening. */
__attribute__((unused)) static void plain_move(uint64_t a[TOLD], struct kept *k, uint8_t *fresh, size_t fresh_size) {
    if (!move_is_sized(k, fresh_size))
        return no(a, 1, 0);
    uint64_t undecided = lowest_undecided(k);
    if (undecided)
        return no(a, 23, undecided);
    uint64_t damaged = warm_all(k);
    if (damaged)
        return no(a, 7, damaged);
    if (fresh_size / PAGE < version_count(k) + 2)
        return no(a, 11, 0);
    if (!all_zero(fresh, fresh_size))
        return no(a, 12, 0);
    carry_over(k, fresh);
    answer(a, MOVED, floor_after(k), 0, 0);
}
#endif
