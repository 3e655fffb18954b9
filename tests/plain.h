/* A page by the table of documents 01 and 02 in plain C, byte by byte: what the proved code is timed beside and compared with. */
#ifndef PLAIN_H
#define PLAIN_H
#include <stdint.h>
#include <string.h>

enum { PAGE = 64 };

/* The check word of a page's first 60 bytes, as document 01 says it. */
__attribute__((noinline)) static uint32_t plain_word(const uint8_t *page) {
    uint32_t w = 1;
    for (int i = 0; i < 60; i++)
        w = (257 * w + page[i]) % 65521;
    return w;
}

/* The same word without multiplication: 257 times w is w and w shifted by eight bits, and since 65,536 leaves 15 by 65,521, what lies above
   16 bits comes back 15 times. */
__attribute__((noinline, unused)) static uint32_t shifted_word(const uint8_t *page) {
    uint32_t w = 1;
    for (int i = 0; i < 60; i++) {
        w = (w << 8) + w + page[i];
        w = (w & 0xffff) + ((w >> 16) << 4) - (w >> 16);
    }
    return w < 65521 ? w : w - 65521;
}

__attribute__((unused)) static uint64_t plain_get(const uint8_t *page, int from, int to) {
    uint64_t x = 0;
    for (int i = to; i > from; i--)
        x = 256 * x + page[i - 1];
    return x;
}

static void plain_put(uint8_t *page, int from, int to, uint64_t x) {
    for (int i = from; i < to; i++, x /= 256)
        page[i] = (uint8_t)x;
}

__attribute__((unused)) static void plain_pack(uint8_t *page, int kind, int small, uint64_t file, uint64_t action, uint64_t link,
                                               uint64_t start, const uint8_t *value, uint64_t place) {
    memset(page, 0, PAGE);
    plain_put(page, 0, 1, (uint64_t)kind);
    plain_put(page, 1, 2, (uint64_t)small);
    plain_put(page, 4, 8, file);
    plain_put(page, 8, 12, action);
    plain_put(page, 12, 16, link);
    plain_put(page, 16, 24, start);
    memcpy(page + 24, value, 32);
    plain_put(page, 56, 60, place);
    plain_put(page, 60, 62, plain_word(page));
    page[63] = 0xA5;
}

/* Whether the page fits the table, its link and action below its place. */
__attribute__((unused)) static int plain_fits(const uint8_t *page, uint64_t place, uint64_t files) {
    uint64_t small = page[1], file = plain_get(page, 4, 8), action = plain_get(page, 8, 12), link = plain_get(page, 12, 16),
             start = plain_get(page, 16, 24);
    int used = page[0] == 2 ? (int)small : 0;
    for (int i = 24 + used; i < 56; i++)
        if (page[i])
            return 0;
    if (page[2] || page[3] || page[62] || page[63] != 0xA5)
        return 0;
    if (plain_get(page, 56, 60) != place || plain_get(page, 60, 62) != plain_word(page))
        return 0;
    switch (page[0]) {
    case 1:
        return small <= 1 && file == 0 && action == place && link == 0 && start == 0; /* 1: carried */
    case 2:
        return small <= 32 && file >= 1 && file <= files && action >= 1 && action < place && link < place && start >= 1;
    case 3:
        return (small == 1 || small == 2) && file == 0 && action >= 1 && action < place && link == 0 && start == 0;
    default:
        return 0;
    }
}
#endif
