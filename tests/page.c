/* The proved page layer beside the plain one of plain.h, on sheets of good, damaged, cut and random pages.
   Prints a line for each test and 'N passed, M failed'; the seed may be given, so that a failure can be run again. */
#include "door.h"
#include "plain.h"
#include "tell.h"

enum { MOST = 40, SHEETS = 20000, PLACES = 65536, WORDS = 65521 };
static uint8_t sheet[MOST * PAGE];

/* A number near a bound, or any. */
static uint64_t near(uint64_t bound) { return below(4) ? bound - 1 + below(3) : below(1 + bound * 2); }

/* A page that fits at this place: an opening, carried or not, at place 1, any kind above it. */
static void good_page(uint8_t *page, uint64_t place, uint64_t files) {
    uint8_t value[32] = {0};
    int kind = place == 1 ? 1 : 1 + (int)below(3), used = (int)below(33);
    for (int i = 0; i < used; i++)
        value[i] = (uint8_t)below(256);
    if (kind == 2)
        plain_pack(page, 2, used, 1 + below(files), 1 + below(place - 1), below(place), below(8) ? 1 + below(1000) : UINT64_MAX,
                   value, place);
    else
        plain_pack(page, kind, (kind == 3) + (int)below(2), 0, kind == 1 ? place : 1 + below(place - 1), 0, 0, (const uint8_t[32]){0},
                   place);
}

/* A good page with one field on or beside its bounds, and the check word made right again. */
static void edge_page(uint8_t *page, uint64_t place, uint64_t files) {
    switch (below(9)) {
    case 0: page[0] = (uint8_t)below(5); break;
    case 1: page[1] = (uint8_t)(below(2) ? below(4) : below(4) ? near(32) : 255); break;
    case 2: page[2 + below(2)] = 1; break;
    case 3: plain_put(page, 4, 8, below(2) ? below(2) : near(files)); break;
    case 4: plain_put(page, 8, 12, below(2) ? below(2) : near(place)); break;
    case 5: plain_put(page, 12, 16, below(2) ? below(2) : near(place)); break;
    case 6: plain_put(page, 16, 24, below(2)); break;
    case 7: page[24 + below(32)] = 1; break;
    case 8: plain_put(page, 56, 60, near(place)); break;
    }
    plain_put(page, 60, 62, plain_word(page));
}

static void random_page(uint8_t *page) {
    for (int i = 0; i < PAGE; i++)
        page[i] = (uint8_t)below(256);
    page[0] = (uint8_t)below(5);
    page[63] = below(2) ? 0xA5 : 0;
}

/* What is done to the pages of a sheet before both sides look at it. */
enum change { AS_IT_IS, ONE_BYTE, CUT, EDGES, RANDOM };

static void change_page(uint8_t *page, uint64_t place, uint64_t files, enum change change) {
    if (change == ONE_BYTE)
        page[below(PAGE)] ^= (uint8_t)(1 + below(255));
    else if (change == CUT) {
        size_t n = below(PAGE + 1);
        memset(page + n, 0, PAGE - n);
    } else if (change == EDGES)
        edge_page(page, place, files);
    else if (change == RANDOM)
        random_page(page);
}

/* The page test and the quick look agree with the plain ones on many sheets; `fitting` says how many pages fit in all. */
static int agree(enum change change, uint64_t *fitting) {
    *fitting = 0;
    for (int k = 0; k < SHEETS; k++) {
        uint64_t n = 1 + below(MOST), files = 1 + below(256), file = 1 + below(files), fit = 0, found = 0;
        for (uint64_t place = 1; place <= n; place++) {
            uint8_t *page = sheet + PAGE * (place - 1);
            good_page(page, place, files);
            if (below(4))
                change_page(page, place, files, change);
            if (plain_fits(page, place, files)) {
                fit++;
                found += page[0] == 2 && plain_get(page, 4, 8) == file;
            }
        }
        size_t size = n * PAGE - (below(8) ? 0 : below(PAGE));
        if (size < n * PAGE) { /* the last page is not whole: nobody looks at it */
            uint8_t *page = sheet + PAGE * (n - 1);
            if (plain_fits(page, n, files)) {
                fit--;
                found -= page[0] == 2 && plain_get(page, 4, 8) == file;
            }
        }
        if (bench_test(sheet, size, files) != fit || bench_seek(sheet, size, files, file) != found) {
            printf("sheet %d, %llu pages, %llu files, file %llu\n", k, (unsigned long long)n, (unsigned long long)files,
                   (unsigned long long)file);
            return 0;
        }
        *fitting += fit;
    }
    return 1;
}

/* Pack writes the plain page, byte for byte, and nothing where it refuses. */
static int packs_alike(void) {
    for (int k = 0; k < SHEETS; k++) {
        uint8_t value[32] = {0}, was[sizeof sheet];
        uint64_t n = 1 + below(MOST), files = below(258), used = below(35), written = 0;
        for (uint64_t i = 0; i < 32 && i < used + !below(8); i++)
            value[i] = (uint8_t)below(256);
        for (size_t i = 0; i < sizeof sheet; i++)
            was[i] = sheet[i] = (uint8_t)below(256);
        for (uint64_t place = 1; place <= n; place++) {
            uint8_t page[PAGE];
            plain_pack(page, 2, (int)used, 1, 1, 0, place, value, place);
            if (files < 1 || files > 256 || !plain_fits(page, place, files))
                continue;
            written++;
            memcpy(was + PAGE * (place - 1), page, PAGE);
        }
        if (bench_pack(sheet, n * PAGE, files, used, value) != written || memcmp(sheet, was, sizeof sheet))
            return 0;
    }
    return 1;
}

/* The page at place 2 with this number where its word stands: 1 if it fits by the page test and by the quick look for its file, 0 if
   by neither, 2 if they differ. */
static int fits_with(uint32_t word) {
    plain_put(sheet + PAGE, 60, 62, word);
    uint64_t test = bench_test(sheet, 2 * PAGE, 256), look = bench_seek(sheet, 2 * PAGE, 256, 256);
    return test == 1 && look == 1 ? 1 : test == 0 && look == 0 ? 0 : 2;
}

/* Images with each of the 65,521 words: it fits, and with another number, one bit of it changed, it does not, nor with the one that
   leaves the same by 65,521, where two bytes have room for that. */
static int every_word(void) {
    static uint8_t seen[WORDS];
    uint64_t words = 0;
    memset(sheet, 0, sizeof sheet);
    for (uint32_t k = 0; k < 3 * PLACES; k++) {
        uint8_t value[32];
        memset(value, k < PLACES ? 0 : k < 2 * PLACES ? 255 : (int)below(256), 32);
        plain_put(value, 30, 32, k % PLACES);
        plain_pack(sheet + PAGE, 2, 32, 256, 1, 1, UINT64_MAX, value, 2);
        uint32_t word = plain_word(sheet + PAGE);
        if (shifted_word(sheet + PAGE) != word)
            return 0;
        words += !seen[word];
        seen[word] = 1;
        if (fits_with(word) != 1 || fits_with(word ^ (1u << below(16))) || (word + WORDS < 65536 && fits_with(word + WORDS)))
            return 0;
    }
    return words == WORDS;
}

/* The pages of the longest sheet: an opening of some sort, and the image above it, which counts only under a sealed one. */
static uint8_t pages[PLACES * PAGE], fates[PLACES];

static int is_found(uint64_t place) {
    uint64_t found = bench_walk(pages, sizeof pages, fates, PLACES, 256, 1, place + 1);
    return found == place + 1 ? 1 : found == 0 ? 0 : 2;
}

/* With small byte 0 an opening, with 1 a carried one, else none. Its word is right, and then another one, which is tried at the lower
   places and at some of the others, as is a small byte that no opening has: there the walk goes down all pages. */
static int opening_is_right(uint64_t place, int small) {
    uint8_t *opening = pages + PAGE * (place - 1);
    int is_sealed = small <= 1, is_tried = place < 2048 || !below(64);
    plain_pack(opening, 1, small, 0, place, 0, 0, (const uint8_t[32]){0}, place);
    if ((is_sealed || is_tried) && is_found(place) != is_sealed)
        return 0;
    opening[60 + below(2)] ^= (uint8_t)(1 + below(255));
    return !is_sealed || !is_tried || is_found(place) == 0;
}

/* The opening, plain and carried, at each place but the last, which no image lies above. The place's third and fourth byte are 0. */
static int every_opening(void) {
    static const int smalls[] = {0, 1, 2, 255};
    for (uint64_t place = 1; place < PLACES; place++) {
        plain_pack(pages + PAGE * place, 2, 0, 1, place, 0, 1, (const uint8_t[32]){0}, place + 1);
        fates[place - 1] = 2;
        for (size_t i = 0; i < sizeof smalls / sizeof *smalls; i++)
            if (!opening_is_right(place, smalls[i]))
                return printf("place %llu, small byte %d\n", (unsigned long long)place, smalls[i]), 0;
    }
    return 1;
}

/* Every small byte of an opening, at the lowest and the highest place and some between, by the page test: 0 and 1 fit. */
static int every_small(void) {
    static const uint64_t places[] = {1, 2, 255, 256, 257, 4096, PLACES - 1, PLACES};
    memset(pages, 0, sizeof pages);
    for (size_t i = 0; i < sizeof places / sizeof *places; i++)
        for (int small = 0; small < 256; small++) {
            uint64_t place = places[i];
            plain_pack(pages + PAGE * (place - 1), 1, small, 0, place, 0, 0, (const uint8_t[32]){0}, place);
            int fits = plain_fits(pages + PAGE * (place - 1), place, 1);
            if (fits != (small <= 1) || bench_test(pages, PAGE * place, 1) != (uint64_t)fits)
                return 0;
            memset(pages + PAGE * (place - 1), 0, PAGE);
        }
    return 1;
}

int main(int count, char **words) {
    uint64_t fitting;
    seed = count > 1 ? strtoull(words[1], NULL, 10) | 1 : 20261115;
    printf("seed %llu\n", (unsigned long long)seed);
    told("good pages fit", agree(AS_IT_IS, &fitting) && fitting > SHEETS);
    told("pages with one byte changed", agree(ONE_BYTE, &fitting) && fitting > SHEETS);
    told("pages cut after any byte", agree(CUT, &fitting) && fitting > SHEETS);
    told("fields on and beside every bound", agree(EDGES, &fitting) && fitting > SHEETS);
    told("random pages", agree(RANDOM, &fitting) && fitting > SHEETS);
    told("pack writes the plain page, or nothing", packs_alike());
    told("images with every word", every_word());
    told("the opening, plain and carried, at every place but the last", every_opening());
    told("every small byte of an opening", every_small());
    printf("%d passed, %d failed\n", passed, failed);
    return failed != 0;
}
