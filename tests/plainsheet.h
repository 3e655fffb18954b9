/* A sheet in plain C, read page by page as documents 01 and 02 say it: what is sealed, the fates, where an outcome lies, the highest start,
   a file's row, an opening, an inspection. Places are counted from 1. */
#ifndef PLAINSHEET_H
#define PLAINSHEET_H
#include "door.h"
#include "plain.h"
#include "tell.h"

/* Most sheets have up to SMALL pages; some have above 1,024, up to MOST: there open and inspect keep more. */
enum { SMALL = 30, MOST = 1400, UNTOUCHED = 77 };
static uint8_t sheet[MOST * PAGE];
static uint64_t pages;

/* How many files the sheet is for. A commit or abort goes over the rows in fours: with these counts there are none to three of them, and
   each number of rows is left over. */
enum { MOST_FILES = 13 };
static uint64_t file_count;

static uint64_t random_file_count(void) { return 1 + below(MOST_FILES); }

static uint8_t *page_at(uint64_t place) { return sheet + PAGE * (place - 1); }
static uint64_t file_of(uint64_t place) { return plain_get(page_at(place), 4, 8); }
static uint64_t action_of(uint64_t place) { return plain_get(page_at(place), 8, 12); }
static uint64_t link_of(uint64_t place) { return plain_get(page_at(place), 12, 16); }
static uint64_t start_of(uint64_t place) { return plain_get(page_at(place), 16, 24); }

static int is_blank(uint64_t place) {
    for (int i = 0; i < PAGE; i++)
        if (page_at(place)[i])
            return 0;
    return 1;
}
static int is_torn(uint64_t place) { return page_at(place)[0] >= 1 && page_at(place)[0] <= 3 && page_at(place)[63] == 0; }
static int is_opening(uint64_t place) { return page_at(place)[0] == 1 && plain_fits(page_at(place), place, file_count); }
static int is_sealed_for(uint64_t place, uint64_t files) {
    return plain_fits(page_at(place), place, files) && (page_at(place)[0] == 1 || is_opening(action_of(place)));
}
static int is_sealed(uint64_t place) { return is_sealed_for(place, file_count); }
static int is_kind(uint64_t place, int kind) { return page_at(place)[0] == kind && is_sealed(place); }
static int is_image(uint64_t place, uint64_t file) { return file_of(place) == file && is_kind(place, 2); }
/* Of a sealed image: whether it was carried from an older sheet. */
__attribute__((unused)) static int is_carried(uint64_t place) { return page_at(action_of(place))[1] == 1; }
static int is_bad(uint64_t place) { return is_blank(place) || (!is_torn(place) && !is_sealed(place)); }

static uint64_t end_of(void) {
    uint64_t end = pages;
    while (end > 0 && is_blank(end))
        end--;
    return end;
}

/* The place of an action's newest sealed outcome up to a place, 0 if there is none. */
static uint64_t outcome_of(uint64_t action, uint64_t upto) {
    for (uint64_t p = upto; p > 0; p--)
        if (action_of(p) == action && is_kind(p, 3))
            return p;
    return 0;
}

/* Whether the sheet begins with a carried opening that has no outcome: a move onto it was cut. */
static int is_half_moved(uint64_t end) { return end > 0 && is_opening(1) && page_at(1)[1] == 1 && outcome_of(1, end) == 0; }

/* The fate of an action by the newest outcome up to a place. */
static uint8_t fate_of(uint64_t action, uint64_t upto) {
    if (action < 1 || action > upto || !is_opening(action))
        return 0;
    uint64_t place = outcome_of(action, upto);
    return place ? (uint8_t)(page_at(place)[1] + 1) : 1;
}

/* The highest start of any image up to a place that is sealed for so many files, 0 if there is none. */
__attribute__((unused)) static uint64_t highest_start(uint64_t upto, uint64_t files) {
    uint64_t highest = 0;
    for (uint64_t p = 1; p <= upto && files <= 256; p++)
        if (page_at(p)[0] == 2 && is_sealed_for(p, files) && start_of(p) > highest)
            highest = start_of(p);
    return highest;
}

/* A file's row by the fates that are lent, or by the pages up to the end if none are. A fate is looked for once where images of one action
   follow each other. */
static void row_of(uint64_t file, const uint8_t *fates, uint64_t end, uint64_t row[ROW_LENGTH]) {
    uint64_t action = 0;
    uint8_t fate = 0;
    memset(row, 0, ROW_LENGTH * sizeof *row);
    row[MARK] = 1;
    for (uint64_t p = end; p > 0; p--) {
        if (!is_image(p, file))
            continue;
        if (action_of(p) != action) {
            action = action_of(p);
            fate = fates ? fates[action - 1] : fate_of(action, end);
        }
        if (fate == 2) {
            row[CURRENT] = p;
            row[CURRENT_END] = start_of(p);
            return;
        }
        if (fate == 1 && row[TOKEN] == 0) {
            row[TOKEN] = p;
            row[TOKEN_END] = start_of(p);
            row[TOKEN_ACTION] = action;
        }
    }
}

/* A place of a row is 0, or one up to the end with a sealed image of the file. */
static int place_holds(uint64_t place, uint64_t file, uint64_t end) { return place == 0 || (place <= end && is_image(place, file)); }

/* Line 7 but for the token's action. */
static int places_hold(const uint64_t row[ROW_LENGTH], uint64_t file, uint64_t end) {
    return row[MARK] <= 1 && place_holds(row[CURRENT], file, end) && place_holds(row[TOKEN], file, end);
}

/* Line 7. Without a token there is no action. */
static int row_holds(const uint64_t row[ROW_LENGTH], uint64_t file, uint64_t end) {
    return places_hold(row, file, end) && row[TOKEN_ACTION] == (row[TOKEN] ? action_of(row[TOKEN]) : 0);
}

/* What is kept from call to call. The rows after those of the sheet's files are not lent. */
struct kept {
    uint8_t fates[MOST];
    uint64_t rows[ROW_LENGTH * MOST_FILES], end, floor, undecided;
};

static struct lent lent(uint8_t *bytes, struct kept *k) {
    return (struct lent){bytes, PAGE * pages, k->fates, pages, k->rows, ROW_LENGTH * file_count, k->end, k->floor, k->undecided};
}

static uint64_t *row_in(struct kept *k, uint64_t file) { return k->rows + ROW_LENGTH * (file - 1); }

/* An answer of at most three values, and zeros after them. */
static void answer(uint64_t a[TOLD], uint64_t which, uint64_t first, uint64_t second, uint64_t third) {
    a[WHICH] = which, a[FIRST] = first, a[SECOND] = second, a[THIRD] = third, a[FOURTH] = a[FIFTH] = 0;
}
static void no(uint64_t a[TOLD], uint64_t number, uint64_t place) { answer(a, REFUSED, number, place, 0); }

/* Refused: three zeros as the state, and fates and rows as they were; the highest bad page is named. */
static void plain_open(uint64_t a[TOLD], struct kept *k) {
    uint64_t end = end_of(), bad = end;
    while (bad > 0 && !is_bad(bad))
        bad--;
    k->end = k->undecided = 0;
    if (bad || is_half_moved(end)) {
        k->floor = 0;
        return bad ? no(a, 2, bad) : no(a, 24, 0);
    }
    for (uint64_t p = 1; p <= pages; p++) {
        k->fates[p - 1] = fate_of(p, end);
        k->undecided += k->fates[p - 1] == 1;
    }
    memset(k->rows, 0, ROW_LENGTH * file_count * sizeof *k->rows);
    k->end = end;
    answer(a, OPENED, end, k->undecided, 0);
}

/* Whether a page fits those below it. */
static int page_fits(uint64_t place) {
    if (is_bad(place))
        return 0;
    if (is_torn(place) || is_kind(place, 1))
        return 1;
    if (fate_of(action_of(place), place - 1) != 1)
        return 0;
    if (is_kind(place, 3))
        return 1;
    uint64_t row[ROW_LENGTH];
    row_of(file_of(place), NULL, place - 1, row);
    int is_free = row[TOKEN] == 0 || action_of(row[TOKEN]) == action_of(place);
    return is_free && link_of(place) == row[CURRENT] && start_of(place) > row[CURRENT_END];
}

/* The lowest place that is bad or does not fit, 0 if there is none. */
__attribute__((unused)) static uint64_t inspected(void) {
    uint64_t end = end_of();
    for (uint64_t p = 1; p <= end; p++)
        if (!page_fits(p))
            return p;
    return 0;
}

/* A cold row is rebuilt; then line 7. */
static int warm(uint64_t a[TOLD], struct kept *k, uint64_t file) {
    uint64_t *row = row_in(k, file);
    if (row[MARK] == 0)
        row_of(file, k->fates, k->end, row);
    return row_holds(row, file, k->end) || (no(a, 7, 0), 0);
}

/* It answers the row's numbers after the mark. */
__attribute__((unused)) static void plain_rebuild(uint64_t a[TOLD], struct kept *k, uint64_t file) {
    if (k->end > pages || k->undecided > k->end)
        return no(a, 1, 0);
    if (file < 1 || file > file_count)
        return no(a, 3, 0);
    if (!warm(a, k, file))
        return;
    a[WHICH] = REBUILT;
    memcpy(a + FIRST, row_in(k, file) + CURRENT, (ROW_LENGTH - 1) * sizeof *a);
}

/* A call of the proved code on a copy of the sheet, beside what the plain one answered and left: the answer's numbers, the state's, and
   all that is lent. `before` and `was` are what both were given; the sheet and `left` are what the plain one left. */
static int called_alike(struct call c, const uint8_t *before, struct kept was, uint64_t a[TOLD], const struct kept *left) {
    static uint8_t after[MOST * PAGE];
    uint64_t got[TOLD];
    memcpy(after, before, PAGE * pages);
    a[END] = left->end, a[FLOOR] = left->floor, a[UNDECIDED] = left->undecided;
    make_call(lent(after, &was), c, got);
    if (!memcmp(got, a, sizeof got) && !memcmp(after, sheet, PAGE * pages) && !memcmp(was.fates, left->fates, pages)
        && !memcmp(was.rows, left->rows, sizeof was.rows))
        return 1;
    printf("call %d file %llu time %llu action %llu, on %llu pages for %llu files:\n", c.kind, (unsigned long long)c.file,
           (unsigned long long)c.time, (unsigned long long)c.action, (unsigned long long)pages, (unsigned long long)file_count);
    for (int i = 0; i < TOLD; i++)
        printf("number %d is %llu, expected %llu\n", i, (unsigned long long)got[i], (unsigned long long)a[i]);
    return 0;
}

/* A cut while the page at a place was stored: its bytes from n on are as before, or any are but byte 0, and byte 63 is. Answers n, or
   65 for the second. */
__attribute__((unused)) static int cut_page(uint64_t place, const uint8_t *before) {
    static const int often[] = {0, 1, 62, 63, 64};
    uint8_t *page = page_at(place);
    if (below(3) == 0) {
        for (int i = 1; i < PAGE; i++)
            if (i == 63 || below(2))
                page[i] = before[i];
        return 65;
    }
    int n = below(4) ? (int)below(PAGE + 1) : often[below(5)];
    memcpy(page + n, before + n, (size_t)(PAGE - n));
    return n;
}
#endif
