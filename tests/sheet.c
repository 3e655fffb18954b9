/* The proved recovery layer beside a plain one, written here from documents 01 and 02 page by page: open, rebuild, inspect and the highest
   start on random sheets, lawful, unlawful, damaged and cut. Prints a line for each test and 'N passed, M failed'. */
#include "plainsheet.h"

enum { SHEETS = 8000, LARGE_SHEETS = 40 };

/* ---- random sheets */

/* A start above another: mostly a little, now and then by any power of two, so that each of its bytes tells. Far up there is none. */
static uint64_t later(uint64_t start) { return start + 1 + (below(16) ? below(30) : (uint64_t)1 << below(64)); }

/* A page at a place that goes on from those below: mostly lawful, and now and then not. It may be cut, and the place be blank again. */
static void add_page(uint64_t place, int wild) {
    static const uint8_t none[PAGE];
    uint8_t *page = page_at(place), value[32] = {1, 2, 3};
    uint64_t row[ROW_LENGTH], kind = place == 1 ? 1 : 1 + below(4), file = 1 + below(file_count), action = 1 + below(place);
    for (uint64_t k = 0; k < 20 && place > 1 && fate_of(action, place - 1) != 1; k++)
        action = 1 + (k < 10 ? below(place - 1) : (action + place - 3) % (place - 1));
    row_of(file, NULL, place - 1, row);
    if (row[TOKEN] && (kind == 2 || kind == 3) && below(2))
        action = action_of(row[TOKEN]);
    if (kind == 1)
        plain_pack(page, 1, below(place == 1 ? 3 : 6) == 0, 0, place, 0, 0, none, place);
    else if (kind == 4)
        plain_pack(page, 3, 1 + (int)below(2), 0, action, 0, 0, none, place);
    else
        plain_pack(page, 2, 3, file, action, below(20) || !wild ? row[CURRENT] : below(place),
                   below(20) || !wild ? later(row[CURRENT_END]) : row[CURRENT_END], value, place);
    if (!page_fits(place) && !(wild && below(4) == 0))
        plain_pack(page, 1, 0, 0, place, 0, 0, none, place);
    if (below(12) == 0)
        cut_page(place, none);
}

static void damage(uint64_t place, uint64_t among) {
    if (below(30 * among) == 0)
        page_at(place)[below(PAGE)] ^= (uint8_t)(1 + below(255));
    if (below(40 * among) == 0)
        memset(page_at(place), 0, PAGE);
}

/* A large sheet has about as many wrong pages as a small one, so that some lie far up. */
static void fill_sheet(uint64_t count, int wild) {
    uint64_t used = count <= SMALL ? below(count + 1) : count - below(200), among = count <= SMALL ? 1 : count / 6;
    pages = count;
    file_count = random_file_count();
    memset(sheet, 0, PAGE * pages);
    for (uint64_t p = 1; p <= used; p += !is_blank(p))
        add_page(p, wild && below(among) == 0);
    for (uint64_t p = 1; p <= used && wild; p++)
        damage(p, among);
}

static uint64_t small_count(void) { return 1 + below(SMALL); }
static uint64_t large_count(void) { return 1025 + below(MOST - 1024); }

/* ---- the tests */

static int refused_seen;

/* What may come of a carried opening at place 1: no outcome, so that open is refused 24, also where one is torn, or 2, which comes first; an
   outcome, with which it opens; and of one above place 1 without an outcome. */
enum { HALF_MOVED, TORN_OUTCOME, HALF_MOVED_BAD, CARRIED_COMMITTED, CARRIED_ABORTED, CARRIED_ABOVE, CARRIED };
static const char *const each_carried[CARRIED] = {"a carried opening without an outcome", "a carried opening with a torn outcome",
                                                  "a carried opening without an outcome, and a bad page",
                                                  "a carried opening, committed", "a carried opening, aborted",
                                                  "a carried opening above place 1 without an outcome"};
static int carried_seen[CARRIED];

static int has_torn_outcome(uint64_t action) {
    for (uint64_t p = pages; p > 0; p--)
        if (is_torn(p) && page_at(p)[0] == 3 && action_of(p) == action)
            return 1;
    return 0;
}

static void count_carried(const uint64_t a[TOLD]) {
    uint64_t end = end_of();
    int is_refused = a[WHICH] == REFUSED;
    for (uint64_t p = 2; p <= end; p++)
        carried_seen[CARRIED_ABOVE] += !is_refused && is_opening(p) && page_at(p)[1] == 1 && outcome_of(p, end) == 0;
    if (end == 0 || !is_opening(1) || page_at(1)[1] != 1)
        return;
    if (outcome_of(1, end) == 0) {
        carried_seen[a[FIRST] == 2 ? HALF_MOVED_BAD : HALF_MOVED]++;
        carried_seen[TORN_OUTCOME] += a[FIRST] == 24 && has_torn_outcome(1);
    } else if (!is_refused)
        carried_seen[fate_of(1, end) == 2 ? CARRIED_COMMITTED : CARRIED_ABORTED]++;
}

static int all_carried_came(void) {
    int all = 1;
    for (int i = 0; i < CARRIED; i++)
        if (carried_seen[i] < 20)
            all = (printf("only %d times: %s\n", carried_seen[i], each_carried[i]), 0);
    return all;
}

static int open_is_alike(void) {
    struct kept was, left;
    uint64_t a[TOLD];
    memset(&was, UNTOUCHED, sizeof was);
    was.floor = 9;
    left = was;
    plain_open(a, &left);
    refused_seen += a[WHICH] == REFUSED && a[FIRST] == 2;
    count_carried(a);
    return called_alike((struct call){.kind = OPEN}, sheet, was, a, &left);
}

static int opens_alike(uint64_t (*count)(void), int sheets, int wild) {
    refused_seen = 0;
    for (int k = 0; k < sheets; k++) {
        fill_sheet(count(), wild);
        if (!open_is_alike())
            return 0;
    }
    return wild ? refused_seen > sheets / 20 && refused_seen < sheets - sheets / 20 : refused_seen == 0; /* not all alike */
}

/* Any numbers in a row, or those that it should have, mostly with the token's action or another one changed. */
static void random_row(uint64_t row[ROW_LENGTH], uint64_t file, const struct kept *k) {
    for (int i = 0; i < ROW_LENGTH; i++)
        row[i] = below(2) ? 0 : below(pages + 2);
    row[MARK] = below(10) ? below(2) : below(4);
    if (below(2) || k->end > pages)
        return;
    row_of(file, k->fates, k->end, row);
    if (below(3))
        row[below(4) ? TOKEN_ACTION : below(ROW_LENGTH)] = below(4) ? below(pages + 2) : 0;
}

/* Rows that are cold, rebuilt or damaged, under fates and a state that may be anything. */
static struct kept random_kept(void) {
    struct kept k = {.end = below(4) ? end_of() : below(pages + 2)};
    k.undecided = below(4) ? 0 : below(k.end + 2);
    for (uint64_t a = 1; a <= pages; a++)
        k.fates[a - 1] = (uint8_t)(below(8) ? fate_of(a, k.end < pages ? k.end : pages) : below(6));
    for (uint64_t f = 1; f <= file_count; f++)
        random_row(row_in(&k, f), f, &k);
    return k;
}

/* What a rebuild of a file may come to: a row that is cold, or rebuilt with a token and without; one that is refused, if the token's action
   alone is wrong; and refusals. */
enum { WAS_COLD, WITH_TOKEN, WITHOUT_TOKEN, ACTION_0, OTHER_ACTION, STRAY_ACTION, REFUSED_7, REFUSED_3, REFUSED_1, COMINGS };

/* How often each must come at least on small sheets; of the large ones there are too few. */
static const struct {
    const char *name;
    int least;
} each_coming[COMINGS] = {
    [WAS_COLD] = {"a cold row", 500},
    [WITH_TOKEN] = {"a rebuilt row with a token", 100},
    [WITHOUT_TOKEN] = {"a rebuilt row without a token", 500},
    [ACTION_0] = {"a token and action 0", 50},
    [OTHER_ACTION] = {"a token and another action", 100},
    [STRAY_ACTION] = {"an action without a token", 500},
    [REFUSED_7] = {"a wrong mark or place", 500},
    [REFUSED_3] = {"refusal 3", 100},
    [REFUSED_1] = {"refusal 1", 100},
};

static int coming(struct kept *was, uint64_t file, const uint64_t a[TOLD]) {
    if (a[WHICH] == REFUSED && a[FIRST] != 7)
        return a[FIRST] == 3 ? REFUSED_3 : REFUSED_1;
    const uint64_t *row = row_in(was, file);
    if (a[WHICH] == REBUILT)
        return row[MARK] == 0 ? WAS_COLD : row[TOKEN] ? WITH_TOKEN : WITHOUT_TOKEN;
    if (!places_hold(row, file, was->end))
        return REFUSED_7;
    return row[TOKEN] == 0 ? STRAY_ACTION : row[TOKEN_ACTION] ? OTHER_ACTION : ACTION_0;
}

static int rebuilds_alike(uint64_t (*count)(void), int sheets) {
    int seen[COMINGS] = {0}, all = 1;
    for (int k = 0; k < sheets; k++) {
        fill_sheet(count(), 1);
        struct kept was = random_kept(), left = was;
        uint64_t a[TOLD], file = below(10) ? 1 + below(file_count) : below(file_count + 2);
        plain_rebuild(a, &left, file);
        if (!called_alike((struct call){.kind = REBUILD, .file = file}, sheet, was, a, &left))
            return 0;
        seen[coming(&was, file, a)]++;
    }
    for (int i = 0; i < COMINGS; i++)
        if (sheets == SHEETS && seen[i] < each_coming[i].least)
            all = (printf("only %d times: %s\n", seen[i], each_coming[i].name), 0);
    return all && seen[WAS_COLD] + seen[WITH_TOKEN] + seen[WITHOUT_TOKEN] > sheets / 10;
}

/* Whether an image is overtaken: there is a newer one of its file under its action. */
static int is_overtaken(uint64_t place) {
    for (uint64_t p = pages; p > place; p--)
        if (file_of(p) == file_of(place) && action_of(p) == action_of(place) && is_kind(p, 2))
            return 1;
    return 0;
}

static int inspects_alike(uint64_t (*count)(void), int sheets, int wild) {
    int lawful = 0, far = 0;
    for (int k = 0; k < sheets; k++) {
        fill_sheet(count(), wild);
        uint64_t place = inspected();
        lawful += place == 0;
        far += place > pages / 2;
        if (bench_inspect(sheet, PAGE * pages, file_count) != place)
            return 0;
    }
    return wild ? lawful > sheets / 20 && lawful < sheets - sheets / 20 && far > sheets / 20 : lawful == sheets;
}

/* What an image above a lawful sheet may be, of a file that has a token. */
enum { FITS, FITS_ABOVE_TWO, BEFORE_TOKEN, BY_ANOTHER, LINKED_TO_TOKEN, LINKED_ELSEWHERE, NOT_ABOVE, OVER };
static const char *const over[OVER] = {"one that fits", "one that fits above two or more", "one that fits and starts before the token",
                                       "one by another action", "one linked to the token", "one linked elsewhere",
                                       "one that starts no later than the version"};
static int over_counts[OVER];

/* Whether an image overtakes another: there is an older one of its file under its action. */
static int overtakes(uint64_t place) {
    for (uint64_t p = place - 1; p > 0; p--)
        if (file_of(p) == file_of(place) && action_of(p) == action_of(place) && is_kind(p, 2))
            return 1;
    return 0;
}

static int image_is_alike(uint64_t place, const uint64_t row[ROW_LENGTH], uint64_t action, uint64_t link, uint64_t start) {
    static const uint8_t value[32] = {9};
    uint64_t current = row[CURRENT], token = row[TOKEN];
    plain_pack(page_at(place), 2, 1, file_of(token), action, link, start, value, place);
    int fits = page_fits(place), is_own = action == action_of(token), is_above = start > row[CURRENT_END];
    over_counts[FITS] += fits;
    over_counts[FITS_ABOVE_TWO] += fits && overtakes(token);
    over_counts[BEFORE_TOKEN] += fits && start < start_of(token);
    over_counts[BY_ANOTHER] += !is_own && link == current && is_above;
    over_counts[LINKED_TO_TOKEN] += is_own && link == token && is_above;
    over_counts[LINKED_ELSEWHERE] += is_own && link != token && link != current && is_above;
    over_counts[NOT_ABOVE] += is_own && link == current && !is_above && start > 0;
    return bench_inspect(sheet, PAGE * pages, file_count) == (fits ? 0 : place);
}

/* Images of a file that has a token: by its action and another one, with links and starts about those of version and token. */
static int images_are_alike(uint64_t place, const uint64_t row[ROW_LENGTH]) {
    uint64_t another = 1 + below(place - 1), token = start_of(row[TOKEN]), current = row[CURRENT_END];
    while (fate_of(another, place - 1) != 1)
        another = 1 + another % (place - 1);
    uint64_t actions[] = {action_of(row[TOKEN]), another}, links[] = {row[CURRENT], row[TOKEN], below(place)};
    uint64_t starts[] = {current - (current > 0), current, current + 1, token - 1, token, token + (token < UINT64_MAX)};
    for (int i = 0; i < 2 * 3 * 6; i++)
        if (!image_is_alike(place, row, actions[i % 2], links[i / 2 % 3], starts[i / 6]))
            return 0;
    return 1;
}

static int inspects_images_alike(uint64_t (*count)(void), int sheets, int least) {
    int all = 1;
    memset(over_counts, 0, sizeof over_counts);
    for (int k = 0; k < sheets; k++) {
        fill_sheet(count(), 0);
        uint64_t place = end_of() + 1, row[ROW_LENGTH];
        for (uint64_t f = 1; f <= file_count && place <= pages; f++) {
            row_of(f, NULL, place - 1, row);
            if (row[TOKEN] && !images_are_alike(place, row))
                return 0;
            memset(page_at(place), 0, PAGE);
        }
    }
    for (int i = 0; i < OVER; i++)
        if (over_counts[i] < least)
            all = (printf("only %d times: %s\n", over_counts[i], over[i]), 0);
    return all;
}

/* What there may be where the highest start is asked for; several may come at once. After the first come fates 1 to 3, in this order. */
enum { NO_IMAGE, UNDECIDED_HIGHEST, COMMITTED_HIGHEST, ABORTED_HIGHEST, NEWEST_LOWER, TORN_HIGHER, NO_OPENING, HIGHER_FILE, SPOILT_HIGHER,
       PART_HIGHER, NO_FILES, FAR, OVERTAKEN_HIGHEST, CASES };

/* How often each must come at least on lawful sheets, on any and on large ones; 0 where it cannot, or comes too seldom to be asked for. */
enum { LAWFUL, ANY, LARGE };
static const struct {
    const char *name;
    int least[3];
} each_case[CASES] = {
    [NO_IMAGE] = {"no sealed image", {5000, 5000, 0}},
    [UNDECIDED_HIGHEST] = {"the highest undecided", {5000, 5000, 50}},
    [COMMITTED_HIGHEST] = {"the highest committed", {1000, 1000, 0}},
    [ABORTED_HIGHEST] = {"the highest aborted", {1000, 1000, 10}},
    [NEWEST_LOWER] = {"the newest image lower", {2000, 2000, 50}},
    [TORN_HIGHER] = {"a torn image higher", {500, 500, 0}},
    [NO_OPENING] = {"an image without its opening higher", {0, 500, 0}},
    [HIGHER_FILE] = {"a higher file's image higher", {2000, 2000, 50}},
    [SPOILT_HIGHER] = {"a spoilt image higher", {0, 500, 0}},
    [PART_HIGHER] = {"part of an image higher", {200, 200, 0}},
    [NO_FILES] = {"images, but a count of 0 files or above 256", {5000, 5000, 50}},
    [FAR] = {"a start above 2^56", {100, 100, 0}},
    [OVERTAKEN_HIGHEST] = {"the highest overtaken", {500, 500, 10}},
};
static int case_counts[CASES];

/* Of a page with an image's kind byte that starts at the highest start or above it, where so many bytes are lent: what it is. */
static int case_of_image(uint64_t place, uint64_t size, uint64_t files) {
    uint64_t whole = size / PAGE;
    if (place > whole)
        return place == whole + 1 && size % PAGE > 0 && is_sealed_for(place, files) ? PART_HIGHER : CASES;
    if (is_sealed_for(place, files))
        return NO_IMAGE + fate_of(action_of(place), whole);
    if (is_torn(place))
        return TORN_HIGHER;
    if (is_sealed(place))
        return HIGHER_FILE;
    return plain_fits(page_at(place), place, files) ? NO_OPENING : SPOILT_HIGHER;
}

static void count_cases(uint64_t size, uint64_t files, uint64_t highest) {
    uint64_t newest = size / PAGE;
    if (files < 1 || files > 256) {
        case_counts[NO_FILES] += highest_start(newest, file_count) > 0;
        return;
    }
    while (newest > 0 && !(page_at(newest)[0] == 2 && is_sealed_for(newest, files)))
        newest--;
    case_counts[NO_IMAGE] += newest == 0;
    case_counts[NEWEST_LOWER] += newest > 0 && start_of(newest) < highest;
    case_counts[FAR] += highest >> 56 > 0;
    for (uint64_t p = 1; p <= pages; p++) {
        int what = page_at(p)[0] == 2 && start_of(p) >= highest ? case_of_image(p, size, files) : CASES;
        if (what < CASES && (start_of(p) > highest || what <= ABORTED_HIGHEST))
            case_counts[what]++;
        case_counts[OVERTAKEN_HIGHEST] += what >= UNDECIDED_HIGHEST && what <= ABORTED_HIGHEST && is_overtaken(p);
    }
}

static int all_came(int where) {
    int all = 1;
    for (int i = 0; i < CASES; i++)
        if (case_counts[i] < each_case[i].least[where])
            all = (printf("only %d times: %s\n", case_counts[i], each_case[i].name), 0);
    return all;
}

/* For many file counts; of every third sheet some bytes only are lent. */
static int starts_alike(uint64_t (*count)(void), int sheets, int wild, int where) {
    memset(case_counts, 0, sizeof case_counts);
    for (int k = 0; k < sheets; k++) {
        fill_sheet(count(), wild);
        uint64_t size = below(3) ? PAGE * pages : below(PAGE * pages);
        uint64_t counts[] = {0, 1, 2, file_count - 1, file_count, file_count + 1, 8, 256, 257, UINT64_MAX};
        for (size_t i = 0; i < sizeof counts / sizeof *counts; i++) {
            uint64_t highest = highest_start(size / PAGE, counts[i]), got = door_highest_start(sheet, size, counts[i]);
            count_cases(size, counts[i], highest);
            if (got != highest) {
                printf("%llu bytes for %llu files: %llu, expected %llu\n", (unsigned long long)size, (unsigned long long)counts[i],
                       (unsigned long long)got, (unsigned long long)highest);
                return 0;
            }
        }
    }
    return all_came(where);
}

/* Line 1: the lengths. */
static int sizes_alike(void) {
    uint8_t fates[4] = {0};
    uint64_t rows[3 * ROW_LENGTH] = {0}, told[TOLD];
    memset(sheet, 0, sizeof sheet);
    for (uint64_t size = 0; size <= 3 * PAGE; size++)
        for (uint64_t n = 0; n <= 4; n++)
            for (uint64_t numbers = 0; numbers <= 2 * ROW_LENGTH + 1; numbers++) {
                int fits = size >= PAGE && size % PAGE == 0 && n == size / PAGE && numbers >= ROW_LENGTH && numbers % ROW_LENGTH == 0;
                door_open(sheet, size, fates, n, rows, numbers, 0, told, TOLD);
                if (told[WHICH] != (fits ? OPENED : REFUSED))
                    return 0;
            }
    return 1;
}

/* Whole rows for 1 to 256 files, and no other number of numbers. */
static int row_counts_alike(void) {
    enum { LIMIT = 256, LAST = ROW_LENGTH * (LIMIT + 2) };
    static uint64_t rows[LAST];
    uint8_t fates[1] = {0};
    uint64_t told[TOLD];
    int all = 1;
    memset(sheet, 0, PAGE);
    for (uint64_t numbers = 0; numbers <= LAST; numbers++) {
        int fits = numbers % ROW_LENGTH == 0 && numbers / ROW_LENGTH >= 1 && numbers / ROW_LENGTH <= LIMIT;
        door_open(sheet, PAGE, fates, 1, rows, numbers, 0, told, TOLD);
        all = all && told[WHICH] == (fits ? OPENED : REFUSED) && told[FIRST] == (fits ? 0 : 1);
    }
    return all;
}

/* ---- the longest sheet, full: an opening at each odd place and its commit above it but, at each eighth pair, another opening */

enum { LONGEST = 65536 };
static uint8_t longest[LONGEST * PAGE], longest_fates[LONGEST];

static int is_pair_undecided(uint64_t place) { return (place - 1) % 16 < 2; }
static int longest_fate(uint64_t place) { return is_pair_undecided(place) ? 1 : place % 2 ? 2 : 0; }

static void fill_longest(void) {
    static const uint8_t none[32];
    for (uint64_t p = 1; p <= LONGEST; p++) {
        int is_outcome = longest_fate(p) == 0;
        plain_pack(longest + PAGE * (p - 1), is_outcome ? 3 : 1, is_outcome, 0, p - (uint64_t)is_outcome, 0, 0, none, p);
    }
}

static int longest_opens(uint64_t bad) {
    uint64_t rows[ROW_LENGTH * MOST_FILES], told[TOLD], undecided = LONGEST / 8;
    struct lent l = {longest, sizeof longest, longest_fates, LONGEST, rows, ROW_LENGTH * MOST_FILES, 0, 9, 0};
    memset(rows, UNTOUCHED, sizeof rows);
    memset(longest_fates, UNTOUCHED, sizeof longest_fates);
    make_call(l, (struct call){.kind = OPEN}, told);
    int right = told[WHICH] == (bad ? REFUSED : OPENED) && told[FIRST] == (bad ? 2 : LONGEST) && told[SECOND] == (bad ? bad : undecided)
                && told[END] == (bad ? 0 : LONGEST) && told[UNDECIDED] == (bad ? 0 : undecided) && (rows[0] == 0) == (bad == 0);
    for (uint64_t p = 1; p <= LONGEST; p++)
        right = right && longest_fates[p - 1] == (bad ? UNTOUCHED : longest_fate(p));
    return right;
}

/* As it is, and with a byte of a check word changed: an opening takes the commit above it along. */
static int longest_is_right(void) {
    static const struct {
        uint64_t changed, highest;
    } cases[] = {{1, 1}, {1024, 1024}, {1025, 1025}, {1027, 1028}, {LONGEST - 1, LONGEST}, {LONGEST, LONGEST}};
    fill_longest();
    if (!longest_opens(0) || bench_inspect(longest, sizeof longest, MOST_FILES) != 0)
        return 0;
    for (size_t k = 0; k < sizeof cases / sizeof *cases; k++) {
        uint8_t *byte = longest + PAGE * cases[k].changed - 3;
        *byte ^= 1;
        if (!longest_opens(cases[k].highest) || bench_inspect(longest, sizeof longest, MOST_FILES) != cases[k].changed)
            return 0;
        *byte ^= 1;
    }
    return 1;
}

int main(int count, char **words) {
    seed = count > 1 ? strtoull(words[1], NULL, 10) | 1 : 20261115;
    printf("seed %llu\n", (unsigned long long)seed);
    told("open, lawful sheets", opens_alike(small_count, SHEETS, 0));
    told("open, any sheets", opens_alike(small_count, SHEETS, 1));
    told("open, carried openings with and without an outcome", all_carried_came());
    told("open, lengths", sizes_alike());
    told("open, rows for 0 to 258 files", row_counts_alike());
    told("rebuild, any rows and fates", rebuilds_alike(small_count, SHEETS));
    told("inspect, lawful sheets", inspects_alike(small_count, SHEETS, 0));
    told("inspect, any sheets", inspects_alike(small_count, SHEETS, 1));
    told("inspect, an image above a token", inspects_images_alike(small_count, SHEETS, 500));
    told("highest start, lawful sheets", starts_alike(small_count, SHEETS, 0, LAWFUL));
    told("highest start, any sheets", starts_alike(small_count, SHEETS, 1, ANY));
    told("open, lawful sheets of more than 1,024 pages", opens_alike(large_count, LARGE_SHEETS, 0));
    told("open, any sheets of more than 1,024 pages", opens_alike(large_count, LARGE_SHEETS, 1));
    told("rebuild, on more than 1,024 pages", rebuilds_alike(large_count, LARGE_SHEETS));
    told("inspect, lawful sheets of more than 1,024 pages", inspects_alike(large_count, LARGE_SHEETS, 0));
    told("inspect, any sheets of more than 1,024 pages", inspects_alike(large_count, LARGE_SHEETS, 1));
    told("inspect, an image above a token on more than 1,024 pages", inspects_images_alike(large_count, LARGE_SHEETS, 20));
    told("highest start, any sheets of more than 1,024 pages", starts_alike(large_count, LARGE_SHEETS, 1, LARGE));
    told("open and inspect, 65,536 pages", longest_is_right());
    printf("%d passed, %d failed\n", passed, failed);
    return failed != 0;
}
