/* One spoiled byte (document 02, ask 9): a sealed page of which one byte becomes another is torn if byte 63 became 0, else bad, for every
   file count. Pages of each kind are packed for C, and all 64 x 255 changes of each go through the page test for C; those of a sheet that
   has them all through open and inspect; then random pages and sheets. What is expected is what the request says; what open, inspect and the
   highest start answer is held beside the plain ones too. Prints a line for each test and 'N passed, M failed'. */
#include "../c/desk.h"
#include "plainsheet.h"

enum { CHANGES = 64 * 255, RANDOM_PAGES = 100000, RANDOM_SHEETS = 20000 };

/* What is expected of a page at a place, once a byte of it is spoiled; `zeroed` if that is byte 63, and it became 0. */
typedef int (*claim)(uint64_t place, int zeroed);

/* Whether each other value of each byte of a page is as claimed; the byte is put back. */
static int each_change(uint8_t *page, uint64_t place, claim is_right) {
    int changes = 0;
    for (int i = 0; i < PAGE; i++)
        for (int step = 1; step < 256; step++, changes++) {
            uint8_t was = page[i], now = (uint8_t)(was + step);
            page[i] = now;
            int right = is_right(place, i == 63 && now == 0);
            page[i] = was;
            if (!right)
                return printf("place %llu: byte %d from %d to %d\n", (unsigned long long)place, i, was, now), 0;
        }
    return changes == CHANGES;
}

/* A byte becomes another one, often 0: a random one, or the end mark. Answers whether that became 0. */
static int spoil(uint8_t *page) {
    int i = below(8) ? (int)below(PAGE) : 63;
    page[i] = below(2) && page[i] ? 0 : (uint8_t)(page[i] + 1 + below(255));
    return i == 63 && page[i] == 0;
}

/* ---- pages */

static const struct {
    const char *name;
    int kind, small;
} each_kind[] = {{"an opening", 1, 0},
                 {"an image of length 0", 2, 0},
                 {"an image of length 1", 2, 1},
                 {"an image of length 32", 2, 32},
                 {"a committed outcome", 3, 1},
                 {"an aborted outcome", 3, 2},
                 {"a carried opening", 1, 1}};
enum { KINDS = sizeof each_kind / sizeof *each_kind, OPENING = 0, CARRIED = KINDS - 1 };

/* What may lie where no opening lies below. */
static int any_opening(void) { return below(2) ? OPENING : CARRIED; }

/* Packs a page of a kind with a random value; file, link and start are an image's, and an opening names itself. */
static int pack_page(uint8_t *page, int k, uint64_t place, uint64_t file, uint64_t action, uint64_t link, uint64_t start) {
    int kind = each_kind[k].kind, small = each_kind[k].small, has_value = kind == 2;
    uint8_t value[32] = {0};
    for (int i = 0; i < small && has_value; i++)
        value[i] = (uint8_t)below(256);
    return desk_pack((uint64_t)kind, (uint64_t)small, has_value ? file : 0, kind == 1 ? place : action, has_value ? link : 0,
                     has_value ? start : 0, value, 32, place, DESK_MOST_FILES, page, PAGE)
           == DESK_PACKED;
}

/* With random fields, or the highest ones. */
static int pack_any(uint8_t *page, int k, uint64_t place, uint64_t files) {
    if (place == 1 || below(4) == 0)
        return pack_page(page, k, place, files, place - 1, place - 1, UINT64_MAX);
    return pack_page(page, k, place, 1 + below(files), 1 + below(place - 1), below(place), 1 + below(UINT64_MAX));
}

static uint8_t page[PAGE];

/* The page test's answer; a number of no answer if fields are touched though it has none. */
static uint64_t tested(uint64_t place, uint64_t files) {
    static const uint64_t none[DESK_FIELDS] = {9, 9, 9, 9, 9, 9};
    uint64_t fields[DESK_FIELDS];
    memcpy(fields, none, sizeof none);
    uint64_t answer = desk_test(page, PAGE, place, files, fields, DESK_FIELDS);
    return answer == DESK_FITS || !memcmp(fields, none, sizeof none) ? answer : UINT64_MAX;
}

/* Alike for the file counts 1 to 256, all or, by a step of 85, four of them; 0 and 257 are none. */
static uint64_t count_step;

static int is_spoiled(uint64_t place, int zeroed) {
    for (uint64_t files = 1; files <= 256; files += count_step)
        if (tested(place, files) != (zeroed ? DESK_TORN : DESK_UNFIT))
            return 0;
    return tested(place, 0) == DESK_TEST_REFUSED && tested(place, 257) == DESK_TEST_REFUSED;
}

static int pages_are_spoiled(int k) {
    static const uint64_t places[] = {1, 2, 255, 256, 1000, 65535, 65536};
    for (size_t i = each_kind[k].kind != 1; i < sizeof places / sizeof *places; i++) {
        count_step = places[i] == 1000 ? 1 : 85;
        if (!pack_any(page, k, places[i], 256) || tested(places[i], 256) != DESK_FITS || !each_change(page, places[i], is_spoiled))
            return 0;
    }
    return 1;
}

static int random_pages_are_spoiled(void) {
    int all_zeroed = 0;
    count_step = 85;
    for (int n = 0; n < RANDOM_PAGES; n++) {
        uint64_t place = 1 + below(below(2) ? 20 : 65536), files = 1 + below(256);
        if (!pack_any(page, place == 1 ? any_opening() : (int)below(KINDS), place, files) || tested(place, files) != DESK_FITS)
            return 0;
        int zeroed = spoil(page);
        if (!is_spoiled(place, zeroed))
            return 0;
        all_zeroed += zeroed;
    }
    return all_zeroed > RANDOM_PAGES / 100;
}

/* ---- sheets */

/* What open and inspect name, 0 for nothing; and whether all that open leaves, and the highest start, are as the plain ones say. */
struct named {
    uint64_t open, inspect;
    int alike;
};

static struct named ask(void) {
    struct kept was, left;
    uint64_t a[TOLD], lowest = desk_inspect(sheet, PAGE * pages, file_count);
    memset(&was, UNTOUCHED, sizeof was);
    was.floor = 9;
    left = was;
    plain_open(a, &left);
    int alike = called_alike((struct call){.kind = OPEN}, sheet, was, a, &left) && lowest == inspected()
                && door_highest_start(sheet, PAGE * pages, file_count) == highest_start(pages, file_count);
    return (struct named){a[WHICH] == REFUSED && a[FIRST] == 2 ? a[SECOND] : 0, lowest, alike};
}

/* A sheet with pages of each kind: an action over three files, committed; another on the first of them, aborted; one that has nothing yet,
   and a carried one that has nothing; and blank pages. */
enum { USED = 10, ALL = 12 };
static int pack_sheet(void) {
    memset(sheet, 0, PAGE * ALL);
    pages = ALL;
    return pack_page(page_at(1), 0, 1, 0, 0, 0, 0) && pack_page(page_at(2), 1, 2, 1, 1, 0, 10) && pack_page(page_at(3), 2, 3, 2, 1, 0, 10)
           && pack_page(page_at(4), 3, 4, 3, 1, 0, 10) && pack_page(page_at(5), 4, 5, 0, 1, 0, 0) && pack_page(page_at(6), 0, 6, 0, 0, 0, 0)
           && pack_page(page_at(7), 3, 7, 1, 6, 2, UINT64_MAX) && pack_page(page_at(8), 5, 8, 0, 6, 0, 0)
           && pack_page(page_at(9), OPENING, 9, 0, 0, 0, 0) && pack_page(page_at(10), CARRIED, 10, 0, 0, 0, 0);
}

/* For a file count by which the sheet is lawful. Inspect names the spoiled page; open too, but of an opening the last page of its action.
   With byte 63 at 0, open names something only of the opening of other pages, and inspect a later page that is bad with it or goes on no
   more. */
static const struct {
    uint64_t open, zeroed_open, zeroed_inspect;
} names[USED + 1] = {[1] = {5, 5, 2}, [2] = {2, 0, 7}, [3] = {3, 0, 0}, [4] = {4, 0, 0}, [5] = {5, 0, 7},
                     [6] = {8, 8, 7}, [7] = {7, 0, 0}, [8] = {8, 0, 0}, [9] = {9, 0, 0}, [10] = {10, 0, 0}};

static int is_named(uint64_t place, int zeroed) {
    struct named n = ask();
    return n.alike && n.open == (zeroed ? names[place].zeroed_open : names[place].open)
           && n.inspect == (zeroed ? names[place].zeroed_inspect : place);
}

/* On any sheet, for any file count. */
static int holds(struct named n, uint64_t place, int zeroed) {
    return n.alike && (zeroed || (n.open >= place && n.inspect >= 1 && n.inspect <= place));
}
static int is_refused(uint64_t place, int zeroed) { return holds(ask(), place, zeroed); }

/* Every page that is sealed for so many files. For one file pages 3 and 4 are bad before. */
static int sheet_is_spoiled(uint64_t files, int is_lawful, claim is_right) {
    file_count = files;
    if (!pack_sheet())
        return 0;
    struct named before = ask();
    if (!before.alike || before.open != (is_lawful ? 0 : 4) || before.inspect != (is_lawful ? 0 : 3))
        return 0;
    for (uint64_t p = 1; p <= USED; p++)
        if (is_sealed(p) && !each_change(page_at(p), p, is_right))
            return 0;
    return 1;
}

/* Sealed pages mostly, with no regard for what is lawful. */
static void fill_random(void) {
    pages = 1 + below(SMALL);
    file_count = random_file_count();
    memset(sheet, 0, PAGE * pages);
    for (uint64_t p = 1, used = below(pages + 1); p <= used; p++) {
        uint64_t action = p == 1 ? 0 : 1 + below(p - 1);
        while (action > 0 && below(20) && !is_opening(action))
            action--;
        pack_page(page_at(p), action ? (int)below(KINDS) : any_opening(), p, 1 + below(file_count), action, below(p), 1 + below(1000));
    }
}

/* What must come: byte 63 at 0, with open refused or not; else open names a higher place, the page itself, and inspect a lower place. */
enum { ZEROED_OPENS, ZEROED_REFUSED, OPEN_HIGHER, OPEN_HERE, INSPECT_LOWER, SORTS };

/* One byte of each sealed page in turn. */
static int pages_are_refused(int sorts[SORTS]) {
    for (uint64_t p = 1; p <= pages; p++) {
        uint8_t was[PAGE];
        if (!is_sealed(p))
            continue;
        memcpy(was, page_at(p), PAGE);
        int zeroed = spoil(page_at(p));
        struct named n = ask();
        if (!holds(n, p, zeroed))
            return 0;
        sorts[zeroed ? n.open ? ZEROED_REFUSED : ZEROED_OPENS : n.open > p ? OPEN_HIGHER : OPEN_HERE]++;
        sorts[INSPECT_LOWER] += !zeroed && n.inspect < p;
        memcpy(page_at(p), was, PAGE);
    }
    return 1;
}

static int random_sheets_are_spoiled(void) {
    int sorts[SORTS] = {0}, all = 1;
    for (int n = 0; n < RANDOM_SHEETS; n++) {
        fill_random();
        if (!pages_are_refused(sorts))
            return 0;
    }
    for (int i = 0; i < SORTS; i++)
        if (sorts[i] < 500)
            all = (printf("only %d times: sort %d\n", sorts[i], i), 0);
    return all;
}

int main(int count, char **words) {
    char name[80];
    seed = count > 1 ? strtoull(words[1], NULL, 10) | 1 : 20261117;
    printf("seed %llu\n", (unsigned long long)seed);
    for (int k = 0; k < KINDS; k++) {
        snprintf(name, sizeof name, "every byte of %s", each_kind[k].name);
        told(name, pages_are_spoiled(k));
    }
    told("a byte of random pages", random_pages_are_spoiled());
    told("every byte of a sheet's pages, open and inspect", sheet_is_spoiled(3, 1, is_named));
    told("every byte of a sheet's pages, for more files", sheet_is_spoiled(MOST_FILES, 1, is_named));
    told("every byte of a sheet's pages, for too few files", sheet_is_spoiled(1, 0, is_refused));
    told("a byte of random sheets, open and inspect", random_sheets_are_spoiled());
    printf("%d passed, %d failed\n", passed, failed);
    return failed != 0;
}
