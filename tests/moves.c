/* The proved move to a fresh sheet beside the plain one of plainmove.h: chains of sheets with random calls, cuts and openings between the
   moves, and moves with fates, rows, states, pages and fresh sheets that are damaged. After every move the answer, the state and every byte
   and number of both sheets, fates and rows must be the same. Then what a moved sheet is good for: it is lawful, opens, and answers reads
   as the old one does; cut after any byte it opens as an empty store, or is refused 24. Prints a line for each test and 'N passed, M
   failed'. */
#include "plaincalls.h"
#include "plainmove.h"

enum { RUNS = 4000, LARGE_RUNS = 12, SHEETS = 4, CALLS = 24, CUT_RUNS = 60, FRESH = 48 };
static uint8_t fresh[FRESH * PAGE];
static size_t fresh_size;
static int seen_refusal[32];

/* What a move has met; several may come at once. Those of DAMAGED on need something lent that no call has left. */
enum { FLOOR_GIVEN, FLOOR_OF_START, FLOOR_OF_READ, FLOOR_OF_NONE, NO_VERSION, SOME_VERSIONS, EVERY_VERSION, EXACT_ROOM, LONGER, SHORTER,
       EMPTY_VALUE, FULL_VALUE, CARRIED_AGAIN, OVERTAKEN_BELOW, ALL_COLD, SOME_COLD, ALL_REBUILT, COLD_UNDER_23, LOWEST_OF_TWO, COLD_UNDER_11,
       ONE_SHORT, COLD_UNDER_12, LAST_BYTE, AFTER_USED, DAMAGED, STRAY_CURRENT_END = DAMAGED, STRAY_TOKEN_END, END_OF_TOKEN, TOKEN_LEFT,
       NOT_NEWEST, FATE_ABOVE_END, FATE_WITHOUT_OPENING, COLD_ABOVE_DAMAGED, TWO_DAMAGED, MET };
static const char *const met[MET] = {"the old floor answered", "a start answered as the floor", "a time that was read answered as the floor",
                                     "a time answered as the floor at which an empty file was read", "no version", "some files with versions",
                                     "every file with a version", "a fresh sheet of just as many pages", "a longer fresh sheet",
                                     "a shorter fresh sheet", "a value of no bytes", "a value of 32 bytes", "a version that was carried before",
                                     "a version that overtook another image", "all rows cold", "some rows cold", "all rows rebuilt",
                                     "a cold row left cold under 23", "two undecided actions", "a cold row rebuilt under 11",
                                     "one page too few", "a cold row rebuilt under 12", "a last byte that is not blank",
                                     "a page that is not blank above those that the move needs",
                                     "a stray current end answered as the floor", "a stray token end answered as the floor",
                                     "a token's end answered as the floor", "a token in a row", "a current place that is not the newest version",
                                     "a fate 1 above the end", "a fate 1 where no opening lies", "a cold row rebuilt above a damaged one",
                                     "two damaged rows"};
static int seen_met[MET];

/* ---- what was met */

static int cold_count(struct kept *k) {
    int count = 0;
    for (uint64_t f = 1; f <= file_count; f++)
        count += row_in(k, f)[MARK] == 0;
    return count;
}

/* Which row gives the floor, if it is above the old one. */
static void meet_floor(const uint64_t row[ROW_LENGTH], uint64_t floor, int is_true) {
    int is_current = row[CURRENT_END] == floor, is_token = row[TOKEN_END] == floor;
    uint64_t start = row[CURRENT] ? start_of(row[CURRENT]) : 0;
    seen_met[FLOOR_OF_START] += is_current && start == floor;
    seen_met[FLOOR_OF_READ] += is_current && is_true && start > 0 && start < floor;
    seen_met[FLOOR_OF_NONE] += is_current && is_true && start == 0;
    seen_met[STRAY_CURRENT_END] += is_current && !is_true && start != floor;
    seen_met[STRAY_TOKEN_END] += is_token && row[TOKEN] == 0;
    seen_met[END_OF_TOKEN] += is_token && row[TOKEN] != 0;
}

static int overtakes(uint64_t place) {
    for (uint64_t p = place - 1; p > 0; p--)
        if (file_of(p) == file_of(place) && action_of(p) == action_of(place) && is_kind(p, 2))
            return 1;
    return 0;
}

static void meet_version(const uint64_t row[ROW_LENGTH], uint64_t file) {
    uint64_t place = row[CURRENT], true_row[ROW_LENGTH];
    seen_met[TOKEN_LEFT] += row[TOKEN] != 0;
    if (place == 0)
        return;
    row_of(file, kept.fates, kept.end, true_row);
    seen_met[EMPTY_VALUE] += page_at(place)[1] == 0;
    seen_met[FULL_VALUE] += page_at(place)[1] == 32;
    seen_met[CARRIED_AGAIN] += is_carried(place);
    seen_met[OVERTAKEN_BELOW] += overtakes(place);
    seen_met[NOT_NEWEST] += place != true_row[CURRENT];
}

static void meet_moved(struct kept *was, uint64_t floor, int is_true) {
    uint64_t versions = version_count(&kept), count = fresh_size / PAGE;
    int cold = cold_count(was);
    seen_met[FLOOR_GIVEN] += floor == kept.floor;
    for (uint64_t f = 1; f <= file_count; f++) {
        if (floor > kept.floor)
            meet_floor(row_in(&kept, f), floor, is_true);
        meet_version(row_in(&kept, f), f);
    }
    seen_met[versions == 0 ? NO_VERSION : versions < file_count ? SOME_VERSIONS : EVERY_VERSION]++;
    seen_met[EXACT_ROOM] += count == versions + 2;
    seen_met[LONGER] += count > pages;
    seen_met[SHORTER] += count < pages;
    seen_met[cold == 0 ? ALL_REBUILT : cold < (int)file_count ? SOME_COLD : ALL_COLD]++;
    for (uint64_t p = kept.end + 1; p <= pages; p++)
        seen_met[FATE_ABOVE_END] += kept.fates[p - 1] == 1;
}

/* A damaged row above the one that is named, and one that was cold. */
static void meet_damaged(struct kept *was, uint64_t named) {
    for (uint64_t f = named + 1; f <= file_count; f++) {
        seen_met[COLD_ABOVE_DAMAGED] += row_in(was, f)[MARK] == 0;
        seen_met[TWO_DAMAGED] += !row_holds(row_in(&kept, f), f, kept.end);
    }
}

static void meet_undecided(struct kept *was, uint64_t named) {
    seen_met[COLD_UNDER_23] += cold_count(was) > 0;
    seen_met[FATE_WITHOUT_OPENING] += !is_opening(named);
    for (uint64_t p = named + 1; p <= kept.end; p++)
        seen_met[LOWEST_OF_TWO] += kept.fates[p - 1] == 1;
}

/* `was` is what was kept before the move; `is_true` if all of it is as calls have left it. */
static void meet(struct kept *was, const uint64_t a[TOLD], int is_true) {
    if (a[WHICH] == MOVED)
        return meet_moved(was, a[FIRST], is_true);
    seen_refusal[a[FIRST]]++;
    size_t needed = PAGE * (version_count(&kept) + 2);
    switch (a[FIRST]) {
    case 23:
        return meet_undecided(was, a[SECOND]);
    case 7:
        return meet_damaged(was, a[SECOND]);
    case 11:
        seen_met[COLD_UNDER_11] += cold_count(was) > 0;
        seen_met[ONE_SHORT] += fresh_size + PAGE == needed;
        break;
    case 12:
        seen_met[COLD_UNDER_12] += cold_count(was) > 0;
        seen_met[LAST_BYTE] += all_zero(fresh, fresh_size - 1);
        seen_met[AFTER_USED] += all_zero(fresh, needed);
    }
}

/* ---- both ways */

static struct lent fresh_lent(struct kept *k) {
    return (struct lent){fresh, fresh_size, k->fates, fresh_size / PAGE, k->rows, ROW_LENGTH * file_count, k->end, k->floor, k->undecided};
}

/* The fresh sheet as it was before the last move, and after the proved one. */
static uint8_t fresh_before[sizeof fresh], fresh_after[sizeof fresh];

static int moved_alike(uint64_t a[TOLD], int is_true) {
    static uint8_t old[MOST * PAGE];
    struct kept was = kept, left = kept;
    uint64_t got[TOLD];
    memcpy(old, sheet, PAGE * pages);
    memcpy(fresh_before, fresh, sizeof fresh);
    memcpy(fresh_after, fresh, sizeof fresh);
    make_move(lent(old, &left), fresh_after, fresh_size, got);
    plain_move(a, &kept, fresh, fresh_size);
    a[END] = kept.end, a[FLOOR] = kept.floor, a[UNDECIDED] = kept.undecided;
    meet(&was, a, is_true);
    if (!memcmp(got, a, sizeof got) && !memcmp(old, sheet, PAGE * pages) && !memcmp(fresh_after, fresh, sizeof fresh)
        && !memcmp(left.fates, kept.fates, pages) && !memcmp(left.rows, kept.rows, sizeof left.rows))
        return 1;
    printf("from %llu pages for %llu files to %zu bytes:\n", (unsigned long long)pages, (unsigned long long)file_count, fresh_size);
    for (int i = 0; i < TOLD; i++)
        printf("number %d is %llu, expected %llu\n", i, (unsigned long long)got[i], (unsigned long long)a[i]);
    return 0;
}

static int opened_alike(uint64_t floor, int *refused) {
    uint64_t a[TOLD];
    struct kept was = kept;
    was.floor = kept.floor = floor;
    plain_open(a, &kept);
    *refused = a[WHICH] == REFUSED;
    return called_alike((struct call){.kind = OPEN}, sheet, was, a, &kept);
}

/* ---- what was carried */

/* By file: what the last move has carried, as long as nobody has written the file since. */
static struct carried {
    int is_known, is_there;
    uint64_t start, length;
    uint8_t value[32];
} carried[MOST_FILES + 1];

static void remember(void) {
    for (uint64_t f = 1; f <= file_count; f++) {
        uint64_t place = row_in(&kept, f)[CURRENT];
        carried[f] = (struct carried){.is_known = 1, .is_there = place != 0};
        if (place == 0)
            continue;
        carried[f].start = start_of(place);
        carried[f].length = page_at(place)[1];
        memcpy(carried[f].value, page_at(place) + 24, 32);
    }
}

/* A read outside any action of what was carried: alike in start, length and value at and above the start, refused 25 below; of a file without
   a version, none. On the old sheet what lies below the start is answered by older versions. */
static int is_answered(struct lent l, uint64_t file, uint64_t time, int is_old) {
    const struct carried *c = carried + file;
    uint64_t told[TOLD];
    make_call(l, (struct call){.kind = READ, .file = file, .time = time}, told);
    if (!c->is_there)
        return told[WHICH] == NOTHING;
    if (time < c->start)
        return is_old || (told[WHICH] == REFUSED && told[FIRST] == 25 && told[SECOND] == 0);
    return told[WHICH] == VALUE && told[SECOND] == c->start && told[THIRD] == c->length
           && !memcmp(l.sheet + PAGE * (told[FIRST] - 1) + 24, c->value, 32);
}

/* At the times about each start, for every file that nobody has written. What a read changes is put back. */
static int all_answered(struct lent l, int is_old) {
    uint64_t rows[ROW_LENGTH * MOST_FILES];
    memcpy(rows, l.rows, sizeof rows);
    for (uint64_t f = 1; f <= file_count; f++) {
        uint64_t start = carried[f].start;
        const uint64_t times[] = {0, start ? start - 1 : 0, start, start + below(50), below(200), UINT64_MAX};
        for (size_t i = 0; carried[f].is_known && i < sizeof times / sizeof *times; i++)
            if (!is_answered(l, f, times[i], is_old))
                return printf("file %llu at %llu\n", (unsigned long long)f, (unsigned long long)times[i]), 0;
    }
    memcpy(l.rows, rows, sizeof rows);
    return 1;
}

/* A moved sheet is lawful, opens with any floor, and answers as the old one, with its rows as the move left them. */
static int fresh_is_right(uint64_t floor) {
    struct kept k = kept;
    uint64_t told[TOLD];
    if (bench_inspect(fresh, fresh_size, file_count) != 0 || !all_answered(lent(sheet, &kept), 1))
        return 0;
    k.floor = below(2) ? floor : below(20);
    memset(k.fates, UNTOUCHED, sizeof k.fates);
    make_call(fresh_lent(&k), (struct call){.kind = OPEN}, told);
    k.end = told[END], k.undecided = told[UNDECIDED];
    return told[WHICH] == OPENED && told[FIRST] == version_count(&kept) + 2 && told[SECOND] == 0 && k.fates[0] == 2
           && all_answered(fresh_lent(&k), 0);
}

/* ---- random histories */

/* An undecided action, from some place on; 0 if there is none. */
static uint64_t undecided_action(void) {
    uint64_t from = below(kept.end + 1);
    for (uint64_t i = 0; i <= kept.end; i++) {
        uint64_t action = (from + i) % (kept.end + 1);
        if (action_line(action) == 0)
            return action;
    }
    return 0;
}

/* Mostly a call that is answered. */
static struct call random_call(uint8_t value[32]) {
    struct call q = {(enum kind)below(ABORT + 1), 1 + below(file_count), below(60), undecided_action(), below(33), value};
    const uint64_t *row = row_in(&kept, q.file);
    q.length = below(6) ? q.length : below(2) ? 0 : 32;
    if (q.action == 0)
        q.kind = BEGIN;
    if (q.kind == TEST || (q.kind == BEGIN && kept.undecided > 1))
        q.kind = WRITE;
    if (q.kind == READ && below(3))
        q.action = 0;
    if (q.kind == WRITE) {
        q.time = kept.floor + row[CURRENT_END] + 1 + below(9);
        q.action = row[TOKEN] && row[TOKEN] <= pages && below(2) ? action_of(row[TOKEN]) : q.action;
    }
    for (size_t i = 0; i < q.length; i++)
        value[i] = (uint8_t)below(256);
    return q;
}

static uint8_t before[MOST * PAGE];

/* A call both ways. What is written is no longer what was carried. */
static int asked_alike(struct call q) {
    uint64_t a[TOLD];
    struct kept was = kept;
    memcpy(before, sheet, PAGE * pages);
    plain_call(a, &q);
    if (q.kind == WRITE && a[WHICH] == STORED)
        carried[q.file].is_known = 0;
    return called_alike(q, before, was, a, &kept);
}

/* Calls, some of them cut, and openings; then what was carried is asked for. */
static int calls_alike(void) {
    uint8_t value[32];
    int refused = 0;
    for (uint64_t i = below(CALLS); i > 0 && !refused; i--) {
        uint64_t end = kept.end;
        if (!asked_alike(random_call(value)))
            return 0;
        int is_cut = kept.end > end && below(15) == 0;
        if (is_cut)
            cut_page(kept.end, before + PAGE * end);
        if ((is_cut || below(30) == 0) && !opened_alike(below(8) ? kept.floor : below(60), &refused))
            return 0;
    }
    return !refused && all_answered(lent(sheet, &kept), 0);
}

/* Every undecided action, mostly committed. */
static int decide_all(void) {
    uint64_t action;
    while ((action = undecided_action()) != 0 && kept.end < pages)
        if (!asked_alike((struct call){.kind = below(4) ? COMMIT : ABORT, .action = action}))
            return 0;
    return 1;
}

/* Some rows, all or none made cold, with numbers that nobody looks at. */
static void cool_rows(void) {
    uint64_t chance = below(4);
    for (uint64_t f = 1; f <= file_count; f++) {
        if (chance == 0 || below(chance) > 0)
            continue;
        for (int i = CURRENT; i < ROW_LENGTH; i++)
            row_in(&kept, f)[i] = below(2) ? row_in(&kept, f)[i] : below(pages + 2);
        row_in(&kept, f)[MARK] = 0;
    }
}

/* A sealed image of a file, 0 if none is found. */
static uint64_t some_image(uint64_t file) {
    for (int i = 0; i < 40; i++) {
        uint64_t place = 1 + below(pages);
        if (is_image(place, file))
            return place;
    }
    return 0;
}

/* A row that no call has left. */
static void damage_row(uint64_t file) {
    uint64_t *row = row_in(&kept, file), place = some_image(file);
    switch (below(6)) {
    case 0:
        row[below(ROW_LENGTH)] = below(pages + 2);
        break;
    case 1:
        row[MARK] = below(5) ? 2 : UINT64_MAX;
        break;
    case 2:
    case 3:
        row[below(2) ? CURRENT_END : TOKEN_END] = below(4) ? below(400) : UINT64_MAX;
        break;
    case 4:
        row[CURRENT] = place;
        break;
    default:
        row[TOKEN] = place, row[TOKEN_END] = below(400), row[TOKEN_ACTION] = place ? action_of(place) : 0;
    }
}

/* Something lent that no call has left. */
static void damage(void) {
    switch (below(10)) {
    case 0:
        kept.fates[below(pages)] = (uint8_t)below(6);
        break;
    case 1:
        kept.fates[below(pages)] = 1;
        break;
    case 2:
        sheet[PAGE * below(pages) + below(PAGE)] ^= (uint8_t)(1 + below(255));
        break;
    case 3:
        kept.end = below(pages + 2);
        break;
    case 4:
        kept.undecided = below(pages + 2);
        break;
    default:
        damage_row(1 + below(file_count));
    }
}

/* Mostly blank and long enough, often just so; now and then of a wrong length, too short, or with a byte that is not 0. */
static void random_fresh(int wild) {
    uint64_t versions = 0, row[ROW_LENGTH], count;
    for (uint64_t f = 1; f <= file_count && kept.end <= pages; f++) {
        row_of(f, kept.fates, kept.end, row);
        versions += row[CURRENT] != 0;
    }
    count = below(2) ? versions + 2 + below(6) : below(4) ? FRESH - below(FRESH - versions - 2) : versions + 1 - below(versions + 1);
    memset(fresh, 0, sizeof fresh);
    fresh_size = PAGE * count;
    if (below(8) == 0)
        fresh[below(2) ? fresh_size - 1 : below(fresh_size)] = (uint8_t)(1 + below(255));
    if (wild && below(12) == 0)
        fresh_size = below(2) ? 0 : fresh_size - 1 - below(PAGE - 1);
    if (fresh_size < sizeof fresh && below(8) == 0)
        fresh[fresh_size] = 1; /* it is not lent */
}

/* For some files. The rows that are not lent have numbers that must stay. */
static void blank_sheet(uint64_t count) {
    pages = count;
    file_count = random_file_count();
    memset(sheet, 0, PAGE * pages);
    memset(&kept, 0, sizeof kept);
    memset(carried, 0, sizeof carried);
    memset(row_in(&kept, file_count + 1), UNTOUCHED, ROW_LENGTH * (MOST_FILES - file_count) * sizeof *kept.rows);
}

/* The box goes over to the fresh sheet: all that was kept is gone but the floor. */
static int goes_over(uint64_t floor, int *refused) {
    pages = fresh_size / PAGE;
    memcpy(sheet, fresh, fresh_size);
    memset(kept.fates, UNTOUCHED, sizeof kept.fates);
    memset(kept.rows, UNTOUCHED, sizeof kept.rows);
    return opened_alike(floor, refused);
}

/* Calls and a move, up to a refused one. With the floor that the move answers, or another. */
static int sheet_is_left(int *refused) {
    uint64_t a[TOLD];
    if (!calls_alike() || (below(6) && !decide_all()))
        return 0;
    cool_rows();
    random_fresh(0);
    if (!moved_alike(a, 1))
        return 0;
    *refused = a[WHICH] == REFUSED;
    if (*refused)
        return a[FIRST] == 23 || a[FIRST] == 11 || a[FIRST] == 12;
    remember();
    return fresh_is_right(a[FIRST]) && goes_over(below(4) ? a[FIRST] : below(60), refused) && !*refused;
}

/* A refused move leaves the box on the old sheet: it is tried again. */
static int chains_alike(void) {
    for (int run = 0; run < RUNS; run++) {
        int refused;
        blank_sheet(2 + below(SMALL - 1));
        if (!opened_alike(below(4), &refused))
            return 0;
        for (int i = 0; i < SHEETS; i++)
            if (!sheet_is_left(&refused))
                return 0;
    }
    return 1;
}

/* Lent things that no call has left. The same move is made once more on what the first has left, mostly onto a sheet that is then used. */
static int damaged_alike(void) {
    for (int run = 0; run < 4 * RUNS; run++) {
        uint64_t a[TOLD];
        int refused;
        blank_sheet(2 + below(SMALL - 1));
        if (!opened_alike(below(4), &refused) || !calls_alike() || (below(6) && !decide_all()))
            return 0;
        if (below(2))
            cool_rows();
        for (uint64_t i = below(4); i > 0; i--)
            damage();
        random_fresh(1);
        if (!moved_alike(a, 0) || (below(4) == 0 && !moved_alike(a, 0)))
            return 0;
    }
    return 1;
}

/* From sheets of more than 1,024 pages, filled by the plain calls. */
static int large_alike(void) {
    int moves = 0, refused;
    for (int run = 0; run < LARGE_RUNS; run++) {
        uint64_t a[TOLD];
        uint8_t value[32];
        blank_sheet(1025 + below(MOST - 1024));
        if (!opened_alike(below(4), &refused))
            return 0;
        for (int i = 0; i < 20 * MOST && kept.end + 20 < pages; i++) {
            struct call q = random_call(value);
            plain_call(a, &q);
        }
        if (kept.end + 40 < pages || !decide_all())
            return 0;
        cool_rows();
        random_fresh(0);
        if (!moved_alike(a, 1))
            return 0;
        remember();
        moves += a[WHICH] == MOVED;
        if (a[WHICH] == MOVED && !fresh_is_right(a[FIRST]))
            return 0;
    }
    return moves > LARGE_RUNS / 4;
}

/* ---- cuts */

/* What an opening of the fresh sheet answers of which n bytes are stored, and all that it leaves. */
static int cut_opens(size_t n, size_t stored) {
    struct kept k, untouched;
    uint64_t told[TOLD];
    memset(&k, UNTOUCHED, sizeof k);
    untouched = k;
    k.floor = 9;
    make_call(fresh_lent(&k), (struct call){.kind = OPEN}, told);
    if (n >= PAGE && n < stored)
        return told[WHICH] == REFUSED && told[FIRST] == 24 && told[SECOND] == 0 && told[END] == 0 && told[FLOOR] == 0
               && told[UNDECIDED] == 0 && !memcmp(k.fates, untouched.fates, sizeof k.fates)
               && !memcmp(k.rows, untouched.rows, sizeof k.rows);
    uint64_t end = n == stored ? stored / PAGE : n > 0;
    return told[WHICH] == OPENED && told[FIRST] == end && told[SECOND] == 0 && told[FLOOR] == 9 && k.fates[0] == (n == stored ? 2 : 0);
}

/* A move onto it again: refused 12, but onto a sheet of which nothing is stored. */
static int cut_is_not_blank(size_t n) {
    struct kept k = kept;
    uint64_t told[TOLD];
    memcpy(fresh_after, fresh, sizeof fresh);
    make_move(lent(sheet, &k), fresh_after, fresh_size, told);
    return n == 0 ? told[WHICH] == MOVED : told[WHICH] == REFUSED && told[FIRST] == 12 && !memcmp(fresh_after, fresh, sizeof fresh);
}

/* A move that is cut after each byte; and where bytes of a page other than the first and the last are stored in any order. */
static int cuts_are_right(void) {
    size_t stored = PAGE * (version_count(&kept) + 2);
    memcpy(fresh_before, fresh, sizeof fresh);
    for (size_t n = 0; n <= stored; n++) {
        memset(fresh + n, 0, stored - n);
        if (!cut_opens(n, stored) || !cut_is_not_blank(n))
            return printf("cut after %zu of %zu bytes\n", n, stored), 0;
        if (n % PAGE > 0) {
            for (size_t i = n - n % PAGE + 1; i % PAGE < PAGE - 1; i++)
                fresh[i] = below(2) ? fresh_before[i] : 0;
            if (!cut_opens(n, stored))
                return 0;
        }
        memcpy(fresh, fresh_before, sizeof fresh);
    }
    return 1;
}

static int moves_are_cut(void) {
    int done = 0, refused;
    while (done < CUT_RUNS) {
        uint64_t a[TOLD];
        blank_sheet(SMALL);
        if (!opened_alike(below(4), &refused) || !calls_alike() || !decide_all())
            return 0;
        random_fresh(0);
        if (!moved_alike(a, 1))
            return 0;
        if (a[WHICH] == MOVED && (done++, !cuts_are_right()))
            return 0;
    }
    return 1;
}

/* ---- lengths and bounds */

/* A sheet of one decided action without images, and what a move of it is lent. */
static uint8_t fates[8];
static uint64_t rows[ROW_LENGTH * (DOOR_FILES + 1)];
static uint8_t longest[PAGE * (LONGEST + 1)];

static struct lent small_lent(void) {
    memset(sheet, 0, 8 * PAGE);
    memset(fates, 0, sizeof fates);
    memset(rows, 0, sizeof rows);
    plain_pack(sheet, 1, 0, 0, 1, 0, 0, none, 1);
    plain_pack(sheet + PAGE, 3, 1, 0, 1, 0, 0, none, 2);
    fates[0] = 2;
    return (struct lent){sheet, 3 * PAGE, fates, 3, rows, 2 * ROW_LENGTH, 2, 7, 0};
}

/* Refused 1: nothing is changed, no row is rebuilt. */
static int is_refused_1(struct lent l, size_t size) {
    uint64_t told[TOLD];
    make_move(l, longest, size, told);
    return told[WHICH] == REFUSED && told[FIRST] == 1 && told[SECOND] == 0 && told[END] == l.end && told[FLOOR] == l.floor
           && told[UNDECIDED] == l.undecided && rows[MARK] == 0 && longest[0] == 0;
}

static int old_lengths_are_right(void) {
    for (size_t size = 0; size <= 4 * PAGE; size++)
        for (size_t n = 0; n <= 5; n++)
            for (size_t numbers = 0; numbers <= 2 * ROW_LENGTH + 1; numbers++) {
                struct lent l = small_lent();
                int fits = size >= 2 * PAGE && size % PAGE == 0 && n == size / PAGE && numbers >= ROW_LENGTH && numbers % ROW_LENGTH == 0;
                l.size = size, l.pages = n, l.numbers = numbers;
                if (!fits && !is_refused_1(l, 4 * PAGE))
                    return 0;
            }
    for (size_t numbers = ROW_LENGTH * DOOR_FILES + 1; numbers <= ROW_LENGTH * (DOOR_FILES + 1); numbers++) {
        struct lent l = small_lent();
        l.numbers = numbers;
        if (!is_refused_1(l, 4 * PAGE))
            return 0;
    }
    return 1;
}

static int states_are_right(void) {
    static const uint64_t wrong[][2] = {{4, 0}, {UINT64_MAX, 0}, {2, 3}, {0, 1}, {3, UINT64_MAX}};
    for (size_t i = 0; i < sizeof wrong / sizeof *wrong; i++) {
        struct lent l = small_lent();
        l.end = wrong[i][0], l.undecided = wrong[i][1];
        if (!is_refused_1(l, 4 * PAGE))
            return 0;
    }
    return 1;
}

/* The fresh sheet of each length: 1 if it is not whole pages from 1 to 65,536, 11 if there is one, else moved. */
static int fresh_length_is_right(size_t size) {
    struct lent l = small_lent();
    uint64_t told[TOLD];
    memset(longest, 0, sizeof longest);
    if (size % PAGE || size < PAGE || size > PAGE * LONGEST)
        return is_refused_1(l, size);
    make_move(l, longest, size, told);
    if (size == PAGE)
        return told[WHICH] == REFUSED && told[FIRST] == 11 && told[SECOND] == 0 && rows[MARK] == 1;
    return told[WHICH] == MOVED && told[FIRST] == 7 && told[END] == 2 && told[FLOOR] == 7 && told[UNDECIDED] == 0 && longest[0] == 1
           && longest[2 * PAGE - 1] == 0xA5 && all_zero(longest + 2 * PAGE, sizeof longest - 2 * PAGE);
}

static int fresh_lengths_are_right(void) {
    static const size_t far[] = {PAGE * LONGEST - PAGE, PAGE * LONGEST - 1, PAGE * LONGEST, PAGE * LONGEST + 1, PAGE * LONGEST + PAGE};
    for (size_t size = 0; size <= 3 * PAGE; size++)
        if (!fresh_length_is_right(size))
            return 0;
    for (size_t i = 0; i < sizeof far / sizeof *far; i++)
        if (!fresh_length_is_right(far[i]))
            return 0;
    return 1;
}

/* One byte anywhere on the longest fresh sheet, and nothing where the answers are told in a run of another length. */
static int one_byte_is_found(void) {
    static const size_t at[] = {0, 63, 64, 127, 128, 2 * PAGE + 1, PAGE * LONGEST / 2, PAGE * LONGEST - PAGE, PAGE * LONGEST - 1};
    uint64_t told[TOLD];
    for (size_t i = 0; i < sizeof at / sizeof *at; i++) {
        struct lent l = small_lent();
        memset(longest, 0, sizeof longest);
        longest[at[i]] = (uint8_t)(1 + below(255));
        make_move(l, longest, PAGE * LONGEST, told);
        if (told[WHICH] != REFUSED || told[FIRST] != 12 || told[SECOND] != 0 || rows[MARK] != 1 || rows[ROW_LENGTH] != 1)
            return 0;
        longest[at[i]] = 0;
        if (!all_zero(longest, sizeof longest))
            return 0;
    }
    return 1;
}

static int other_runs_are_left(void) {
    for (size_t count = 0; count < TOLD; count++) {
        struct lent l = small_lent();
        uint64_t told[TOLD];
        memset(told, UNTOUCHED, sizeof told);
        memset(longest, 0, 4 * PAGE);
        door_move(l.sheet, l.size, l.fates, l.pages, l.rows, l.numbers, l.end, l.floor, l.undecided, longest, 4 * PAGE, told, count);
        for (int i = 0; i < TOLD; i++)
            if (told[i] != 0x4d4d4d4d4d4d4d4d)
                return 0;
        if (rows[MARK] != 0 || longest[0] != 0)
            return 0;
    }
    return 1;
}

/* 256 files, each with a version, from the last file down. */
static uint8_t most[PAGE * (DOOR_FILES + 2)];

static void pack_version(uint8_t *page, uint64_t file, uint64_t place) {
    uint8_t value[32] = {(uint8_t)file};
    plain_pack(page, 2, 1 + (int)(file % 32), file, 1, 0, 1000 - file, value, place);
}

static void fill_most(void) {
    uint64_t all = DOOR_FILES + 2;
    plain_pack(most, 1, 0, 0, 1, 0, 0, none, 1);
    plain_pack(most + PAGE * (all - 1), 3, 1, 0, 1, 0, 0, none, all);
    for (uint64_t f = 1; f <= DOOR_FILES; f++)
        pack_version(most + PAGE * (all - 1 - f), f, all - f);
}

/* Their rows are cold. 258 pages are needed, and are as the request says them; what is above them stays blank. */
static int most_are_carried(uint64_t count) {
    static uint8_t most_fates[DOOR_FILES + 2] = {2}, page[PAGE];
    uint64_t told[TOLD], all = DOOR_FILES + 2;
    struct lent l = {most, sizeof most, most_fates, all, rows, ROW_LENGTH * DOOR_FILES, all, 300, 0};
    memset(rows, 0, sizeof rows);
    memset(longest, 0, sizeof longest);
    make_move(l, longest, PAGE * count, told);
    if (count < all)
        return told[WHICH] == REFUSED && told[FIRST] == 11 && all_zero(longest, sizeof longest);
    int right = told[WHICH] == MOVED && told[FIRST] == 999 && longest[0] == 1 && longest[1] == 1 && longest[PAGE * all - PAGE] == 3;
    for (uint64_t f = 1; f <= DOOR_FILES; f++) {
        pack_version(page, f, f + 1);
        right = right && !memcmp(longest + PAGE * f, page, PAGE);
    }
    return right && all_zero(longest + PAGE * all, sizeof longest - PAGE * all) && bench_inspect(longest, PAGE * all, DOOR_FILES) == 0;
}

static int most_files_are_right(void) {
    static const uint64_t counts[] = {1, DOOR_FILES + 1, DOOR_FILES + 2, DOOR_FILES + 3, 1024, 1025, LONGEST};
    fill_most();
    for (size_t i = 0; i < sizeof counts / sizeof *counts; i++)
        if (!most_are_carried(counts[i]))
            return 0;
    return 1;
}

/* ---- one conversation, number by number */

/* Answered so: which, and its first three values. */
static struct kept told_kept;
static int is_told(struct call q, uint64_t which, uint64_t first, uint64_t second, uint64_t third) {
    uint64_t told[TOLD];
    make_call(lent(sheet, &told_kept), q, told);
    told_kept.end = told[END], told_kept.undecided = told[UNDECIDED];
    int right = told[WHICH] == which && told[FIRST] == first && told[SECOND] == second && told[THIRD] == third;
    if (!right)
        printf("call %d: %llu %llu %llu %llu\n", q.kind, (unsigned long long)told[WHICH], (unsigned long long)told[FIRST],
               (unsigned long long)told[SECOND], (unsigned long long)told[THIRD]);
    return right;
}

static int reads(uint64_t file, uint64_t time, uint64_t action, uint64_t which, uint64_t first, uint64_t second, uint64_t third) {
    return is_told((struct call){.kind = READ, .file = file, .time = time, .action = action}, which, first, second, third);
}

/* Three files, the second without a version; file 1 is written at 10 and read at 40. */
static int old_is_told(void) {
    const uint8_t *text = (const uint8_t *)"ABC";
    pages = 9, file_count = 3;
    memset(sheet, 0, PAGE * pages);
    memset(&told_kept, 0, sizeof told_kept);
    told_kept.floor = 7;
    return is_told((struct call){.kind = OPEN}, OPENED, 0, 0, 0) && is_told((struct call){.kind = BEGIN}, STORED, 1, 0, 0)
           && is_told((struct call){WRITE, 3, 25, 1, 2, text}, STORED, 2, 0, 0)
           && is_told((struct call){WRITE, 1, 10, 1, 1, text}, STORED, 3, 0, 0)
           && is_told((struct call){.kind = COMMIT, .action = 1}, STORED, 4, 0, 0) && reads(1, 40, 0, VALUE, 3, 10, 1)
           && reads(1, 9, 0, NOTHING, 0, 0, 0) && is_told((struct call){.kind = BEGIN}, STORED, 5, 0, 0);
}

/* Refused 23 while action 5 is undecided; then to eight pages, of which four are stored, with floor 40. */
static int move_is_told(void) {
    uint8_t value[32] = "AB", page[4 * PAGE];
    uint64_t told[TOLD];
    memset(fresh, 0, sizeof fresh);
    plain_pack(page, 1, 1, 0, 1, 0, 0, none, 1);
    plain_pack(page + 2 * PAGE, 2, 2, 3, 1, 0, 25, value, 3);
    value[1] = 0;
    plain_pack(page + PAGE, 2, 1, 1, 1, 0, 10, value, 2);
    plain_pack(page + 3 * PAGE, 3, 1, 0, 1, 0, 0, none, 4);
    make_move(lent(sheet, &told_kept), fresh, 8 * PAGE, told);
    if (told[WHICH] != REFUSED || told[FIRST] != 23 || told[SECOND] != 5 || !all_zero(fresh, sizeof fresh)
        || !is_told((struct call){.kind = ABORT, .action = 5}, STORED, 6, 0, 0))
        return 0;
    make_move(lent(sheet, &told_kept), fresh, 8 * PAGE, told);
    return told[WHICH] == MOVED && told[FIRST] == 40 && told[SECOND] == 0 && told[END] == 6 && told[FLOOR] == 7 && told[UNDECIDED] == 0
           && !memcmp(fresh, page, sizeof page) && all_zero(fresh + 4 * PAGE, sizeof fresh - 4 * PAGE);
}

/* On the fresh sheet action 1 is the move, and the next one is 5. Below a carried start 25 stays, also past a newer version. */
static int fresh_is_told(void) {
    const uint8_t *text = (const uint8_t *)"D";
    pages = 8;
    memcpy(sheet, fresh, PAGE * pages);
    told_kept.floor = 40;
    return is_told((struct call){.kind = OPEN}, OPENED, 4, 0, 0) && reads(1, 9, 0, REFUSED, 25, 0, 0) && reads(1, 10, 0, VALUE, 2, 10, 1)
           && reads(1, 40, 0, VALUE, 2, 10, 1) && reads(2, 5, 0, NOTHING, 0, 0, 0) && reads(3, 24, 0, REFUSED, 25, 0, 0)
           && reads(3, 25, 0, VALUE, 3, 25, 2) && is_told((struct call){.kind = TEST, .action = 1}, FATE, 2, 4, 0)
           && is_told((struct call){.kind = COMMIT, .action = 1}, STORED, 4, 0, 0)
           && is_told((struct call){.kind = ABORT, .action = 1}, REFUSED, 6, 0, 0) && is_told((struct call){.kind = BEGIN}, STORED, 5, 0, 0)
           && is_told((struct call){WRITE, 2, 40, 5, 1, text}, REFUSED, 10, 0, 0)
           && is_told((struct call){WRITE, 1, 41, 5, 1, text}, STORED, 6, 0, 0) && reads(1, 9, 5, REFUSED, 25, 0, 0)
           && reads(1, 41, 5, VALUE, 6, 41, 1) && reads(1, 40, 0, VALUE, 2, 10, 1) && reads(1, 41, 0, REFUSED, 9, 5, 0)
           && is_told((struct call){.kind = COMMIT, .action = 5}, STORED, 7, 0, 0) && reads(1, 41, 0, VALUE, 6, 41, 1)
           && reads(1, 10, 0, VALUE, 2, 10, 1) && reads(1, 9, 0, REFUSED, 25, 0, 0);
}

/* ---- all that is to come */

static int all_seen(void) {
    static const int refusals[] = {1, 7, 11, 12, 23};
    int all = 1;
    for (size_t i = 0; i < sizeof refusals / sizeof *refusals; i++)
        if (seen_refusal[refusals[i]] < 100)
            all = (printf("refusal %d came %d times\n", refusals[i], seen_refusal[refusals[i]]), 0);
    for (int n = 0; n < MET; n++)
        if (seen_met[n] < 40)
            all = (printf("%s came %d times\n", met[n], seen_met[n]), 0);
    return all;
}

int main(int count, char **words) {
    seed = count > 1 ? strtoull(words[1], NULL, 10) | 1 : 20261118;
    printf("seed %llu\n", (unsigned long long)seed);
    told("chains of moves, with calls and cuts between them", chains_alike());
    told("moves with damaged sheets, fates, rows, states and fresh sheets", damaged_alike());
    told("every refusal seen, and all that is to be met", all_seen());
    told("moves from more than 1,024 pages", large_alike());
    told("moves cut after every byte: an empty store, 24, or the moved sheet", moves_are_cut());
    told("lengths of the old sheet, fates and rows", old_lengths_are_right());
    told("ends and open counts that are too high", states_are_right());
    told("lengths of the fresh sheet, up to 65,537 pages", fresh_lengths_are_right());
    told("one byte of the longest fresh sheet, the first to the last", one_byte_is_found());
    told("answers told in a run of another length", other_runs_are_left());
    told("256 files, to 1 to 65,536 pages", most_files_are_right());
    told("a conversation on the old sheet", old_is_told());
    told("a move, refused 23 and then answered 40", move_is_told());
    told("a conversation on the fresh sheet", fresh_is_told());
    printf("%d passed, %d failed\n", passed, failed);
    return failed != 0;
}
