/* Times the store's layers, beside the plain check word loop, beside SQLite and beside each other, in one run. The loops over
   the pages are Rattle's own (crates/harness). The rows of a table take turns, and each keeps its best round, so that a busy
   machine troubles all alike. */
#include <stdio.h>
#include <stdlib.h>
#include <time.h>
#include <unistd.h>
#include "../c/desk.h"
#include "../tests/door.h"
#include "../tests/plain.h"
#include "../tests/plainweeks.h"
#include "sqlite.h"

enum { FILES = 256, NEWEST = 254, OLDEST = 255, ABSENT = 256, USED = 28, MOST = 65536, READS = 64 };
static const uint8_t value[32] = "opens at eight, shuts at six";
static const uint8_t none[32];

/* How a sheet is filled: actions are an opening, six images and an outcome each, and may have a small one below them, an opening and its
   outcome. Images are all under one opening, and their starts grow with the place, or fall. Tokens are one a file, all of one action or all but
   the last of another; versions are one a file, of one action. The rows of both are rebuilt. Weeks of opening hours, of any edition, are one in
   the place of each page. */
enum fill {
    BLANK, OPENINGS, IMAGES, FALLING_IMAGES, TORN, ACTIONS, SMALL_ACTION, LINKS, TOKENS, OTHERS_TOKENS, VERSIONS, OLD_WEEKS, NEW_WEEKS
};

struct sheet {
    uint8_t *bytes, *fates;
    uint64_t *numbers, pages; /* of the rows */
};

static uint64_t run_word(struct sheet s) {
    uint64_t sum = 0;
    for (uint64_t p = 0; p < s.pages; p++)
        sum += plain_word(s.bytes + PAGE * p);
    return sum;
}
static uint64_t run_shifted_word(struct sheet s) {
    uint64_t sum = 0;
    for (uint64_t p = 0; p < s.pages; p++)
        sum += shifted_word(s.bytes + PAGE * p);
    return sum;
}
/* One byte of each page, from the last down: what the memory alone takes. */
static uint64_t run_touch(struct sheet s) {
    uint64_t sum = 0;
    for (uint64_t p = s.pages; p > 0; p--)
        sum += *(volatile uint8_t *)(s.bytes + PAGE * (p - 1));
    return sum;
}
/* Every byte, eight at a time. */
static uint64_t run_bytes(struct sheet s) {
    uint64_t sum = 0, word;
    for (size_t i = 0; i < PAGE * s.pages; i += sizeof word) {
        memcpy(&word, s.bytes + i, sizeof word);
        sum += word;
    }
    return sum;
}
static uint64_t run_test(struct sheet s) { return bench_test(s.bytes, PAGE * s.pages, FILES); }
static uint64_t run_seek(struct sheet s) { return bench_seek(s.bytes, PAGE * s.pages, FILES, ABSENT); }
static uint64_t run_pack(struct sheet s) { return bench_pack(s.bytes, PAGE * s.pages, FILES, USED, value); }
/* A call on a sheet with this end, and one of the numbers that it tells. Inlined, so that no struct is copied on the way. */
static inline __attribute__((always_inline)) uint64_t called(struct sheet s, uint64_t files, uint64_t end, uint64_t undecided,
                                                             struct call c, int which) {
    uint64_t told[TOLD];
    make_call((struct lent){s.bytes, PAGE * s.pages, s.fates, s.pages, s.numbers, ROW_LENGTH * files, end, 0, undecided}, c, told);
    return told[which];
}
static uint64_t run_open(struct sheet s) { return called(s, FILES, 0, 0, (struct call){.kind = OPEN}, END); }
static uint64_t run_inspect(struct sheet s) { return bench_inspect(s.bytes, PAGE * s.pages, FILES); }
static uint64_t rebuild(struct sheet s, uint64_t file) {
    return bench_walk(s.bytes, PAGE * s.pages, s.fates, s.pages, FILES, file, s.pages);
}
static uint64_t run_newest(struct sheet s) { return rebuild(s, NEWEST) > s.pages - 8; }
static uint64_t run_oldest(struct sheet s) { return rebuild(s, OLDEST); }
static uint64_t run_absent(struct sheet s) { return rebuild(s, ABSENT); }

/* The place of the outcome: action 1's at page 2, so that all others are passed, and the last action's. */
static uint64_t test_place(struct sheet s, uint64_t action) {
    return called(s, FILES, s.pages, 0, (struct call){.kind = TEST, .action = action}, SECOND);
}
static uint64_t run_outcome_oldest(struct sheet s) { return test_place(s, 1); }
static uint64_t run_outcome_newest(struct sheet s) { return test_place(s, s.pages - 7); }

static uint64_t run_highest(struct sheet s) { return door_highest_start(s.bytes, PAGE * s.pages, FILES); }

/* One commit a page of the action that was committed last. */
static uint64_t run_again(struct sheet s) {
    uint64_t told = 0;
    for (uint64_t p = 0; p < s.pages; p++)
        told += called(s, FILES, s.pages, 0, (struct call){.kind = COMMIT, .action = s.pages - 7}, FIRST) == s.pages;
    return told;
}

/* Whole actions of begin, two writes and commit on a blank sheet, until it is full: how many. */
static uint64_t act(struct sheet s, uint64_t files) {
    uint64_t end = 0, done = 0;
    memset(s.bytes, 0, PAGE * s.pages);
    memset(s.fates, 0, s.pages);
    memset(s.numbers, 0, ROW_LENGTH * FILES * sizeof *s.numbers);
    for (uint64_t f = 0; f < files; f++)
        s.numbers[ROW_LENGTH * f + MARK] = 1; /* rebuilt: these files have no version */
    for (; end + 4 <= s.pages; done++) {
        uint64_t action = called(s, files, end, 0, (struct call){.kind = BEGIN}, FIRST);
        for (uint64_t k = 1; k <= 2; k++)
            if (called(s, files, end + k, 1, (struct call){WRITE, 1 + (2 * done + k) % files, done + 1, action, USED, value}, WHICH)
                != STORED)
                return 0;
        if (called(s, files, end + 3, 1, (struct call){.kind = COMMIT, .action = action}, WHICH) != STORED)
            return 0;
        end += 4;
    }
    return done;
}
static uint64_t run_act_few(struct sheet s) { return act(s, 8); }
static uint64_t run_act_many(struct sheet s) { return act(s, FILES); }

/* One read a page of the current version, of file after file. */
static uint64_t run_current(struct sheet s) {
    uint64_t values = 0;
    for (uint64_t p = 0; p < s.pages; p++)
        values += called(s, FILES, s.pages, 0, (struct call){.kind = READ, .file = 1 + p % 250, .time = UINT64_MAX}, WHICH) == VALUE;
    return values;
}
/* One read from the newest version of file 1 past the oldest: none. */
static uint64_t run_links(struct sheet s) {
    return called(s, FILES, s.pages, 0, (struct call){.kind = READ, .file = 1}, WHICH);
}
/* So many reads of file 1, each at a time that lies some versions back. */
static uint64_t back;
static uint64_t run_past(struct sheet s) {
    uint64_t start = 0;
    for (int k = 0; k < READS; k++)
        start = called(s, FILES, s.pages, 0, (struct call){.kind = READ, .file = 1, .time = s.pages - back}, SECOND);
    return start;
}
static uint64_t run_past_sqlite(struct sheet s) { return sqlite_read(READS, s.pages - back); }
static uint64_t run_act_sqlite(struct sheet s) { return sqlite_act(s.pages / 4, 8, value, USED); }
/* A rebuilt row with a token and no version. */
static void set_token(uint64_t *row, uint64_t place, uint64_t action) {
    row[MARK] = 1, row[CURRENT] = row[CURRENT_END] = 0;
    row[TOKEN] = place, row[TOKEN_END] = 1, row[TOKEN_ACTION] = action;
}
/* A commit that settles a token of every file, and the outcome, fate and rows put back. */
static uint64_t run_commit(struct sheet s) {
    for (uint64_t f = 0; f < FILES; f++)
        set_token(s.numbers + ROW_LENGTH * f, f + 2, 1);
    memset(s.bytes + PAGE * (FILES + 1), 0, PAGE);
    s.fates[0] = 1;
    uint64_t which = called(s, FILES, FILES + 1, 1, (struct call){.kind = COMMIT, .action = 1}, WHICH);
    return which == STORED && s.numbers[CURRENT] == 2 && s.numbers[ROW_LENGTH * (FILES - 1) + CURRENT] == FILES + 1;
}
/* A commit of action 2, which has the last file's token alone, and the outcome, fate and row put back. */
static uint64_t run_commit_past(struct sheet s) {
    uint64_t *last = s.numbers + ROW_LENGTH * (FILES - 1);
    set_token(last, FILES + 2, 2);
    memset(s.bytes + PAGE * (FILES + 2), 0, PAGE);
    s.fates[1] = 1;
    uint64_t which = called(s, FILES, FILES + 2, 2, (struct call){.kind = COMMIT, .action = 2}, WHICH);
    return which == STORED && last[CURRENT] == FILES + 2 && s.numbers[TOKEN] == 3;
}
/* A move of every file's version to a sheet of 1,024 pages, and what it has stored put back to 0. */
static uint64_t run_move(struct sheet s) {
    static uint8_t fresh[PAGE * 1024];
    uint64_t told[TOLD], end = FILES + 2;
    memset(fresh, 0, PAGE * end);
    make_move((struct lent){s.bytes, PAGE * s.pages, s.fates, s.pages, s.numbers, ROW_LENGTH * FILES, end, 0, 0}, fresh, sizeof fresh, told);
    return told[WHICH] == MOVED && told[FIRST] == 1 && fresh[PAGE * end - 1] == 0xA5 && fresh[PAGE * end] == 0;
}

/* How many weeks pass the test as this edition, and how many are converted, with two keyholders. Inlined, so that each function is called by
   its name. */
typedef uint64_t week_test(const uint8_t *, size_t);
typedef uint64_t converter(const uint8_t *, size_t, uint16_t, uint8_t *, size_t);
static inline __attribute__((always_inline)) uint64_t weeks_passed(struct sheet s, week_test *test, size_t size) {
    uint64_t right = 0;
    for (uint64_t p = 0; p < s.pages; p++)
        right += test(s.bytes + PAGE * p, size) == plain_edition(size);
    return right;
}
static inline __attribute__((always_inline)) uint64_t weeks_converted(struct sheet s, converter *convert, size_t size, size_t room) {
    static uint8_t out[DUAL];
    uint64_t done = 0;
    for (uint64_t p = 0; p < s.pages; p++)
        done += convert(s.bytes + PAGE * p, size, 0x8001, out, room) == 0;
    return done;
}
static uint64_t run_plain_old_test(struct sheet s) { return weeks_passed(s, plain_week_test, OLD); }
static uint64_t run_plain_new_test(struct sheet s) { return weeks_passed(s, plain_week_test, NEW); }
static uint64_t run_plain_dual_test(struct sheet s) { return weeks_passed(s, plain_week_test, DUAL); }
static uint64_t run_old_test(struct sheet s) { return weeks_passed(s, desk_week_test, OLD); }
static uint64_t run_new_test(struct sheet s) { return weeks_passed(s, desk_week_test, NEW); }
static uint64_t run_dual_test(struct sheet s) { return weeks_passed(s, desk_week_test, DUAL); }
static uint64_t run_plain_to_new(struct sheet s) { return weeks_converted(s, plain_convert, OLD, NEW); }
static uint64_t run_plain_to_old(struct sheet s) { return weeks_converted(s, plain_convert, NEW, OLD); }
static uint64_t run_plain_to_dual(struct sheet s) { return weeks_converted(s, plain_convert, NEW, DUAL); }
static uint64_t run_to_new(struct sheet s) { return weeks_converted(s, desk_convert, OLD, NEW); }
static uint64_t run_to_old(struct sheet s) { return weeks_converted(s, desk_convert, NEW, OLD); }
static uint64_t run_to_dual(struct sheet s) { return weeks_converted(s, desk_convert, NEW, DUAL); }

struct row {
    const char *what;
    uint64_t (*run)(struct sheet sheet);
    enum fill fill;
    int64_t answer; /* what each run must answer; -1: anything; -2: the number of pages */
    double reach;   /* the ratio to the first row that is to be reached, 0: none asked */
    double best;    /* nanoseconds a unit */
    struct sheet sheet;
    uint64_t units; /* what the time is shared among, 0: the pages */
};

static double now(void) {
    struct timespec t;
    clock_gettime(CLOCK_MONOTONIC, &t);
    return 1e9 * (double)t.tv_sec + (double)t.tv_nsec;
}

/* A lawful sheet of actions, above a small one of so many pages; the files NEWEST and OLDEST have one image, in the last and in the
   first action. */
static void fill_actions(struct sheet s, uint64_t small) {
    static uint64_t last[FILES + 1], start[FILES + 1];
    memset(last, 0, sizeof last);
    memset(start, 0, sizeof start);
    if (small > 0) {
        plain_pack(s.bytes, 1, 0, 0, 1, 0, 0, none, 1);
        plain_pack(s.bytes + PAGE, 3, 1, 0, 1, 0, 0, none, 2);
    }
    for (uint64_t p = small + 1, file = 0; p <= s.pages; p++) {
        uint8_t *page = s.bytes + PAGE * (p - 1);
        uint64_t at = (p - 1 - small) % 8, action = p - at;
        if (at == 0)
            plain_pack(page, 1, 0, 0, p, 0, 0, none, p);
        else if (at == 7)
            plain_pack(page, 3, 1, 0, action, 0, 0, none, p);
        else {
            uint64_t f = 1 + file++ % (NEWEST - 1);
            if (p == small + 2)
                f = OLDEST;
            else if (p == s.pages - 1)
                f = NEWEST;
            plain_pack(page, 2, USED, f, action, last[f], start[f] + 1, value, p);
            last[f] = p;
            start[f]++;
        }
    }
}

/* So many openings, and above them a token of each file: the first action's, but the last file's is the last one's. */
static void fill_tokens(struct sheet s, uint64_t openings) {
    for (uint64_t p = 1; p <= openings + FILES; p++) {
        uint8_t *page = s.bytes + PAGE * (p - 1);
        uint64_t file = p - openings, action = file == FILES ? openings : 1;
        if (p <= openings) {
            plain_pack(page, 1, 0, 0, p, 0, 0, none, p);
            s.fates[p - 1] = 1;
        } else {
            plain_pack(page, 2, USED, file, action, 0, 1, value, p);
            set_token(s.numbers + ROW_LENGTH * (file - 1), p, action);
        }
    }
}

/* The tokens of one action, committed. */
static void fill_versions(struct sheet s) {
    fill_tokens(s, 1);
    plain_pack(s.bytes + PAGE * (FILES + 1), 3, 1, 0, 1, 0, 0, none, FILES + 2);
    s.fates[0] = 2;
    for (uint64_t f = 0; f < FILES; f++) {
        uint64_t *row = s.numbers + ROW_LENGTH * f;
        row[CURRENT] = row[TOKEN], row[CURRENT_END] = row[TOKEN_END];
        row[TOKEN] = row[TOKEN_END] = row[TOKEN_ACTION] = 0;
    }
}

/* Weeks that a head of each edition can take, each other than the one before; behind each are two keyholders. */
static void fill_weeks(struct sheet s, int is_old) {
    for (uint64_t p = 0; p < s.pages; p++) {
        plain_put(s.bytes + PAGE * p, NEW, DUAL, 3 << p % 15);
        for (unsigned k = 0; k < TIMES; k++) {
            unsigned quarter = (unsigned)(7 * p + 5 * k) % 49 + (k % 2 ? 48 : 0);
            uint8_t *week = s.bytes + PAGE * p;
            if (is_old)
                week[k] = (uint8_t)quarter;
            else
                plain_put(week, (int)(2 * k), (int)(2 * k + 2), QUARTER * quarter);
        }
    }
}

static struct sheet filled(enum fill fill, uint64_t pages) {
    struct sheet s = {calloc(pages, PAGE), calloc(pages, 1), calloc(ROW_LENGTH * FILES, sizeof *s.numbers), pages};
    if (!s.bytes || !s.fates || !s.numbers)
        exit(1);
    int is_of_weeks = fill == OLD_WEEKS || fill == NEW_WEEKS;
    int is_of_actions = fill == ACTIONS || fill == SMALL_ACTION, is_of_rows = fill == TOKENS || fill == OTHERS_TOKENS || fill == VERSIONS;
    if (is_of_actions) {
        fill_actions(s, fill == SMALL_ACTION ? 2 : 0);
        run_open(s); /* sets the fates that rebuild, read and test go by */
    }
    if (fill == VERSIONS)
        fill_versions(s);
    else if (is_of_rows)
        fill_tokens(s, fill == TOKENS ? 1 : 2);
    if (is_of_weeks)
        fill_weeks(s, fill == OLD_WEEKS);
    s.fates[0] = fill == LINKS ? 2 : s.fates[0];
    for (uint64_t p = 1; fill != BLANK && !is_of_weeks && !is_of_actions && !is_of_rows && p <= pages; p++) {
        uint8_t *page = s.bytes + PAGE * (p - 1);
        if (fill == OPENINGS || p == 1)
            plain_pack(page, 1, 0, 0, p, 0, 0, none, p);
        else if (fill == LINKS)
            plain_pack(page, 2, USED, 1, 1, p > 2 ? p - 1 : 0, p, value, p);
        else
            plain_pack(page, 2, USED, 1 + p % (FILES - 1), 1, p / 2, fill == FALLING_IMAGES ? pages + 2 - p : p, value, p);
        if (fill == TORN)
            page[63] = 0;
    }
    return s;
}

static void time_row(struct row *row, int turns) {
    uint64_t answer = 0;
    double t = now();
    for (int k = 0; k < turns; k++)
        answer = row->run(row->sheet);
    t = (now() - t) / turns / (double)(row->units ? row->units : row->sheet.pages);
    if (t < row->best)
        row->best = t;
    int64_t expected = row->answer == -2 ? (int64_t)row->sheet.pages : row->answer;
    if (expected >= 0 && answer != (uint64_t)expected) {
        fprintf(stderr, "%s: answered %llu, expected %lld\n", row->what, (unsigned long long)answer, (long long)expected);
        exit(1);
    }
}

static void show_progress(const char *title, int round, int rounds) {
    if (isatty(2))
        fprintf(stderr, "\r%s: round %d of %d ", title, round, rounds);
    else if (round == 1)
        fprintf(stderr, "%s: %d rounds\n", title, rounds);
    if (isatty(2) && round == rounds)
        fprintf(stderr, "\r%70s\r", "");
}

static void show_row(const struct row *row, double first) {
    double ratio = row->best / first;
    printf("  %-48s %10.2f %8.3f", row->what, row->best, ratio);
    if (row->reach > 0)
        printf(" %8.2f%s", row->reach, ratio <= row->reach ? "" : " missed");
    printf("\n");
}

/* One table: the rows in turn, round after round, on sheets of so many pages. Ratios are to the first row. */
static void table(const char *title, struct row *rows, int count, uint64_t pages, int rounds, int turns) {
    for (int i = 0; i < count; i++) {
        rows[i].best = 1e18;
        rows[i].sheet = filled(rows[i].fill, pages);
    }
    for (int r = 1; r <= rounds; r++) {
        show_progress(title, r, rounds);
        for (int i = 0; i < count; i++)
            time_row(&rows[i], turns);
    }
    printf("%-50s %10s %8s %8s\n", title, "ns each", "ratio", "reach");
    for (int i = 0; i < count; i++) {
        show_row(&rows[i], rows[0].best);
        free(rows[i].sheet.bytes);
        free(rows[i].sheet.fates);
        free(rows[i].sheet.numbers);
    }
    fflush(stdout);
}

#define TABLE(title, rows, pages, rounds, turns) table(title, rows, sizeof rows / sizeof *rows, pages, rounds, turns)

static void time_page(void) {
    struct row page[] = {
        {"plain check word of 60 bytes in C", run_word, IMAGES, -1, 0, 0, {0}, 0},
        {"the same without multiplication in C", run_shifted_word, IMAGES, -1, 0, 0, {0}, 0},
        {"page test, image", run_test, IMAGES, -2, 0.16, 0, {0}, 0},
        {"page test, opening", run_test, OPENINGS, -2, 0, 0, {0}, 0},
        {"page test, blank", run_test, BLANK, 0, 0, 0, {0}, 0},
        {"page test, torn", run_test, TORN, 0, 0, 0, {0}, 0},
        {"quick look, another file's image", run_seek, IMAGES, 0, 0.02, 0, {0}, 0},
        {"pack, image", run_pack, BLANK, 1023, 0.24, 0, {0}, 0},
        {"its 64 bytes read in C", run_bytes, IMAGES, -1, 0, 0, {0}, 0},
    };
    TABLE("the page, 1,024 pages", page, 1024, 200, 8);
}

static void time_recovery(void) {
    struct row recovery[] = {
        {"page test", run_test, ACTIONS, -2, 0, 0, {0}, 0},
        {"open", run_open, ACTIONS, -2, 1.3, 0, {0}, 0},
        {"inspect", run_inspect, ACTIONS, 0, 1.6, 0, {0}, 0},
        {"rebuild, image newest", run_newest, ACTIONS, 1, 0, 0, {0}, 0},
        {"rebuild, image oldest", run_oldest, ACTIONS, 2, 0, 0, {0}, 0},
        {"rebuild, file absent", run_absent, ACTIONS, 0, 0.1, 0, {0}, 0},
        {"test, outcome newest", run_outcome_newest, ACTIONS, -2, 0, 0, {0}, 0},
        {"test, outcome oldest", run_outcome_oldest, SMALL_ACTION, 2, 0.1, 0, {0}, 0},
        {"highest start, growing", run_highest, IMAGES, -2, 0.1, 0, {0}, 0},
        {"highest start, falling", run_highest, FALLING_IMAGES, -2, 0, 0, {0}, 0},
        {"one byte of each page read in C", run_touch, ACTIONS, -1, 0, 0, {0}, 0},
        {"every byte read once in C", run_bytes, ACTIONS, -1, 0, 0, {0}, 0},
    };
    for (uint64_t pages = 256; pages <= MOST; pages *= 4) {
        char title[64];
        snprintf(title, sizeof title, "recovery, %llu pages", (unsigned long long)pages);
        TABLE(title, recovery, pages, pages > 4096 ? 20 : 100, (int)(1 + 16384 / pages));
    }
}

/* The unit is a page, an action, a read, a link or a file. */
static void time_calls(void) {
    struct row calls[] = {
        {"page test", run_test, IMAGES, -2, 0, 0, {0}, 0},
        {"begin, 2 writes, commit; 8 files", run_act_few, BLANK, 256, 16, 0, {0}, 256},
        {"begin, 2 writes, commit; 256 files", run_act_many, BLANK, 256, 23, 0, {0}, 256},
        {"read of the current version", run_current, ACTIONS, -2, 3, 0, {0}, 0},
        {"read by 1,022 links, a link", run_links, LINKS, 5, 2, 0, {0}, 1022},
        {"commit that settles 256 rows, a row", run_commit, TOKENS, 1, 0, 0, {0}, FILES},
        {"commit past 255 tokens of another action, a row", run_commit_past, OTHERS_TOKENS, 1, 0, 0, {0}, FILES},
        {"commit asked again after the commit", run_again, ACTIONS, -2, 0, 0, {0}, 0},
        {"move of 256 files, a row", run_move, VERSIONS, 1, 0, 0, {0}, FILES},
    };
    TABLE("the calls, 1,024 pages", calls, 1024, 100, 8);
}

/* The same work by the store and by SQLite: an action over two of 8 files, and a read of a version some versions back. */
static void time_sqlite(void) {
    char title[64];
    for (uint64_t pages = 256; pages <= 16384; pages *= 8) {
        uint64_t actions = pages / 4;
        struct row act[] = {
            {"begin, 2 writes, commit", run_act_few, BLANK, (int64_t)actions, 0, 0, {0}, actions},
            {"SQLite: begin, 2 inserts, commit", run_act_sqlite, BLANK, (int64_t)actions, 0, 0, {0}, actions},
        };
        snprintf(title, sizeof title, "%llu actions over two files", (unsigned long long)actions);
        TABLE(title, act, pages, 20, 1);
    }
    uint64_t pages = 4096;
    sqlite_fill(pages - 1, value, USED);
    for (back = 1; back <= 1000; back *= 10) {
        struct row past[] = {
            {"read, link by link", run_past, LINKS, (int64_t)(pages - back), 0, 0, {0}, READS},
            {"SQLite: select by file and start", run_past_sqlite, LINKS, (int64_t)(pages - back), 0, 0, {0}, READS},
        };
        snprintf(title, sizeof title, "a read %llu back, of 4,095 versions", (unsigned long long)back);
        TABLE(title, past, pages, 20, 1);
    }
}

/* The unit is a week; each beside the plain loop in C. */
static void time_weeks(void) {
#define ROW(what, run, fill) {what, run, fill, -2, 0, 0, {0}, 0}
    struct row tables[][2] = {
        {ROW("plain week test in C, old", run_plain_old_test, OLD_WEEKS), ROW("week test, old", run_old_test, OLD_WEEKS)},
        {ROW("plain week test in C, new", run_plain_new_test, NEW_WEEKS), ROW("week test, new", run_new_test, NEW_WEEKS)},
        {ROW("plain week test in C, dual", run_plain_dual_test, NEW_WEEKS), ROW("week test, dual", run_dual_test, NEW_WEEKS)},
        {ROW("plain converter in C, old to new", run_plain_to_new, OLD_WEEKS), ROW("convert, old to new", run_to_new, OLD_WEEKS)},
        {ROW("plain converter in C, new to old", run_plain_to_old, NEW_WEEKS), ROW("convert, new to old", run_to_old, NEW_WEEKS)},
        {ROW("plain converter in C, new to dual", run_plain_to_dual, NEW_WEEKS), ROW("convert, new to dual", run_to_dual, NEW_WEEKS)},
    };
#undef ROW
    for (size_t i = 0; i < sizeof tables / sizeof *tables; i++)
        TABLE("1,024 weeks, a week", tables[i], 1024, 200, 8);
}

int main(void) {
    time_page();
    time_recovery();
    time_calls();
    time_weeks();
    time_sqlite();
    return 0;
}
