/* Points of documents 01 and 02 that the command program cannot show, at the calls themselves: a cold row that stays cold under refusals 1
   to 6 and is rebuilt under the later ones, damaged rows, a page above the end that is not blank, a link that leads nowhere, as many
   links as a sheet can have, an outcome that is lost on two pages, a decision that is asked again, also with fates and sheets that no call
   has left so, the highest start of any bytes, a file that its action writes again, the token's action in a row, right and wrong, and
   decisions among many rows. Prints a line for each and 'N passed, M failed'. */
#include "door.h"
#include "plain.h"
#include "tell.h"

/* Ten pages for two files: actions 1 and 4 wrote file 1 and are committed, action 7 is undecided and holds its token. */
enum { PAGES = 10, NUMBERS = 2 * ROW_LENGTH, LAST = 8 };
static uint8_t sheet[PAGES * PAGE], fates[PAGES];
static uint64_t rows[NUMBERS], end, undecided;
static const uint8_t none[32];

static uint64_t *row_in(uint64_t file) { return rows + ROW_LENGTH * (file - 1); }

static void set_row(uint64_t file, uint64_t mark, uint64_t current, uint64_t current_end, uint64_t token, uint64_t token_end,
                    uint64_t token_action) {
    uint64_t *row = row_in(file);
    row[MARK] = mark, row[CURRENT] = current, row[CURRENT_END] = current_end;
    row[TOKEN] = token, row[TOKEN_END] = token_end, row[TOKEN_ACTION] = token_action;
}
static int row_is(uint64_t file, uint64_t mark, uint64_t current, uint64_t current_end, uint64_t token, uint64_t token_end,
                  uint64_t token_action) {
    const uint64_t *row = row_in(file);
    return row[MARK] == mark && row[CURRENT] == current && row[CURRENT_END] == current_end && row[TOKEN] == token
           && row[TOKEN_END] == token_end && row[TOKEN_ACTION] == token_action;
}

static void put(int kind, int small, uint64_t file, uint64_t action, uint64_t link, uint64_t start, uint64_t place) {
    plain_pack(sheet + PAGE * (place - 1), kind, small, file, action, link, start, none, place);
}

static void set_up(void) {
    memset(sheet, 0, sizeof sheet);
    memset(fates, 0, sizeof fates);
    put(1, 0, 0, 1, 0, 0, 1);
    put(2, 0, 1, 1, 0, 10, 2);
    put(3, 1, 0, 1, 0, 0, 3);
    put(1, 0, 0, 4, 0, 0, 4);
    put(2, 0, 1, 4, 2, 20, 5);
    put(3, 1, 0, 4, 0, 0, 6);
    put(1, 0, 0, 7, 0, 0, 7);
    put(2, 0, 1, 7, 5, 30, 8);
    fates[0] = fates[3] = 2, fates[6] = 1;
    end = LAST, undecided = 1;
    /* cold, with numbers of no meaning */
    for (int i = 0; i < NUMBERS; i++)
        rows[i] = i % ROW_LENGTH ? 77 + (uint64_t)i : 0;
}

/* One more undecided action, 9: files with a token of action 7 are not for it to write. */
static void set_up_another(void) {
    set_up();
    put(1, 0, 0, 9, 0, 0, 9);
    fates[8] = 1;
    end = 9, undecided = 2;
}

static struct lent lent(void) { return (struct lent){sheet, sizeof sheet, fates, PAGES, rows, NUMBERS, end, 0, undecided}; }

/* A refusal's number, 0 for an answer. */
static uint64_t refusal(struct call c, uint64_t *place) {
    uint64_t told[TOLD];
    make_call(lent(), c, told);
    *place = told[SECOND];
    return told[WHICH] == REFUSED ? told[FIRST] : 0;
}

/* A read or write of a file that is refused with a number and a place; its row is left rebuilt, or all rows as they were. */
static void expect(const char *what, enum kind kind, uint64_t file, uint64_t time, uint64_t action, size_t length, uint64_t number,
                   uint64_t place, int rebuilt) {
    static const uint8_t value[33];
    uint64_t at, before[NUMBERS];
    memcpy(before, rows, sizeof rows);
    uint64_t got = refusal((struct call){kind, file, time, action, length, value}, &at);
    uint64_t mark = file >= 1 && file <= 2 ? row_in(file)[MARK] : 0;
    told(what, got == number && at == place && (rebuilt ? mark == 1 : !memcmp(before, rows, sizeof rows)));
}

static void cold_rows(void) {
    set_up();
    end = PAGES + 1;
    expect("refusal 1 leaves a cold row cold", READ, 1, 5, 0, 0, 1, 0, 0);
    set_up();
    expect("refusal 3 leaves every row", READ, 3, 5, 0, 0, 3, 0, 0);
    expect("refusal 4 leaves a cold row cold", WRITE, 1, 40, 7, 33, 4, 0, 0);
    expect("refusal 5 leaves a cold row cold", READ, 1, 5, 9, 0, 5, 0, 0);
    expect("refusal 6 leaves a cold row cold", WRITE, 1, 40, 4, 0, 6, 0, 0);
    set_up_another();
    expect("refusal 8 leaves the row rebuilt", WRITE, 1, 40, 9, 0, 8, 7, 1);
    told("its numbers are those of the pages", row_is(1, 1, 5, 20, 8, 30, 7));
    set_up();
    expect("refusal 9 leaves the row rebuilt", READ, 1, 30, 0, 0, 9, 7, 1);
    set_up();
    expect("refusal 10 leaves the row rebuilt", WRITE, 2, 0, 7, 0, 10, 0, 1);
    told("another file's row is as it was", row_is(1, 0, 78, 79, 80, 81, 82));
}

static void damaged_rows(void) {
    set_up();
    row_in(1)[MARK] = 2;
    expect("a mark of 2 is refused 7", READ, 1, 5, 0, 0, 7, 0, 0);
    set_up();
    set_row(2, 1, 5, 20, 0, 0, 0);
    expect("another file's image is refused 7", READ, 2, 5, 0, 0, 7, 0, 0);
    row_in(2)[CURRENT] = 1;
    expect("a place without an image is refused 7", WRITE, 2, 50, 7, 0, 7, 0, 0);
    put(2, 0, 2, 7, 0, 40, 10);
    set_row(2, 1, 0, 0, 10, 40, 7);
    expect("a place above the end is refused 7", WRITE, 2, 50, 7, 0, 7, 0, 0);
    set_up();
    set_row(2, 2, 86, 87, 8, 89, 7);
    uint64_t kept[NUMBERS];
    memcpy(kept, rows, sizeof rows);
    uint64_t place, number = refusal((struct call){.kind = COMMIT, .action = 7}, &place);
    told("a commit passes over cold and damaged rows", number == 0 && fates[6] == 2 && !memcmp(kept, rows, sizeof rows));
}

static void pages_in_the_way(void) {
    set_up();
    sheet[PAGE * LAST + 5] = 1;
    expect("a page above the end that is not blank is refused 12", WRITE, 2, 50, 7, 0, 12, 0, 1);
    set_up();
    undecided = 0;
    sheet[PAGE * LAST] = 2;
    uint64_t place;
    told("begin too", refusal((struct call){.kind = BEGIN}, &place) == 12);
    set_up();
    put(2, 0, 1, 4, 3, 20, 5);
    expect("a link to no image is refused 13, with the page that holds it", READ, 1, 15, 0, 0, 13, 5, 1);
    told("and no end was raised", row_is(1, 1, 5, 20, 8, 30, 7));
}

/* A sheet with as many links as its pages allow: an opening, then images of file 1, each linked to the page below it and starting at
   its own place, so that a read at time t must end at page t. */
enum { MOST_PAGES = 65536 };
static uint8_t chain[(MOST_PAGES + 1) * PAGE], chain_fates[MOST_PAGES];

static void put_link(uint64_t file, uint64_t place) {
    plain_pack(chain + PAGE * (place - 1), 2, 0, file, 1, place == 2 ? 0 : place - 1, place, none, place);
}

static void set_chain(uint64_t pages) {
    memset(chain, 0, sizeof chain);
    memset(chain_fates, 0, sizeof chain_fates);
    plain_pack(chain, 1, 0, 0, 1, 0, 0, none, 1);
    for (uint64_t place = 2; place <= pages; place++)
        put_link(1, place);
    chain_fates[0] = 2;
}

/* Whether a read of file 1 at a time, its row cold, has this answer with these first values, and leaves the row as it must. */
static int chain_answers(uint64_t pages, uint64_t time, uint64_t which, uint64_t first, uint64_t second) {
    uint64_t number[NUMBERS] = {0}, told[TOLD];
    struct lent l = {chain, pages * PAGE, chain_fates, pages, number, NUMBERS, pages, 0, 0};
    make_call(l, (struct call){.kind = READ, .file = 1, .time = time}, told);
    return told[WHICH] == which && told[FIRST] == first && told[SECOND] == second && number[MARK] == 1
           && number[CURRENT] == pages && number[CURRENT_END] == (time < pages ? pages : time) && number[TOKEN_ACTION] == 0;
}

/* Reads before the first image, at every so many of them, and past the last. */
static int walks_end(uint64_t pages, uint64_t step) {
    int all = chain_answers(pages, 1, NOTHING, 0, 0);
    for (uint64_t time = 2; time <= pages; time += step)
        all = all && chain_answers(pages, time, VALUE, time, time);
    return all && chain_answers(pages, pages + 1, VALUE, pages, pages);
}

static void most_links(void) {
    int all = 1;
    for (uint64_t pages = 2; pages <= 70; pages++) {
        set_chain(pages);
        all = all && walks_end(pages, 1);
    }
    told("each page linked to the one below it, 2 to 70 pages: a read at every time is answered", all);
    set_chain(MOST_PAGES);
    told("and with 65,534 links on 65,536 pages", walks_end(MOST_PAGES, 5041));
    put_link(2, 2);
    told("the last of them to another file's image is refused 13, after 65,533", chain_answers(MOST_PAGES, 2, REFUSED, 13, 3));
    told("and not followed, where it need not be", chain_answers(MOST_PAGES, 3, VALUE, 3, 3));
}

/* Two pages, begin, and a commit that is cut after some bytes: with 1 to 63 the action stays undecided for ever. */
static int outcome_is_lost(int bytes) {
    uint8_t two[2 * PAGE] = {0}, two_fates[2] = {0};
    uint64_t number[NUMBERS] = {0}, told[TOLD];
    struct lent l = {two, sizeof two, two_fates, 2, number, NUMBERS, 0, 0, 0};
    make_call(l, (struct call){.kind = BEGIN}, told);
    l.end = told[END], l.undecided = told[UNDECIDED];
    make_call(l, (struct call){.kind = COMMIT, .action = 1}, told);
    memset(two + PAGE + bytes, 0, (size_t)(PAGE - bytes));
    make_call(l, (struct call){.kind = OPEN}, told);
    l.end = told[END], l.undecided = told[UNDECIDED];
    int is_lost = told[WHICH] == OPENED && l.end == 2 && l.undecided == 1 && two_fates[0] == 1;
    for (enum kind kind = COMMIT; kind <= ABORT; kind++) {
        make_call(l, (struct call){.kind = kind, .action = 1}, told);
        is_lost = is_lost && told[WHICH] == REFUSED && told[FIRST] == 11;
    }
    return is_lost;
}

static void outcomes(void) {
    int lost = 0;
    for (int bytes = 1; bytes < PAGE; bytes++)
        lost += outcome_is_lost(bytes);
    told("on two pages an outcome cut after 1 to 63 bytes is lost: commit and abort are refused 11", lost == PAGE - 1);
    told("cut after none or all, it is not", !outcome_is_lost(0) && !outcome_is_lost(PAGE));
}

/* Whether a call has this answer, and leaves every byte and number that is lent, and the state, as they were. */
static int changes_nothing(struct call c, uint64_t which, uint64_t first, uint64_t second) {
    uint8_t sheet_was[sizeof sheet], fates_was[sizeof fates];
    uint64_t rows_was[NUMBERS], got[TOLD];
    uint64_t must[TOLD] = {[WHICH] = which, [FIRST] = first, [SECOND] = second, [END] = end, [UNDECIDED] = undecided};
    memcpy(sheet_was, sheet, sizeof sheet);
    memcpy(fates_was, fates, sizeof fates);
    memcpy(rows_was, rows, sizeof rows);
    make_call(lent(), c, got);
    return !memcmp(got, must, sizeof got) && !memcmp(sheet_was, sheet, sizeof sheet) && !memcmp(fates_was, fates, sizeof fates)
           && !memcmp(rows_was, rows, sizeof rows);
}
static int only_answers(enum kind kind, uint64_t action, uint64_t which, uint64_t first, uint64_t second) {
    return changes_nothing((struct call){.kind = kind, .action = action}, which, first, second);
}
static int again(enum kind kind, uint64_t action, uint64_t place) { return only_answers(kind, action, STORED, place, 0); }
static int is_6(enum kind kind, uint64_t action) { return only_answers(kind, action, REFUSED, 6, 0); }
static int tells(uint64_t action, uint64_t fate, uint64_t place) { return only_answers(TEST, action, FATE, fate, place); }

/* Action 7 is decided at page 9, with its token in a rebuilt row. */
static int decide_first(enum kind kind) {
    uint64_t got[TOLD];
    set_up();
    set_row(1, 1, 5, 20, 8, 30, 7);
    make_call(lent(), (struct call){.kind = kind, .action = 7}, got);
    end = got[END], undecided = got[UNDECIDED];
    return got[WHICH] == STORED && got[FIRST] == 9 && end == 9 && undecided == 0;
}

static void asked_again(void) {
    told("a commit asked again answers the same place and changes nothing", decide_first(COMMIT) && again(COMMIT, 7, 9));
    told("an older one too, its row rebuilt or cold", again(COMMIT, 4, 6) && (set_up(), again(COMMIT, 4, 6)));
    told("abort after commit is refused 6", decide_first(COMMIT) && is_6(ABORT, 7) && is_6(ABORT, 4));
    told("an abort asked again answers the same place and changes nothing", decide_first(ABORT) && again(ABORT, 7, 9));
    told("commit after abort is refused 6", is_6(COMMIT, 7));
    told("test tells fate and place", tells(7, 3, 9) && tells(4, 2, 6) && tells(1, 2, 3) && (set_up(), tells(7, 1, 0)));
    decide_first(COMMIT);
    sheet[PAGE * 9] = 1; /* torn */
    end = PAGES;
    told("on a full sheet too", again(COMMIT, 7, 9) && again(COMMIT, 1, 3) && is_6(ABORT, 7));
    set_up();
    sheet[PAGE * LAST + 5] = 1;
    told("and where the page above the end is not blank", again(COMMIT, 4, 6) && is_6(ABORT, 4));
    undecided = LAST + 1;
    told("but not before refusal 1", only_answers(COMMIT, 4, REFUSED, 1, 0) && only_answers(TEST, 4, REFUSED, 1, 0));
}

/* The fate says which decision is the same one, the sheet up to the end where it lies. */
static void false_fates(void) {
    decide_first(COMMIT);
    fates[6] = 3;
    told("a fate of 3 over a commit record: abort is answered, commit refused 6", again(ABORT, 7, 9) && is_6(COMMIT, 7) && tells(7, 3, 9));
    fates[6] = 1;
    told("a fate of 1 over a commit record: test tells both", tells(7, 1, 9));
    set_up();
    set_row(1, 1, 5, 20, 8, 30, 7);
    fates[6] = 2;
    told("a fate of 2 without an outcome: place 0, and the token stays in its row", again(COMMIT, 7, 0) && tells(7, 2, 0));
    set_up();
    put(3, 2, 0, 4, 0, 0, 9);
    end = 9;
    told("of two outcomes the newest, whatever it decided", again(COMMIT, 4, 9) && is_6(ABORT, 4) && tells(4, 2, 9));
    end = LAST;
    told("an outcome above the end does not count", again(COMMIT, 4, 6) && (end = 5, again(COMMIT, 4, 0) && tells(4, 2, 0)));
    set_up();
    sheet[PAGE * 5 + 63] = 0;
    told("nor does a torn one", again(COMMIT, 4, 0) && tells(4, 2, 0));
    set_up();
    sheet[PAGE * 3 + 30] = 1;
    told("nor one whose opening is bad", again(COMMIT, 4, 0) && tells(4, 2, 0) && again(COMMIT, 1, 3));
}

/* The longest way down: 65,536 pages, and the outcome at page 2, or at the last. */
static int told_place(uint64_t place) {
    uint64_t number[NUMBERS] = {0}, told[TOLD];
    struct lent l = {chain, MOST_PAGES * PAGE, chain_fates, MOST_PAGES, number, NUMBERS, MOST_PAGES, 0, 0};
    set_chain(MOST_PAGES);
    plain_pack(chain + PAGE * (place - 1), 3, 1, 0, 1, 0, 0, none, place);
    make_call(l, (struct call){.kind = TEST, .action = 1}, told);
    int is_told = told[WHICH] == FATE && told[FIRST] == 2 && told[SECOND] == place;
    make_call(l, (struct call){.kind = COMMIT, .action = 1}, told);
    return is_told && told[WHICH] == STORED && told[FIRST] == place;
}

/* Three pages, begin, a commit that is cut after some bytes, an opening, and two commits more: where the action's one outcome lies
   in the end, 0 if a call said otherwise or there are two. */
static uint64_t one_outcome(int bytes) {
    uint8_t three[3 * PAGE] = {0}, three_fates[3] = {0};
    uint64_t number[NUMBERS] = {0}, told[TOLD], place = 0;
    struct lent l = {three, sizeof three, three_fates, 3, number, NUMBERS, 0, 0, 0};
    enum kind kinds[] = {BEGIN, COMMIT, OPEN, COMMIT, COMMIT};
    for (int i = 0; i < 5; i++) {
        make_call(l, (struct call){.kind = kinds[i], .action = 1}, told);
        l.end = told[END], l.undecided = told[UNDECIDED];
        if (i == 1)
            memset(three + PAGE + bytes, 0, (size_t)(PAGE - bytes));
        if (told[WHICH] == REFUSED || (i == 4 && told[FIRST] != place))
            return 0;
        place = told[FIRST];
    }
    int count = 0;
    for (uint64_t p = 1; p <= 3; p++)
        count += three[PAGE * (p - 1)] == 3 && plain_fits(three + PAGE * (p - 1), p, 2);
    return count == 1 ? place : 0;
}

static void lost_replies(void) {
    int one = one_outcome(0) == 2 && one_outcome(PAGE) == 2;
    for (int bytes = 1; bytes < PAGE; bytes++)
        one = one && one_outcome(bytes) == 3;
    told("a commit cut after any byte and asked again: one outcome, the stored one or one now", one);
    told("and on 65,536 pages, wherever it lies", told_place(2) && told_place(MOST_PAGES) && told_place(40000));
}

/* The highest start of the ten pages for two files. */
static uint64_t highest(void) { return door_highest_start(sheet, sizeof sheet, 2); }

/* Set up anew, with one byte of a page changed. */
static uint64_t highest_with(uint64_t place, int byte, int to) {
    set_up();
    sheet[PAGE * (place - 1) + (uint64_t)byte] = (uint8_t)to;
    return highest();
}

/* With an image of file 1 under action 1 put at a place. */
static uint64_t highest_put(uint64_t place, uint64_t start) {
    set_up();
    put(2, 0, 1, 1, 0, start, place);
    return highest();
}

static void which_starts_count(void) {
    set_up();
    told("the highest start is an undecided image's", highest() == 30);
    put(3, 2, 0, 7, 0, 0, 9);
    told("or an aborted one's", highest() == 30);
    told("or a committed one's, the oldest", highest_put(2, 31) == 31);
    told("or that of one above a blank page, or below one", highest_put(10, 31) == 31 && highest_put(10, 29) == 30);
    told("a torn image does not count", highest_with(8, 63, 0) == 20);
    told("nor one whose check word is spoilt", highest_with(8, 60, sheet[PAGE * 7 + 60] ^ 1) == 20);
    told("nor one whose opening is bad, torn or blank", highest_with(7, 30, 1) == 20 && highest_with(7, 63, 0) == 20
                                                            && (memset(sheet + PAGE * 6, 0, PAGE), highest() == 20));
    set_up();
    put(2, 0, 1, 6, 5, 30, 8);
    told("nor one under an outcome's place", highest() == 20);
    told("every byte of a start counts", highest_put(2, 1ULL << 32) == 1ULL << 32 && highest_put(2, 1ULL << 56) == 1ULL << 56
                                             && highest_put(9, 255) == 255 && highest_put(9, UINT64_MAX) == UINT64_MAX);
}

static void sizes_and_counts(void) {
    memset(sheet, 0, sizeof sheet);
    told("a blank sheet has the highest start 0", highest() == 0);
    set_up();
    int empty = 1, one = 1;
    for (size_t size = 0; size < 2 * PAGE; size++)
        empty = empty && door_highest_start(sheet, size, 2) == 0;
    for (size_t size = 2 * PAGE; size < 5 * PAGE; size++)
        one = one && door_highest_start(sheet, size, 2) == 10;
    told("so have 0 to 127 bytes, 63 and 65 among them, with an image on page 2", empty);
    told("128 to 319 bytes have its start: whole pages count", one);
    put(2, 0, 8, 7, 0, 40, 9);
    put(2, 0, 256, 7, 0, 50, 10);
    static const uint64_t files[] = {0, 1, 7, 8, 255, 256, 257, 1ULL << 32, UINT64_MAX};
    static const uint64_t must[] = {0, 30, 30, 40, 40, 50, 0, 0, 0};
    int all = 1;
    for (size_t i = 0; i < sizeof files / sizeof *files; i++)
        all = all && door_highest_start(sheet, sizeof sheet, files[i]) == must[i];
    told("of file counts 0 to 257 and above: the images of so many files, none for 0 and above 256", all);
}

static uint64_t highest_of(uint64_t pages) { return door_highest_start(chain, PAGE * pages, 1); }

static void longest_sheets(void) {
    set_chain(MOST_PAGES);
    told("65,536 pages whose starts grow", highest_of(MOST_PAGES) == MOST_PAGES);
    put_link(1, MOST_PAGES + 1);
    told("an image at place 65,537 does not count, and those below it do", highest_of(MOST_PAGES + 1) == MOST_PAGES);
    for (uint64_t place = 2; place <= MOST_PAGES; place++)
        plain_pack(chain + PAGE * (place - 1), 2, 0, 1, 1, 0, MOST_PAGES + 1 - place, none, place);
    told("65,536 pages whose starts fall", highest_of(MOST_PAGES) == MOST_PAGES - 1 && highest_of(MOST_PAGES + 1) == MOST_PAGES - 1);
}

/* Whether action 7 writes file 1 again at a start, and its row's token end is then this: the current version stays, and is the link. */
static int writes_again(uint64_t start, uint64_t token_end) {
    uint64_t got[TOLD];
    make_call(lent(), (struct call){.kind = WRITE, .file = 1, .time = start, .action = 7}, got);
    const uint8_t *page = sheet + PAGE * LAST;
    return got[WHICH] == STORED && got[FIRST] == 9 && got[END] == 9 && got[UNDECIDED] == 1 && plain_fits(page, 9, 2)
           && plain_get(page, 8, 12) == 7 && plain_get(page, 12, 16) == 5 && plain_get(page, 16, 24) == start
           && row_is(1, 1, 5, 20, 9, token_end, 7);
}

/* The row of file 1 rebuilt, its token read up to a time. */
static void set_up_read(uint64_t time) {
    uint64_t got[TOLD];
    set_up();
    make_call(lent(), (struct call){.kind = READ, .file = 1, .time = time, .action = 7}, got);
}

static void written_again(void) {
    uint64_t got[TOLD];
    set_up();
    told("an own token is written again before its start, its row cold: its end stays", writes_again(21, 30));
    set_up();
    told("at its start", writes_again(30, 30));
    set_up();
    told("past it: the end is the new start", writes_again(31, 31));
    set_up_read(40);
    told("after an own read at 40 the end is 40", row_is(1, 1, 5, 20, 8, 40, 7) && writes_again(25, 40));
    end = 9;
    make_call(lent(), (struct call){.kind = COMMIT, .action = 7}, got);
    told("and the current end once committed", got[FIRST] == 10 && row_is(1, 1, 9, 40, 0, 0, 0));
    set_up_read(40);
    told("but a start above that is the end", writes_again(41, 41));
    set_up();
    expect("at the current end it is refused 10", WRITE, 1, 20, 7, 0, 10, 0, 1);
    told("and the token stays", row_is(1, 1, 5, 20, 8, 30, 7));
    undecided = 2;
    expect("with too few pages, 11", WRITE, 1, 40, 7, 0, 11, 0, 1);
    undecided = 1;
    sheet[PAGE * LAST + 5] = 1;
    expect("with a page above the end that is not blank, 12", WRITE, 1, 40, 7, 0, 12, 0, 1);
    told("and the token stays then too", row_is(1, 1, 5, 20, 8, 30, 7));
    set_up_another();
    expect("another action is refused 8 before 10 and 11", WRITE, 1, 0, 9, 0, 8, 7, 1);
    fates[6] = 2;
    expect("also where the token's action is decided", WRITE, 1, 40, 9, 0, 8, 7, 1);
    set_up();
    set_row(2, 1, 0, 0, 0, 99, 0);
    make_call(lent(), (struct call){.kind = WRITE, .file = 2, .time = 40, .action = 7}, got);
    told("an end that stands without a token is not kept", got[WHICH] == STORED && row_is(2, 1, 0, 0, 9, 40, 7));
}

/* Ten pages: action 1 wrote file 1 at 10 and is committed; action 4 wrote it at 30, at 20 and at a start, and may be committed. */
static void set_up_three(uint64_t start, int is_committed) {
    memset(sheet, 0, sizeof sheet);
    put(1, 0, 0, 1, 0, 0, 1);
    put(2, 0, 1, 1, 0, 10, 2);
    put(3, 1, 0, 1, 0, 0, 3);
    put(1, 0, 0, 4, 0, 0, 4);
    put(2, 0, 1, 4, 2, 30, 5);
    put(2, 0, 1, 4, 2, 20, 6);
    put(2, 0, 1, 4, 2, start, 7);
    if (is_committed)
        put(3, 1, 0, 4, 0, 0, 8);
}

/* Page 7 under an action, with a link and a start; or page 10, where action 4 is committed and action 9 follows. */
static uint64_t third(uint64_t action, uint64_t link, uint64_t start) {
    set_up_three(25, 0);
    put(2, 0, 1, action, link, start, 7);
    return bench_inspect(sheet, sizeof sheet, 2);
}
static uint64_t next(uint64_t link, uint64_t start) {
    set_up_three(25, 1);
    put(1, 0, 0, 9, 0, 0, 9);
    put(2, 0, 1, 9, link, start, 10);
    return bench_inspect(sheet, sizeof sheet, 2);
}

static void lawful_sheets(void) {
    told("three images of a file under one action are lawful, whatever their starts", third(4, 2, 25) == 0 && third(4, 2, 11) == 0
                                                                                          && third(4, 2, 30) == 0 && third(4, 2, 99) == 0);
    told("not where one is linked to an image that it overtakes", third(4, 5, 25) == 7 && third(4, 6, 25) == 7 && third(4, 0, 25) == 7);
    told("nor where one starts no later than the version", third(4, 2, 10) == 7 && third(4, 2, 9) == 7);
    told("nor where its action is decided", third(1, 2, 25) == 7);
    set_up_three(25, 0);
    put(1, 0, 0, 6, 0, 0, 6);
    put(2, 0, 1, 6, 2, 25, 7);
    told("nor where the token is another action's", bench_inspect(sheet, sizeof sheet, 2) == 7);
    told("once committed, the next version goes on from the newest image alone", next(7, 26) == 0 && next(7, 30) == 0);
    told("not from one that was overtaken", next(5, 31) == 10 && next(6, 26) == 10 && next(2, 26) == 10 && next(7, 25) == 10);
}

/* Whether a rebuild of file 1 answers these numbers after the mark, and leaves them in its row. */
static int answers(uint64_t current, uint64_t current_end, uint64_t token, uint64_t token_end, uint64_t token_action) {
    uint64_t got[TOLD];
    make_call(lent(), (struct call){.kind = REBUILD, .file = 1}, got);
    return got[WHICH] == REBUILT && got[FIRST] == current && got[SECOND] == current_end && got[THIRD] == token && got[FOURTH] == token_end
           && got[FIFTH] == token_action && row_is(1, 1, current, current_end, token, token_end, token_action);
}

/* The same, the sheet just opened. */
static int rebuilds(uint64_t current, uint64_t current_end, uint64_t token, uint64_t token_end, uint64_t token_action) {
    uint64_t got[TOLD];
    make_call(lent(), (struct call){.kind = OPEN}, got);
    end = got[END], undecided = got[UNDECIDED];
    return got[WHICH] == OPENED && answers(current, current_end, token, token_end, token_action);
}

/* Whether a read of file 1 at a time, inside an action or outside any, gives the image at a place. */
static int reads(uint64_t time, uint64_t action, uint64_t place) {
    uint64_t got[TOLD];
    make_call(lent(), (struct call){.kind = READ, .file = 1, .time = time, .action = action}, got);
    return got[WHICH] == VALUE && got[FIRST] == place;
}

static void newest_counts(void) {
    set_up_three(25, 0);
    told("of three images the newest is the token, with its own start as the end", rebuilds(2, 10, 7, 25, 4));
    told("inside it is found, and before it the version", reads(25, 4, 7) && reads(24, 4, 2));
    told("outside the version is found up to its start", reads(24, 0, 2) && !reads(25, 0, 2));
    set_up_three(25, 1);
    told("once committed it is the version", rebuilds(7, 25, 0, 0, 0) && reads(25, 0, 7) && reads(99, 0, 7));
    told("and those that it overtook are not found", reads(24, 0, 2) && reads(10, 0, 2));
    put(2, 0, 1, 4, 5, 35, 7);
    told("a read goes by the links: if one leads to an overtaken image, that is found", rebuilds(7, 35, 0, 0, 0) && reads(34, 0, 5));
}

/* An image of file 1 under action 1, cut after some bytes, and the sheet opened again: whether it is lawful. */
static int image_is_cut(struct lent *l, uint64_t start, int bytes) {
    uint64_t got[TOLD], place = l->end + 1;
    make_call(*l, (struct call){.kind = WRITE, .file = 1, .time = start, .action = 1}, got);
    int is_stored = got[WHICH] == STORED && got[FIRST] == place;
    memset(l->sheet + PAGE * (place - 1) + bytes, 0, (size_t)(PAGE - bytes));
    make_call(*l, (struct call){.kind = OPEN}, got);
    l->end = got[END], l->undecided = got[UNDECIDED];
    return is_stored && got[WHICH] == OPENED && l->end == place - (bytes == 0) && l->undecided == 1
           && bench_inspect(l->sheet, l->size, 2) == 0;
}

static int finds(struct lent l, uint64_t action, uint64_t place, uint64_t start) {
    uint64_t got[TOLD];
    make_call(l, (struct call){.kind = READ, .file = 1, .time = 50, .action = action}, got);
    return got[WHICH] == VALUE && got[FIRST] == place && got[SECOND] == start;
}

/* Three images of file 1 under one action, at 10, 7 and 12, of which the second and the third are cut after some bytes: whether the newest
   that is whole is the token each time, and the version after the commit. */
static int three_images(int second, int third) {
    uint8_t six[6 * PAGE] = {0}, six_fates[6] = {0};
    uint64_t number[NUMBERS] = {0}, got[TOLD], newest = 2, start = 10;
    struct lent l = {six, sizeof six, six_fates, 6, number, NUMBERS, 0, 0, 0};
    make_call(l, (struct call){.kind = BEGIN}, got);
    l.end = got[END], l.undecided = got[UNDECIDED];
    if (!image_is_cut(&l, 10, PAGE) || !image_is_cut(&l, 7, second))
        return 0;
    if (second == PAGE)
        newest = l.end, start = 7;
    if (!finds(l, 1, newest, start) || !image_is_cut(&l, 12, third))
        return 0;
    if (third == PAGE)
        newest = l.end, start = 12;
    if (!finds(l, 1, newest, start))
        return 0;
    make_call(l, (struct call){.kind = COMMIT, .action = 1}, got);
    make_call(l, (struct call){.kind = OPEN}, got);
    l.end = got[END], l.undecided = got[UNDECIDED];
    return got[WHICH] == OPENED && l.undecided == 0 && bench_inspect(six, sizeof six, 2) == 0 && finds(l, 0, newest, start);
}

static void cut_images(void) {
    int right = 0;
    for (int second = 0; second <= PAGE; second++)
        for (int third = 0; third <= PAGE; third++)
            right += three_images(second, third);
    told("three images, the second and the third cut after any bytes: the newest whole one is the token, and then the version",
         right == (PAGE + 1) * (PAGE + 1));
}

/* ---- the token's action in the row */

/* Ten pages for two files: action 1 wrote file 1 and is committed; actions 4 and 5 are undecided, and both wrote file 1, 4 file 2 too. The
   rows are rebuilt, with 4's tokens. The open count is 1, so that there is room for one write. */
static void set_up_tokens(void) {
    memset(sheet, 0, sizeof sheet);
    memset(fates, 0, sizeof fates);
    put(1, 0, 0, 1, 0, 0, 1);
    put(2, 0, 1, 1, 0, 10, 2);
    put(3, 1, 0, 1, 0, 0, 3);
    put(1, 0, 0, 4, 0, 0, 4);
    put(1, 0, 0, 5, 0, 0, 5);
    put(2, 0, 1, 5, 2, 20, 6);
    put(2, 0, 1, 4, 2, 30, 7);
    put(2, 0, 2, 4, 0, 40, 8);
    fates[0] = 2, fates[3] = fates[4] = 1;
    end = LAST, undecided = 1;
    set_row(1, 1, 2, 10, 7, 30, 4);
    set_row(2, 1, 0, 0, 8, 40, 4);
}

/* Whether a file's row is refused 7 by rebuild, by reads outside any action, and by reads and writes inside 4 and 5 if they are undecided. */
static int is_refused(uint64_t file) {
    static const uint64_t actions[] = {0, 4, 5}, times[] = {0, 9, 10, 29, 30, 50, UINT64_MAX};
    int all = changes_nothing((struct call){.kind = REBUILD, .file = file}, REFUSED, 7, 0);
    for (int i = 0; i < 3 * 7; i++) {
        struct call c = {READ, file, times[i / 3], actions[i % 3], 0, none};
        if (c.action && fates[c.action - 1] != 1)
            continue;
        all = all && changes_nothing(c, REFUSED, 7, 0);
        c.kind = WRITE;
        all = all && (c.action == 0 || changes_nothing(c, REFUSED, 7, 0));
    }
    return all;
}

/* The same with another action in file 1's row. */
static int is_refused_with(uint64_t action) {
    set_up_tokens();
    row_in(1)[TOKEN_ACTION] = action;
    return is_refused(1);
}

static int is_refused_without_token(uint64_t action) {
    set_up_tokens();
    set_row(1, 1, 2, 10, 0, 0, action);
    set_row(2, 1, 0, 0, 0, 0, action);
    return is_refused(1) && is_refused(2);
}

static void wrong_actions(void) {
    told("action 0 beside a token is refused 7 by rebuild, read and write", is_refused_with(0));
    told("another undecided action too", is_refused_with(5));
    told("a decided one", is_refused_with(1));
    told("an image or an outcome, the token itself", is_refused_with(2) && is_refused_with(8) && is_refused_with(3) && is_refused_with(7));
    told("a place above the end, and no page's", is_refused_with(9) && is_refused_with(10) && is_refused_with(11));
    told("2^32 above the action, and 2^64 - 1", is_refused_with((1ULL << 32) + 4) && is_refused_with(UINT64_MAX));
    told("any action without a token", is_refused_without_token(4) && is_refused_without_token(5) && is_refused_without_token(1)
                                           && is_refused_without_token(7) && is_refused_without_token(1ULL << 32));
    set_up_tokens();
    row_in(1)[TOKEN_ACTION] = 0;
    undecided = LAST;
    sheet[PAGE * LAST + 5] = 1;
    told("also where 11 or 12 would come", is_refused(1));
    set_up_tokens();
    set_row(1, 0, 2, 10, 7, 30, 5);
    told("not in a cold row, which is rebuilt", answers(2, 10, 7, 30, 4));
    set_up_tokens();
    told("the token's action is right", answers(2, 10, 7, 30, 4) && reads(30, 4, 7) && reads(29, 0, 2));
    set_row(2, 1, 0, 0, 0, 0, 0);
    told("and 0 without a token", changes_nothing((struct call){.kind = REBUILD, .file = 2}, REBUILT, 0, 0));
    set_row(1, 1, 2, 11, 7, 31, 4);
    told("a row that is rebuilt is answered as it is, after its mark", answers(2, 11, 7, 31, 4));
    set_up_tokens();
    put(2, 0, 1, 5, 2, 30, 7);
    told("an action that was right is wrong where the page is another's", is_refused(1) && (row_in(1)[TOKEN_ACTION] = 5, reads(30, 5, 7)));
}

/* Whether an action's decision is stored at page 9. */
static int decides(enum kind kind, uint64_t action) {
    uint64_t got[TOLD];
    make_call(lent(), (struct call){.kind = kind, .action = action}, got);
    int is_stored = got[WHICH] == STORED && got[FIRST] == 9 && got[END] == 9 && got[UNDECIDED] == 0;
    end = got[END], undecided = got[UNDECIDED];
    return is_stored && fates[action - 1] == (kind == COMMIT ? 2 : 3);
}

static void settled_rows(void) {
    set_up_tokens();
    told("a commit settles its rows, and clears token, end and action", decides(COMMIT, 4) && row_is(1, 1, 7, 30, 0, 0, 0)
                                                                            && row_is(2, 1, 8, 40, 0, 0, 0));
    told("they can be read then", reads(30, 0, 7) && reads(29, 0, 2));
    set_up_tokens();
    told("an abort clears these too", decides(ABORT, 4) && row_is(1, 1, 2, 10, 0, 0, 0) && row_is(2, 1, 0, 0, 0, 0, 0));
    told("they can be read then too", reads(30, 0, 2));
    set_up_tokens();
    told("rows of another action stay at a commit", decides(COMMIT, 5) && row_is(1, 1, 2, 10, 7, 30, 4) && row_is(2, 1, 0, 0, 8, 40, 4));
    set_up_tokens();
    told("and at an abort", decides(ABORT, 5) && row_is(1, 1, 2, 10, 7, 30, 4) && row_is(2, 1, 0, 0, 8, 40, 4));
    set_up_tokens();
    set_row(1, 1, 2, 10, 6, 25, 5);
    told("beside one that is settled", decides(COMMIT, 5) && row_is(1, 1, 6, 25, 0, 0, 0) && row_is(2, 1, 0, 0, 8, 40, 4));
    set_up_tokens();
    set_row(2, 1, 0, 0, 0, 0, 0);
    told("a row without a token keeps action 0", decides(COMMIT, 4) && row_is(1, 1, 7, 30, 0, 0, 0) && row_is(2, 1, 0, 0, 0, 0, 0));
}

/* Rows of file 1 that a decision of action 4 passes over. */
static const struct {
    const char *what;
    uint64_t row[ROW_LENGTH];
} passed_over[] = {
    {"a row of the action that names none is passed over, the other is settled", {1, 2, 10, 7, 30, 0}},
    {"one that names another undecided action", {1, 2, 10, 7, 30, 5}},
    {"a decided action", {1, 2, 10, 7, 30, 1}},
    {"an outcome", {1, 2, 10, 7, 30, 3}},
    {"an image", {1, 2, 10, 7, 30, 6}},
    {"the token itself", {1, 2, 10, 7, 30, 7}},
    {"a place above the end, that of the outcome", {1, 2, 10, 7, 30, 9}},
    {"no page's place", {1, 2, 10, 7, 30, 11}},
    {"2^32 above the action", {1, 2, 10, 7, 30, (1ULL << 32) + 4}},
    {"2^64 - 1", {1, 2, 10, 7, 30, UINT64_MAX}},
    {"a row that names the action and has no token is passed over", {1, 2, 10, 0, 0, 4}},
    {"one that has no token but an end", {1, 2, 10, 0, 30, 4}},
    {"another undecided action's image", {1, 2, 10, 6, 20, 4}},
    {"a committed action's image", {1, 0, 0, 2, 10, 4}},
    {"the action's opening", {1, 2, 10, 4, 30, 4}},
    {"another action's outcome", {1, 2, 10, 3, 30, 4}},
    {"another file's image under the action", {1, 2, 10, 8, 40, 4}},
    {"the place of the outcome that is stored", {1, 2, 10, 9, 30, 4}},
    {"an image of the file under the action, but above the end", {1, 2, 10, PAGES, 30, 4}},
    {"no page", {1, 2, 10, PAGES + 1, 30, 4}},
    {"2^32 above the token", {1, 2, 10, (1ULL << 32) + 7, 30, 4}},
    {"2^64 - 1 as the token", {1, 2, 10, UINT64_MAX, 30, 4}},
    {"a cold row", {0, 2, 10, 7, 30, 4}},
    {"a mark of 2", {2, 2, 10, 7, 30, 4}},
    {"a mark of 2^32 + 1", {(1ULL << 32) + 1, 2, 10, 7, 30, 4}},
};

/* Whether that row stays, and file 2's is settled beside it. */
static int passes_over(enum kind kind, const uint64_t row[ROW_LENGTH]) {
    memcpy(row_in(1), row, ROW_LENGTH * sizeof *row);
    return decides(kind, 4) && !memcmp(row_in(1), row, ROW_LENGTH * sizeof *row)
           && (kind == COMMIT ? row_is(2, 1, 8, 40, 0, 0, 0) : row_is(2, 1, 0, 0, 0, 0, 0));
}

/* Both decisions, each on a sheet set up anew, with an image above the end where the row has its place. */
static void passed_over_rows(void) {
    for (size_t i = 0; i < sizeof passed_over / sizeof *passed_over; i++) {
        const uint64_t *row = passed_over[i].row;
        int both = 1;
        for (enum kind kind = COMMIT; kind <= ABORT; kind++) {
            set_up_tokens();
            if (row[TOKEN] == PAGES)
                put(2, 0, 1, 4, 2, 30, PAGES);
            both = both && passes_over(kind, row);
        }
        told(passed_over[i].what, both);
    }
}

/* The same with a byte of a page changed, and the row right. */
static int passes_over_with(enum kind kind, uint64_t place, int byte, int to) {
    static const uint64_t right[ROW_LENGTH] = {1, 2, 10, 7, 30, 4};
    set_up_tokens();
    sheet[PAGE * (place - 1) + (uint64_t)byte] = (uint8_t)to;
    return passes_over(kind, right);
}

static void passed_over_pages(void) {
    told("a torn image", passes_over_with(COMMIT, 7, 63, 0) && passes_over_with(ABORT, 7, 63, 0));
    told("a spoilt one", passes_over_with(COMMIT, 7, 30, 1) && passes_over_with(ABORT, 7, 30, 1));
    set_up_tokens();
    sheet[PAGE * 3 + 30] = 1;
    told("all where the action's opening is bad", decides(COMMIT, 4) && row_is(1, 1, 2, 10, 7, 30, 4) && row_is(2, 1, 0, 0, 8, 40, 4));
    set_up_tokens();
    row_in(1)[TOKEN_ACTION] = 0;
    told("a row that a commit passed over is refused 7 afterwards", decides(COMMIT, 4) && is_refused(1));
    told("until the sheet is opened: its token is the version", rebuilds(7, 30, 0, 0, 0) && reads(30, 0, 7));
    set_up_tokens();
    row_in(1)[TOKEN_ACTION] = 5;
    told("one that an abort passed over too", decides(ABORT, 4) && is_refused(1));
    told("until the sheet is opened: the other action's image is its token", rebuilds(2, 10, 6, 20, 5) && reads(30, 5, 6));
}

/* Whether action 7 writes file 2 at page 9 and its row then names it. */
static int names_writer(void) {
    uint64_t got[TOLD];
    make_call(lent(), (struct call){.kind = WRITE, .file = 2, .time = 40, .action = 7}, got);
    return got[WHICH] == STORED && got[FIRST] == 9 && row_is(2, 1, 0, 0, 9, 40, 7);
}

static void written_actions(void) {
    set_up();
    set_row(2, 1, 0, 0, 0, 0, 0);
    told("a write puts its action in the row", names_writer());
    set_up();
    told("in a cold one too", names_writer());
    set_up_another();
    set_row(1, 1, 5, 20, 8, 30, 7);
    expect("another's write leaves it", WRITE, 1, 40, 9, 0, 8, 7, 0);
    told("so does a read inside, which raises the end, and one outside", reads(50, 7, 8) && row_is(1, 1, 5, 20, 8, 50, 7) && reads(25, 0, 5)
                                                                            && row_is(1, 1, 5, 25, 8, 50, 7));
}

/* Two files, a list of calls, and the actions that their rows name after each. */
static uint8_t talk_sheet[16 * PAGE], talk_fates[16];
static const struct {
    struct call call;
    uint64_t which, named[2];
} talk[] = {
    {{REBUILD, 1, 0, 0, 0, none}, REBUILT, {0, 0}},  {{REBUILD, 2, 0, 0, 0, none}, REBUILT, {0, 0}},
    {{BEGIN, 0, 0, 0, 0, none}, STORED, {0, 0}},     {{WRITE, 1, 10, 1, 0, none}, STORED, {1, 0}},
    {{BEGIN, 0, 0, 0, 0, none}, STORED, {1, 0}},     {{WRITE, 2, 10, 3, 0, none}, STORED, {1, 3}},
    {{WRITE, 1, 20, 1, 0, none}, STORED, {1, 3}},    {{WRITE, 1, 15, 1, 0, none}, STORED, {1, 3}},
    {{WRITE, 1, 15, 3, 0, none}, REFUSED, {1, 3}},   {{READ, 1, 15, 1, 0, none}, VALUE, {1, 3}},
    {{READ, 2, 9, 1, 0, none}, NOTHING, {1, 3}},     {{COMMIT, 0, 0, 1, 0, none}, STORED, {0, 3}},
    {{COMMIT, 0, 0, 1, 0, none}, STORED, {0, 3}},    {{READ, 1, 15, 0, 0, none}, VALUE, {0, 3}},
    {{WRITE, 1, 30, 3, 0, none}, STORED, {3, 3}},    {{ABORT, 0, 0, 3, 0, none}, STORED, {0, 0}},
    {{BEGIN, 0, 0, 0, 0, none}, STORED, {0, 0}},     {{WRITE, 2, 10, 10, 0, none}, STORED, {0, 10}},
    {{WRITE, 1, 31, 10, 0, none}, STORED, {10, 10}}, {{COMMIT, 0, 0, 10, 0, none}, STORED, {0, 0}},
    {{READ, 2, 10, 0, 0, none}, VALUE, {0, 0}},
};
/* Whether the rows are those that an opening and rebuilds would make, but for how far was read. */
static int rows_are_rebuilt(struct lent l) {
    uint8_t other_fates[sizeof talk_fates];
    uint64_t other[NUMBERS], got[TOLD];
    int all = 1;
    struct lent again = l;
    again.fates = other_fates, again.rows = other;
    make_call(again, (struct call){.kind = OPEN}, got);
    for (uint64_t f = 1; f <= 2; f++) {
        const uint64_t *row = l.rows + ROW_LENGTH * (f - 1), *must = other + ROW_LENGTH * (f - 1);
        make_call(again, (struct call){.kind = REBUILD, .file = f}, got);
        all = all && got[WHICH] == REBUILT && row[CURRENT] == must[CURRENT] && row[TOKEN] == must[TOKEN]
              && row[TOKEN_ACTION] == must[TOKEN_ACTION];
    }
    return all;
}

static void talked(void) {
    uint64_t number[NUMBERS] = {0}, got[TOLD];
    int named = 1, rebuilt = 1;
    struct lent l = {talk_sheet, sizeof talk_sheet, talk_fates, sizeof talk_fates, number, NUMBERS, 0, 0, 0};
    for (size_t i = 0; i < sizeof talk / sizeof *talk; i++) {
        make_call(l, talk[i].call, got);
        l.end = got[END], l.undecided = got[UNDECIDED];
        named = named && got[WHICH] == talk[i].which && number[TOKEN_ACTION] == talk[i].named[0]
                && number[ROW_LENGTH + TOKEN_ACTION] == talk[i].named[1];
        rebuilt = rebuilt && rows_are_rebuilt(l);
    }
    told("two actions over two files: after every call each row names its token's action, or 0", named);
    told("and is what an opening and a rebuild would make, but for its ends", rebuilt);
}

/* ---- decisions among many rows */

/* Action 1 is decided, 2 is not. Each of them wrote every file once. */
enum { MOST_FILES = 256, MANY_PAGES = 2 * MOST_FILES + 3 };
static uint8_t many_sheet[MANY_PAGES * PAGE], many_fates[MANY_PAGES];
static uint64_t many_rows[ROW_LENGTH * MOST_FILES], must_be[ROW_LENGTH * MOST_FILES];
static uint8_t is_own[MOST_FILES]; /* whether the row after so many others is one of action 1 */

static uint64_t image_by(uint64_t action, uint64_t files, uint64_t file) { return action ? 2 + (action - 1) * files + file : 0; }

static void put_many(int kind, uint64_t file, uint64_t action, uint64_t place) {
    plain_pack(many_sheet + PAGE * (place - 1), kind, 0, file, action, 0, kind == 2, none, place);
}

static void set_up_many(uint64_t files) {
    memset(many_sheet, 0, sizeof many_sheet);
    put_many(1, 0, 1, 1);
    put_many(1, 0, 2, 2);
    for (uint64_t f = 1; f <= files; f++) {
        put_many(2, f, 1, image_by(1, files, f));
        put_many(2, f, 2, image_by(2, files, f));
    }
}

/* A row that is settled, and those that are not: by its mark, who wrote the image that is its token, and the action that it names. */
enum { OTHERS = 5, FILLINGS = 2 * OTHERS };
struct sort {
    uint64_t mark, writer, named;
};
static const struct sort own = {1, 1, 1};
static const struct sort others[OTHERS] = {
    {1, 0, 0}, /* no token */
    {1, 2, 2}, /* the other action's token */
    {0, 1, 1}, /* cold, but names the action */
    {2, 1, 1}, /* a mark of 2, but names it */
    {1, 2, 1}, /* names it, but the page is the other action's */
};

/* Fills a file's row, and says what it must be after a decision. No two files have a number in common, but for marks and actions. */
static void fill_row(uint64_t files, uint64_t file, struct sort s, enum kind kind) {
    uint64_t *row = many_rows + ROW_LENGTH * (file - 1), *must = must_be + ROW_LENGTH * (file - 1);
    uint64_t current = 1000 + file, current_end = 2000 + file, token = image_by(s.writer, files, file), token_end = token ? 3000 + file : 0;
    memcpy(row, (uint64_t[ROW_LENGTH]){s.mark, current, current_end, token, token_end, s.named}, ROW_LENGTH * sizeof *row);
    memcpy(must, row, ROW_LENGTH * sizeof *row);
    if (!is_own[file - 1])
        return;
    if (kind == COMMIT)
        must[CURRENT] = token, must[CURRENT_END] = token_end;
    must[TOKEN] = must[TOKEN_END] = must[TOKEN_ACTION] = 0;
}

/* Whether a decision of action 1 settles its rows and leaves the others, which are all of one sort, or of each in turn. */
static int settles_among(uint64_t files, enum kind kind, uint64_t filling) {
    uint64_t got[TOLD], used = 2 + 2 * files;
    for (uint64_t f = 1; f <= files; f++)
        fill_row(files, f, is_own[f - 1] ? own : others[filling < OTHERS ? filling : (filling + f) % OTHERS], kind);
    many_fates[0] = many_fates[1] = 1;
    struct lent l = {many_sheet, PAGE * (used + 1), many_fates, used + 1, many_rows, ROW_LENGTH * files, used, 0, 2};
    make_call(l, (struct call){.kind = kind, .action = 1}, got);
    memset(many_sheet + PAGE * used, 0, PAGE);
    return got[WHICH] == STORED && got[FIRST] == used + 1 && many_fates[0] == (kind == COMMIT ? 2 : 3)
           && !memcmp(many_rows, must_be, ROW_LENGTH * files * sizeof *many_rows);
}

/* Both decisions, with each filling. */
static int settles(uint64_t files) {
    for (uint64_t i = 0; i < 2 * FILLINGS; i++)
        if (!settles_among(files, i % 2 ? COMMIT : ABORT, i / 2)) {
            printf("%s among %d files, filling %d\n", i % 2 ? "commit" : "abort", (int)files, (int)i / 2);
            return 0;
        }
    return 1;
}

static void choose(uint64_t set, uint64_t files) {
    for (uint64_t i = 0; i < files; i++)
        is_own[i] = set >> i & 1;
}

/* Every set of rows that are the action's. */
static int settles_sets(uint64_t files) {
    int all = 1;
    set_up_many(files);
    for (uint64_t set = 0; set >> files == 0 && all; set++) {
        choose(set, files);
        all = settles(files);
    }
    return all;
}

/* Every one and every two of some rows, and none. */
static int settles_pairs(uint64_t files, const uint64_t some[], uint64_t count) {
    memset(is_own, 0, sizeof is_own);
    set_up_many(files);
    int all = settles(files);
    for (uint64_t i = 0; i < count * count; i++) {
        uint8_t *one = is_own + some[i / count], *two = is_own + some[i % count];
        *one = *two = 1;
        all = all && (one > two || settles(files));
        *one = *two = 0;
    }
    return all;
}

static void many_rows_settled(void) {
    static const uint64_t every[] = {0, 1, 2, 3, 4, 5, 6, 7, 8, 9, 10, 11, 12}, three[] = {0, MOST_FILES / 2, MOST_FILES - 1};
    int sets = 1, pairs = 1;
    for (uint64_t files = 1; files <= 8; files++)
        sets = sets && settles_sets(files);
    for (uint64_t files = 9; files <= 13; files++)
        pairs = pairs && settles_pairs(files, every, files);
    told("of 1 to 8 files, every set of rows that are the action's is settled by a commit and an abort, and every other row left", sets);
    told("of 9 to 13 files, every one and every two", pairs);
    told("of 256 files, the first, the last and one in the middle", settles_pairs(MOST_FILES, three, 3));
}

/* ---- how many numbers are lent */

/* Whether a call on rows of so many numbers is refused 1. */
static int is_1(enum kind kind, size_t numbers) {
    uint64_t many[9 * ROW_LENGTH] = {0}, got[TOLD];
    set_up();
    struct lent l = lent();
    l.rows = many, l.numbers = numbers;
    make_call(l, (struct call){kind, 1, 40, 7, 0, none}, got);
    return got[WHICH] == REFUSED && got[FIRST] == 1 && got[SECOND] == 0;
}

static void row_lengths(void) {
    int five = 1, six = 1, others = 1;
    for (enum kind kind = BEGIN; kind <= REBUILD; kind++)
        for (size_t files = 1; files <= 8; files++) {
            size_t fewer = (ROW_LENGTH - 1) * files, numbers = ROW_LENGTH * files;
            five = five && is_1(kind, fewer) == (fewer % ROW_LENGTH > 0);
            six = six && !is_1(kind, numbers);
            others = others && is_1(kind, numbers - 1) && is_1(kind, numbers + 1);
        }
    told("rows of five numbers for 1 to 8 files are refused 1 by every call, but for 6 files, where they are 5 rows", five);
    told("rows of six are not", six);
    told("one number more or less is", others && is_1(OPEN, 0) && is_1(REBUILD, 0));
}

/* A write, an opening and a rebuild that would each change something, told in a run of another length. */
static int does_nothing(size_t count) {
    uint8_t sheet_was[sizeof sheet], fates_was[sizeof fates];
    uint64_t rows_was[NUMBERS], got[TOLD + 2], were[TOLD + 2];
    set_up();
    memset(got, 77, sizeof got);
    memcpy(were, got, sizeof got);
    memcpy(sheet_was, sheet, sizeof sheet);
    memcpy(fates_was, fates, sizeof fates);
    memcpy(rows_was, rows, sizeof rows);
    door_call(sheet, sizeof sheet, fates, PAGES, rows, NUMBERS, end, 0, undecided, WRITE, 1, 40, 7, none, 0, got, count);
    door_open(sheet, sizeof sheet, fates, PAGES, rows, NUMBERS, 0, got, count);
    door_rebuild(sheet, sizeof sheet, fates, PAGES, rows, NUMBERS, end, 0, undecided, 1, got, count);
    return !memcmp(got, were, sizeof got) && !memcmp(sheet_was, sheet, sizeof sheet) && !memcmp(fates_was, fates, sizeof fates)
           && !memcmp(rows_was, rows, sizeof rows);
}

static void told_lengths(void) {
    int all = 1;
    for (size_t count = 0; count <= TOLD + 2; count++)
        all = all && does_nothing(count) == (count != TOLD);
    told("with a run of another length the tests' door does nothing", all);
}

int main(void) {
    cold_rows();
    damaged_rows();
    pages_in_the_way();
    most_links();
    outcomes();
    asked_again();
    false_fates();
    lost_replies();
    which_starts_count();
    sizes_and_counts();
    longest_sheets();
    written_again();
    lawful_sheets();
    newest_counts();
    cut_images();
    wrong_actions();
    settled_rows();
    passed_over_rows();
    passed_over_pages();
    written_actions();
    talked();
    many_rows_settled();
    row_lengths();
    told_lengths();
    printf("%d passed, %d failed\n", passed, failed);
    return failed != 0;
}
