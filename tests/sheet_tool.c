/* The tool `sheet` from the inside, with gcc's sanitizers: random, damaged, cut, short and long files through its commands, and
   its page lines packed again. Its exit status and its lines must be what the plain version of a page says. Prints a line for
   each test and 'N passed, M failed'. Usage: sheet_tool FOLDER [SEED] */
#define main sheet_main
#include "../c/sheet.c"
#undef main
#include "plain.h"
#include "tell.h"

enum { RUNS = 2000, PAGES = 24, FILES = 5 };
static char path[4096];
static uint8_t bytes[PAGE * PAGES];
static size_t size;

/* What a command wrote and answered. */
struct said {
    int status;
    char *out, *err;
    size_t out_size, err_size;
};

static struct said say(int count, char **words) {
    struct said s = {0, NULL, NULL, 0, 0};
    struct desk d = {open_memstream(&s.out, &s.out_size), open_memstream(&s.err, &s.err_size)};
    if (!d.out || !d.err)
        exit(1);
    s.status = answer(d, count, words);
    fclose(d.out);
    fclose(d.err);
    return s;
}

static void forget(struct said s) {
    free(s.out);
    free(s.err);
}

static void store(size_t zeros_after) {
    FILE *file = fopen(path, "wb");
    if (!file || fwrite(bytes, 1, size, file) != size)
        exit(1);
    for (size_t i = 0; i < zeros_after; i++)
        fputc(0, file);
    fclose(file);
}

/* ---- random files */

static void fill_page(uint8_t *page, uint64_t place) {
    uint8_t value[32] = {0};
    uint64_t length = below(33), action = 1 + below(place);
    switch (below(4)) {
    case 0:
        plain_pack(page, 1, (int)below(2), 0, place, 0, 0, value, place);
        break;
    case 1:
        plain_pack(page, 3, 1 + (int)below(2), 0, action, 0, 0, value, place);
        break;
    default:
        for (uint64_t i = 0; i < length; i++)
            value[i] = (uint8_t)(below(9) ? 0x21 + below(0x5E) : below(256));
        if (length > 1 && below(8) == 0)
            value[0] = '0', value[1] = 'x'; /* as if it were hexadecimal */
        plain_pack(page, 2, (int)length, 1 + below(FILES), action, below(place), 1 + below(99), value, place);
    }
}

static void fill(void) {
    uint64_t count = 1 + below(PAGES), used = below(count + 1);
    memset(bytes, 0, sizeof bytes);
    size = PAGE * count;
    for (uint64_t p = 1; p <= used; p++) {
        uint8_t *page = bytes + PAGE * (p - 1);
        fill_page(page, p);
        uint64_t at = below(PAGE);
        if (below(8) == 0)
            memset(page + at, 0, PAGE - at); /* cut */
        if (below(8) == 0)
            page[at] ^= (uint8_t)(1 + below(255));
        if (below(12) == 0)
            for (int i = 0; i < PAGE; i++)
                page[i] = (uint8_t)below(256);
    }
    if (below(6) == 0)
        size = below(4) ? below(sizeof bytes + 1) : 0;
}

static int is_sheet(void) { return size > 0 && size % PAGE == 0; }
static int is_zero(const uint8_t *page) {
    for (int i = 0; i < PAGE; i++)
        if (page[i])
            return 0;
    return 1;
}
static uint64_t used_pages(void) {
    uint64_t end = size / PAGE;
    while (end > 0 && is_zero(bytes + PAGE * (end - 1)))
        end--;
    return end;
}

/* ---- the tests */

static int sheets_seen, blanks_seen, wrong_seen, packed_seen, carried_seen;

/* Nothing said on one side unless the status says so. */
static int is_said(struct said s, int status) {
    int is_right = s.status == status && (s.err_size == 0) == (status != NO_ANSWER) && (s.out_size == 0) == (status == NO_ANSWER);
    if (!is_right)
        printf("status %d, expected %d: %s%s", s.status, status, s.out, s.err);
    return is_right;
}

static int blank_is_right(void) {
    char *words[] = {"sheet", "blank", path};
    struct said s = say(3, words);
    int is_blank_sheet = used_pages() == 0;
    int is_right = is_said(s, !is_sheet() ? NO_ANSWER : is_blank_sheet ? FINE : WRONG);
    blanks_seen += is_sheet() && is_blank_sheet;
    forget(s);
    return is_right;
}

static int inspect_is_right(void) {
    char *words[] = {"sheet", "inspect", "5", path};
    uint64_t place = desk_inspect(bytes, size, FILES);
    struct said s = say(4, words);
    int is_right = is_said(s, place == DESK_REFUSED ? NO_ANSWER : place == 0 ? FINE : WRONG);
    forget(s);
    return is_right;
}

/* Words for `sheet pack` give the same 64 bytes. */
static int gives(int count, char **words, const uint8_t *page) {
    struct said s = say(count, words);
    int is_right = s.status == FINE && s.out_size == PAGE && memcmp(s.out, page, PAGE) == 0;
    if (!is_right)
        printf("page %s is not packed again: %s\n", words[3], words[4]);
    packed_seen++;
    forget(s);
    return is_right;
}

/* The words of an image's or an opening's line go back into `sheet pack`. A carried opening has small byte 1. */
static int packs_again(char *line, const uint8_t *page) {
    char place[24], first[24], second[24] = "", number[24], action[24], link[24], start[24], value[80];
    if (sscanf(line, "%23[0-9]: image, file %23[0-9], action %23[0-9], link %23[0-9], start %23[0-9], value %79s", place, number, action,
               link, start, value) == 6)
        return gives(10, (char *[]){"sheet", "pack", "5", place, "image", number, action, link, start, value}, page);
    int count = sscanf(line, "%23[0-9]: %23[a-z] %23[a-z]", place, first, second), is_carried = strcmp(first, "carried") == 0;
    if (count < 2 || strcmp(is_carried ? second : first, "opening") != 0)
        return 1;
    carried_seen += is_carried;
    return page[1] == is_carried && gives(5, (char *[]){"sheet", "pack", "5", place, first}, page);
}

/* A line for each page up to the end, then one for the blank ones. */
static int lines_are_right(struct said s) {
    uint64_t place = 1, end = used_pages();
    for (char *line = strtok(s.out, "\n"); line; line = strtok(NULL, "\n"), place++) {
        if (strtoull(line, NULL, 10) != place)
            return 0;
        if (place <= end && !packs_again(line, bytes + PAGE * (place - 1)))
            return 0;
    }
    return place == 1 + end + (end < size / PAGE);
}

static int show_is_right(void) {
    char *words[] = {"sheet", "show", "5", path};
    uint64_t end = used_pages();
    int status = is_sheet() ? FINE : NO_ANSWER;
    for (uint64_t p = 1; status != NO_ANSWER && p <= end; p++) {
        const uint8_t *page = bytes + PAGE * (p - 1);
        int is_torn = page[0] >= 1 && page[0] <= 3 && page[63] == 0;
        if (!is_torn && !plain_fits(page, p, FILES))
            status = WRONG;
    }
    struct said s = say(4, words);
    int is_right = is_said(s, status) && (status == NO_ANSWER || lines_are_right(s));
    wrong_seen += status == WRONG;
    sheets_seen += is_sheet();
    forget(s);
    return is_right;
}

static int files_are_right(void) {
    for (int run = 0; run < RUNS; run++) {
        fill();
        store(0);
        if (!blank_is_right() || !inspect_is_right() || !show_is_right())
            return 0;
    }
    return sheets_seen > RUNS / 2 && blanks_seen > RUNS / 100 && wrong_seen > RUNS / 4 && packed_seen > RUNS
           && carried_seen > RUNS / 4;
}

/* Blank files around the length of the longest sheet. */
static int long_files_are_right(void) {
    char *blank_words[] = {"sheet", "blank", path}, *show_words[] = {"sheet", "show", "5", path};
    size = 0;
    for (size_t length = LONGEST - 1; length <= LONGEST + PAGE; length += length == LONGEST + 1 ? PAGE - 1 : 1) {
        store(length);
        struct said blank_said = say(3, blank_words), show_said = say(4, show_words);
        int status = length == LONGEST ? FINE : NO_ANSWER;
        int is_right = is_said(blank_said, status) && is_said(show_said, status);
        forget(blank_said);
        forget(show_said);
        if (!is_right)
            return 0;
    }
    return 1;
}

/* The options that are answered alone; any other, and any word after one, is wrong. */
static int is_option(int count, char **words) {
    return count == 2 && (strcmp(words[1], "-h") == 0 || strcmp(words[1], "--version") == 0);
}

/* Words that are no command, or a command with wrong ones. */
static int words_are_right(void) {
    static char *const known[] = {"blank", "inspect", "show", "pack", "-h", "--version", "-x", "image", "opening", "carried",
                                  "committed", "aborted", "0", "1", "2", "5", "257", "65537", "-1", "18446744073709551616", "", "0x", "0x0",
                                  "0xzz", "a", "1 ", "no/file"};
    int options_seen = 0;
    for (int run = 0; run < 20 * RUNS; run++) {
        char *words[12] = {"sheet"};
        int count = 1 + (int)below(11);
        for (int i = 1; i < count; i++)
            words[i] = known[below(i == 1 ? 7 : sizeof known / sizeof *known)];
        struct said s = say(count, words);
        /* no file of these names is there: only pages and options can be answered */
        int is_asked = is_option(count, words), is_page = s.out_size == PAGE && !is_asked;
        int is_right = s.status == FINE ? (is_page || is_asked) && s.out_size > 0 && s.err_size == 0
                                        : !is_asked && s.out_size == 0 && s.err_size > 0;
        if (!is_right)
            return printf("%s: %s%s\n", words[1], s.out, s.err), 0;
        options_seen += is_asked;
        forget(s);
    }
    return options_seen > RUNS / 4;
}

int main(int count, char **words) {
    if (count < 2)
        return 2;
    snprintf(path, sizeof path, "%s/random", words[1]);
    seed = count > 2 ? strtoull(words[2], NULL, 10) | 1 : 20261115;
    printf("seed %llu\n", (unsigned long long)seed);
    told("random, damaged, cut and short files", files_are_right());
    told("long files", long_files_are_right());
    told("wrong words", words_are_right());
    printf("%d passed, %d failed\n", passed, failed);
    return failed != 0;
}
