/* sheet: looks at a sheet, and packs pages. It only reads sheets; it never writes one.

   Exit status: 0 the sheet is as it should be, or the page was packed; 1 it is not: used, not lawful, a page unfit, or no such
   page; 2 the question could not be answered: wrong words, no such file, no sheet. */
#define _POSIX_C_SOURCE 200809L
#include "desk.h"
#include <errno.h>
#include <inttypes.h>
#include <stdarg.h>
#include <stdio.h>
#include <stdlib.h>
#include <string.h>
#include <unistd.h>

enum { FINE, WRONG, NO_ANSWER };
enum { KIND, SMALL, FILE_NUMBER, ACTION, LINK, START };
enum { VALUE_OFFSET = 24, LONGEST = DESK_PAGE * DESK_MOST_PAGES };

static const char version[] = "sheet 1.0\n";
static const char usage[] =
    "sheet blank FILE            is the sheet blank?\n"
    "sheet inspect FILES FILE    is it lawful, for so many files? If not: its lowest wrong page\n"
    "sheet show FILES FILE       a line a page\n"
    "sheet pack FILES PLACE opening\n"
    "sheet pack FILES PLACE carried\n"
    "sheet pack FILES PLACE image NUMBER ACTION LINK START VALUE\n"
    "sheet pack FILES PLACE committed ACTION\n"
    "sheet pack FILES PLACE aborted ACTION\n"
    "                            the page's 64 bytes, to the standard output\n"
    "sheet -h, --help, help      these lines\n"
    "sheet --version             the version of this tool\n"
    "FILES is 1 to 256, PLACE 1 to 65536. VALUE is a text, or 0x and hexadecimal digits.\n"
    "Exit status: 0 yes, shown, packed; 1 no, a page is unfit, no such page; 2 it could not be told.\n";

struct sheet {
    const char *name;
    uint8_t *bytes;
    size_t size;
};

/* Where answers and complaints go. */
struct desk {
    FILE *out, *err;
};

static int complain(struct desk d, int status, const char *format, ...) {
    va_list rest;
    va_start(rest, format);
    fputs("sheet: ", d.err);
    vfprintf(d.err, format, rest);
    fputc('\n', d.err);
    va_end(rest);
    return status;
}

/* ---- what is given */

static int is_number(const char *word, uint64_t *number) {
    uint64_t n = 0;
    if (*word == 0)
        return 0;
    for (; *word; word++) {
        unsigned digit = (unsigned)*word - '0';
        if (digit > 9 || n > (UINT64_MAX - digit) / 10)
            return 0;
        n = 10 * n + digit;
    }
    *number = n;
    return 1;
}

/* A field of a page: the page itself says which numbers it can have. */
static int given_field(struct desk d, const char *what, const char *word, uint64_t *number) {
    if (is_number(word, number))
        return FINE;
    return complain(d, NO_ANSWER, "%s: not a number from 0 to %" PRIu64 ": %s", what, UINT64_MAX, word);
}

static int given_count(struct desk d, const char *what, const char *word, int most, uint64_t *number) {
    if (is_number(word, number) && *number >= 1 && *number <= (uint64_t)most)
        return FINE;
    return complain(d, NO_ANSWER, "%s is 1 to %d, not %s", what, most, word);
}

static int given_files(struct desk d, const char *word, uint64_t *files) {
    return given_count(d, "FILES", word, DESK_MOST_FILES, files);
}

static int given_place(struct desk d, const char *word, uint64_t *place) {
    return given_count(d, "PLACE", word, DESK_MOST_PAGES, place);
}

/* Reads as much as a sheet can have, and a byte more if it is there, so that a file or pipe of any length can be given. */
static int read_bytes(struct desk d, struct sheet *sheet) {
    FILE *file = fopen(sheet->name, "rb");
    if (!file)
        return complain(d, NO_ANSWER, "%s: %s", sheet->name, strerror(errno));
    sheet->bytes = malloc(LONGEST + 1);
    if (sheet->bytes)
        sheet->size = fread(sheet->bytes, 1, LONGEST + 1, file);
    int error = !sheet->bytes || ferror(file) ? errno : 0;
    fclose(file);
    return error ? complain(d, NO_ANSWER, "%s: %s", sheet->name, strerror(error)) : FINE;
}

static int load(struct desk d, struct sheet *sheet) {
    int status = read_bytes(d, sheet);
    if (status != FINE)
        return status;
    if (sheet->size > LONGEST)
        return complain(d, NO_ANSWER, "%s: no sheet: more than %d bytes", sheet->name, LONGEST);
    if (sheet->size == 0 || sheet->size % DESK_PAGE != 0)
        return complain(d, NO_ANSWER, "%s: no sheet: %zu bytes are not pages of %d", sheet->name, sheet->size, DESK_PAGE);
    return FINE;
}

/* ---- pages */

static uint64_t page_count(const struct sheet *sheet) { return sheet->size / DESK_PAGE; }
static const uint8_t *page_at(const struct sheet *sheet, uint64_t place) { return sheet->bytes + DESK_PAGE * (place - 1); }

static uint64_t test_page(const struct sheet *sheet, uint64_t place, uint64_t files, uint64_t *fields) {
    return desk_test(page_at(sheet, place), DESK_PAGE, place, files, fields, DESK_FIELDS);
}

static int is_blank(const struct sheet *sheet, uint64_t place) {
    uint64_t fields[DESK_FIELDS];
    return test_page(sheet, place, DESK_MOST_FILES, fields) == DESK_BLANK;
}

/* The highest place that is not blank. */
static uint64_t end_of(const struct sheet *sheet) {
    uint64_t end = page_count(sheet);
    while (end > 0 && is_blank(sheet, end))
        end--;
    return end;
}

/* Whether a value can be shown as it is: in letters that print, and not as if it were hexadecimal. */
static int is_text(const uint8_t *value, uint64_t length) {
    for (uint64_t i = 0; i < length; i++)
        if (value[i] <= ' ' || value[i] > '~')
            return 0;
    return length > 0 && !(length > 1 && value[0] == '0' && value[1] == 'x');
}

static void show_value(FILE *out, const uint8_t *value, uint64_t length) {
    if (is_text(value, length)) {
        fwrite(value, 1, length, out);
        return;
    }
    fputs("0x", out);
    for (uint64_t i = 0; i < length; i++)
        fprintf(out, "%02x", value[i]);
}

static void show_fields(FILE *out, const uint64_t *fields, const uint8_t *value) {
    switch (fields[KIND]) {
    case DESK_OPENING:
        fputs(fields[SMALL] == 0 ? "opening" : "carried opening", out);
        break;
    case DESK_IMAGE:
        fprintf(out, "image, file %" PRIu64 ", action %" PRIu64 ", link %" PRIu64 ", start %" PRIu64 ", value ",
                fields[FILE_NUMBER], fields[ACTION], fields[LINK], fields[START]);
        show_value(out, value, fields[SMALL]);
        break;
    default:
        fprintf(out, "%s, action %" PRIu64, fields[SMALL] == 1 ? "committed" : "aborted", fields[ACTION]);
    }
}

/* One line; what the page test said. */
static uint64_t show_page(FILE *out, const struct sheet *sheet, uint64_t place, uint64_t files) {
    uint64_t fields[DESK_FIELDS], found = test_page(sheet, place, files, fields);
    fprintf(out, "%" PRIu64 ": ", place);
    if (found == DESK_FITS)
        show_fields(out, fields, page_at(sheet, place) + VALUE_OFFSET);
    else
        fputs(found == DESK_TORN ? "torn" : found == DESK_BLANK ? "blank" : "unfit", out);
    fputc('\n', out);
    return found;
}

/* ---- the four commands */

static int blank(struct desk d, const struct sheet *sheet) {
    uint64_t end = end_of(sheet), count = page_count(sheet);
    if (end == 0)
        fprintf(d.out, "%s: blank, %" PRIu64 " pages\n", sheet->name, count);
    else
        fprintf(d.out, "%s: used, up to page %" PRIu64 " of %" PRIu64 "\n", sheet->name, end, count);
    return end == 0 ? FINE : WRONG;
}

static int inspect(struct desk d, const struct sheet *sheet, uint64_t files) {
    uint64_t place = desk_inspect(sheet->bytes, sheet->size, files);
    if (place == DESK_REFUSED)
        return complain(d, NO_ANSWER, "%s: refused", sheet->name);
    if (place == 0) {
        fprintf(d.out, "%s: lawful, %" PRIu64 " of %" PRIu64 " pages used\n", sheet->name, end_of(sheet), page_count(sheet));
        return FINE;
    }
    fprintf(d.out, "%s: not lawful, the lowest page that is bad or does not go on from those below is\n", sheet->name);
    show_page(d.out, sheet, place, files);
    return WRONG;
}

/* Blank pages above the end are one line together. */
static int show(struct desk d, const struct sheet *sheet, uint64_t files) {
    uint64_t end = end_of(sheet), count = page_count(sheet);
    int status = FINE;
    for (uint64_t place = 1; place <= end; place++) {
        uint64_t found = show_page(d.out, sheet, place, files);
        if (found == DESK_UNFIT || found == DESK_BLANK)
            status = WRONG;
    }
    if (count == end + 1)
        fprintf(d.out, "%" PRIu64 ": blank\n", count);
    else if (end < count)
        fprintf(d.out, "%" PRIu64 " to %" PRIu64 ": blank\n", end + 1, count);
    return status;
}

static int about_sheet(struct desk d, const char *command, const char *files_word, const char *name) {
    struct sheet sheet = {name, NULL, 0};
    uint64_t files = DESK_MOST_FILES;
    int status = files_word ? given_files(d, files_word, &files) : FINE;
    if (status == FINE)
        status = load(d, &sheet);
    if (status == FINE)
        status = !files_word ? blank(d, &sheet) : strcmp(command, "show") == 0 ? show(d, &sheet, files) : inspect(d, &sheet, files);
    free(sheet.bytes);
    return status;
}

static int hex_digit(char c) {
    static const char digits[] = "0123456789abcdef";
    const char *at = c ? strchr(digits, c) : NULL;
    return at ? (int)(at - digits) : -1;
}

/* A value's bytes, zeros after them, and its length. */
static int given_value(struct desk d, const char *word, uint8_t *value, uint64_t *length) {
    int is_hex = word[0] == '0' && word[1] == 'x';
    size_t letters = strlen(word) - (is_hex ? 2 : 0);
    *length = is_hex ? letters / 2 : letters;
    if (*length > DESK_VALUE)
        return complain(d, WRONG, "no such page: a value has at most %d bytes, not %" PRIu64, DESK_VALUE, *length);
    if (!is_hex) {
        memcpy(value, word, letters);
        return FINE;
    }
    for (size_t i = 0; i < letters; i++) {
        int digit = hex_digit(word[2 + i]);
        if (digit < 0 || letters % 2 != 0)
            return complain(d, NO_ANSWER, "VALUE: not pairs of hexadecimal digits (0 to 9, a to f): %s", word);
        value[i / 2] = (uint8_t)(16 * value[i / 2] + digit);
    }
    return FINE;
}

static int given_image(struct desk d, char **words, uint64_t *fields, uint8_t *value) {
    static const char *const names[] = {"NUMBER", "ACTION", "LINK", "START"};
    for (int i = 0; i < 4; i++)
        if (given_field(d, names[i], words[i], &fields[FILE_NUMBER + i]) != FINE)
            return NO_ANSWER;
    fields[KIND] = DESK_IMAGE;
    return given_value(d, words[4], value, &fields[SMALL]);
}

/* The fields that the words after PLACE give; what is not named is 0. */
static int given_fields(struct desk d, int count, char **words, uint64_t place, uint64_t *fields, uint8_t *value) {
    if (count == 1 && (strcmp(words[0], "opening") == 0 || strcmp(words[0], "carried") == 0)) {
        fields[KIND] = DESK_OPENING;
        fields[SMALL] = words[0][0] == 'c';
        fields[ACTION] = place;
        return FINE;
    }
    if (count == 6 && strcmp(words[0], "image") == 0)
        return given_image(d, words + 1, fields, value);
    if (count == 2 && (strcmp(words[0], "committed") == 0 || strcmp(words[0], "aborted") == 0)) {
        fields[KIND] = DESK_OUTCOME;
        fields[SMALL] = words[0][0] == 'c' ? 1 : 2;
        return given_field(d, "ACTION", words[1], &fields[ACTION]);
    }
    return complain(d, NO_ANSWER, "pack what? See sheet help");
}

static int no_such_page(struct desk d, uint64_t kind) {
    if (kind == DESK_OUTCOME)
        return complain(d, WRONG, "no such page: ACTION is 1 or more, and below PLACE");
    return complain(d, WRONG, "no such page: NUMBER is 1 to FILES, ACTION 1 or more, START 1 or more; ACTION and LINK are below PLACE");
}

static int pack(struct desk d, int count, char **words) {
    uint64_t files, place, f[DESK_FIELDS] = {0}, answer;
    uint8_t value[DESK_VALUE] = {0}, page[DESK_PAGE];
    int status = given_files(d, words[0], &files);
    if (status == FINE)
        status = given_place(d, words[1], &place);
    if (status == FINE)
        status = given_fields(d, count - 2, words + 2, place, f, value);
    if (status != FINE)
        return status;
    answer = desk_pack(f[KIND], f[SMALL], f[FILE_NUMBER], f[ACTION], f[LINK], f[START], value, sizeof value, place, files, page,
                       sizeof page);
    if (answer != DESK_PACKED)
        return no_such_page(d, f[KIND]);
    if (isatty(fileno(d.out)))
        return complain(d, NO_ANSWER, "a page is no text: send it to a file");
    fwrite(page, 1, sizeof page, d.out);
    return FINE;
}

static int is_help(const char *word) {
    return strcmp(word, "-h") == 0 || strcmp(word, "--help") == 0 || strcmp(word, "help") == 0;
}

static int answer(struct desk d, int count, char **words) {
    const char *command = count > 1 ? words[1] : "";
    if (count == 2 && (is_help(command) || strcmp(command, "--version") == 0)) {
        fputs(is_help(command) ? usage : version, d.out);
        return FINE;
    }
    if (count == 3 && strcmp(command, "blank") == 0)
        return about_sheet(d, command, NULL, words[2]);
    if (count == 4 && (strcmp(command, "inspect") == 0 || strcmp(command, "show") == 0))
        return about_sheet(d, command, words[2], words[3]);
    if (count >= 5 && strcmp(command, "pack") == 0)
        return pack(d, count - 2, words + 2);
    fputs(usage, d.err);
    return NO_ANSWER;
}

int main(int count, char **words) {
    struct desk d = {stdout, stderr};
    int status = answer(d, count, words);
    if (fflush(stdout) != 0 || ferror(stdout))
        return complain(d, NO_ANSWER, "standard output: %s", strerror(errno));
    return status;
}
