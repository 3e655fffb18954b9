/* The order in which an append's bytes reach the sheet, in the code as it was compiled: the calls of the library, a move to a fresh sheet, and
   the program itself in a short conversation, run one instruction at a time. After each the whole sheet is looked at: only the page above
   the end may have changed, byte 0 is stored before any other of it and alone, byte 63 after all others and alone, and between
   them each byte goes once from 0 to what it will be, in any order. A store of what already stands is not seen.

   Usage: order PROGRAM. Where nothing can be run one instruction at a time it fails, unless NO_STEPPING is set. Prints a line for
   each test and 'N passed, M failed'. */
#define _GNU_SOURCE
#include <fcntl.h>
#include <signal.h>
#include <sys/ioctl.h>
#include <sys/ptrace.h>
#include <sys/wait.h>
#include <unistd.h>
#include "door.h"
#include "plain.h"
#include "tell.h"

enum { APPENDS = 7, PAGES = APPENDS + 4, FILES = 8, PROGRAM_SIZE = 256 * PAGE };
static uint8_t sheet[PAGES * PAGE];      /* of the calls, and of the wrong stores that must be found out */
static uint8_t whole[APPENDS + 1][PAGE]; /* the pages that will be stored, by their places */

/* ---- what may stand */

/* The sheet of a process: where it is, as it was after the last instruction, and how many of its pages are whole. It is watched until
   the process ends or, if that has an output, until so many bytes are written there. */
struct watch {
    pid_t process;
    int memory, output, until;
    off_t at;
    size_t size;
    uint8_t was[PROGRAM_SIZE];
    uint64_t end;
    int steps, stores;
};

/* An instruction has changed the page above the end. */
static int page_goes_on(const uint8_t *was, const uint8_t *is, const uint8_t *will) {
    int changed = 0, missing = 0;
    for (int i = 0; i < PAGE; i++) {
        if (is[i] != was[i] && is[i] != will[i])
            return 0;
        changed += is[i] != was[i];
        missing += is[i] != will[i];
    }
    if (was[0] == 0 && (is[0] == 0 || changed > 1))
        return 0;
    return is[63] == 0 || (missing == 0 && changed == 1);
}

/* After an instruction: whether what stands may stand. */
static int goes_on(struct watch *w) {
    static uint8_t is[PROGRAM_SIZE];
    uint64_t from = PAGE * w->end, to = from + PAGE;
    w->steps++;
    if (pread(w->memory, is, w->size, w->at) != (ssize_t)w->size)
        return 0;
    if (memcmp(is, w->was, w->size) == 0)
        return 1;
    if (w->end == APPENDS || memcmp(is, w->was, from) || memcmp(is + to, w->was + to, w->size - to)
        || !page_goes_on(w->was + from, is + from, whole[w->end + 1]))
        return 0;
    w->stores++;
    w->end += is[from + 63] != 0;
    memcpy(w->was, is, w->size);
    return 1;
}

/* ---- one instruction at a time */

static int is_stopped(pid_t process) {
    int status;
    return waitpid(process, &status, 0) == process && WIFSTOPPED(status);
}

static struct watch watch(pid_t process, const void *at, size_t size, uint64_t end) {
    struct watch w = {.process = process, .output = -1, .at = (off_t)(uintptr_t)at, .size = size, .end = end};
    char name[32];
    snprintf(name, sizeof name, "/proc/%d/mem", (int)process);
    w.memory = open(name, O_RDONLY);
    return w;
}

static int is_written(const struct watch *w) {
    int count = 0;
    return w->output >= 0 && ioctl(w->output, FIONREAD, &count) == 0 && count >= w->until;
}

/* Runs a process that is stopped, as long as it is watched; whether every instruction went on as it may. */
static int stepped(struct watch *w) {
    int status = 0, right = 1, signal = 0;
    while (ptrace(PTRACE_SINGLESTEP, w->process, NULL, signal) == 0 && waitpid(w->process, &status, 0) == w->process
           && WIFSTOPPED(status) && !is_written(w)) {
        signal = WSTOPSIG(status) == SIGTRAP ? 0 : WSTOPSIG(status);
        right = right && goes_on(w);
    }
    if (is_written(w) && kill(w->process, SIGKILL) == 0)
        waitpid(w->process, &status, 0);
    else
        right = right && WIFEXITED(status) && WEXITSTATUS(status) == 0;
    close(w->memory);
    printf("%d instructions, %d that changed the sheet, %d pages whole\n", w->steps, w->stores, (int)w->end);
    return right;
}

/* A process of its own that does something to the sheet, watched from a blank one on. */
static struct watch watched(void (*act)(void), int *right) {
    memset(sheet, 0, sizeof sheet);
    fflush(stdout);
    pid_t process = fork();
    if (process == 0) {
        if (ptrace(PTRACE_TRACEME, 0, NULL, NULL) != 0 || raise(SIGSTOP) != 0)
            _exit(1);
        act();
        _exit(0);
    }
    struct watch w = watch(process, sheet, sizeof sheet, 0);
    *right = process > 0 && is_stopped(process) && stepped(&w);
    return w;
}

/* ---- stores that must be found out, and one that must not */

static void store(int i) { ((volatile uint8_t *)sheet)[i] = whole[1][i]; }
static void store_from(int from, int to) {
    for (int i = from; i != to; i += from < to ? 1 : -1)
        store(i);
}
static void in_between_backwards(void) { store(0), store_from(62, 0), store(63); }
static void end_mark_first(void) { store_from(63, -1); }
static void end_mark_early(void) { store_from(0, 61), store(63), store(61); }
static void end_mark_with_word(void) {
    uint32_t last;
    memcpy(&last, whole[1] + 60, sizeof last);
    store_from(0, 60);
    *(volatile uint32_t *)(void *)(sheet + 60) = last;
}
static void kind_late(void) { store_from(1, 63), store(0), store(63); }
static void outside_the_page(void) {
    volatile uint8_t *last = sheet + sizeof sheet - 1;
    *last = 1;
    *last = 0;
    store_from(0, PAGE);
}
static void another_byte_first(void) {
    *(volatile uint8_t *)sheet = 2;
    store_from(0, PAGE);
}
static void nothing(void) {}

static void found_out(const char *what, void (*act)(void)) {
    int right;
    watched(act, &right);
    told(what, !right);
}

static int can_step(void) {
    int right;
    return watched(nothing, &right).steps > 0;
}

static void controls(void) {
    int right;
    struct watch w = watched(in_between_backwards, &right);
    told("a page whose bytes 1 to 62 are stored in another order is accepted", right && w.end == 1);
    found_out("an end mark that is stored first is found out", end_mark_first);
    found_out("an end mark before the last byte of the check word is found out", end_mark_early);
    found_out("an end mark in one store with the check word is found out", end_mark_with_word);
    found_out("a byte 0 after others is found out", kind_late);
    found_out("a byte outside the page is found out", outside_the_page);
    found_out("a byte that is first another one is found out", another_byte_first);
}

/* ---- the calls of the library */

/* Two actions: begin, write, write the same file again, commit; begin, write, abort. The first value has no byte that is 0. */
static const char text[] = "all-thirty-two-bytes-of-a-value.", short_text[] = "AB", again_text[] = "C";
enum { LATE = 1234567890 };

static void expect_pages(void) {
    uint8_t value[32] = {0};
    plain_pack(whole[1], 1, 0, 0, 1, 0, 0, value, 1);
    plain_pack(whole[4], 3, 1, 0, 1, 0, 0, value, 4);
    plain_pack(whole[5], 1, 0, 0, 5, 0, 0, value, 5);
    plain_pack(whole[7], 3, 2, 0, 5, 0, 0, value, 7);
    memcpy(value, again_text, 1);
    plain_pack(whole[3], 2, 1, 3, 1, 0, LATE - 1, value, 3);
    memcpy(value, short_text, 2);
    plain_pack(whole[6], 2, 2, 3, 5, 3, LATE + 1, value, 6);
    memcpy(value, text, 32);
    plain_pack(whole[2], 2, 32, 3, 1, 0, LATE, value, 2);
}

static void calls(void) {
    static uint8_t fates[PAGES];
    static uint64_t rows[ROW_LENGTH * FILES];
    struct call list[] = {{BEGIN, 0, 0, 0, 0, NULL},
                          {WRITE, 3, LATE, 1, 32, (const uint8_t *)text},
                          {READ, 3, LATE, 1, 0, NULL},
                          {WRITE, 3, LATE, 1, 33, (const uint8_t *)text}, /* refused */
                          {WRITE, 3, LATE - 1, 1, 1, (const uint8_t *)again_text},
                          {COMMIT, 0, 0, 1, 0, NULL},
                          {COMMIT, 0, 0, 1, 0, NULL}, /* asked again */
                          {BEGIN, 0, 0, 0, 0, NULL},
                          {WRITE, 3, LATE + 1, 5, 2, (const uint8_t *)short_text},
                          {TEST, 0, 0, 5, 0, NULL},
                          {ABORT, 0, 0, 5, 0, NULL}};
    struct lent l = {sheet, sizeof sheet, fates, PAGES, rows, ROW_LENGTH * FILES, 0, 0, 0};
    for (size_t i = 0; i < sizeof list / sizeof *list; i++) {
        uint64_t told[TOLD];
        make_call(l, list[i], told);
        l.end = told[END], l.undecided = told[UNDECIDED];
    }
}

/* ---- a move: its pages are stored in order of place, each as an append stores it */

static uint8_t old[APPENDS * PAGE];

/* Five files with versions, from the last down; the fresh pages are in file order. */
static void expect_moved(void) {
    static const uint64_t files[] = {2, 3, 5, 6, 8};
    uint8_t value[32] = {0};
    plain_pack(old, 1, 0, 0, 1, 0, 0, value, 1);
    plain_pack(old + PAGE * (APPENDS - 1), 3, 1, 0, 1, 0, 0, value, APPENDS);
    plain_pack(whole[1], 1, 1, 0, 1, 0, 0, value, 1);
    plain_pack(whole[APPENDS], 3, 1, 0, 1, 0, 0, value, APPENDS);
    for (uint64_t i = 0; i < APPENDS - 2; i++) {
        int length = i == 0 ? 32 : (int)i;
        memset(value, 0, sizeof value);
        memcpy(value, text, (size_t)length);
        plain_pack(old + PAGE * (APPENDS - 2 - i), 2, length, files[i], 1, 0, LATE + i, value, APPENDS - 1 - i);
        plain_pack(whole[i + 2], 2, length, files[i], 1, 0, LATE + i, value, i + 2);
    }
}

/* Onto the sheet that is watched. */
static void move(void) {
    static uint8_t fates[APPENDS] = {2};
    static uint64_t rows[ROW_LENGTH * FILES];
    uint64_t told[TOLD];
    make_move((struct lent){old, sizeof old, fates, APPENDS, rows, ROW_LENGTH * FILES, APPENDS, 0, 0}, sheet, sizeof sheet, told);
}

/* ---- the program */

/* Where the program keeps its sheet: the one place of what it may write that has the opening and then the rest of a blank sheet. */
static void *sheet_of(pid_t process) {
    static uint8_t must[PROGRAM_SIZE];
    char name[32], line[512], may[5];
    unsigned long from, to, found = 0;
    memcpy(must, whole[1], PAGE);
    snprintf(name, sizeof name, "/proc/%d/maps", (int)process);
    FILE *maps = fopen(name, "r");
    int memory = watch(process, NULL, 0, 0).memory, count = 0;
    while (maps && fgets(line, sizeof line, maps)) {
        if (sscanf(line, "%lx-%lx %4s", &from, &to, may) != 3 || may[1] != 'w')
            continue;
        uint8_t *bytes = malloc(to - from), *at = bytes;
        size_t size = bytes && pread(memory, bytes, to - from, (off_t)from) == (ssize_t)(to - from) ? to - from : 0;
        for (; at && (at = memmem(at, size - (size_t)(at - bytes), must, sizeof must)) != NULL; at++, count++)
            found = from + (unsigned long)(at - bytes);
        free(bytes);
    }
    if (maps)
        fclose(maps);
    close(memory);
    return count == 1 ? (void *)(uintptr_t)found : NULL;
}

/* The program, stopped at its first instruction; where its input and output go. */
static pid_t started(const char *program, int *input, int *output) {
    int in[2], out[2];
    if (pipe(in) != 0 || pipe(out) != 0)
        return -1;
    pid_t process = fork();
    if (process == 0) {
        dup2(in[0], 0), dup2(out[1], 1);
        close(in[0]), close(in[1]), close(out[0]), close(out[1]);
        if (ptrace(PTRACE_TRACEME, 0, NULL, NULL) == 0)
            execl(program, program, (char *)NULL);
        _exit(1);
    }
    close(in[0]), close(out[1]);
    *input = in[1], *output = out[0];
    return process > 0 && is_stopped(process) ? process : -1;
}

/* Whether the program writes these lines next. */
static int says(int output, const char *lines) {
    char got[1024] = "";
    size_t length = 0, need = strlen(lines);
    ssize_t more = 1;
    while (length < need && more > 0 && memcmp(got, lines, length) == 0) {
        more = read(output, got + length, need - length);
        length += more > 0 ? (size_t)more : 0;
    }
    if (strcmp(got, lines) != 0)
        printf("the program said\n%s\n", got);
    return strcmp(got, lines) == 0;
}

static int feed(int input, const char *lines) { return write(input, lines, strlen(lines)) == (ssize_t)strlen(lines); }

/* A conversation, watched from its second append on: the first one shows where the sheet is. The last two commands meet a cut that
   is waiting; like the second commit they append nothing. The sheet is the program's only until its end, so that it is watched up
   to the last reply. */
static int talked(const char *program) {
    static const char rest[] = "write 3 1234567890 1 all-thirty-two-bytes-of-a-value.\nread 3 1234567890 1\nwrite 3 0 1 C\n"
                               "write 3 1234567889 1 C\ncommit 1\ncommit 1\nbegin\nwrite 3 1234567891 5 AB\ntest 5\nabort 5\n"
                               "open\ncut 20\nread 3 1234567890 0\nabort 5\n";
    static const char replies[] = "write 2\nread 2 1234567890 all-thirty-two-bytes-of-a-value.\nno 10 0\n"
                                  "write 3\ncommit 4\ncommit 4\nbegin 5\nwrite 6\ntest 1 0\nabort 7\n"
                                  "open 7 0\ncut 20\nread 3 1234567889 C\nabort 7\n";
    int input, output;
    pid_t process = started(program, &input, &output);
    if (process < 0 || ptrace(PTRACE_CONT, process, NULL, NULL) != 0 || !feed(input, "open\nbegin\n")
        || !says(output, "open 0 0\nbegin 1\n") || kill(process, SIGSTOP) != 0 || !is_stopped(process))
        return 0;
    void *at = sheet_of(process);
    struct watch w = watch(process, at, PROGRAM_SIZE, 1);
    w.output = output, w.until = (int)strlen(replies);
    memcpy(w.was, whole[1], PAGE);
    if (!at || !feed(input, rest))
        return 0;
    close(input);
    int right = stepped(&w) && w.end == APPENDS;
    right = says(output, replies) && right;
    close(output);
    return right;
}

int main(int count, char **words) {
    int right;
    if (count < 2)
        return 2;
    alarm(300); /* a program that waits for what never comes */
    expect_pages();
    if (!can_step()) {
        printf("this machine runs nothing one instruction at a time\n0 passed, %d failed\n", getenv("NO_STEPPING") ? 0 : 1);
        return getenv("NO_STEPPING") ? 0 : 1;
    }
    controls();
    struct watch w = watched(calls, &right);
    told("the calls of the library store each page from byte 0 to byte 63", right && w.end == APPENDS);
    told("so does the program", talked(words[1]));
    expect_moved();
    w = watched(move, &right);
    told("so does a move, and its pages in order of place", right && w.end == APPENDS);
    printf("%d passed, %d failed\n", passed, failed);
    return failed != 0;
}
