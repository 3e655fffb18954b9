/* The proved code as the tests and timings reach it: what crates/harness exports, and one function that makes any call. */
#ifndef DOOR_H
#define DOOR_H
#include <stddef.h>
#include <stdint.h>

uint64_t bench_test(const uint8_t *sheet, size_t size, uint64_t files);
uint64_t bench_seek(const uint8_t *sheet, size_t size, uint64_t files, uint64_t file);
uint64_t bench_pack(uint8_t *sheet, size_t size, uint64_t files, uint64_t used, const uint8_t *value);
uint64_t bench_inspect(const uint8_t *sheet, size_t size, uint64_t files);
uint64_t bench_walk(const uint8_t *sheet, size_t size, const uint8_t *fates, size_t pages, uint64_t files, uint64_t file, uint64_t end);
uint64_t door_highest_start(const uint8_t *sheet, size_t size, uint64_t files);
void door_call(uint8_t *sheet, size_t size, uint8_t *fates, size_t pages, uint64_t *rows, size_t numbers, uint64_t end, uint64_t floor,
               uint64_t undecided, uint64_t kind, uint64_t file, uint64_t time, uint64_t action, const uint8_t *value, size_t length,
               uint64_t *told, size_t count);
void door_open(const uint8_t *sheet, size_t size, uint8_t *fates, size_t pages, uint64_t *rows, size_t numbers, uint64_t floor,
               uint64_t *told, size_t count);
void door_rebuild(const uint8_t *sheet, size_t size, const uint8_t *fates, size_t pages, uint64_t *rows, size_t numbers, uint64_t end,
                  uint64_t floor, uint64_t undecided, uint64_t file, uint64_t *told, size_t count);
void door_move(const uint8_t *sheet, size_t size, const uint8_t *fates, size_t pages, uint64_t *rows, size_t numbers, uint64_t end,
               uint64_t floor, uint64_t undecided, uint8_t *fresh, size_t fresh_size, uint64_t *told, size_t count);

/* What a call is lent, and the state that it is given. An opening takes the floor alone of it. */
struct lent {
    uint8_t *sheet;
    size_t size;
    uint8_t *fates;
    size_t pages;
    uint64_t *rows;
    size_t numbers;
    uint64_t end, floor, undecided;
};

/* A call in numbers. The time is a write's start or a read's time; what a call does not take is ignored. */
enum kind { BEGIN, WRITE, READ, TEST, COMMIT, ABORT, OPEN, REBUILD };
struct call {
    enum kind kind;
    uint64_t file, time, action;
    size_t length;
    const uint8_t *value;
};

/* The numbers of a file's row, and how many they are. */
enum { MARK, CURRENT, CURRENT_END, TOKEN, TOKEN_END, TOKEN_ACTION, ROW_LENGTH };

/* What a call tells: which answer, its values, then the state's numbers. */
enum { WHICH, FIRST, SECOND, THIRD, FOURTH, FIFTH, END, FLOOR, UNDECIDED, TOLD };
enum { REFUSED, OPENED, REBUILT, STORED, VALUE, NOTHING, FATE, MOVED };

/* Makes a call: the answer's numbers, then the state's, and in what is lent all that it leaves. */
__attribute__((unused)) static void make_call(struct lent l, struct call c, uint64_t told[TOLD]) {
    if (c.kind == OPEN)
        door_open(l.sheet, l.size, l.fates, l.pages, l.rows, l.numbers, l.floor, told, TOLD);
    else if (c.kind == REBUILD)
        door_rebuild(l.sheet, l.size, l.fates, l.pages, l.rows, l.numbers, l.end, l.floor, l.undecided, c.file, told, TOLD);
    else
        door_call(l.sheet, l.size, l.fates, l.pages, l.rows, l.numbers, l.end, l.floor, l.undecided, c.kind, c.file, c.time, c.action,
                  c.value, c.length, told, TOLD);
}

/* Moves to a fresh sheet: the floor for its opening as the first value, then the state's numbers, which stay. */
__attribute__((unused)) static void make_move(struct lent l, uint8_t *fresh, size_t fresh_size, uint64_t told[TOLD]) {
    door_move(l.sheet, l.size, l.fates, l.pages, l.rows, l.numbers, l.end, l.floor, l.undecided, fresh, fresh_size, told, TOLD);
}
#endif
