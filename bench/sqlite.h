/* The same work in SQLite, in memory, with prepared statements: a table of versions, keyed by file and start. */
#ifndef BENCH_SQLITE_H
#define BENCH_SQLITE_H
#include <stddef.h>
#include <stdint.h>

/* Empties the table, then so many transactions that put a version of each of two files into it: how many were done. */
uint64_t sqlite_act(uint64_t actions, uint64_t files, const uint8_t *value, size_t length);

/* Empties the table, then so many versions of file 1 with the starts 2, 3, .... */
void sqlite_fill(uint64_t versions, const uint8_t *value, size_t length);

/* So many reads of file 1 at a time: the last one's start, 0 if it found nothing. */
uint64_t sqlite_read(uint64_t reads, uint64_t time);
#endif
