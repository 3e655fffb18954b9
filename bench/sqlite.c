#include "sqlite.h"
#include <sqlite3.h>
#include <stdio.h>
#include <stdlib.h>

static sqlite3 *base;
static sqlite3_stmt *begin, *commit, *insert, *newest, *empty;

static void must(int is_right) {
    if (is_right)
        return;
    fprintf(stderr, "sqlite: %s\n", sqlite3_errmsg(base));
    exit(1);
}

static sqlite3_stmt *prepared(const char *text) {
    sqlite3_stmt *statement;
    must(sqlite3_prepare_v2(base, text, -1, &statement, NULL) == SQLITE_OK);
    return statement;
}

static void opened(void) {
    if (base)
        return;
    must(sqlite3_open(":memory:", &base) == SQLITE_OK);
    must(sqlite3_exec(base,
                      "CREATE TABLE versions(file INTEGER, start INTEGER, value BLOB, PRIMARY KEY(file, start)) WITHOUT ROWID",
                      NULL, NULL, NULL) == SQLITE_OK);
    begin = prepared("BEGIN");
    commit = prepared("COMMIT");
    insert = prepared("INSERT INTO versions VALUES(?, ?, ?)");
    newest = prepared("SELECT start, value FROM versions WHERE file = ? AND start <= ? ORDER BY start DESC LIMIT 1");
    empty = prepared("DELETE FROM versions");
}

static void run(sqlite3_stmt *statement) {
    must(sqlite3_step(statement) == SQLITE_DONE);
    sqlite3_reset(statement);
}

static void put(uint64_t file, uint64_t start, const uint8_t *value, size_t length) {
    sqlite3_bind_int64(insert, 1, (sqlite3_int64)file);
    sqlite3_bind_int64(insert, 2, (sqlite3_int64)start);
    sqlite3_bind_blob(insert, 3, value, (int)length, SQLITE_STATIC);
    run(insert);
}

uint64_t sqlite_act(uint64_t actions, uint64_t files, const uint8_t *value, size_t length) {
    opened();
    run(empty);
    for (uint64_t done = 0; done < actions; done++) {
        run(begin);
        for (uint64_t k = 1; k <= 2; k++)
            put(1 + (2 * done + k) % files, done + 1, value, length);
        run(commit);
    }
    return actions;
}

void sqlite_fill(uint64_t versions, const uint8_t *value, size_t length) {
    opened();
    run(empty);
    for (uint64_t start = 2; start < versions + 2; start++)
        put(1, start, value, length);
}

uint64_t sqlite_read(uint64_t reads, uint64_t time) {
    uint64_t start = 0;
    for (uint64_t k = 0; k < reads; k++) {
        sqlite3_bind_int64(newest, 1, 1);
        sqlite3_bind_int64(newest, 2, (sqlite3_int64)time);
        int is_found = sqlite3_step(newest) == SQLITE_ROW && sqlite3_column_bytes(newest, 1) > 0;
        start = is_found ? (uint64_t)sqlite3_column_int64(newest, 0) : 0;
        sqlite3_reset(newest);
    }
    return start;
}
