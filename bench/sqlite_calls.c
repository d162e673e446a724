/* Small transactions of SQLite in memory, for comparison: sqlite_calls KEYS COUNT. Each reads the number at one of
   KEYS drawn keys, adds 1 and writes it, by prepared statements on one thread, without locks. It says how many were
   committed; the time is taken by whoever starts it (bench/calls). */
#include <sqlite3.h>
#include <stdint.h>
#include <stdio.h>
#include <stdlib.h>

static void check(int is_so, sqlite3 *database)
{
    if (is_so) return;
    fprintf(stderr, "sqlite: %s\n", sqlite3_errmsg(database));
    exit(1);
}

static sqlite3_stmt *prepared(sqlite3 *database, const char *text)
{
    sqlite3_stmt *statement = NULL;
    check(sqlite3_prepare_v3(database, text, -1, SQLITE_PREPARE_PERSISTENT, &statement, NULL) == SQLITE_OK, database);
    return statement;
}

static void take(sqlite3_stmt *statement, sqlite3 *database)
{
    check(sqlite3_step(statement) == SQLITE_DONE, database);
    sqlite3_reset(statement);
}

int main(int argc, char **argv)
{
    if (argc < 3 || strtoull(argv[1], NULL, 10) == 0) return 2;
    uint64_t keys = strtoull(argv[1], NULL, 10);
    uint32_t count = strtoul(argv[2], NULL, 10);
    sqlite3 *database;
    int flags = SQLITE_OPEN_READWRITE | SQLITE_OPEN_CREATE | SQLITE_OPEN_NOMUTEX;
    if (sqlite3_open_v2(":memory:", &database, flags, NULL) != SQLITE_OK) return 1;
    const char *table = "create table numbers (key integer primary key, number integer not null)";
    check(sqlite3_exec(database, table, NULL, NULL, NULL) == SQLITE_OK, database);
    sqlite3_stmt *begin = prepared(database, "begin immediate"), *commit = prepared(database, "commit");
    sqlite3_stmt *get = prepared(database, "select number from numbers where key = ?1");
    sqlite3_stmt *put = prepared(database, "insert or replace into numbers values (?1, ?2)");
    uint32_t committed = 0;
    for (uint32_t number = 0; number < count; number++) {
        int64_t key = (uint64_t)number * 2654435761u % keys, sum = 1;
        take(begin, database);
        sqlite3_bind_int64(get, 1, key);
        if (sqlite3_step(get) == SQLITE_ROW) sum += sqlite3_column_int64(get, 0);
        sqlite3_reset(get);
        sqlite3_bind_int64(put, 1, key);
        sqlite3_bind_int64(put, 2, sum);
        take(put, database);
        take(commit, database);
        committed += sqlite3_get_autocommit(database);
    }
    printf("commits %u\n", committed);
    return 0;
}
