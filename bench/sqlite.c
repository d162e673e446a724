/* Small transactions on SQLite in memory, for comparison: sqlite write|read|start THREADS CALLS KEYS. The threads share one
   connection and take turns at it, a transaction each. A write reads the row at one of the keys and writes the row with 1 added, a
   read reads the row. The time is taken by whoever starts it (bench/node does). */
#include <pthread.h>
#include <sqlite3.h>
#include <stdint.h>
#include <stdio.h>
#include <stdlib.h>
#include <string.h>

static sqlite3 *database;
static sqlite3_stmt *begin, *get, *put, *commit;
static pthread_mutex_t turn = PTHREAD_MUTEX_INITIALIZER;
static int threads, calls, keys, writes;

static void check(int status)
{
    if (status != SQLITE_OK && status != SQLITE_DONE && status != SQLITE_ROW) {
        fprintf(stderr, "sqlite: %s\n", sqlite3_errmsg(database));
        exit(1);
    }
}

static void run(sqlite3_stmt *statement)
{
    check(sqlite3_step(statement));
    check(sqlite3_reset(statement));
}

static void transaction(int key)
{
    sqlite3_int64 row = 0;
    run(begin);
    check(sqlite3_bind_int64(get, 1, key));
    int found = sqlite3_step(get);
    check(found);
    if (found == SQLITE_ROW) row = sqlite3_column_int64(get, 0);
    check(sqlite3_reset(get));
    if (writes) {
        check(sqlite3_bind_int64(put, 1, key));
        check(sqlite3_bind_int64(put, 2, row + 1));
        run(put);
    }
    run(commit);
}

static void *call_all(void *number)
{
    uint64_t drawn = 88172645463325252u + (uintptr_t)number;
    for (int call = (int)(uintptr_t)number; call < calls; call += threads) {
        drawn ^= drawn << 13, drawn ^= drawn >> 7, drawn ^= drawn << 17;
        pthread_mutex_lock(&turn);
        transaction((int)(drawn % keys));
        pthread_mutex_unlock(&turn);
    }
    return NULL;
}

static sqlite3_stmt *prepare(const char *text)
{
    sqlite3_stmt *statement;
    check(sqlite3_prepare_v2(database, text, -1, &statement, NULL));
    return statement;
}

int main(int count, char **words)
{
    if (count != 5) {
        fprintf(stderr, "usage: sqlite write|read|start THREADS CALLS KEYS\n");
        return 2;
    }
    writes = strcmp(words[1], "write") == 0;
    threads = atoi(words[2]);
    calls = strcmp(words[1], "start") == 0 ? 0 : atoi(words[3]);
    keys = atoi(words[4]);
    if (threads < 1 || threads > 256 || keys < 1) return 2;
    check(sqlite3_open(":memory:", &database));
    check(sqlite3_exec(database, "CREATE TABLE rows(key INTEGER PRIMARY KEY, value INTEGER)", NULL, NULL, NULL));
    begin = prepare("BEGIN IMMEDIATE");
    get = prepare("SELECT value FROM rows WHERE key = ?");
    put = prepare("INSERT OR REPLACE INTO rows VALUES(?, ?)");
    commit = prepare("COMMIT");
    pthread_t started[256];
    for (int number = 0; number < threads; number += 1)
        if (pthread_create(&started[number], NULL, call_all, (void *)(uintptr_t)number)) return 1;
    for (int number = 0; number < threads; number += 1) pthread_join(started[number], NULL);
    return 0;
}
