/* The helpers over a plain map, for tests of procedures on the host. Link it with the test. */
#include <stdio.h>
#include <stdlib.h>
#include <string.h>

#include "dsmdb.h"

enum { MOST_ROWS = 4096, WIDEST = 128 };

struct row {
    u64 table;
    u64 key;
    u8 bytes[WIDEST];
};

static struct row rows[MOST_ROWS]; /* by table and key */
static struct row before[MOST_ROWS];
static u64 count;
static int cancelled;

u64 host_widths[65];
u64 host_code;

/* the place of the first row that isn't below */
static u64 place(u64 table, u64 key)
{
    u64 at = 0;
    while (at < count && (rows[at].table < table || (rows[at].table == table && rows[at].key < key)))
        at++;
    return at;
}

static int is_in(u64 at, u64 table, u64 hi)
{
    return at < count && rows[at].table == table && rows[at].key <= hi;
}

u64 row_get(u64 table, u64 key, void *row)
{
    u64 at = place(table, key);
    memset(row, 0, host_widths[table]);
    if (!is_in(at, table, key))
        return 0;
    memcpy(row, rows[at].bytes, host_widths[table]);
    return 1;
}

u64 row_put(u64 table, u64 key, const void *row)
{
    u64 at = place(table, key);
    if (!is_in(at, table, key)) {
        if (count == MOST_ROWS) {
            fprintf(stderr, "host.c: more than %d rows\n", MOST_ROWS);
            abort();
        }
        memmove(&rows[at + 1], &rows[at], (count - at) * sizeof rows[0]);
        count++;
    }
    rows[at].table = table;
    rows[at].key = key;
    memcpy(rows[at].bytes, row, host_widths[table]);
    return 0;
}

u64 row_delete(u64 table, u64 key)
{
    u64 at = place(table, key);
    if (is_in(at, table, key)) {
        count--;
        memmove(&rows[at], &rows[at + 1], (count - at) * sizeof rows[0]);
    }
    return 0;
}

u64 range_count(u64 table, u64 lo, u64 hi)
{
    u64 found = 0;
    for (u64 at = place(table, lo); lo <= hi && is_in(at, table, hi); at++)
        found++;
    return found;
}

u64 range_next(u64 table, u64 lo, u64 hi, u64 *key, void *row)
{
    u64 at = place(table, lo);
    int found = lo <= hi && is_in(at, table, hi);
    *key = found ? rows[at].key : 0;
    if (found)
        memcpy(row, rows[at].bytes, host_widths[table]);
    else
        memset(row, 0, host_widths[table]);
    return found;
}

u64 call_cancel(u64 code)
{
    cancelled = 1;
    host_code = code;
    return 0;
}

u64 host_call(u64 (*procedure)(const void *), const void *args)
{
    u64 had = count;
    memcpy(before, rows, sizeof rows);
    cancelled = 0;
    host_code = 0;
    u64 reply = procedure(args);
    if (cancelled) {
        memcpy(rows, before, sizeof rows);
        count = had;
    }
    return reply;
}
