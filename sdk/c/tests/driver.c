/* Runs procedures of a source on the host: reads lines of a call, and prints what each came to. The test puts the source
   and a list of its procedures, PROCEDURES, before this file. A line has a procedure's number, its arguments in hex, and
   rows as TABLE KEY HEX. */
#include <stdio.h>
#include <string.h>

static void read_hex(const char *hex, u8 *bytes)
{
    unsigned value;
    while (sscanf(hex, "%2x", &value) == 1) {
        *bytes++ = (u8)value;
        hex += 2;
    }
}

static void print_rows(u64 table)
{
    u8 row[128];
    for (u64 key = 0, from = 0; range_next(table, from, ~0ull, &key, row); from = key + 1) {
        printf(" %llu %llu ", (unsigned long long)table, (unsigned long long)key);
        for (u64 at = 0; at < host_widths[table]; at++) printf("%02x", row[at]);
        row_delete(table, key);
    }
}

int main(void)
{
    static char line[1 << 16];
    while (fgets(line, sizeof line, stdin)) {
        u8 args[256], row[128];
        char *word = strtok(line, " \n");
        unsigned number = 0;
        sscanf(word, "%u", &number);
        read_hex(strtok(NULL, " \n"), args);
        while ((word = strtok(NULL, " \n"))) {
            unsigned long long table = 0, key = 0;
            sscanf(word, "%llu", &table);
            sscanf(strtok(NULL, " \n"), "%llu", &key);
            read_hex(strtok(NULL, " \n"), row);
            row_put(table, key, row);
        }
        u64 reply = host_call(PROCEDURES[number], args);
        printf("%llu %llu", (unsigned long long)reply, (unsigned long long)host_code);
        for (u64 table = 1; table <= 64; table++)
            if (host_widths[table]) print_rows(table);
        printf("\n");
    }
}
