/* Stored procedures of dsmdb in C, for clang 19. docs/PROCEDURES.md has the rules; sdk/c/build compiles and checks them.
   Compiled for the host the same names are plain functions over a map (host.c), so that an ordinary program tests a
   procedure. */
#ifndef DSMDB_H
#define DSMDB_H

#include <stdint.h>

typedef uint8_t u8;
typedef uint16_t u16;
typedef uint32_t u32;
typedef uint64_t u64;
typedef int8_t i8;
typedef int16_t i16;
typedef int32_t i32;
typedef int64_t i64;

#ifdef __bpf__

#define DSMDB_HELPER(number, name, ...) static u64 (*const name)(__VA_ARGS__) = (void *)number
#define DSMDB_IN(where) __attribute__((section(where), used))
#define DSMDB_ON_HOST(declarations)
#define DSMDB_ON_BPF(declarations) declarations
/* before each function of your own */
#define INLINE static inline __attribute__((always_inline, unused))
/* before a loop, whose head has a constant as a bound: for (u64 i = 0; i < 8; i++) */
#define UNROLL _Pragma("clang loop unroll_count(4096)")
/* a function whose instructions count to the line that calls it */
#define DSMDB_PART INLINE __attribute__((nodebug))
#define DSMDB_WORDS(length) __attribute__((diagnose_if((length) % 8, "a text's length is a multiple of 8", "error")))

#else

#define DSMDB_HELPER(number, name, ...) u64 name(__VA_ARGS__)
#define DSMDB_IN(where)
#define DSMDB_ON_HOST(declarations) declarations
#define DSMDB_ON_BPF(declarations)
#define INLINE static inline __attribute__((unused))
#define UNROLL
#define DSMDB_PART INLINE
#define DSMDB_WORDS(length)

extern u64 host_widths[65]; /* of each table, the bytes of a row */
extern u64 host_code;       /* of the last call: its code, 0 where it didn't cancel (so codes are 1 and up) */
u64 host_call(u64 (*procedure)(const void *), const void *args);
/* calls a procedure as a replica would: CALL(deposit, .account = 1, .amount = 100) */
#define CALL(name, ...) host_call(name##_call, &(const struct name){ __VA_ARGS__ })

#endif

/* The six helpers. A row has its table's width, and what a call reads has its own writes in it. */
DSMDB_HELPER(1, row_get, u64 table, u64 key, void *row);                     /* 1; or 0, and the row is zeros */
DSMDB_HELPER(2, row_put, u64 table, u64 key, const void *row);               /* 0 */
DSMDB_HELPER(3, row_delete, u64 table, u64 key);                             /* 0 */
DSMDB_HELPER(4, range_count, u64 table, u64 lo, u64 hi);                     /* how many rows, both ends included */
DSMDB_HELPER(5, range_next, u64 table, u64 lo, u64 hi, u64 *key, void *row); /* 1 and the least; or 0, and zeros */
DSMDB_HELPER(6, call_cancel, u64 code);                                      /* 0 */

/* `return cancel(CODE);` ends the call: nothing that it wrote stays, and its caller is told the code. */
DSMDB_PART __attribute__((warn_unused_result)) u64 cancel(u64 code)
{
    return call_cancel(code);
}

/* struct account { .. }; TABLE(1, account) makes table 1 of such rows, and functions that take no other rows. */
#define TABLE(number, name) \
    _Static_assert(number >= 1 && number <= 64, "tables are 1 to 64"); \
    _Static_assert(sizeof(struct name) >= 1 && sizeof(struct name) <= 128, "a row has 1 to 128 bytes"); \
    enum { table_##number = number }; /* a number is given once */ \
    DSMDB_ON_HOST(__attribute__((constructor)) static void name##_width(void) \
    { \
        host_widths[number] = sizeof(struct name); \
    }) \
    DSMDB_ON_BPF(DSMDB_IN("dsmdb/table/" #number) const struct name name##_row = {};) \
    DSMDB_PART u64 name##_get(u64 key, struct name *row) \
    { \
        return row_get(number, key, row); \
    } \
    DSMDB_PART u64 name##_put(u64 key, const struct name *row) \
    { \
        return row_put(number, key, row); \
    } \
    DSMDB_PART u64 name##_delete(u64 key) \
    { \
        return row_delete(number, key); \
    } \
    DSMDB_PART u64 name##_count(u64 lo, u64 hi) \
    { \
        return range_count(number, lo, hi); \
    } \
    DSMDB_PART u64 name##_next(u64 lo, u64 hi, u64 *key, struct name *row) \
    { \
        return range_next(number, lo, hi, key, row); \
    }

/* enum refusal { NO_MONEY = 1, .. }; CODES(refusal) lets tools print the codes by name. */
#define CODES(name) DSMDB_ON_BPF(DSMDB_IN("dsmdb/codes/" #name) const enum name name##_codes = 0;)

/* struct deposit { .. }; PROCEDURE(2, deposit) { .. } makes procedure 2. `args` points to its arguments, such a struct.
   They are copied before the first helper is called, so the copy may be put as a row. */
#define PROCEDURE(number, name) \
    _Static_assert(number >= 0 && number <= 65535, "procedures are 0 to 65535"); \
    _Static_assert(sizeof(struct name) <= 256, "arguments have at most 256 bytes"); \
    _Static_assert(sizeof #name <= 33, "a name has at most 32 letters"); \
    enum { procedure_##number = number }; /* a number is given once */ \
    DSMDB_ON_BPF(DSMDB_IN("dsmdb/args/" #name) const struct name name##_args = {};) \
    INLINE u64 name##_body(const struct name *args); \
    DSMDB_IN("dsmdb/proc/" #number "/" #name) u64 name##_call(const void *block) \
    { \
        const struct name args = *(const struct name *)block; \
        return name##_body(&args); \
    } \
    INLINE u64 name##_body(const struct name *args __attribute__((unused)))

/* Text is an array of char in rows and arguments, filled up with zeros. Its length is a constant, a multiple of 8. */
DSMDB_PART u64 word_at(const void *text, u64 at)
{
    u64 word;
    __builtin_memcpy(&word, (const u8 *)text + at, 8);
    return word;
}

INLINE u64 same_text(const void *a, const void *b, u64 length) DSMDB_WORDS(length)
{
    u64 differ = 0;
    UNROLL for (u64 at = 0; at < length; at += 8) differ |= word_at(a, at) ^ word_at(b, at);
    return !differ;
}

/* A key for a text. Two texts may have one: keep the text in the row, and compare. */
INLINE u64 hash_text(const void *text, u64 length) DSMDB_WORDS(length)
{
    u64 hash = length;
    UNROLL for (u64 at = 0; at < length; at += 8)
    {
        hash = (hash ^ word_at(text, at)) * 0x9e3779b97f4a7c15u;
        hash ^= hash >> 29;
    }
    return hash;
}

#endif
