/* A registry of names, kept at several sites: a name has one owner at most. */
#include "dsmdb.h"

enum refusal { TAKEN = 1, FULL, NOT_CLAIMED, NOT_YOURS };
CODES(refusal)

enum { NAME_BYTES = 32, PLACES = 4, PAGE = 8 };

/* key: the hash of the name, or one of the places behind it. Two names may have one hash, so the name stands here whole. */
struct claimed {
    char name[NAME_BYTES];
    u64 owner;
};
TABLE(1, claimed)

struct claim {
    char name[NAME_BYTES];
    u64 owner;
};
/* replies with the key of the name's row. A place may be free before the one where the name stands, since another was
   given up: so all are looked at first. */
PROCEDURE(1, claim)
{
    struct claimed row;
    u64 key = hash_text(args->name, NAME_BYTES);
    u64 place = 0;
    u64 is_free = 0;
    UNROLL for (u64 i = 0; i < PLACES; i++)
    {
        if (!claimed_get(key + i, &row)) {
            if (!is_free) place = key + i;
            is_free = 1;
        } else if (same_text(row.name, args->name, NAME_BYTES)) {
            return cancel(TAKEN);
        }
    }
    if (!is_free) return cancel(FULL);
    __builtin_memcpy(row.name, args->name, NAME_BYTES);
    row.owner = args->owner;
    claimed_put(place, &row);
    return place;
}

struct give_up {
    char name[NAME_BYTES];
    u64 owner;
};
PROCEDURE(2, give_up)
{
    struct claimed row;
    u64 key = hash_text(args->name, NAME_BYTES);
    UNROLL for (u64 i = 0; i < PLACES; i++)
    {
        if (claimed_get(key + i, &row) && same_text(row.name, args->name, NAME_BYTES)) {
            if (row.owner != args->owner) return cancel(NOT_YOURS);
            claimed_delete(key + i);
            return key + i;
        }
    }
    return cancel(NOT_CLAIMED);
}

struct page {
    u64 from;
};
/* the key of the last of the next names from a key on, a page of them; the next page is from that key and 1. 0 where
   there are none. */
PROCEDURE(3, page)
{
    struct claimed row;
    u64 from = args->from;
    u64 last = 0;
    UNROLL for (u64 i = 0; i < PAGE; i++)
    {
        u64 key;
        if (!claimed_next(from, ~0ull, &key, &row)) break;
        last = key;
        if (key == ~0ull) break;
        from = key + 1;
    }
    return last;
}
