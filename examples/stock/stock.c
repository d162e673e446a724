/* A stock of items in lots, kept at several sites: the oldest lot goes first. The caller gives the days. */
#include "dsmdb.h"

enum refusal { BAD_COUNT = 1, NO_STOCK, NUMBER_TAKEN, NO_RESERVATION, STILL_HELD, BAD_ITEM };
CODES(refusal)

/* key: the item's number, below 2^32, and the day on which the lot came, as lot_key has them */
struct lot {
    u32 pieces; /* that lie there */
    u32 held;   /* of these, for reservations */
};
TABLE(1, lot)

/* key: the reservation's number */
struct reservation {
    u64 lot; /* the key of the lot that it holds pieces of */
    u32 pieces;
    u32 until; /* the last day */
};
TABLE(2, reservation)

enum { MOST_PIECES = 1000000, MOST_LOTS = 4 };

INLINE u64 lot_key(u64 item, u32 day)
{
    return item << 32 | day;
}

INLINE int is_count(u32 pieces)
{
    return pieces > 0 && pieces <= MOST_PIECES;
}

struct receive {
    u64 item;
    u32 day;
    u32 pieces;
};
PROCEDURE(1, receive)
{
    struct lot lot;
    if (args->item >> 32) return cancel(BAD_ITEM);
    u64 key = lot_key(args->item, args->day);
    lot_get(key, &lot); /* all zeros where none came on that day yet */
    if (!is_count(args->pieces) || !is_count(lot.pieces + args->pieces)) return cancel(BAD_COUNT);
    lot.pieces += args->pieces;
    lot_put(key, &lot);
    return lot.pieces;
}

struct reserve {
    u64 number;
    u64 item;
    u32 pieces;
    u32 until;
};
/* holds pieces of the oldest of the first lots that has as many free, and replies with its day */
PROCEDURE(2, reserve)
{
    struct reservation reservation;
    if (args->item >> 32) return cancel(BAD_ITEM);
    if (!is_count(args->pieces)) return cancel(BAD_COUNT);
    if (reservation_get(args->number, &reservation)) return cancel(NUMBER_TAKEN);
    u64 from = lot_key(args->item, 0);
    u64 last = lot_key(args->item, 0xffffffff);
    UNROLL for (u64 i = 0; i < MOST_LOTS; i++)
    {
        struct lot lot;
        u64 key;
        if (!lot_next(from, last, &key, &lot)) return cancel(NO_STOCK);
        if (lot.pieces - lot.held >= args->pieces) {
            lot.held += args->pieces;
            lot_put(key, &lot);
            struct reservation held = { key, args->pieces, args->until };
            reservation_put(args->number, &held);
            return key & 0xffffffff;
        }
        from = key + 1;
    }
    return cancel(NO_STOCK);
}

struct release {
    u64 number;
    u64 day; /* 0 where its holder gives it up; else it is released only once its last day is over */
};
PROCEDURE(3, release)
{
    struct reservation reservation;
    struct lot lot;
    if (!reservation_get(args->number, &reservation)) return cancel(NO_RESERVATION);
    if (args->day && args->day <= reservation.until) return cancel(STILL_HELD);
    lot_get(reservation.lot, &lot);
    lot.held -= reservation.pieces;
    lot_put(reservation.lot, &lot);
    reservation_delete(args->number);
    return reservation.pieces;
}

struct pick {
    u64 number;
};
/* takes the pieces of a reservation away, and a lot that has none left */
PROCEDURE(4, pick)
{
    struct reservation reservation;
    struct lot lot;
    if (!reservation_get(args->number, &reservation)) return cancel(NO_RESERVATION);
    lot_get(reservation.lot, &lot);
    lot.pieces -= reservation.pieces;
    lot.held -= reservation.pieces;
    if (lot.pieces)
        lot_put(reservation.lot, &lot);
    else
        lot_delete(reservation.lot);
    reservation_delete(args->number);
    return lot.pieces;
}
