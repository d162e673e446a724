#include <assert.h>
#include <stdio.h>

#include "stock.c"

int main(void)
{
    assert(CALL(receive, .item = 5, .day = 10, .pieces = 2) == 2);
    assert(CALL(receive, .item = 5, .day = 11, .pieces = 5) == 5);
    CALL(receive, .item = 5, .day = 11, .pieces = 0);
    assert(host_code == BAD_COUNT);
    CALL(receive, .item = 1ull << 32, .day = 11, .pieces = 1);
    assert(host_code == BAD_ITEM);

    assert(CALL(reserve, .number = 1, .item = 5, .pieces = 2, .until = 20) == 10);
    CALL(reserve, .number = 1, .item = 5, .pieces = 1, .until = 20);
    assert(host_code == NUMBER_TAKEN);
    assert(CALL(reserve, .number = 2, .item = 5, .pieces = 4, .until = 20) == 11);
    CALL(reserve, .number = 3, .item = 5, .pieces = 2, .until = 20);
    assert(host_code == NO_STOCK);

    CALL(release, .number = 2, .day = 20);
    assert(host_code == STILL_HELD);
    assert(CALL(release, .number = 2, .day = 21) == 4 && host_code == 0);
    assert(CALL(reserve, .number = 3, .item = 5, .pieces = 2, .until = 20) == 11);
    assert(CALL(release, .number = 3, .day = 0) == 2 && host_code == 0);

    assert(CALL(pick, .number = 1) == 0 && host_code == 0);
    CALL(pick, .number = 1);
    assert(host_code == NO_RESERVATION);
    assert(lot_count(0, ~0ull) == 1 && reservation_count(0, ~0ull) == 0);
    puts("stock: passed");
}
