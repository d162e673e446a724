#include <assert.h>
#include <stdio.h>

#include "registry.c"

int main(void)
{
    u64 key = CALL(claim, .name = "ada", .owner = 7);
    assert(host_code == 0);
    CALL(claim, .name = "ada", .owner = 8);
    assert(host_code == TAKEN);

    /* the places behind the first: one is taken by hand, as by another name of one hash */
    struct claimed other = { .name = "other", .owner = 9 };
    u64 next = hash_text((char[NAME_BYTES]){ "grace" }, NAME_BYTES);
    claimed_put(next, &other);
    assert(CALL(claim, .name = "grace", .owner = 8) == next + 1 && host_code == 0);
    claimed_delete(next);
    CALL(claim, .name = "grace", .owner = 9);
    assert(host_code == TAKEN);
    for (u64 i = 0; i < PLACES; i++) claimed_put(next + i, &other);
    CALL(claim, .name = "grace", .owner = 9);
    assert(host_code == FULL);

    CALL(give_up, .name = "ada", .owner = 8);
    assert(host_code == NOT_YOURS);
    assert(CALL(give_up, .name = "ada", .owner = 7) == key && host_code == 0);
    CALL(give_up, .name = "ada", .owner = 7);
    assert(host_code == NOT_CLAIMED);

    assert(CALL(page, .from = 0) == next + 3);
    assert(CALL(page, .from = next + 4) == 0);
    puts("registry: passed");
}
