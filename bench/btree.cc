// The puts and reads of `crates/bench`, by the word rows, on absl::btree_map.
#include <absl/container/btree_map.h>

#include <cstdint>
#include <cstdio>
#include <cstdlib>

// A drawn key: each number has another.
static uint64_t drawn(uint64_t number) {
    uint64_t first = number * 0x9e3779b97f4a7c15;
    uint64_t second = (first ^ (first >> 30)) * 0xbf58476d1ce4e5b9;
    uint64_t third = (second ^ (second >> 27)) * 0x94d049bb133111eb;
    return third ^ (third >> 31);
}

int main(int count, char **words) {
    if (count < 3) {
        return 2;
    }
    uint64_t keys = strtoull(words[1], nullptr, 10);
    uint64_t reads = strtoull(words[2], nullptr, 10);
    auto *rows = new absl::btree_map<uint64_t, uint64_t>;
    for (uint64_t number = 0; number < keys; number++) {
        uint64_t key = drawn(number);
        rows->emplace(key, key);
    }
    uint64_t found = 0;
    for (uint64_t call = 0; call < reads; call++) {
        auto row = rows->find(drawn(drawn(call ^ 0x12345678) % keys));
        found += row != rows->end() && row->second == row->first;
    }
    printf("keys %llu found %llu\n", (unsigned long long)keys, (unsigned long long)found);
}
