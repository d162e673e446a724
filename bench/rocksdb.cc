/* Small optimistic transactions on RocksDB in memory, its log off, for comparison: rocksdb write|read|start THREADS CALLS KEYS.
   Each thread makes its share of the transactions, one behind the other. A write reads the row at one of the keys and writes the
   row with 1 added; where another transaction came between, it is made anew and not counted. A read reads the row. The time is
   taken by whoever starts it (bench/node does). */
#include <cstdint>
#include <cstdio>
#include <cstdlib>
#include <cstring>
#include <memory>
#include <string>
#include <thread>
#include <vector>

#include <rocksdb/db.h>
#include <rocksdb/env.h>
#include <rocksdb/options.h>
#include <rocksdb/utilities/optimistic_transaction_db.h>
#include <rocksdb/utilities/transaction.h>

using rocksdb::OptimisticTransactionDB;
using rocksdb::Slice;
using rocksdb::Status;

static OptimisticTransactionDB *database;
static bool writes;

static void check(const Status &status)
{
    if (!status.ok()) {
        fprintf(stderr, "rocksdb: %s\n", status.ToString().c_str());
        exit(1);
    }
}

/* The bytes of a key, highest first, so that keys are in order. */
static std::string bytes_of(uint64_t key)
{
    char bytes[8];
    for (int at = 0; at < 8; at += 1) bytes[at] = (char)(key >> (8 * (7 - at)));
    return std::string(bytes, 8);
}

/* Makes a transaction. Returns whether it stands. */
static bool transact(const std::string &key, rocksdb::Transaction *&transaction)
{
    static const rocksdb::ReadOptions reading;
    rocksdb::WriteOptions writing;
    writing.disableWAL = true;
    std::string row;
    uint64_t number = 0;
    if (!writes) {
        Status found = database->Get(reading, key, &row);
        if (!found.IsNotFound()) check(found);
        return true;
    }
    transaction = database->BeginTransaction(writing, rocksdb::OptimisticTransactionOptions(), transaction);
    Status found = transaction->GetForUpdate(reading, key, &row);
    if (!found.IsNotFound()) check(found);
    if (row.size() == 8) memcpy(&number, row.data(), 8);
    number += 1;
    check(transaction->Put(key, Slice((const char *)&number, 8)));
    Status committed = transaction->Commit();
    if (committed.IsBusy() || committed.IsTryAgain()) return false;
    check(committed);
    return true;
}

static void call_all(unsigned number, uint64_t calls, uint64_t keys)
{
    uint64_t drawn = 88172645463325252u + number;
    rocksdb::Transaction *transaction = nullptr;
    for (uint64_t made = 0; made < calls;) {
        drawn ^= drawn << 13, drawn ^= drawn >> 7, drawn ^= drawn << 17;
        made += transact(bytes_of(drawn % keys), transaction);
    }
    delete transaction;
}

int main(int count, char **words)
{
    if (count != 5) {
        fprintf(stderr, "usage: rocksdb write|read|start THREADS CALLS KEYS\n");
        return 2;
    }
    writes = strcmp(words[1], "write") == 0;
    unsigned threads = atoi(words[2]);
    uint64_t calls = strcmp(words[1], "start") == 0 ? 0 : atoll(words[3]), keys = atoll(words[4]);
    if (threads < 1 || threads > 256 || keys < 1) return 2;
    std::unique_ptr<rocksdb::Env> memory(rocksdb::NewMemEnv(rocksdb::Env::Default()));
    rocksdb::Options options;
    options.create_if_missing = true;
    options.env = memory.get();
    check(OptimisticTransactionDB::Open(options, "/rows", &database));
    std::vector<std::thread> all;
    for (unsigned number = 0; number < threads; number += 1)
        all.emplace_back(call_all, number, calls / threads, keys);
    for (auto &it : all) it.join();
    delete database;
    return 0;
}
