/* LMDB, in the calling process: pages by number, a sale as one transaction that is synced. On two files, the second
 * transaction follows the first, as a program does it by hand. */
#include "store.h"
#include <lmdb.h>
#include <stdio.h>
#include <stdlib.h>
#include <string.h>

static MDB_env *env[2];
static MDB_dbi table[2];

static void ok(int status) {
    if (status) {
        fprintf(stderr, "work: lmdb: %s\n", mdb_strerror(status));
        exit(1);
    }
}

static MDB_txn *begin(int k, int flags) {
    MDB_txn *txn;
    ok(mdb_txn_begin(env[k], 0, flags, &txn));
    return txn;
}

static void put_page(int k, MDB_txn *txn, uint32_t page, const byte *bytes) {
    MDB_val key = {sizeof page, &page}, value = {PAGE_SIZE, (void *)bytes};
    ok(mdb_put(txn, table[k], &key, &value, 0));
}

static void open_env(void) {
    for (int k = 0; k < copies; k++) {
        ok(mdb_env_create(&env[k]));
        ok(mdb_env_set_mapsize(env[k], (size_t)1 << 32));
        ok(mdb_env_open(env[k], k ? "second.mdb" : "first.mdb", MDB_NOSUBDIR, 0666));
        MDB_txn *txn = begin(k, 0);
        ok(mdb_dbi_open(txn, 0, MDB_INTEGERKEY | MDB_CREATE, &table[k]));
        ok(mdb_txn_commit(txn));
    }
}

static void make(void) {
    static const byte empty[PAGE_SIZE];
    open_env();
    for (int k = 0; k < copies; k++) {
        MDB_txn *txn = begin(k, 0);
        for (uint32_t p = 0; p < pages; p++) put_page(k, txn, p, empty);
        ok(mdb_txn_commit(txn));
    }
}

static void sale(const uint32_t page[SALE], byte bytes[SALE][PAGE_SIZE]) {
    for (int k = 0; k < copies; k++) {
        MDB_txn *txn = begin(k, 0);
        for (int i = 0; i < SALE; i++) put_page(k, txn, page[i], bytes[i]);
        ok(mdb_txn_commit(txn));
    }
}

static void read_page(int k, uint32_t page, byte *out) {
    MDB_txn *txn = begin(k, MDB_RDONLY);
    MDB_val key = {sizeof page, &page}, value;
    ok(mdb_get(txn, table[k], &key, &value));
    memcpy(out, value.mv_data, PAGE_SIZE);
    mdb_txn_abort(txn);
}

static void shut(void) {
    for (int k = 0; k < copies; k++) mdb_env_close(env[k]);
}

const struct store lmdb = {"lmdb", make, open_env, sale, read_page, shut};
