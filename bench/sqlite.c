/* SQLite, in the calling process: a table of pages, a sale as one transaction that is synced. On two files, the
 * second transaction follows the first, as a program does it by hand. */
#include "store.h"
#include <sqlite3.h>
#include <stdio.h>
#include <stdlib.h>
#include <string.h>

static sqlite3 *db[2];
static sqlite3_stmt *put[2], *get[2];

static void run(int k, const char *text) {
    if (sqlite3_exec(db[k], text, 0, 0, 0)) {
        fprintf(stderr, "work: %s: %s\n", text, sqlite3_errmsg(db[k]));
        exit(1);
    }
}

static void prepare(int k, const char *text, sqlite3_stmt **statement) {
    if (sqlite3_prepare_v2(db[k], text, -1, statement, 0)) die(text);
}

static void open_as(const char *journal) {
    for (int k = 0; k < copies; k++) {
        if (sqlite3_open(k ? "second.db" : "first.db", &db[k])) die("sqlite3_open");
        run(k, journal);
        run(k, "pragma synchronous = full");
        run(k, "create table if not exists page (number integer primary key, bytes blob)");
        prepare(k, "insert or replace into page values (?, ?)", &put[k]);
        prepare(k, "select bytes from page where number = ?", &get[k]);
    }
}

static void open_wal(void) { open_as("pragma journal_mode = wal"); }
static void open_delete(void) { open_as("pragma journal_mode = delete"); }

static void put_page(int k, uint32_t page, const byte *bytes) {
    sqlite3_bind_int64(put[k], 1, page);
    sqlite3_bind_blob(put[k], 2, bytes, PAGE_SIZE, SQLITE_STATIC);
    if (sqlite3_step(put[k]) != SQLITE_DONE) die("insert");
    sqlite3_reset(put[k]);
}

static void fill(void) {
    static const byte empty[PAGE_SIZE];
    for (int k = 0; k < copies; k++) {
        run(k, "begin");
        for (uint32_t p = 0; p < pages; p++) put_page(k, p, empty);
        run(k, "commit");
        run(k, "pragma wal_checkpoint(truncate)");
    }
}

static void make_wal(void) {
    open_wal();
    fill();
}

static void make_delete(void) {
    open_delete();
    fill();
}

static void sale(const uint32_t page[SALE], byte bytes[SALE][PAGE_SIZE]) {
    for (int k = 0; k < copies; k++) {
        run(k, "begin immediate");
        for (int i = 0; i < SALE; i++) put_page(k, page[i], bytes[i]);
        run(k, "commit");
    }
}

static void read_page(int k, uint32_t page, byte *out) {
    sqlite3_bind_int64(get[k], 1, page);
    if (sqlite3_step(get[k]) != SQLITE_ROW) die("select");
    memcpy(out, sqlite3_column_blob(get[k], 0), PAGE_SIZE);
    sqlite3_reset(get[k]);
}

static void shut(void) {
    for (int k = 0; k < copies; k++) {
        sqlite3_finalize(put[k]);
        sqlite3_finalize(get[k]);
        sqlite3_close(db[k]);
    }
}

const struct store sqlite_wal = {"sqlite-wal", make_wal, open_wal, sale, read_page, shut};
const struct store sqlite_delete = {"sqlite-delete", make_delete, open_delete, sale, read_page, shut};
