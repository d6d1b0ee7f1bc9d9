/* The floor: the least that can be done to have a sale last on two files, one append and one sync on each. It is no
 * store, since nothing brings the pages to a place; a read is that of a page at its place. */
#include "store.h"
#include <fcntl.h>
#include <string.h>
#include <unistd.h>

static const char *const name[2] = {"first", "second"};
static int file[2];
static off_t at, end;

static void open_files(int flags) {
    for (int k = 0; k < 2; k++)
        if ((file[k] = open(name[k], O_RDWR | flags, 0666)) < 0) die(name[k]);
    end = (off_t)pages * PAGE_SIZE;
    at = 0;
}

static void open_both(void) { open_files(0); }

static void make(void) {
    static byte empty[PAGE_SIZE];
    open_files(O_CREAT | O_EXCL);
    for (int k = 0; k < 2; k++) {
        for (uint32_t p = 0; p < pages; p++)
            if (write(file[k], empty, PAGE_SIZE) != PAGE_SIZE) die("write");
        if (fsync(file[k])) die("fsync");
    }
}

static void sale(const uint32_t page[SALE], byte bytes[SALE][PAGE_SIZE]) {
    static byte record[64 + SALE * PAGE_SIZE];
    memcpy(record, page, SALE * sizeof *page);
    memcpy(record + 64, bytes, SALE * PAGE_SIZE);
    if (at + (off_t)sizeof record > end) at = 0;
    for (int k = 0; k < 2; k++) {
        if (pwrite(file[k], record, sizeof record, at) != sizeof record) die("pwrite");
        if (fdatasync(file[k])) die("fdatasync");
    }
    at += sizeof record;
}

static void read_page(int copy, uint32_t page, byte *out) {
    if (pread(file[copy], out, PAGE_SIZE, (off_t)page * PAGE_SIZE) != PAGE_SIZE) die("pread");
}

static void shut(void) {
    close(file[0]);
    close(file[1]);
}

const struct store floor_store = {"floor", make, open_both, sale, read_page, shut};
