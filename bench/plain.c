/* The register's rules in plain C: the program that `register` is measured against.
 *
 *   plain serve FIRST SECOND    recovers, then answers framed calls on standard input
 *   plain scan FIRST SECOND     reads both disks through and compares them, as a start does
 *
 * It puts the same blocks in the same order, each on the first disk and then on the second and synced before the
 * next, and speaks the same frames. It does less around that: what waits is kept in memory and not read off the
 * disks, and it looks for no other process, no mark of a death and no header that no register writes. A disk that
 * fails ends it. */
#include <errno.h>
#include <fcntl.h>
#include <stdint.h>
#include <stdio.h>
#include <stdlib.h>
#include <string.h>
#include <sys/stat.h>
#include <unistd.h>

typedef unsigned char byte;

enum { BLOCK = 1024, HEADER = 0, LIST = 1, LOG = 2, ROOM = 256, FIRST_PAGE = 258 };
enum { PIECE = 256 * BLOCK };                           /* read at a time while both disks are compared */
enum { KEPT = 1030 };                                   /* so many bytes of a call decide its answer */
enum { READ, WRITE, CLOSE, SIZE };                      /* calls */
enum { REFUSED, DONE, PAGE, NUMBER };                   /* answers */
enum { NOT_A_CALL = 1, UNFIT, NO_SUCH_PAGE, LOG_FULL }; /* refusals */

static int disk[2];
static uint32_t pages;
static uint32_t waiting;
static byte list[BLOCK];

static void die(const char *what) {
    fprintf(stderr, "plain: %s: %s\n", what, strerror(errno));
    exit(1);
}

static uint32_t get4(const byte *p) { return p[0] | p[1] << 8 | p[2] << 16 | (uint32_t)p[3] << 24; }

static void put4(byte *p, uint32_t n) {
    p[0] = n;
    p[1] = n >> 8;
    p[2] = n >> 16;
    p[3] = n >> 24;
}

static void open_disks(const char *first, const char *second) {
    struct stat s;
    if ((disk[0] = open(first, O_RDWR)) < 0 || (disk[1] = open(second, O_RDWR)) < 0) die("open");
    if (fstat(disk[0], &s)) die("fstat");
    pages = s.st_size / BLOCK - FIRST_PAGE;
}

static void get_block(uint64_t block, byte *out) {
    if (pread(disk[0], out, BLOCK, block * BLOCK) != BLOCK) die("pread");
}

static void put_on(int d, uint64_t block, const byte *bytes) {
    if (pwrite(disk[d], bytes, BLOCK, block * BLOCK) != BLOCK) die("pwrite");
    if (fdatasync(disk[d])) die("fdatasync");
}

static void put(uint64_t block, const byte *bytes) {
    put_on(0, block, bytes);
    put_on(1, block, bytes);
}

static void put_header(int holds, uint32_t count) {
    byte header[BLOCK] = {0};
    header[0] = holds;
    put4(header + 1, count);
    put(HEADER, header);
}

static void replay(void) {
    byte page[BLOCK];
    for (uint32_t i = 0; i < waiting; i++) {
        get_block(LOG + i, page);
        put(FIRST_PAGE + (uint64_t)get4(list + 4 * i), page);
    }
    put_header(0, 0);
    waiting = 0;
}

static void write_page(uint32_t page, const byte *bytes) {
    put_header(0, waiting + 1);
    put4(list + 4 * waiting, page);
    put(LIST, list);
    put(LOG + waiting, bytes);
    waiting++;
}

static void close_all(void) {
    put_header(1, waiting);
    replay();
}

/* The highest block in which the disks differ, as it is on the first; -1 where they are the same. */
static int64_t scan(byte *block) {
    byte *first = malloc(PIECE), *second = malloc(PIECE);
    int64_t end = ((int64_t)pages + FIRST_PAGE) * BLOCK, highest = -1;
    if (!first || !second) die("malloc");
    for (int64_t at = 0; at < end; at += PIECE) {
        int64_t n = end - at < PIECE ? end - at : PIECE;
        if (pread(disk[0], first, n, at) != n || pread(disk[1], second, n, at) != n) die("pread");
        if (!memcmp(first, second, n)) continue;
        for (int64_t i = 0; i < n; i += BLOCK)
            if (memcmp(first + i, second + i, BLOCK)) {
                highest = (at + i) / BLOCK;
                memcpy(block, first + i, BLOCK);
            }
    }
    free(first);
    free(second);
    return highest;
}

static void recover(void) {
    byte block[BLOCK], header[BLOCK];
    int64_t differs = scan(block);
    if (differs >= 0) put_on(1, differs, block);
    get_block(HEADER, header);
    get_block(LIST, list);
    waiting = header[0] == 1 ? get4(header + 1) : 0;
    replay();
}

static uint32_t refuse(byte *answer, int why, uint32_t place) {
    answer[0] = REFUSED;
    answer[1] = why;
    put4(answer + 2, place);
    return 6;
}

static uint32_t done(byte *answer) {
    answer[0] = DONE;
    return 1;
}

/* Makes a call of n bytes; how many bytes its answer has. */
static uint32_t make_call(const byte *call, uint32_t n, byte *answer) {
    if (n == 0 || call[0] > SIZE) return refuse(answer, NOT_A_CALL, 0);
    if (call[0] >= CLOSE && n > 1) return refuse(answer, NOT_A_CALL, 1);
    if (call[0] < CLOSE && n < 5) return refuse(answer, NOT_A_CALL, n);
    if (call[0] == READ && n > 5) return refuse(answer, NOT_A_CALL, 5);
    if (call[0] == WRITE && n != 5 + BLOCK) return refuse(answer, UNFIT, 0);
    uint32_t page = call[0] < CLOSE ? get4(call + 1) : 0;
    if (page >= pages) return refuse(answer, NO_SUCH_PAGE, 0);
    switch (call[0]) {
    case READ:
        answer[0] = PAGE;
        get_block(FIRST_PAGE + (uint64_t)page, answer + 1);
        return 1 + BLOCK;
    case WRITE:
        if (waiting == ROOM) return refuse(answer, LOG_FULL, 0);
        write_page(page, call + 5);
        return done(answer);
    case CLOSE:
        close_all();
        return done(answer);
    default:
        answer[0] = NUMBER;
        put4(answer + 1, pages);
        return 5;
    }
}

static void serve(void) {
    byte length[4], call[KEPT], answer[1 + BLOCK];
    while (fread(length, 1, 4, stdin) == 4) {
        uint32_t n = get4(length), kept = n < KEPT ? n : KEPT;
        if (fread(call, 1, kept, stdin) != kept) return;
        for (uint32_t i = kept; i < n; i++)
            if (getchar() == EOF) return;
        uint32_t m = make_call(call, kept, answer);
        put4(length, m);
        fwrite(length, 1, 4, stdout);
        fwrite(answer, 1, m, stdout);
        if (fflush(stdout)) die("write");
    }
}

int main(int argc, char **argv) {
    if (argc != 4) {
        fprintf(stderr, "usage: plain serve|scan FIRST SECOND\n");
        return 2;
    }
    open_disks(argv[2], argv[3]);
    if (!strcmp(argv[1], "scan")) {
        byte block[BLOCK];
        return scan(block) >= 0;
    }
    recover();
    serve();
    return 0;
}
