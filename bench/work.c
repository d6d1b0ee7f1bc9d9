/* The benchmark's work, over any store, in the working folder.
 *
 *   work stores                          the stores that were built in
 *   work STORE make PAGES                a new store of empty pages
 *   work STORE sales PAGES SEED COUNT    makes sales; prints the median sale's microseconds
 *   work STORE reads PAGES SEED COUNT    reads random pages; prints the mean read's microseconds
 *   work STORE open PAGES                opens the store and reads a page; prints milliseconds
 *   work STORE cut PAGES SEED            sells without end and prints a line for each sale that is told; to be killed
 *   work STORE check PAGES SEED TOLD     after that: what is left of the sale that was cut
 *
 * STORE is a store's name, with ",two" behind it for two copies, or "pipes:" and the command of a program that answers
 * framed calls. A sale changes three random pages, and the same seed makes the same sales. */
#include "store.h"
#include <errno.h>
#include <stdio.h>
#include <stdlib.h>
#include <string.h>
#include <time.h>
#include <unistd.h>

uint32_t pages;
int copies = 1;
char *command;

void die(const char *what) {
    fprintf(stderr, "work: %s: %s\n", what, strerror(errno));
    exit(1);
}

/* No store at all: what the work costs by itself. */
static void nothing(void) {}
static void no_sale(const uint32_t page[SALE], byte bytes[SALE][PAGE_SIZE]) { (void)page, (void)bytes; }
static void no_read(int copy, uint32_t page, byte *out) { (void)copy, (void)page, (void)out; }
const struct store none = {"none", nothing, nothing, no_sale, no_read, nothing};

static const struct store *const stores[] = {
    &none,
    &floor_store,
    &over_pipes,
#ifdef WITH_SQLITE
    &sqlite_wal,
    &sqlite_delete,
#endif
#ifdef WITH_LMDB
    &lmdb,
#endif
};
enum { STORES = sizeof stores / sizeof *stores };

static const struct store *find(char *name) {
    if (!strncmp(name, "pipes:", 6)) {
        command = name + 6;
        name[5] = 0;
    }
    char *comma = strchr(name, ',');
    if (comma && !strcmp(comma, ",two")) {
        copies = 2;
        *comma = 0;
    }
    for (int i = 0; i < STORES; i++)
        if (!strcmp(stores[i]->name, name)) return stores[i];
    fprintf(stderr, "work: there is no store %s\n", name);
    exit(2);
}

static double now(void) {
    struct timespec t;
    clock_gettime(CLOCK_MONOTONIC, &t);
    return t.tv_sec + t.tv_nsec * 1e-9;
}

/* Random numbers (splitmix64). */
static uint64_t state;
static uint64_t draw(void) {
    uint64_t z = (state += 0x9e3779b97f4a7c15u);
    z = (z ^ z >> 30) * 0xbf58476d1ce4e5b9u;
    z = (z ^ z >> 27) * 0x94d049bb133111ebu;
    return z ^ z >> 31;
}

/* One sale: the pages, and what they are to be. A page is filled with a number that tells seed, sale and page. */
struct sale {
    uint32_t page[SALE];
    byte bytes[SALE][PAGE_SIZE];
};

static uint64_t stamp(uint64_t seed, uint64_t k, uint32_t page) { return (seed << 56) + (k + 1) * 16777216 + page; }

static void draw_sale(uint64_t seed, uint64_t k, struct sale *s) {
    state = seed * 1000003 + k;
    for (int i = 0; i < SALE; i++) {
        s->page[i] = draw() % pages;
        uint64_t x = stamp(seed, k, s->page[i]);
        for (int j = 0; j < PAGE_SIZE; j += 8) memcpy(s->bytes[i] + j, &x, 8);
    }
}

static int by_size(const void *a, const void *b) {
    double x = *(const double *)a, y = *(const double *)b;
    return (x > y) - (x < y);
}

static void make_sales(const struct store *store, uint64_t seed, uint64_t count) {
    static struct sale s;
    double *each = calloc(count + 1, sizeof *each);
    for (uint64_t k = 0; k < count; k++) {
        draw_sale(seed, k, &s);
        double begin = now();
        store->sale(s.page, s.bytes);
        each[k] = now() - begin;
    }
    qsort(each, count, sizeof *each, by_size);
    printf("%.3f\n", each[count / 2] * 1e6);
}

static void make_reads(const struct store *store, uint64_t seed, uint64_t count) {
    byte page[PAGE_SIZE];
    state = seed;
    double begin = now();
    for (uint64_t k = 0; k < count; k++) store->read(0, draw() % pages, page);
    printf("%.4f\n", count ? (now() - begin) / count * 1e6 : 0);
}

static void sell_until_killed(const struct store *store, uint64_t seed) {
    static struct sale s;
    for (uint64_t k = 0;; k++) {
        draw_sale(seed, k, &s);
        store->sale(s.page, s.bytes);
        printf("%llu\n", (unsigned long long)k);
        fflush(stdout);
    }
}

/* Puts the stamps that a sale leaves, page by page. */
static void put_stamps(uint64_t *stamps, uint64_t seed, uint64_t k) {
    static struct sale s;
    draw_sale(seed, k, &s);
    for (int i = 0; i < SALE; i++) stamps[s.page[i]] = stamp(seed, k, s.page[i]);
}

/* Whether a copy is just what these stamps say, on every page, in all its bytes. */
static int is_as(const struct store *store, int copy, const uint64_t *stamps) {
    byte page[PAGE_SIZE];
    for (uint32_t p = 0; p < pages; p++) {
        store->read(copy, p, page);
        for (int j = 0; j < PAGE_SIZE; j += 8)
            if (memcmp(page + j, &stamps[p], 8)) return 0;
    }
    return 1;
}

/* All sales that were told must be there; the one after them as a whole or not at all. */
static void check(const struct store *store, uint64_t seed, uint64_t told) {
    uint64_t *before = calloc(pages, sizeof *before), *after = calloc(pages, sizeof *after);
    int there = 0, wrong = 0;
    for (uint64_t k = 0; k < told; k++) put_stamps(before, seed, k);
    memcpy(after, before, pages * sizeof *before);
    put_stamps(after, seed, told);
    for (int copy = 0; copy < copies; copy++) {
        if (is_as(store, copy, before)) continue;
        if (is_as(store, copy, after)) there++;
        else wrong = 1;
    }
    puts(wrong ? "wrong" : there == copies ? "whole" : there == 0 ? "absent" : "one copy only");
}

int main(int argc, char **argv) {
    if (argc == 2 && !strcmp(argv[1], "stores")) {
        for (int i = 0; i < STORES; i++) puts(stores[i]->name);
        return 0;
    }
    if (argc < 4) {
        fprintf(stderr, "usage: work STORE make|sales|reads|open|cut|check PAGES [SEED [COUNT]]\n");
        return 2;
    }
    const struct store *store = find(argv[1]);
    const char *what = argv[2];
    pages = strtoul(argv[3], 0, 10);
    uint64_t seed = argc > 4 ? strtoull(argv[4], 0, 10) : 1, count = argc > 5 ? strtoull(argv[5], 0, 10) : 0;
    double begin = now();
    if (!strcmp(what, "make")) store->make();
    else store->open();
    if (!strcmp(what, "open")) {
        byte page[PAGE_SIZE];
        store->read(0, 0, page);
        printf("%.3f\n", (now() - begin) * 1e3);
    }
    if (!strcmp(what, "sales")) make_sales(store, seed, count);
    if (!strcmp(what, "reads")) make_reads(store, seed, count);
    if (!strcmp(what, "cut")) sell_until_killed(store, seed);
    if (!strcmp(what, "check")) check(store, seed, count);
    store->shut();
    return 0;
}
