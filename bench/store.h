/* What the benchmark asks of a store of pages, and what it gives to each. */
#ifndef STORE_H
#define STORE_H

#include <stdint.h>

typedef unsigned char byte;

enum { PAGE_SIZE = 1024, SALE = 3 };

struct store {
    const char *name;
    /* Makes a new store of `pages` empty pages in the working folder, and leaves it open. */
    void (*make)(void);
    /* Opens the store, and recovers it where it was cut. */
    void (*open)(void);
    /* Changes these pages at once; it returns when they last. */
    void (*sale)(const uint32_t page[SALE], byte bytes[SALE][PAGE_SIZE]);
    /* Reads a page off one of the copies. */
    void (*read)(int copy, uint32_t page, byte *out);
    /* Closes the store in good order. */
    void (*shut)(void);
};

extern const struct store none, floor_store, over_pipes, sqlite_wal, sqlite_delete, lmdb;

/* How many pages there are. */
extern uint32_t pages;
/* How many copies are kept, one after the other: 1 or 2. */
extern int copies;
/* The program that `over_pipes` starts, with its words apart by spaces. */
extern char *command;

/* Ends the program with a message. */
void die(const char *what);

#endif
