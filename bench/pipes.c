/* A store that is another program: framed calls to its standard input, framed answers from its standard output. Its
 * disks are made beforehand, by whoever starts it. */
#include "store.h"
#include <stdio.h>
#include <stdlib.h>
#include <string.h>
#include <sys/wait.h>
#include <unistd.h>

enum { READ, WRITE, CLOSE };
enum { DONE = 1, PAGE };

static FILE *to, *from;
static pid_t child;

static void start(void) {
    char *words[64];
    int n = 0;
    for (char *w = strtok(command, " "); w && n < 63; w = strtok(0, " ")) words[n++] = w;
    words[n] = 0;
    execvp(words[0], words);
    die(words[0]);
}

/* A number of four bytes, low byte first. */
static void put4(byte *p, uint32_t n) {
    for (int i = 0; i < 4; i++) p[i] = n >> (8 * i);
}

/* Makes a call, and puts its answer, which is to be of this kind and length, into `answer`. */
static void call(const byte *bytes, uint32_t n, int kind, uint32_t length, byte *answer) {
    byte frame[4], head[4];
    put4(frame, n);
    put4(head, length);
    if (fwrite(frame, 1, 4, to) != 4 || fwrite(bytes, 1, n, to) != n || fflush(to)) die("a call can't be sent");
    if (fread(frame, 1, 4, from) != 4 || memcmp(frame, head, 4)) die("no answer, or one to another call");
    if (fread(answer, 1, length, from) != length || answer[0] != kind) die("an answer to another call");
}

static void read_page(int copy, uint32_t page, byte *out) {
    byte bytes[5] = {READ}, answer[1 + PAGE_SIZE];
    (void)copy;
    put4(bytes + 1, page);
    call(bytes, sizeof bytes, PAGE, sizeof answer, answer);
    memcpy(out, answer + 1, PAGE_SIZE);
}

static void sale(const uint32_t page[SALE], byte given[SALE][PAGE_SIZE]) {
    byte bytes[5 + PAGE_SIZE] = {WRITE}, close[1] = {CLOSE}, answer[1];
    for (int i = 0; i < SALE; i++) {
        put4(bytes + 1, page[i]);
        memcpy(bytes + 5, given[i], PAGE_SIZE);
        call(bytes, sizeof bytes, DONE, 1, answer);
    }
    call(close, 1, DONE, 1, answer);
}

/* It is open when the first call is answered. */
static void open_pipes(void) {
    int in[2], out[2];
    byte page[PAGE_SIZE];
    if (pipe(in) || pipe(out)) die("pipe");
    if ((child = fork()) < 0) die("fork");
    if (child == 0) {
        dup2(in[0], 0);
        dup2(out[1], 1);
        close(in[0]), close(in[1]), close(out[0]), close(out[1]);
        start();
    }
    close(in[0]);
    close(out[1]);
    to = fdopen(in[1], "w");
    from = fdopen(out[0], "r");
    read_page(0, 0, page);
}

static void shut(void) {
    fclose(to);
    fclose(from);
    waitpid(child, 0, 0);
}

const struct store over_pipes = {"pipes", 0, open_pipes, sale, read_page, shut};
