// Preloaded below the program: fails calls on a file, or kills the process, at a chosen moment.
//
// FAULTS has faults apart by commas, each ACT:CALL:FILE:K. CALL is write, read, sync, length, create, remove or
// tell, or use for a write, read or sync; FILE is the last part of a file's name, or * for any file. The fault
// strikes at the K-th such call, counted from 0. For CALL step every call counts, and for after every call that
// follows the first one that was failed. ACT is kill (just before the call), fail (with an I/O error), full (with
// no space left), short (half of it is done) or slow (it takes more than a second).
//
// FAULTS_LOG names a file that gets a line for each call: its name, the file and the offset.
#define _GNU_SOURCE
#include <dlfcn.h>
#include <errno.h>
#include <fcntl.h>
#include <signal.h>
#include <stdarg.h>
#include <stdio.h>
#include <stdlib.h>
#include <string.h>
#include <unistd.h>

enum act { NONE, KILL, FAIL, FULL, SHORT, SLOW };

struct fault {
    enum act act;
    char call[8];
    char file[64];
    long left;
};

static struct fault faults[8];
static int count = -1;
static int struck;
static int log_fd = -1;

static enum act act_of(const char *word) {
    if (!strcmp(word, "kill")) return KILL;
    if (!strcmp(word, "fail")) return FAIL;
    if (!strcmp(word, "full")) return FULL;
    if (!strcmp(word, "short")) return SHORT;
    if (!strcmp(word, "slow")) return SLOW;
    abort();
}

static int real_open(const char *path, int flags, mode_t mode) {
    static int (*next)(const char *, int, ...);
    if (!next) next = dlsym(RTLD_NEXT, "open");
    return next(path, flags, mode);
}

static ssize_t real_write(int fd, const void *buf, size_t n) {
    static ssize_t (*next)(int, const void *, size_t);
    if (!next) next = dlsym(RTLD_NEXT, "write");
    return next(fd, buf, n);
}

static void begin(void) {
    if (count >= 0) return;
    count = 0;
    const char *text = getenv("FAULTS");
    char copy[512], *rest = copy, *one;
    snprintf(copy, sizeof copy, "%s", text ? text : "");
    while ((one = strsep(&rest, ",")) && *one) {
        char act[8];
        struct fault *f = &faults[count++];
        if (sscanf(one, "%7[^:]:%7[^:]:%63[^:]:%ld", act, f->call, f->file, &f->left) != 4) abort();
        f->act = act_of(act);
    }
    // Far above the numbers that the program uses.
    const char *log = getenv("FAULTS_LOG");
    if (log) {
        int fd = real_open(log, O_WRONLY | O_CREAT | O_APPEND | O_CLOEXEC, 0666);
        log_fd = fcntl(fd, F_DUPFD_CLOEXEC, 200);
        close(fd);
    }
}

static const char *last_part(const char *path) {
    const char *slash = strrchr(path, '/');
    return slash ? slash + 1 : path;
}

static void name_of(int fd, char *name, size_t n) {
    char link[64], path[4096];
    snprintf(link, sizeof link, "/proc/self/fd/%d", fd);
    ssize_t got = readlink(link, path, sizeof path - 1);
    path[got < 0 ? 0 : got] = 0;
    snprintf(name, n, "%.60s", last_part(path));
}

static int is_use(const char *call) {
    return !strcmp(call, "write") || !strcmp(call, "read") || !strcmp(call, "sync");
}

static int counts(const struct fault *f, const char *call, const char *file) {
    if (!strcmp(f->call, "after")) return struck;
    if (!strcmp(f->call, "step")) return 1;
    if (f->file[0] != '*' && strcmp(f->file, file)) return 0;
    return !strcmp(f->call, "use") ? is_use(call) : !strcmp(f->call, call);
}

// What happens to a call on a file.
static enum act meet(const char *call, const char *file, long offset) {
    int saved = errno;
    enum act act = NONE;
    begin();
    for (int i = 0; i < count; i++)
        if (counts(&faults[i], call, file) && faults[i].left-- == 0) act = faults[i].act;
    if (log_fd >= 0) {
        char line[128];
        int n = snprintf(line, sizeof line, "%s %s %ld %d\n", call, file, offset, act);
        if (real_write(log_fd, line, n) != n) abort();
    }
    if (act == KILL) raise(SIGKILL);
    if (act == SLOW) usleep(1200000), act = NONE;
    if (act != NONE) struck = 1;
    errno = saved;
    return act;
}

static int failed(enum act act) {
    errno = act == FULL ? ENOSPC : EIO;
    return -1;
}

ssize_t pwrite(int fd, const void *buf, size_t n, off_t at) {
    static ssize_t (*next)(int, const void *, size_t, off_t);
    if (!next) next = dlsym(RTLD_NEXT, "pwrite");
    char name[64];
    name_of(fd, name, sizeof name);
    enum act act = meet("write", name, at);
    if (act == SHORT) return next(fd, buf, n / 2, at);
    return act == NONE ? next(fd, buf, n, at) : failed(act);
}

ssize_t pread(int fd, void *buf, size_t n, off_t at) {
    static ssize_t (*next)(int, void *, size_t, off_t);
    if (!next) next = dlsym(RTLD_NEXT, "pread");
    char name[64];
    name_of(fd, name, sizeof name);
    enum act act = meet("read", name, at);
    if (act == SHORT) return next(fd, buf, n / 2, at);
    return act == NONE ? next(fd, buf, n, at) : failed(act);
}

int fdatasync(int fd) {
    static int (*next)(int);
    if (!next) next = dlsym(RTLD_NEXT, "fdatasync");
    char name[64];
    name_of(fd, name, sizeof name);
    enum act act = meet("sync", name, 0);
    return act == NONE ? next(fd) : failed(act);
}

int fsync(int fd) {
    static int (*next)(int);
    if (!next) next = dlsym(RTLD_NEXT, "fsync");
    char name[64];
    name_of(fd, name, sizeof name);
    enum act act = meet("sync", name, 0);
    return act == NONE ? next(fd) : failed(act);
}

int ftruncate(int fd, off_t n) {
    static int (*next)(int, off_t);
    if (!next) next = dlsym(RTLD_NEXT, "ftruncate");
    char name[64];
    name_of(fd, name, sizeof name);
    enum act act = meet("length", name, n);
    return act == NONE ? next(fd, n) : failed(act);
}

int open(const char *path, int flags, ...) {
    mode_t mode = 0;
    if (flags & O_CREAT) {
        va_list rest;
        va_start(rest, flags);
        mode = va_arg(rest, mode_t);
        va_end(rest);
    }
    if (!(flags & O_CREAT)) return real_open(path, flags, mode);
    enum act act = meet("create", last_part(path), 0);
    return act == NONE ? real_open(path, flags, mode) : failed(act);
}

int unlink(const char *path) {
    static int (*next)(const char *);
    if (!next) next = dlsym(RTLD_NEXT, "unlink");
    enum act act = meet("remove", last_part(path), 0);
    return act == NONE ? next(path) : failed(act);
}

// An answer, or a line for people.
ssize_t write(int fd, const void *buf, size_t n) {
    enum act act = meet("tell", fd == 1 ? "stdout" : "stderr", 0);
    return act == NONE ? real_write(fd, buf, n) : failed(act);
}
