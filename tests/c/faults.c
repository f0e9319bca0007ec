/*
 * Stands between a program and the C library (LD_PRELOAD), counts the calls that go to the system, and lets one of them
 * go wrong.
 *
 *   FAULT_AT     the number of that call, from 1
 *   FAULT_DO     kill N: signal N is sent to the process before the call;
 *                error N: the call fails with that error number;
 *                late N: it is made, and answers that it failed;
 *                errors N: it and every later one that writes fail with that error number;
 *                short: a write writes one byte only
 *   FAULT_LOG    a file to which the name of every call is added
 *   FAULT_PLAIN  1: the system has no unnamed files; 2: nor can it rename to a name that must not be taken
 *   FAULT_CLOCK  every look at a clock finds so many seconds more gone
 *
 * Every function is taken to have six arguments of a register each and one result, which is so for all that are named
 * here (Linux, 64 bits). tests/faults_test.py compares the names with those that the program asks of the C library.
 */
#include <dlfcn.h>
#include <errno.h>
#include <signal.h>
#include <stdio.h>
#include <stdlib.h>
#include <string.h>
#include <sys/syscall.h>
#include <time.h>

typedef long (*function)(long, long, long, long, long, long);

long syscall(long number, ...);

enum { O_TMPFILE_BIT = 020000000, O_APPEND_CREATE = 02101 };

static int at, number, error_number, plain, seconds, ready;
static int is_short, lasting, late;
static int log_fd = -1;

static void start(void) {
    ready = 1;
    plain = getenv("FAULT_PLAIN") ? atoi(getenv("FAULT_PLAIN")) : 0;
    seconds = getenv("FAULT_CLOCK") ? atoi(getenv("FAULT_CLOCK")) : 0;
    const char *where = getenv("FAULT_AT"), *what = getenv("FAULT_DO"), *log = getenv("FAULT_LOG");
    if (log) log_fd = (int)syscall(SYS_open, log, O_APPEND_CREATE, 0600);
    if (!where || !what) return;
    at = atoi(where);
    if (!strncmp(what, "kill ", 5)) number = atoi(what + 5);
    if (!strncmp(what, "error ", 6)) error_number = atoi(what + 6);
    if (!strncmp(what, "late ", 5)) late = atoi(what + 5);
    if (!strncmp(what, "errors ", 7)) lasting = atoi(what + 7);
    is_short = !strcmp(what, "short");
}

static int writes(const char *name) {
    static const char *const names[] = {"write", "writev", "fsync", "ftruncate64", "fchmod", "fchown", "fsetxattr",
                                        "link", "linkat", "rename", "renameat2", "unlink", "mkdir"};
    for (size_t i = 0; i < sizeof names / sizeof *names; i++)
        if (!strcmp(name, names[i])) return 1;
    return 0;
}

static long call(const char *name, function *real, long failure, long a, long b, long c, long d, long e, long f) {
    static int count;
    if (!ready) start();
    if (!*real) *real = (function)dlsym(RTLD_NEXT, name);
    int turn = __atomic_add_fetch(&count, 1, __ATOMIC_SEQ_CST);
    if (log_fd >= 0) {
        syscall(SYS_write, log_fd, name, strlen(name));
        syscall(SYS_write, log_fd, "\n", 1);
    }
    if (turn == at && number) syscall(SYS_kill, syscall(SYS_getpid), number);
    if (turn == at && error_number) {
        /* A descriptor is closed whatever close answers. */
        if (!strcmp(name, "close")) (*real)(a, b, c, d, e, f);
        errno = error_number;
        return failure;
    }
    if (lasting && turn >= at && writes(name)) {
        errno = lasting;
        return failure;
    }
    if (turn == at && is_short && !strcmp(name, "write") && c > 1) c = 1;
    if (plain && !strcmp(name, "open64") && (b & O_TMPFILE_BIT)) {
        errno = EOPNOTSUPP;
        return -1;
    }
    if (plain > 1 && !strcmp(name, "renameat2")) {
        errno = EINVAL;
        return -1;
    }
    long result = (*real)(a, b, c, d, e, f);
    if (turn != at || !late) return result;
    errno = late;
    return failure;
}

#define PASS(name, failure)                                                                    \
    long fault_##name(long a, long b, long c, long d, long e, long f) __asm__(#name);          \
    long fault_##name(long a, long b, long c, long d, long e, long f) {                        \
        static function real;                                                                  \
        return call(#name, &real, failure, a, b, c, d, e, f);                                  \
    }

PASS(open64, -1)
PASS(close, -1)
PASS(read, -1)
PASS(readv, -1)
PASS(write, -1)
PASS(writev, -1)
PASS(fsync, -1)
PASS(ftruncate64, -1)
PASS(lseek64, -1)
PASS(fchmod, -1)
PASS(fchown, -1)
PASS(flock, -1)
PASS(flistxattr, -1)
PASS(fgetxattr, -1)
PASS(fsetxattr, -1)
PASS(link, -1)
PASS(linkat, -1)
PASS(rename, -1)
PASS(renameat2, -1)
PASS(unlink, -1)
PASS(mkdir, -1)
PASS(opendir, 0)
PASS(readdir64, 0)
PASS(stat64, -1)
PASS(lstat64, -1)
PASS(fstat64, -1)
PASS(statx, -1)
PASS(readlink, -1)
PASS(dup, -1)
PASS(fcntl, -1)
PASS(realpath, 0)
PASS(getcwd, 0)

int clock_gettime(clockid_t clock, struct timespec *time) {
    static int looks;
    if (!ready) start();
    int result = (int)syscall(SYS_clock_gettime, clock, time);
    if (!result) time->tv_sec += seconds * __atomic_add_fetch(&looks, 1, __ATOMIC_SEQ_CST);
    return result;
}
