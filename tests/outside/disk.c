/* Stands between a program and the C library (LD_PRELOAD), and watches the two files of `bac serve --keep` and what it sends. kept.py builds and uses it.
 *
 * KEPT is the path of the database; its log is KEPT-wal beside it. Each call that was made stands in the file TRACE, as a line KIND FILE AT COUNT and COUNT octets
 * behind it: W a write at AT, T a change of the length to AT, S a sync, of file 1, the log, or 2, the database; D a sync of their folder; A a datagram to port AT;
 * F a call that this library made fail.
 *
 * FAILS is KIND K ERROR HOW: the K-th call of that kind fails with that number. KIND is `write` (of octets or of a length) or `sync`. HOW is `once`; `on`: all later
 * ones fail too; or `short`: the K-th write takes half of its octets, and all later ones fail.
 */
#define _GNU_SOURCE
#include <dlfcn.h>
#include <errno.h>
#include <fcntl.h>
#include <netinet/in.h>
#include <stdio.h>
#include <stdlib.h>
#include <string.h>
#include <sys/socket.h>
#include <sys/uio.h>
#include <unistd.h>

enum file { OTHER, LOG, DATABASE, FOLDER };
enum how { ONCE, ON, SHORT };
enum fate { MADE, HALVED, FAILED };

/* Calls of one kind: how many there were, and which one fails. */
struct calls {
    long count, fails;
};

static struct calls writes, syncs;
static enum how how;
static int error = EIO, trace = -1;
static char log_path[512], database[512], folder[512];

static ssize_t (*real_pwrite)(int, const void *, size_t, off_t);
static ssize_t (*real_sendto)(int, const void *, size_t, int, const struct sockaddr *, socklen_t);
static int (*real_fsync)(int), (*real_fdatasync)(int), (*real_ftruncate)(int, off_t);

/* Which calls fail, from the words of FAILS. */
static void read_fails(const char *words) {
    char kind[8], way[8];
    long k;
    if (sscanf(words, "%7s %ld %d %7s", kind, &k, &error, way) != 4) abort();
    (strcmp(kind, "sync") ? &writes : &syncs)->fails = k;
    how = !strcmp(way, "short") ? SHORT : !strcmp(way, "on") ? ON : ONCE;
}

__attribute__((constructor)) static void start(void) {
    real_pwrite = dlsym(RTLD_NEXT, "pwrite64");
    real_sendto = dlsym(RTLD_NEXT, "sendto");
    real_fsync = dlsym(RTLD_NEXT, "fsync");
    real_fdatasync = dlsym(RTLD_NEXT, "fdatasync");
    real_ftruncate = dlsym(RTLD_NEXT, "ftruncate64");
    const char *kept = getenv("KEPT"), *traced = getenv("TRACE"), *fails = getenv("FAILS");
    if (!kept || !traced || !strchr(kept, '/')) abort();
    snprintf(database, sizeof database, "%s", kept);
    snprintf(log_path, sizeof log_path, "%s-wal", kept);
    snprintf(folder, sizeof folder, "%.*s", (int)(strrchr(kept, '/') - kept), kept);
    trace = open(traced, O_CREAT | O_WRONLY | O_TRUNC | O_APPEND, 0644);
    if (trace < 0) abort();
    if (fails) read_fails(fails);
}

/* Which file that is. */
static enum file file_of(int fd) {
    char link[64], path[512];
    snprintf(link, sizeof link, "/proc/self/fd/%d", fd);
    ssize_t len = readlink(link, path, sizeof path - 1);
    if (len < 0) return OTHER;
    path[len] = 0;
    if (!strcmp(path, log_path)) return LOG;
    if (!strcmp(path, database)) return DATABASE;
    return strcmp(path, folder) ? OTHER : FOLDER;
}

/* Puts a record into the trace. */
static void note(char kind, enum file file, long long at, const void *octets, size_t count) {
    char line[64];
    int len = snprintf(line, sizeof line, "%c %d %lld %zu\n", kind, file, at, count);
    struct iovec parts[2] = {{line, (size_t)len}, {(void *)octets, count}};
    if (writev(trace, parts, 2) != len + (ssize_t)count) abort();
}

/* What becomes of the next call of a kind. */
static enum fate next(struct calls *calls, enum file file) {
    long k = ++calls->count;
    if (!calls->fails || k < calls->fails || (k > calls->fails && how == ONCE)) return MADE;
    if (k == calls->fails && how == SHORT) return HALVED;
    note('F', file, k, NULL, 0);
    errno = error;
    return FAILED;
}

ssize_t pwrite64(int fd, const void *octets, size_t count, off_t at) {
    enum file file = file_of(fd);
    if (file != LOG && file != DATABASE) return real_pwrite(fd, octets, count, at);
    enum fate fate = next(&writes, file);
    if (fate == FAILED) return -1;
    ssize_t done = real_pwrite(fd, octets, fate == HALVED && count > 1 ? count / 2 : count, at);
    if (done > 0) note('W', file, at, octets, (size_t)done);
    return done;
}

ssize_t pwrite(int fd, const void *octets, size_t count, off_t at) {
    return pwrite64(fd, octets, count, at);
}

int ftruncate64(int fd, off_t len) {
    enum file file = file_of(fd);
    if (file != LOG && file != DATABASE) return real_ftruncate(fd, len);
    if (next(&writes, file) == FAILED) return -1;
    int done = real_ftruncate(fd, len);
    if (done == 0) note('T', file, len, NULL, 0);
    return done;
}

int ftruncate(int fd, off_t len) {
    return ftruncate64(fd, len);
}

static int synced(int fd, int (*real)(int)) {
    enum file file = file_of(fd);
    if (file == OTHER) return real(fd);
    if (next(&syncs, file) == FAILED) return -1;
    int done = real(fd);
    if (done == 0) note(file == FOLDER ? 'D' : 'S', file, 0, NULL, 0);
    return done;
}

int fsync(int fd) {
    return synced(fd, real_fsync);
}

int fdatasync(int fd) {
    return synced(fd, real_fdatasync);
}

ssize_t sendto(int fd, const void *octets, size_t count, int flags, const struct sockaddr *to, socklen_t len) {
    // noted first: a client that has the answer may end this process at once
    if (to && to->sa_family == AF_INET) note('A', OTHER, ntohs(((const struct sockaddr_in *)to)->sin_port), octets, count);
    return real_sendto(fd, octets, count, flags, to, len);
}
