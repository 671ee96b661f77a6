/* A shim for LD_PRELOAD that cuts, interrupts or refuses reads, writes, threads and the clock.

   READ_AT_MOST=n      a read of standard input gives n bytes at most
   READ_FAILS_AT=k     reads of standard input fail after k bytes in all
   WRITE_AT_MOST=n     a write to standard output takes n bytes at most
   WRITE_FAILS_AT=k    writes to standard output fail after k bytes in all
   WRITE_STOPS_AT=k    writes to standard output take nothing after k bytes in all
   THREADS_AT_MOST=n   no more than n threads are started
   LOG_WRITE_FAILS=n   the nth write to another file takes half, and the next one fails
   LOG_SYNC_FAILS=n    the nth fdatasync fails
   LOG_SYNC_TAKES=n    each fdatasync takes n milliseconds more
   FSYNC_FAILS=n       the nth fsync fails
   LOG_CUT_FAILS=n     the nth ftruncate fails
   LOCK_FAILS=1        the file system has no locks
   CLOCK_FAILS=1       the clock cannot be read
   CLOCK_ENDS=1        reading the clock ends the program
   INTERRUPTED=n       each nth read, write, fdatasync and ftruncate of any file is interrupted before it does anything  */

#define _GNU_SOURCE
#include <dlfcn.h>
#include <errno.h>
#include <pthread.h>
#include <stdatomic.h>
#include <stdlib.h>
#include <sys/file.h>
#include <time.h>
#include <unistd.h>

static long limit(const char *name) {
    const char *text = getenv(name);
    return text ? atol(text) : -1;
}

static size_t cut(size_t size, long most) {
    return most >= 0 && size > (size_t)most ? (size_t)most : size;
}

static long left_of(long all, long done) {
    return all < 0 ? -1 : all - done;
}

static int is_interrupted(void) {
    static long calls;
    long every = limit("INTERRUPTED");
    if (every <= 0 || ++calls % every != 0) return 0;
    errno = EINTR;
    return 1;
}

ssize_t read(int file, void *place, size_t size) {
    static long done;
    ssize_t (*original)(int, void *, size_t) = dlsym(RTLD_NEXT, "read");
    if (is_interrupted()) return -1;
    if (file != STDIN_FILENO) return original(file, place, size);
    long left = left_of(limit("READ_FAILS_AT"), done);
    if (left == 0) {
        errno = EIO;
        return -1;
    }
    ssize_t given = original(file, place, cut(cut(size, left), limit("READ_AT_MOST")));
    if (given > 0) done += given;
    return given;
}

ssize_t write(int file, const void *place, size_t size) {
    static long done;
    ssize_t (*original)(int, const void *, size_t) = dlsym(RTLD_NEXT, "write");
    if (is_interrupted()) return -1;
    if (file > STDERR_FILENO) {
        static long written;
        written += 1;
        if (written == limit("LOG_WRITE_FAILS") && size > 1) return original(file, place, size / 2);
        if (written == limit("LOG_WRITE_FAILS") + 1 && limit("LOG_WRITE_FAILS") > 0) {
            errno = ENOSPC;
            return -1;
        }
        return original(file, place, size);
    }
    if (file != STDOUT_FILENO) return original(file, place, size);
    long left = left_of(limit("WRITE_FAILS_AT"), done);
    long taken = left_of(limit("WRITE_STOPS_AT"), done);
    if (taken == 0) return 0;
    if (left == 0) {
        errno = ENOSPC;
        return -1;
    }
    ssize_t given = original(file, place, cut(cut(cut(size, left), taken), limit("WRITE_AT_MOST")));
    if (given > 0) done += given;
    return given;
}

int fdatasync(int file) {
    static long done;
    int (*original)(int) = dlsym(RTLD_NEXT, "fdatasync");
    if (is_interrupted()) return -1;
    if (limit("LOG_SYNC_TAKES") > 0) usleep(1000 * limit("LOG_SYNC_TAKES"));
    if (++done == limit("LOG_SYNC_FAILS")) {
        errno = EIO;
        return -1;
    }
    return original(file);
}

int fsync(int file) {
    static long done;
    int (*original)(int) = dlsym(RTLD_NEXT, "fsync");
    if (++done == limit("FSYNC_FAILS")) {
        errno = EIO;
        return -1;
    }
    return original(file);
}

int ftruncate(int file, off_t size) {
    static long done;
    int (*original)(int, off_t) = dlsym(RTLD_NEXT, "ftruncate");
    if (is_interrupted()) return -1;
    if (++done == limit("LOG_CUT_FAILS")) {
        errno = EIO;
        return -1;
    }
    return original(file, size);
}

int ftruncate64(int file, off_t size) {
    return ftruncate(file, size);
}

int flock(int file, int how) {
    int (*original)(int, int) = dlsym(RTLD_NEXT, "flock");
    if (limit("LOCK_FAILS") > 0) {
        errno = ENOLCK;
        return -1;
    }
    return original(file, how);
}

int clock_gettime(clockid_t clock, struct timespec *time) {
    int (*original)(clockid_t, struct timespec *) = dlsym(RTLD_NEXT, "clock_gettime");
    if (limit("CLOCK_ENDS") > 0) _exit(99);
    if (limit("CLOCK_FAILS") > 0) {
        errno = EINVAL;
        return -1;
    }
    return original(clock, time);
}

int pthread_create(pthread_t *thread, const pthread_attr_t *attributes, void *(*start)(void *), void *argument) {
    static atomic_long started;
    int (*original)(pthread_t *, const pthread_attr_t *, void *(*)(void *), void *) = dlsym(RTLD_NEXT, "pthread_create");
    long most = limit("THREADS_AT_MOST");
    if (most >= 0 && atomic_fetch_add(&started, 1) >= most) return EAGAIN;
    return original(thread, attributes, start, argument);
}
