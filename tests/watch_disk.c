/* Watches the disk of the program that it is preloaded into: it counts the flushes, writes and reads of the file WATCH_DISK, and does to
 * them what the words in the file WATCH_SHARE say, and sets its clock. Both sides have that file in their memory, so a word can change at any time.
 * Calls are numbered from 1 on. A word that is 0 does nothing. */
#define _GNU_SOURCE
#include <dlfcn.h>
#include <errno.h>
#include <fcntl.h>
#include <signal.h>
#include <stdint.h>
#include <stdio.h>
#include <stdlib.h>
#include <string.h>
#include <sys/mman.h>
#include <sys/stat.h>
#include <sys/syscall.h>
#include <time.h>
#include <unistd.h>

/* In the order of Watch.WORDS in harness.py. */
struct share {
    volatile uint64_t flushes, flushed;  /* how many flushes began, and how many were made */
    volatile uint64_t writes, written;   /* the same of writes */
    volatile uint64_t folder_flushes;    /* flushes of anything else */
    volatile uint64_t prints;            /* writes to standard output */
    volatile uint64_t hold_flush;        /* from this flush on each waits .. */
    volatile uint64_t release;           /* .. until this is its number or above */
    volatile uint64_t fail_flush;        /* from this flush on each fails */
    volatile uint64_t fail_write;        /* from this write on each fails */
    volatile uint64_t kill_flush;        /* the program is killed before this flush */
    volatile uint64_t kill_write;        /* .. in this write .. */
    volatile uint64_t torn;              /* .. of which so many bytes were written */
    volatile uint64_t kill_print;        /* .. before it prints for this time */
    volatile uint64_t keep;              /* after each flush the disk is copied to WATCH_DISK.flushed */
    volatile uint64_t reads;             /* how many reads began */
    volatile uint64_t fail_read;         /* from this read on each fails */
    volatile uint64_t record;            /* each write, flush and change of its size is noted in WATCH_DISK.calls */
    volatile uint64_t ahead, back;       /* the system's clock shows so many milliseconds more, and so many less */
    volatile uint64_t fail_with;         /* what fails does so with this error, and not as a device does */
    volatile uint64_t drops;             /* how often something was dropped that the machine kept of it .. */
    volatile uint64_t drop_at, drop_size; /* .. and from where on, and how many bytes, last */
    volatile uint64_t hold_write;        /* from this write on each waits, until `release` is its number or above */
};

static struct share *share;
static const char *disk;

__attribute__((constructor)) static void begin(void) {
    const char *name = getenv("WATCH_SHARE");
    disk = getenv("WATCH_DISK");
    if (!name || !disk) return;
    int file = open(name, O_RDWR | O_CLOEXEC);
    if (file < 0) return;
    void *found = mmap(0, sizeof *share, PROT_READ | PROT_WRITE, MAP_SHARED, file, 0);
    close(file);
    if (found != MAP_FAILED) share = found;
}

static int is_disk(int file) {
    struct stat one, other;
    return fstat(file, &one) == 0 && stat(disk, &other) == 0 && one.st_dev == other.st_dev && one.st_ino == other.st_ino;
}

/* The system's clock, as it is set. The system is asked itself: no other library is looked for so early. */
int clock_gettime(clockid_t clock, struct timespec *told) {
    int answer = syscall(SYS_clock_gettime, clock, told);
    if (answer == 0 && share && clock == CLOCK_REALTIME) told->tv_sec += (int64_t)(share->ahead - share->back) / 1000;
    return answer;
}

static uint64_t next_of(volatile uint64_t *count) { return __sync_add_and_fetch(count, 1); }

static void end_here(void) {
    kill(getpid(), SIGKILL);
    for (;;) pause();
}

/* Copies the disk as it is, and puts the copy in its place at once. */
static void keep_copy(void) {
    static ssize_t (*put)(int, const void *, size_t);
    if (!put) put = dlsym(RTLD_NEXT, "write");
    char made[4096], kept[4096], piece[65536];
    snprintf(made, sizeof made, "%s.made", disk);
    snprintf(kept, sizeof kept, "%s.flushed", disk);
    int from = open(disk, O_RDONLY | O_CLOEXEC), to = open(made, O_WRONLY | O_CREAT | O_TRUNC | O_CLOEXEC, 0600);
    ssize_t count;
    while ((count = read(from, piece, sizeof piece)) > 0)
        if (put(to, piece, count) != count) abort();
    close(from);
    close(to);
    rename(made, kept);
}

static int failed(void) {
    errno = share->fail_with ? (int)share->fail_with : EIO;
    return -1;
}

/* Notes a write, a flush or a change of size as three numbers, and behind them what is written. */
static void note(uint64_t kind, uint64_t at, const void *bytes, uint64_t count) {
    static ssize_t (*put)(int, const void *, size_t);
    static int notes = -1;
    char name[4096];
    uint64_t head[] = {kind, at, count};
    if (!put) put = dlsym(RTLD_NEXT, "write");
    snprintf(name, sizeof name, "%s.calls", disk);
    if (notes < 0) notes = open(name, O_WRONLY | O_CREAT | O_APPEND | O_CLOEXEC, 0600);
    if (put(notes, head, sizeof head) != sizeof head || put(notes, bytes, count) != (ssize_t)count) abort();
}

static int flush(int file, const char *name) {
    int (*next)(int) = dlsym(RTLD_NEXT, name);
    if (!share) return next(file);
    if (!is_disk(file)) {
        next_of(&share->folder_flushes);
        return next(file);
    }
    uint64_t number = next_of(&share->flushes);
    if (share->kill_flush == number) end_here();
    while (share->hold_flush && share->hold_flush <= number && share->release < number) usleep(1000);
    if (share->fail_flush && share->fail_flush <= number) return failed();
    int result = next(file);
    if (result == 0) {
        if (share->keep) keep_copy();
        if (share->record) note(0, 0, "", 0);
        next_of(&share->flushed);
    }
    return result;
}

int fdatasync(int file) { return flush(file, "fdatasync"); }
int fsync(int file) { return flush(file, "fsync"); }

static ssize_t write_at(int file, const void *bytes, size_t count, off_t at) {
    static ssize_t (*next)(int, const void *, size_t, off_t);
    if (!next) next = dlsym(RTLD_NEXT, "pwrite64");
    if (!share || !is_disk(file)) return next(file, bytes, count, at);
    uint64_t number = next_of(&share->writes);
    if (share->kill_write == number) {
        size_t torn = share->torn < count ? share->torn : count;
        if (torn) next(file, bytes, torn, at);
        end_here();
    }
    while (share->hold_write && share->hold_write <= number && share->release < number) usleep(1000);
    if (share->fail_write && share->fail_write <= number) return failed();
    if (share->record) note(1, at, bytes, count);
    ssize_t result = next(file, bytes, count, at);
    if (result >= 0) next_of(&share->written);
    return result;
}

ssize_t pwrite64(int file, const void *bytes, size_t count, off_t at) { return write_at(file, bytes, count, at); }
ssize_t pwrite(int file, const void *bytes, size_t count, off_t at) { return write_at(file, bytes, count, at); }

static ssize_t read_at(int file, void *bytes, size_t count, off_t at) {
    static ssize_t (*next)(int, void *, size_t, off_t);
    if (!next) next = dlsym(RTLD_NEXT, "pread64");
    if (!share || !is_disk(file)) return next(file, bytes, count, at);
    uint64_t number = next_of(&share->reads);
    if (share->fail_read && share->fail_read <= number) return failed();
    return next(file, bytes, count, at);
}

ssize_t pread64(int file, void *bytes, size_t count, off_t at) { return read_at(file, bytes, count, at); }
ssize_t pread(int file, void *bytes, size_t count, off_t at) { return read_at(file, bytes, count, at); }

static int resize(int file, off_t size, const char *name) {
    int (*next)(int, off_t) = dlsym(RTLD_NEXT, name);
    if (share && share->record && is_disk(file)) note(2, size, "", 0);
    return next(file, size);
}

int ftruncate(int file, off_t size) { return resize(file, size, "ftruncate"); }
int ftruncate64(int file, off_t size) { return resize(file, size, "ftruncate64"); }

static int drop(int file, off_t at, off_t size, int advice, const char *name) {
    int (*next)(int, off_t, off_t, int) = dlsym(RTLD_NEXT, name);
    if (share && is_disk(file) && advice == POSIX_FADV_DONTNEED) {
        share->drop_at = at;
        share->drop_size = size;
        next_of(&share->drops);
    }
    return next(file, at, size, advice);
}

int posix_fadvise(int file, off_t at, off_t size, int advice) { return drop(file, at, size, advice, "posix_fadvise"); }
int posix_fadvise64(int file, off_t at, off_t size, int advice) { return drop(file, at, size, advice, "posix_fadvise64"); }

ssize_t write(int file, const void *bytes, size_t count) {
    static ssize_t (*next)(int, const void *, size_t);
    if (!next) next = dlsym(RTLD_NEXT, "write");
    if (share && file == STDOUT_FILENO && next_of(&share->prints) == share->kill_print) end_here();
    return next(file, bytes, count);
}
