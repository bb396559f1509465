/* What the program asks of the system: sockets, which are local ones here, to which the world connects; random bytes; and the disk. */
#define _GNU_SOURCE
#include "seeded.h"
#include <dlfcn.h>
#include <errno.h>
#include <netinet/in.h>
#include <signal.h>
#include <stdio.h>
#include <stdlib.h>
#include <string.h>
#include <sys/prctl.h>
#include <sys/socket.h>
#include <sys/stat.h>
#include <sys/syscall.h>
#include <sys/uio.h>
#include <sys/un.h>
#include <unistd.h>

#define MOST_FILES 4096
#define SECTOR 512

/* The port at which a socket listens, or was connected to; 0 of any other file. */
static uint16_t port_of[MOST_FILES];
static const char *folder, *disk;
static uint64_t flushes, writes, reads, fail_flushes, fail_writes, fail_reads, slow_flushes;

/* A sector that was written and is not flushed, as it was before. */
struct before {
    uint64_t sector;
    int is_back; /* it stands there again */
    uint8_t bytes[SECTOR];
};

static struct before *unsettled;
static size_t unsettled_count, unsettled_room;
static int disk_file = -1;

static long call(long number, long a, long b, long c, long d, long e, long f) {
    long told = raw(number, a, b, c, d, e, f);
    if (told >= 0 || told < -4095) return told;
    errno = (int)-told;
    return -1;
}

/* Sockets. */

static int is_ours(int file) { return is_seeded && file >= 0 && file < MOST_FILES && port_of[file]; }

int socket(int family, int kind, int protocol) {
    if (!is_seeded || (family != AF_INET && family != AF_INET6)) return (int)call(SYS_socket, family, kind, protocol, 0, 0, 0);
    int file = (int)call(SYS_socket, AF_UNIX, kind, 0, 0, 0, 0);
    if (file >= 0 && file < MOST_FILES) port_of[file] = 1;
    return file;
}

int bind(int file, const struct sockaddr *at, socklen_t size) {
    if (!is_ours(file)) return (int)call(SYS_bind, file, (long)at, size, 0, 0, 0);
    port_of[file] = ntohs(((const struct sockaddr_in *)at)->sin_port);
    struct sockaddr_un local = {.sun_family = AF_UNIX};
    snprintf(local.sun_path, sizeof local.sun_path, "%s/%d", folder, port_of[file]);
    return (int)call(SYS_bind, file, (long)&local, sizeof local, 0, 0, 0);
}

static void fill_address(int port, struct sockaddr *at, socklen_t *size) {
    struct sockaddr_in told = {.sin_family = AF_INET, .sin_port = htons((uint16_t)port), .sin_addr.s_addr = htonl(INADDR_LOOPBACK)};
    if (!at || !size) return;
    memcpy(at, &told, *size < sizeof told ? *size : sizeof told);
    *size = sizeof told;
}

int accept4(int file, struct sockaddr *at, socklen_t *size, int flags) {
    point();
    if (!is_ours(file)) return (int)call(SYS_accept4, file, (long)at, (long)size, flags, 0, 0);
    int made = (int)call(SYS_accept4, file, 0, 0, flags, 0, 0);
    if (made < 0) return made;
    if (made < MOST_FILES) port_of[made] = port_of[file];
    fill_address(40000, at, size);
    return made;
}

int getsockname(int file, struct sockaddr *at, socklen_t *size) {
    if (!is_ours(file)) return (int)call(SYS_getsockname, file, (long)at, (long)size, 0, 0, 0);
    fill_address(port_of[file], at, size);
    return 0;
}

int getpeername(int file, struct sockaddr *at, socklen_t *size) {
    if (!is_ours(file)) return (int)call(SYS_getpeername, file, (long)at, (long)size, 0, 0, 0);
    fill_address(40000, at, size);
    return 0;
}

int setsockopt(int file, int level, int name, const void *value, socklen_t size) {
    if (is_ours(file) && level != SOL_SOCKET) return 0;
    return (int)call(SYS_setsockopt, file, level, name, (long)value, size, 0);
}

ssize_t recv(int file, void *bytes, size_t count, int flags) {
    point();
    return call(SYS_recvfrom, file, (long)bytes, (long)count, flags, 0, 0);
}

ssize_t send(int file, const void *bytes, size_t count, int flags) {
    point();
    has_said |= is_ours(file);
    return call(SYS_sendto, file, (long)bytes, (long)count, flags | MSG_NOSIGNAL, 0, 0);
}

ssize_t sendmsg(int file, const struct msghdr *message, int flags) {
    point();
    has_said |= is_ours(file);
    return call(SYS_sendmsg, file, (long)message, flags | MSG_NOSIGNAL, 0, 0, 0);
}

int shutdown(int file, int how) {
    point();
    has_said |= is_ours(file);
    return (int)call(SYS_shutdown, file, how, 0, 0, 0, 0);
}

int close(int file) {
    if (is_ours(file)) {
        has_said = 1;
        port_of[file] = 0;
    }
    return (int)call(SYS_close, file, 0, 0, 0, 0, 0);
}

ssize_t read(int file, void *bytes, size_t count) {
    point();
    return call(SYS_read, file, (long)bytes, (long)count, 0, 0, 0);
}

ssize_t write(int file, const void *bytes, size_t count) {
    point();
    has_said |= is_ours(file);
    return call(SYS_write, file, (long)bytes, (long)count, 0, 0, 0);
}

ssize_t writev(int file, const struct iovec *parts, int count) {
    point();
    has_said |= is_ours(file);
    return call(SYS_writev, file, (long)parts, count, 0, 0, 0);
}

int getentropy(void *bytes, size_t count) {
    if (!is_seeded) return (int)call(SYS_getrandom, (long)bytes, (long)count, 0, 0, 0, 0) < 0 ? -1 : 0;
    for (size_t i = 0; i < count; i++) ((uint8_t *)bytes)[i] = (uint8_t)draw(256);
    return 0;
}

/* The number of the fault that is planted, for a program that has some. */
pid_t getppid(void) {
    const char *fault = getenv("SEEDED_FAULT");
    return fault ? 7000 + atoi(fault) : (pid_t)call(SYS_getppid, 0, 0, 0, 0, 0, 0);
}

/* The disk. */

static int is_disk(int file) {
    struct stat one, other;
    if (!is_seeded || fstat(file, &one) != 0 || stat(disk, &other) != 0) return 0;
    if (one.st_dev != other.st_dev || one.st_ino != other.st_ino) return 0;
    disk_file = file;
    return 1;
}

static int fails(uint64_t *left) {
    if (*left == 0) return 0;
    if (*left != NEVER) --*left;
    errno = EIO;
    return 1;
}

/* Keeps what stands where something is about to be written. */
static void keep(int file, size_t count, off_t at) {
    for (off_t one = at / SECTOR; one * SECTOR < at + (off_t)count; one++) {
        if (unsettled_count == unsettled_room) {
            unsettled_room = unsettled_room ? 2 * unsettled_room : 256;
            unsettled = realloc(unsettled, unsettled_room * sizeof *unsettled);
        }
        struct before *kept = &unsettled[unsettled_count++];
        kept->sector = (uint64_t)one;
        kept->is_back = 0;
        memset(kept->bytes, 0, SECTOR);
        raw(SYS_pread64, file, (long)kept->bytes, SECTOR, one * SECTOR, 0, 0);
    }
}

static ssize_t write_at(int file, const void *bytes, size_t count, off_t at) {
    if (!is_disk(file)) return call(SYS_pwrite64, file, (long)bytes, (long)count, at, 0, 0);
    writes++;
    pause_for(draw(20 * MICROS));
    keep(file, count, at);
    size_t made = fail_writes ? draw(count / SECTOR + 1) * SECTOR : count;
    if (made) raw(SYS_pwrite64, file, (long)bytes, (long)made, at, 0, 0);
    pause_for(draw(20 * MICROS));
    return fails(&fail_writes) ? -1 : (ssize_t)count;
}

ssize_t pwrite(int file, const void *bytes, size_t count, off_t at) { return write_at(file, bytes, count, at); }
ssize_t pwrite64(int file, const void *bytes, size_t count, off_t at) { return write_at(file, bytes, count, at); }

static ssize_t read_at(int file, void *bytes, size_t count, off_t at) {
    if (is_disk(file)) {
        reads++;
        pause_for(draw(20 * MICROS));
        if (fails(&fail_reads)) return -1;
    }
    return call(SYS_pread64, file, (long)bytes, (long)count, at, 0, 0);
}

ssize_t pread(int file, void *bytes, size_t count, off_t at) { return read_at(file, bytes, count, at); }
ssize_t pread64(int file, void *bytes, size_t count, off_t at) { return read_at(file, bytes, count, at); }

/* How long a flush takes: little, some milliseconds, or as long as a busy disk. */
static uint64_t flush_time(void) {
    static const uint64_t most[] = {100 * MICROS, 100 * MICROS, 3 * MILLIS, 3 * MILLIS, 20 * MILLIS, 300 * MILLIS};
    return draw(most[draw(6)]) + slow_flushes;
}

/* What was written before a flush began is settled once it ends. */
static int flush(int file, long number) {
    if (!is_disk(file)) return (int)call(number, file, 0, 0, 0, 0, 0);
    flushes++;
    size_t begun = unsettled_count;
    pause_for(flush_time());
    if (fails(&fail_flushes)) return -1;
    memmove(unsettled, unsettled + begun, (unsettled_count - begun) * sizeof *unsettled);
    unsettled_count -= begun;
    return 0;
}

int fdatasync(int file) { return flush(file, SYS_fdatasync); }
int fsync(int file) { return flush(file, SYS_fsync); }

/* Puts a sector back as it was before one of its writes, or a part of it: whether all of it. */
static int put_back(const struct before *kept) {
    size_t from = 0, to = SECTOR;
    if (draw(4) == 0) from = draw(SECTOR);
    else if (draw(4) == 0) to = draw(SECTOR);
    raw(SYS_pwrite64, disk_file, (long)(kept->bytes + from), (long)(to - from), (long)(kept->sector * SECTOR + from), 0, 0);
    return to - from == SECTOR;
}

/* Whether a later write of the same sector stays. */
static int is_covered(size_t at) {
    for (size_t later = at + 1; later < unsettled_count; later++)
        if (unsettled[later].sector == unsettled[at].sector && !unsettled[later].is_back) return 1;
    return 0;
}

/* The power is gone: of each sector that is not settled stands any of what was written, or what stood there before, or parts of two. */
static void lose_unsettled(void) {
    uint64_t one_of = 1 + draw(4);
    for (size_t at = unsettled_count; at-- > 0;)
        if (!is_covered(at) && draw(one_of) == 0) unsettled[at].is_back = put_back(&unsettled[at]);
}

void fill_ask(struct ask *ask) {
    ask->flushes = flushes;
    ask->writes = writes;
    ask->reads = reads;
}

void obey(const struct told *told) {
    switch (told->act) {
    case LOSE_POWER: lose_unsettled(); /* fall through */
    case KILL: _exit(99);
    case END: _exit(0);
    case FAIL_FLUSHES: fail_flushes = told->number; break;
    case FAIL_WRITES: fail_writes = told->number; break;
    case FAIL_READS: fail_reads = told->number; break;
    case SLOW_FLUSHES: slow_flushes = told->number; break;
    }
}

__attribute__((constructor)) static void begin(void) {
    const char *seed = getenv("SEEDED");
    folder = getenv("SEEDED_FOLDER");
    disk = getenv("SEEDED_DISK");
    if (!seed || !folder || !disk) return;
    prctl(PR_SET_PDEATHSIG, SIGKILL);
    unsetenv("LD_PRELOAD");
    begin_points();
    begin_threads(strtoull(seed, 0, 10));
}
