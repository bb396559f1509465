/* Makes each flush of a program take longer by SLOW_US microseconds: build it with -shared -fPIC, and name it in LD_PRELOAD. */
#include <stdlib.h>
#include <sys/syscall.h>
#include <time.h>
#include <unistd.h>

static void wait_longer(void) {
    const char *word = getenv("SLOW_US");
    long micros = word ? atol(word) : 0;
    struct timespec time = {micros / 1000000, micros % 1000000 * 1000};
    nanosleep(&time, 0);
}

int fsync(int file) {
    int status = (int)syscall(SYS_fsync, file);
    wait_longer();
    return status;
}

int fdatasync(int file) {
    int status = (int)syscall(SYS_fdatasync, file);
    wait_longer();
    return status;
}
