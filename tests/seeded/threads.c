/* Who runs: the program's threads, one at a time, and the time that is made up for them. */
#define _GNU_SOURCE
#include "seeded.h"
#include <dlfcn.h>
#include <errno.h>
#include <linux/futex.h>
#include <poll.h>
#include <pthread.h>
#include <stdarg.h>
#include <stdlib.h>
#include <string.h>
#include <sys/epoll.h>
#include <sys/mman.h>
#include <sys/syscall.h>
#include <time.h>
#include <unistd.h>

#define MOST_LANES 64
#define STACK (8 << 20)

static struct lane lanes[MOST_LANES];
static int lane_count;
struct lane *running;
static __thread struct lane *mine;
uint64_t now;
uint64_t steps;
int64_t clock_ahead;
int is_seeded;
int has_said;
static uint64_t state, world_next, switches, slowness, most_steps;
static int world;
/* Threads are woven into one of the system's: that is faster by far, but not for a program whose library counts them. */
static int is_woven;

long raw(long number, long a, long b, long c, long d, long e, long f) {
    long told;
    register long r10 __asm__("r10") = d;
    register long r8 __asm__("r8") = e;
    register long r9 __asm__("r9") = f;
    __asm__ volatile("syscall" : "=a"(told) : "a"(number), "D"(a), "S"(b), "d"(c), "r"(r10), "r"(r8), "r"(r9) : "rcx", "r11", "memory");
    return told;
}

/* The next number of the seed, below a bound (splitmix64). */
uint64_t draw(uint64_t below) {
    uint64_t z = state += 0x9E3779B97F4A7C15ULL;
    z = (z ^ (z >> 30)) * 0xBF58476D1CE4E5B9ULL;
    z = (z ^ (z >> 27)) * 0x94D049BB133111EBULL;
    return (z ^ (z >> 31)) % below;
}

/* The world's turn: it is told how things are, and says what it did. */
static void ask_world(enum reason reason) {
    struct ask ask = {.now = now, .reason = reason, .steps = steps};
    struct told told;
    fill_ask(&ask);
    has_said = 0;
    if (raw(SYS_write, world, (long)&ask, sizeof ask, 0, 0, 0) != sizeof ask) _exit(78);
    if (raw(SYS_read, world, (long)&told, sizeof told, 0, 0, 0) != sizeof told) _exit(78);
    world_next = told.next;
    clock_ahead += told.step;
    obey(&told);
}

static int is_ready(int file) {
    struct pollfd one = {.fd = file, .events = POLLIN};
    return raw(SYS_poll, (long)&one, 1, 0, 0, 0, 0) > 0;
}

static int can_go_on(const struct lane *lane) {
    switch (lane->why) {
    case READY: return 1;
    case ON_WORD: return lane->woken || lane->until <= now;
    case ON_TIME: return lane->until <= now;
    case ON_FILE: return lane->until <= now || is_ready(lane->file);
    case ON_LANE: return lane->other->why == ENDED;
    default: return 0;
    }
}

/* One of those that can go on, by their weights; none where nobody can. */
static struct lane *choose(void) {
    struct lane *found[MOST_LANES];
    uint64_t count = 0, sum = 0;
    for (int i = 0; i < lane_count; i++)
        if (can_go_on(&lanes[i])) {
            found[count++] = &lanes[i];
            sum += lanes[i].weight;
        }
    if (count == 0) return 0;
    uint64_t at = draw(sum), i = 0;
    while (at >= found[i]->weight) at -= found[i++]->weight;
    return found[i];
}

/* Each thread is fast or slow for a while. */
static void weigh(void) {
    static const uint32_t weights[] = {1, 8, 8, 64};
    for (int i = 0; i < lane_count; i++) lanes[i].weight = weights[draw(4)];
}

static uint64_t next_moment(void) {
    uint64_t next = world_next;
    for (int i = 0; i < lane_count; i++)
        if (lanes[i].why != READY && lanes[i].why != ENDED && lanes[i].until < next) next = lanes[i].until;
    return next;
}

/* Who runs next. Where nobody can, the world has its turn, or time goes on. */
static struct lane *next_lane(void) {
    for (;;) {
        if (++steps >= most_steps) world_next = 0;
        if (draw(64) == 0) weigh();
        now += draw(2 * MICROS) + 1;
        if (slowness && draw(slowness) == 0) now += draw(5 * MILLIS);
        struct lane *found = choose();
        if (found && draw(has_said ? 8 : 64) != 0 && steps < most_steps) return found;
        if (found || has_said || world_next <= now) {
            ask_world(IN_BETWEEN);
            continue;
        }
        uint64_t next = next_moment();
        if (next == NEVER) ask_world(NOTHING_GOES_ON);
        else if (next > now) now = next;
    }
}

static void sleep_until_turn(struct lane *lane) {
    while (__atomic_load_n(&lane->turn, __ATOMIC_SEQ_CST) == 0)
        raw(SYS_futex, (long)&lane->turn, FUTEX_WAIT_PRIVATE, 0, 0, 0, 0);
}

/* Another thread has its turn, and this one waits until it has one again, unless it has ended. */
static void switch_to(struct lane *from, struct lane *to) {
    int kept = errno;
    running = to;
    if (is_woven) {
        mine = to;
        swapcontext(from->at, to->at);
    } else {
        from->turn = 0;
        __atomic_store_n(&to->turn, 1, __ATOMIC_SEQ_CST);
        raw(SYS_futex, (long)&to->turn, FUTEX_WAKE_PRIVATE, 1, 0, 0, 0);
        if (from->why != ENDED) sleep_until_turn(from);
    }
    errno = kept;
}

/* The thread waits, and goes on once it can and the seed takes it. */
void wait_here(enum why why, uint64_t until) {
    struct lane *lane = mine;
    lane->why = why;
    lane->until = until;
    struct lane *next = next_lane();
    if (next != lane) switch_to(lane, next);
    if (why == ENDED) return;
    lane->why = READY;
    lane->until = NEVER;
}

void pause_for(uint64_t time) {
    if (mine) wait_here(ON_TIME, now + time);
}

/* Where another thread may go on. */
void point(void) {
    if (mine && draw(switches) == 0) wait_here(READY, NEVER);
}

static struct lane *new_lane(void) {
    if (lane_count == MOST_LANES) abort();
    struct lane *lane = &lanes[lane_count++];
    *lane = (struct lane){.why = READY, .until = NEVER, .weight = 8};
    return lane;
}

void begin_threads(uint64_t seed) {
    static const uint64_t often[] = {2, 4, 16, 64, 256}, slow[] = {0, 0, 2000, 300, 50};
    state = seed;
    switches = often[draw(5)];
    slowness = slow[draw(5)];
    world = atoi(getenv("SEEDED_WORLD"));
    now = strtoull(getenv("SEEDED_START"), 0, 10);
    clock_ahead = strtoll(getenv("SEEDED_AHEAD"), 0, 10);
    most_steps = strtoull(getenv("SEEDED_STEPS"), 0, 10);
    mine = running = new_lane();
    running->turn = 1;
    running->id = pthread_self();
    is_woven = atoi(getenv("SEEDED_WOVEN"));
    running->at = calloc(1, sizeof *running->at);
    is_seeded = 1;
}

/* A thread of the system's, which runs one of the program's. */
static void *run_lane(void *given) {
    struct lane *lane = given;
    sleep_until_turn(lane);
    mine = lane;
    lane->told = lane->run(lane->with);
    wait_here(ENDED, NEVER);
    mine = 0;
    return lane->told;
}

static void run_woven(void) {
    running->told = running->run(running->with);
    wait_here(ENDED, NEVER);
    abort();
}

/* Makes a thread of the program's on a stack of its own, without one of the system's. */
static void weave(struct lane *lane) {
    void *stack = mmap(0, STACK, PROT_READ | PROT_WRITE, MAP_PRIVATE | MAP_ANONYMOUS | MAP_NORESERVE, -1, 0);
    lane->at = calloc(1, sizeof *lane->at);
    if (stack == MAP_FAILED || !lane->at || getcontext(lane->at) != 0) abort();
    lane->at->uc_stack.ss_sp = stack;
    lane->at->uc_stack.ss_size = STACK;
    makecontext(lane->at, run_woven, 0);
    lane->id = (unsigned long)lane;
}

int pthread_create(pthread_t *thread, const pthread_attr_t *attributes, void *(*run)(void *), void *with) {
    static int (*next)(pthread_t *, const pthread_attr_t *, void *(*)(void *), void *);
    if (!next) next = dlsym(RTLD_NEXT, "pthread_create");
    if (!mine) return next(thread, attributes, run, with);
    struct lane *lane = new_lane();
    lane->run = run;
    lane->with = with;
    if (is_woven) {
        weave(lane);
        *thread = lane->id;
        return 0;
    }
    if (next(thread, attributes, run_lane, lane) != 0) abort();
    lane->id = *thread;
    return 0;
}

static struct lane *lane_of(pthread_t thread) {
    for (int i = 0; mine && i < lane_count; i++)
        if (lanes[i].id == thread) return &lanes[i];
    return 0;
}

int pthread_join(pthread_t thread, void **told) {
    static int (*next)(pthread_t, void **);
    if (!next) next = dlsym(RTLD_NEXT, "pthread_join");
    struct lane *lane = lane_of(thread);
    if (lane) {
        mine->other = lane;
        wait_here(ON_LANE, NEVER);
        lane->id = 0;
    }
    if (!lane || !is_woven) return next(thread, told);
    if (told) *told = lane->told;
    return 0;
}

int pthread_detach(pthread_t thread) {
    static int (*next)(pthread_t);
    if (!next) next = dlsym(RTLD_NEXT, "pthread_detach");
    return is_woven && lane_of(thread) ? 0 : next(thread);
}

/* Sleeps at a word, until it is woken or a time is over. */
static long wait_at(const uint32_t *word, uint32_t seen, int is_until, int is_real, const struct timespec *time) {
    uint64_t until = NEVER;
    if (time && time->tv_sec < 1000000000000) {
        until = (uint64_t)time->tv_sec * SECONDS + (uint64_t)time->tv_nsec;
        if (!is_until) until += now;
        else if (is_real) abort();
    }
    point();
    if (*(const volatile uint32_t *)word != seen) {
        errno = EAGAIN;
        return -1;
    }
    mine->word = word;
    mine->woken = 0;
    wait_here(ON_WORD, until);
    if (mine->woken) return 0;
    errno = ETIMEDOUT;
    return -1;
}

/* Wakes so many that sleep at a word, in the seed's order. */
static long wake_at(const uint32_t *word, long most) {
    long count = 0;
    while (count < most) {
        struct lane *found = 0;
        uint64_t seen = 0;
        for (int i = 0; i < lane_count; i++)
            if (lanes[i].why == ON_WORD && lanes[i].word == word && !lanes[i].woken && draw(++seen) == 0) found = &lanes[i];
        if (!found) break;
        found->woken = 1;
        count++;
    }
    point();
    return count;
}

long syscall(long number, ...) {
    long with[6];
    va_list rest;
    va_start(rest, number);
    for (int i = 0; i < 6; i++) with[i] = va_arg(rest, long);
    va_end(rest);
    if (mine && number == SYS_futex) {
        int what = with[1] & FUTEX_CMD_MASK;
        const struct timespec *time = (const struct timespec *)with[3];
        if (what == FUTEX_WAIT || what == FUTEX_WAIT_BITSET)
            return wait_at((uint32_t *)with[0], with[2], what == FUTEX_WAIT_BITSET, with[1] & FUTEX_CLOCK_REALTIME, time);
        if (what == FUTEX_WAKE || what == FUTEX_WAKE_BITSET) return wake_at((uint32_t *)with[0], with[2]);
    }
    long told = raw(number, with[0], with[1], with[2], with[3], with[4], with[5]);
    if (told >= 0 || told < -4095) return told;
    errno = (int)-told;
    return -1;
}

int sched_yield(void) {
    pause_for(draw(20 * MICROS));
    return 0;
}

int nanosleep(const struct timespec *time, struct timespec *left) {
    if (!mine) return (int)syscall(SYS_nanosleep, time, left);
    pause_for((uint64_t)time->tv_sec * SECONDS + (uint64_t)time->tv_nsec);
    return 0;
}

int epoll_wait(int file, struct epoll_event *events, int most, int millis) {
    if (mine && millis != 0) {
        mine->file = file;
        wait_here(ON_FILE, millis < 0 ? NEVER : now + (uint64_t)millis * MILLIS);
    }
    point();
    return (int)syscall(SYS_epoll_wait, file, events, most, 0);
}

int clock_gettime(clockid_t clock, struct timespec *told) {
    if (!mine || (clock != CLOCK_MONOTONIC && clock != CLOCK_REALTIME && clock != CLOCK_BOOTTIME))
        return (int)syscall(SYS_clock_gettime, clock, told);
    now += draw(MICROS);
    int64_t shown = clock == CLOCK_REALTIME ? (int64_t)now + clock_ahead * (int64_t)MILLIS : (int64_t)now;
    told->tv_sec = shown / (int64_t)SECONDS;
    told->tv_nsec = shown % (int64_t)SECONDS;
    return 0;
}
