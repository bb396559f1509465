/* A machine that follows one seed, for the program that it is preloaded into. One of its threads runs at a time; wherever one waits,
 * makes a call of the system or steps a word that others see, the seed says who goes on. Its clock is made up and goes on by itself
 * only where nobody can. What is outside, clients and faults of the disk, is the world, a process that takes its turns too. */
#ifndef SEEDED_H
#define SEEDED_H

#include <stddef.h>
#include <stdint.h>
#include <ucontext.h>

#define NEVER UINT64_MAX
#define MICROS 1000ULL
#define MILLIS 1000000ULL
#define SECONDS 1000000000ULL

/* What a thread waits for, if for anything. */
enum why { READY, ON_WORD, ON_TIME, ON_FILE, ON_LANE, ENDED };

/* A thread of the program. */
struct lane {
    enum why why;
    uint64_t until;         /* it goes on then in any case, unless NEVER */
    const uint32_t *word;   /* ON_WORD: what it sleeps at */
    int woken;              /* ON_WORD: somebody woke it */
    int file;               /* ON_FILE: what has to be ready */
    struct lane *other;     /* ON_LANE: who has to end */
    uint32_t weight;        /* how often it is taken, beside others */
    uint32_t turn;          /* 1 while it runs */
    unsigned long id;       /* the thread's, until it was joined */
    ucontext_t *at;         /* where it goes on, if threads are woven */
    void *(*run)(void *);
    void *with, *told;      /* what it is given, and tells at its end */
};

/* Why the world has a turn. */
enum reason { IN_BETWEEN, NOTHING_GOES_ON };

/* What the world is told at its turn, and what it says: in the order of `ASK` and `TOLD` in machine.py. */
struct ask {
    uint64_t now, reason, steps, flushes, writes, reads;
};

struct told {
    uint64_t next;   /* it wants a turn then */
    int64_t step;    /* the system's clock is set so many milliseconds ahead */
    uint64_t act;    /* one of these */
    uint64_t number; /* how often a call fails, or for how long each flush takes beside its own time */
};

enum act { NOTHING, KILL, LOSE_POWER, FAIL_FLUSHES, FAIL_WRITES, FAIL_READS, SLOW_FLUSHES, END };

/* threads.c */
extern struct lane *running;
extern uint64_t now;
extern uint64_t steps;
extern int64_t clock_ahead;
extern int is_seeded;
extern int has_said;
long raw(long number, long a, long b, long c, long d, long e, long f);
uint64_t draw(uint64_t below);
void wait_here(enum why why, uint64_t until);
void pause_for(uint64_t time);
void point(void);
void begin_threads(uint64_t seed);

/* calls.c */
void fill_ask(struct ask *ask);
void obey(const struct told *told);

/* points.c */
void begin_points(void);

#endif
