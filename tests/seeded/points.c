/* Each step of the program on a word that other threads see is a point: another may go on before it. SEEDED_POINTS names them, as
 * offsets and lengths of instructions of the program's file, found by `machine.py`. In the place of each comes a jump to a stub that
 * calls `point`, makes the step and goes back. */
#define _GNU_SOURCE
#include "seeded.h"
#include <stdio.h>
#include <stdlib.h>
#include <string.h>
#include <sys/auxv.h>
#include <sys/mman.h>
#include <link.h>

#define STUB 48
#define JUMP 5

void seeded_enter(void);

/* Calls `point` with all that the program may have in registers kept. */
__asm__(".globl seeded_enter\n.hidden seeded_enter\nseeded_enter:\n"
        "pushfq\npush %rax\npush %rcx\npush %rdx\npush %rsi\npush %rdi\npush %r8\npush %r9\npush %r10\npush %r11\npush %rbp\n"
        "mov %rsp,%rbp\nsub $512,%rsp\nand $-64,%rsp\nfxsave64 (%rsp)\ncld\ncall point\nfxrstor64 (%rsp)\nmov %rbp,%rsp\n"
        "pop %rbp\npop %r11\npop %r10\npop %r9\npop %r8\npop %rdi\npop %rsi\npop %rdx\npop %rcx\npop %rax\npopfq\nret\n");

static uintptr_t base;

static int find_base(struct dl_phdr_info *info, size_t size, void *with) {
    (void)size;
    (void)with;
    base = info->dlpi_addr;
    return 1;
}

static uint8_t *put(uint8_t *at, const void *bytes, size_t count) {
    memcpy(at, bytes, count);
    return at + count;
}

static uint8_t *put_jump(uint8_t *at, const uint8_t *to) {
    int32_t by = (int32_t)(to - (at + JUMP));
    *at++ = 0xE9;
    return put(at, &by, sizeof by);
}

/* Leaves the red zone alone, calls `seeded_enter`, makes the step, and goes back behind it. */
static void put_stub(uint8_t *stub, uint8_t *step, size_t length) {
    static const uint8_t down[] = {0x48, 0x8D, 0x64, 0x24, 0x80}, up[] = {0x48, 0x8D, 0xA4, 0x24, 0x80, 0, 0, 0};
    static const uint8_t call[] = {0xFF, 0x15, 2, 0, 0, 0, 0xEB, 8};
    void (*enter)(void) = seeded_enter;
    uint8_t *at = put(stub, down, sizeof down);
    at = put(at, call, sizeof call);
    at = put(at, &enter, sizeof enter);
    at = put(at, up, sizeof up);
    at = put(at, step, length);
    put_jump(at, step + length);
}

/* Room for stubs that a jump of the program reaches. */
static uint8_t *room_near(uintptr_t place, size_t size) {
    for (uintptr_t below = 1 << 26; below < 1U << 30; below += 1 << 24) {
        void *at = (void *)((place - below) & ~(uintptr_t)4095);
        void *made = mmap(at, size, PROT_READ | PROT_WRITE | PROT_EXEC, MAP_PRIVATE | MAP_ANONYMOUS | MAP_FIXED_NOREPLACE, -1, 0);
        if (made == at) return made;
        if (made != MAP_FAILED) munmap(made, size);
    }
    abort();
}

static void make_point(uintptr_t place, size_t length, uint8_t *stub) {
    uint8_t *step = (uint8_t *)place;
    uintptr_t page = place & ~(uintptr_t)4095;
    if (mprotect((void *)page, 8192, PROT_READ | PROT_WRITE | PROT_EXEC) != 0) abort();
    put_stub(stub, step, length);
    memset(put_jump(step, stub), 0x90, length - JUMP);
}

void begin_points(void) {
    const char *name = getenv("SEEDED_POINTS");
    FILE *file = name ? fopen(name, "r") : 0;
    if (!file) return;
    size_t count, length;
    unsigned long offset;
    dl_iterate_phdr(find_base, 0);
    if (fscanf(file, "%zu", &count) != 1) abort();
    uint8_t *stubs = count ? room_near(base, (count * STUB + 4095) & ~4095UL) : 0;
    for (size_t i = 0; i < count; i++) {
        if (fscanf(file, "%lx %zu", &offset, &length) != 2) abort();
        make_point(base + offset, length, stubs + i * STUB);
    }
    fclose(file);
}
