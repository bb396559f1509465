/* Refuses one request for memory of the program that it is preloaded into. The file REFUSE_SHARE, which is in the memory of both
 * sides, has two words: which request is to be refused, from 1 on, and how many there were. Only the program's own requests
 * count, not those of the libraries. */
#define _GNU_SOURCE
#include <dlfcn.h>
#include <errno.h>
#include <fcntl.h>
#include <link.h>
#include <stdint.h>
#include <stdlib.h>
#include <sys/mman.h>
#include <unistd.h>

struct share {
    volatile uint64_t refused, asked;
};

static struct share *share;
static uintptr_t first, last;

/* The first object is the program. */
static int note_program(struct dl_phdr_info *info, size_t size, void *data) {
    (void)size;
    (void)data;
    for (int n = 0; n < info->dlpi_phnum; n++) {
        const ElfW(Phdr) *part = &info->dlpi_phdr[n];
        if (part->p_type != PT_LOAD || !(part->p_flags & PF_X)) continue;
        uintptr_t begins = info->dlpi_addr + part->p_vaddr, ends = begins + part->p_memsz;
        if (!first || begins < first) first = begins;
        if (ends > last) last = ends;
    }
    return 1;
}

__attribute__((constructor)) static void begin(void) {
    const char *name = getenv("REFUSE_SHARE");
    int file = name ? open(name, O_RDWR | O_CLOEXEC) : -1;
    if (file < 0) return;
    void *found = mmap(0, sizeof *share, PROT_READ | PROT_WRITE, MAP_SHARED, file, 0);
    close(file);
    dl_iterate_phdr(note_program, 0);
    if (found != MAP_FAILED) share = found;
}

static int is_refused(void *caller) {
    uintptr_t from = (uintptr_t)caller;
    if (!share || from < first || from >= last) return 0;
    if (__sync_add_and_fetch(&share->asked, 1) != share->refused) return 0;
    errno = ENOMEM;
    return 1;
}

void *malloc(size_t size) {
    static void *(*next)(size_t);
    if (!next) next = dlsym(RTLD_NEXT, "malloc");
    return is_refused(__builtin_return_address(0)) ? 0 : next(size);
}

void *realloc(void *old, size_t size) {
    static void *(*next)(void *, size_t);
    if (!next) next = dlsym(RTLD_NEXT, "realloc");
    return is_refused(__builtin_return_address(0)) ? 0 : next(old, size);
}

int posix_memalign(void **made, size_t align, size_t size) {
    static int (*next)(void **, size_t, size_t);
    if (!next) next = dlsym(RTLD_NEXT, "posix_memalign");
    return is_refused(__builtin_return_address(0)) ? ENOMEM : next(made, align, size);
}

void *aligned_alloc(size_t align, size_t size) {
    static void *(*next)(size_t, size_t);
    if (!next) next = dlsym(RTLD_NEXT, "aligned_alloc");
    return is_refused(__builtin_return_address(0)) ? 0 : next(align, size);
}
