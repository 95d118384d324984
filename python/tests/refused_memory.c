/* Loaded into a program by LD_PRELOAD: refuses the call for memory of the number that REFUSE tells,
   from 1, and with REFUSE_ON=1 all behind it too. Only calls that the program itself makes count,
   and not those of the C library. How many there were stands in the file COUNT_TO, a number of the
   machine's own form. */
#define _GNU_SOURCE
#include <errno.h>
#include <fcntl.h>
#include <link.h>
#include <stdatomic.h>
#include <stdint.h>
#include <stdlib.h>
#include <sys/mman.h>
#include <unistd.h>

extern void *__libc_malloc(size_t);
extern void *__libc_calloc(size_t, size_t);
extern void *__libc_realloc(void *, size_t);
extern void *__libc_memalign(size_t, size_t);

static uintptr_t first, last;
static atomic_ulong own, *count = &own;
static unsigned long refused;
static int goes_on;

/* The program itself is the first object, and its places are those of its segments. */
static int find(struct dl_phdr_info *info, size_t size, void *data) {
    first = UINTPTR_MAX;
    for (int i = 0; i < info->dlpi_phnum; i++) {
        const ElfW(Phdr) *segment = &info->dlpi_phdr[i];
        uintptr_t begin = info->dlpi_addr + segment->p_vaddr;
        if (segment->p_type != PT_LOAD) continue;
        if (begin < first) first = begin;
        if (begin + segment->p_memsz > last) last = begin + segment->p_memsz;
    }
    return 1;
}

__attribute__((constructor)) static void begin(void) {
    const char *number = getenv("REFUSE"), *on = getenv("REFUSE_ON"), *name = getenv("COUNT_TO");
    int file = name ? open(name, O_RDWR | O_CREAT | O_TRUNC, 0600) : -1;
    refused = number ? strtoul(number, NULL, 10) : 0;
    goes_on = on && *on == '1';
    if (file >= 0 && ftruncate(file, sizeof own) == 0) {
        void *place = mmap(NULL, sizeof own, PROT_READ | PROT_WRITE, MAP_SHARED, file, 0);
        if (place != MAP_FAILED) count = place;
    }
    if (file >= 0) close(file);
    dl_iterate_phdr(find, NULL);
}

static int is_refused(void *caller) {
    if ((uintptr_t)caller < first || (uintptr_t)caller >= last) return 0;
    unsigned long number = atomic_fetch_add(count, 1) + 1;
    if (refused == 0 || number < refused || (number > refused && !goes_on)) return 0;
    errno = ENOMEM;
    return 1;
}

#define REFUSED is_refused(__builtin_return_address(0))

void *malloc(size_t size) { return REFUSED ? NULL : __libc_malloc(size); }

void *calloc(size_t number, size_t size) { return REFUSED ? NULL : __libc_calloc(number, size); }

void *realloc(void *old, size_t size) { return REFUSED ? NULL : __libc_realloc(old, size); }

void *aligned_alloc(size_t align, size_t size) {
    return REFUSED ? NULL : __libc_memalign(align, size);
}

void *memalign(size_t align, size_t size) { return REFUSED ? NULL : __libc_memalign(align, size); }

int posix_memalign(void **place, size_t align, size_t size) {
    if (REFUSED) return ENOMEM;
    void *got = __libc_memalign(align, size);
    if (!got) return ENOMEM;
    *place = got;
    return 0;
}
