/* Makes chosen allocations of a program fail. LD_PRELOAD loads it before the program; it replaces malloc and realloc of the GNU C library.
 *
 * The environment variable REFUSED names a file of four 64-bit numbers, which is mapped: the first allocation that fails, counted from 1, and the last one; then
 * the number of allocations so far, and of those that failed. Only allocations by the program's own code count, not those by the C library. */
#define _GNU_SOURCE
#include <errno.h>
#include <fcntl.h>
#include <link.h>
#include <stddef.h>
#include <stdint.h>
#include <stdlib.h>
#include <sys/mman.h>
#include <unistd.h>

extern void *__libc_malloc(size_t size);
extern void *__libc_realloc(void *block, size_t size);

struct counts {
    uint64_t first, last, made, refused;
};

static struct counts *counts;
static uintptr_t program_start, program_end;

/* The first object of the list is the program. */
static int find_program(struct dl_phdr_info *info, size_t size, void *data) {
    (void)size, (void)data;
    program_start = UINTPTR_MAX;
    for (int at = 0; at < info->dlpi_phnum; at++) {
        const ElfW(Phdr) *part = &info->dlpi_phdr[at];
        uintptr_t start = info->dlpi_addr + part->p_vaddr;
        if (part->p_type != PT_LOAD)
            continue;
        if (start < program_start)
            program_start = start;
        if (start + part->p_memsz > program_end)
            program_end = start + part->p_memsz;
    }
    return 1;
}

__attribute__((constructor)) static void begin(void) {
    const char *name = getenv("REFUSED");
    int file = name ? open(name, O_RDWR | O_CLOEXEC) : -1;
    if (file < 0)
        _exit(99);
    void *shared = mmap(NULL, sizeof *counts, PROT_READ | PROT_WRITE, MAP_SHARED, file, 0);
    if (shared == MAP_FAILED)
        _exit(99);
    close(file);
    dl_iterate_phdr(find_program, NULL);
    counts = shared;
}

static int is_refused(void *caller) {
    if (!counts || (uintptr_t)caller < program_start || (uintptr_t)caller >= program_end)
        return 0;
    uint64_t number = __atomic_add_fetch(&counts->made, 1, __ATOMIC_SEQ_CST);
    if (number < counts->first || number > counts->last)
        return 0;
    __atomic_add_fetch(&counts->refused, 1, __ATOMIC_SEQ_CST);
    errno = ENOMEM;
    return 1;
}

void *malloc(size_t size) {
    return is_refused(__builtin_return_address(0)) ? NULL : __libc_malloc(size);
}

void *realloc(void *block, size_t size) {
    return is_refused(__builtin_return_address(0)) ? NULL : __libc_realloc(block, size);
}
