/* Counts how often a program asks for memory, and refuses some of it. `tools/refuse` builds it and has it loaded before
   the C library, whose functions it then calls.

   The variable MCS_REFUSING names a file of three numbers of 64 bits: how often memory was asked for so far, which is
   counted here; and the first and the last time that it is refused. */
#include <errno.h>
#include <fcntl.h>
#include <stdint.h>
#include <stdlib.h>
#include <sys/mman.h>
#include <unistd.h>

extern void *__libc_malloc(size_t size);
extern void *__libc_calloc(size_t count, size_t size);
extern void *__libc_realloc(void *block, size_t size);
extern void *__libc_memalign(size_t alignment, size_t size);

static uint64_t *told;

__attribute__((constructor)) static void begin(void) {
    const char *path = getenv("MCS_REFUSING");
    int file = path ? open(path, O_RDWR) : -1;
    if (file < 0)
        return;
    void *page = mmap(0, 3 * sizeof *told, PROT_READ | PROT_WRITE, MAP_SHARED, file, 0);
    if (page != MAP_FAILED)
        told = page;
    close(file);
}

static int is_refused(void) {
    if (!told)
        return 0;
    uint64_t call = __atomic_add_fetch(&told[0], 1, __ATOMIC_SEQ_CST);
    if (call < told[1] || call > told[2])
        return 0;
    errno = ENOMEM;
    return 1;
}

void *malloc(size_t size) { return is_refused() ? 0 : __libc_malloc(size); }

void *calloc(size_t count, size_t size) { return is_refused() ? 0 : __libc_calloc(count, size); }

void *realloc(void *block, size_t size) { return is_refused() ? 0 : __libc_realloc(block, size); }

void *aligned_alloc(size_t alignment, size_t size) { return is_refused() ? 0 : __libc_memalign(alignment, size); }

void *memalign(size_t alignment, size_t size) { return is_refused() ? 0 : __libc_memalign(alignment, size); }

int posix_memalign(void **block, size_t alignment, size_t size) {
    void *made = is_refused() ? 0 : __libc_memalign(alignment, size);
    if (!made)
        return ENOMEM;
    *block = made;
    return 0;
}
