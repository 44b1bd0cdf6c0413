/* A library to be loaded before all others: of the allocations of a program that of the number CQE_FAIL fails, or with
   CQE_FAIL=N.. each from that one on. They are counted in the first eight bytes of the file that CQE_COUNT names, which
   also holds where the program ends at once. */
#include <errno.h>
#include <fcntl.h>
#include <stdlib.h>
#include <string.h>
#include <sys/mman.h>
#include <unistd.h>

extern void *__libc_malloc(size_t size);
extern void *__libc_calloc(size_t count, size_t size);
extern void *__libc_realloc(void *old, size_t size);

static unsigned long here;
static unsigned long *made = &here;
static unsigned long first, last;

__attribute__((constructor)) static void begin(void) {
    const char *count = getenv("CQE_COUNT"), *fail = getenv("CQE_FAIL");
    int file = count ? open(count, O_RDWR) : -1;
    if (file >= 0) {
        void *shared = mmap(NULL, sizeof *made, PROT_READ | PROT_WRITE, MAP_SHARED, file, 0);
        if (shared != MAP_FAILED) {
            made = shared;
        }
        close(file);
    }
    if (fail) {
        first = strtoul(fail, NULL, 10);
        last = strstr(fail, "..") ? -1UL : first;
    }
}

static int fails(void) {
    unsigned long number = __atomic_add_fetch(made, 1, __ATOMIC_RELAXED);
    if (first && first <= number && number <= last) {
        errno = ENOMEM;
        return 1;
    }
    return 0;
}

void *malloc(size_t size) { return fails() ? NULL : __libc_malloc(size); }

void *calloc(size_t count, size_t size) { return fails() ? NULL : __libc_calloc(count, size); }

void *realloc(void *old, size_t size) { return fails() ? NULL : __libc_realloc(old, size); }
