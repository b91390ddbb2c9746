/* Loaded before the C library (LD_PRELOAD): one call of a kind fails, or each read or write moves one byte.

   FAIL_ALLOCATION=N  the N-th call that asks for memory finds none
   FAIL_READ=N        the N-th read fails
   FAIL_WRITE=N       the N-th write fails
   FAIL_ERROR=N       the N-th write on standard error fails, which FAIL_WRITE doesn't count
   SHORT=1            a read or a write of several bytes moves one
   FAULT_MARK=PATH    this file is made where a call was made to fail */
#define _GNU_SOURCE
#include <errno.h>
#include <fcntl.h>
#include <stdlib.h>
#include <sys/syscall.h>
#include <unistd.h>

extern void *__libc_malloc(size_t size);
extern void *__libc_calloc(size_t count, size_t size);
extern void *__libc_realloc(void *old, size_t size);
extern void *__libc_memalign(size_t align, size_t size);

enum kind { ALLOCATION, READ, WRITE, ERROR, KINDS };

static const char *const names[KINDS] = {"FAIL_ALLOCATION", "FAIL_READ", "FAIL_WRITE", "FAIL_ERROR"};
static long wanted[KINDS], made[KINDS];
static int is_short;

__attribute__((constructor)) static void take_settings(void) {
    for (int kind = 0; kind < KINDS; kind++) {
        const char *number = getenv(names[kind]);
        wanted[kind] = number ? atol(number) : 0;
        made[kind] = 0;
    }
    is_short = getenv("SHORT") != NULL;
}

/* Whether this call is the one that fails: only one is, whichever threads make them. */
static int fails(enum kind kind) {
    long number = __atomic_add_fetch(&made[kind], 1, __ATOMIC_SEQ_CST);
    if (wanted[kind] == 0 || number != wanted[kind])
        return 0;
    const char *mark = getenv("FAULT_MARK");
    if (mark)
        syscall(SYS_close, syscall(SYS_open, mark, O_CREAT | O_WRONLY, 0600));
    return 1;
}

static void *no_memory(void) {
    errno = ENOMEM;
    return NULL;
}

void *malloc(size_t size) {
    return fails(ALLOCATION) ? no_memory() : __libc_malloc(size);
}

void *calloc(size_t count, size_t size) {
    return fails(ALLOCATION) ? no_memory() : __libc_calloc(count, size);
}

void *realloc(void *old, size_t size) {
    return fails(ALLOCATION) ? no_memory() : __libc_realloc(old, size);
}

void *memalign(size_t align, size_t size) {
    return fails(ALLOCATION) ? no_memory() : __libc_memalign(align, size);
}

void *aligned_alloc(size_t align, size_t size) {
    return memalign(align, size);
}

int posix_memalign(void **into, size_t align, size_t size) {
    void *made_here = memalign(align, size);
    if (made_here == NULL)
        return ENOMEM;
    *into = made_here;
    return 0;
}

static size_t moved(size_t size) {
    return is_short && size > 1 ? 1 : size;
}

ssize_t read(int file, void *into, size_t size) {
    if (fails(READ)) {
        errno = EIO;
        return -1;
    }
    return syscall(SYS_read, file, into, moved(size));
}

ssize_t write(int file, const void *from, size_t size) {
    if (fails(file == STDERR_FILENO ? ERROR : WRITE)) {
        errno = EIO;
        return -1;
    }
    return syscall(SYS_write, file, from, moved(size));
}
