// Makes one allocation, read or write of a program fail: the one whose number, from 1, stands in FAIL_ALLOC, FAIL_READ or FAIL_WRITE.
// Counts them, and writes the three counts to the file that COUNTS names when the program ends. For LD_PRELOAD; see failures.py.
#define _GNU_SOURCE
#include <errno.h>
#include <stddef.h>
#include <stdio.h>
#include <stdlib.h>
#include <sys/syscall.h>
#include <unistd.h>

extern void *__libc_malloc(size_t);
extern void *__libc_calloc(size_t, size_t);
extern void *__libc_realloc(void *, size_t);
extern void *__libc_memalign(size_t, size_t);

static long allocations, reads, writes;

static int is_due(const char *name, long *count)
{
    const char *wanted = getenv(name);
    long number = __atomic_add_fetch(count, 1, __ATOMIC_SEQ_CST);
    return wanted && atol(wanted) == number;
}

void *malloc(size_t n) { return is_due("FAIL_ALLOC", &allocations) ? (errno = ENOMEM, NULL) : __libc_malloc(n); }

void *calloc(size_t n, size_t m) { return is_due("FAIL_ALLOC", &allocations) ? (errno = ENOMEM, NULL) : __libc_calloc(n, m); }

void *realloc(void *p, size_t n) { return is_due("FAIL_ALLOC", &allocations) ? (errno = ENOMEM, NULL) : __libc_realloc(p, n); }

void *aligned_alloc(size_t a, size_t n) { return is_due("FAIL_ALLOC", &allocations) ? (errno = ENOMEM, NULL) : __libc_memalign(a, n); }

int posix_memalign(void **p, size_t a, size_t n)
{
    if (is_due("FAIL_ALLOC", &allocations))
        return ENOMEM;
    *p = __libc_memalign(a, n);
    return *p ? 0 : ENOMEM;
}

ssize_t read(int f, void *p, size_t n)
{
    if (f == 0 && is_due("FAIL_READ", &reads)) {
        errno = EIO;
        return -1;
    }
    return syscall(SYS_read, f, p, n);
}

ssize_t write(int f, const void *p, size_t n)
{
    if (f == 1 && is_due("FAIL_WRITE", &writes)) {
        errno = EIO;
        return -1;
    }
    return syscall(SYS_write, f, p, n);
}

__attribute__((destructor)) static void tell(void)
{
    const char *name = getenv("COUNTS");
    long seen[3] = {allocations, reads, writes};
    FILE *file = name ? fopen(name, "w") : NULL;
    if (file) {
        fprintf(file, "%ld %ld %ld\n", seen[0], seen[1], seen[2]);
        fclose(file);
    }
}

// A program that may start threads ends by this call, which runs no destructors.
void _exit(int status)
{
    tell();
    syscall(SYS_exit_group, status);
    __builtin_unreachable();
}
