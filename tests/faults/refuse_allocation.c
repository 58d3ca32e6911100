// Preloaded into the proved program by refused_memory.sh: allocation REFUSE of the program itself is refused, or each
// from REFUSE on with REFUSE_ALL. The C library's own allocations are let through and not counted.
// With TELL the number of the program's allocations is written to standard error.
#define _GNU_SOURCE
#include <dlfcn.h>
#include <errno.h>
#include <stdio.h>
#include <stdlib.h>
#include <sys/auxv.h>
#include <unistd.h>

extern void *__libc_malloc(size_t size);
extern void *__libc_realloc(void *block, size_t size);

static long count, refused = -1;

// Whether the caller stands in the program itself, whose headers are where the kernel says. Where it lies and what it is called decides nothing.
static int is_of_program(void *caller) {
    Dl_info info, program;
    return dladdr(caller, &info) && dladdr((void *)getauxval(AT_PHDR), &program) && info.dli_fbase == program.dli_fbase;
}

static int is_refused(void *caller) {
    if (!is_of_program(caller)) return 0;
    if (refused < 0) refused = getenv("REFUSE") ? atol(getenv("REFUSE")) : 0;
    long now = __atomic_add_fetch(&count, 1, __ATOMIC_RELAXED);
    return now == refused || (refused > 0 && now > refused && getenv("REFUSE_ALL"));
}

void *malloc(size_t size) {
    if (!is_refused(__builtin_return_address(0))) return __libc_malloc(size);
    errno = ENOMEM;
    return NULL;
}

void *realloc(void *block, size_t size) {
    if (!is_refused(__builtin_return_address(0))) return __libc_realloc(block, size);
    errno = ENOMEM;
    return NULL;
}

__attribute__((destructor)) static void tell(void) {
    char text[64];
    if (!getenv("TELL")) return;
    int length = snprintf(text, sizeof text, "%ld\n", count);
    if (write(2, text, length) < 0) return;
}

// A program that ends by _exit runs no destructor.
__attribute__((noreturn)) void _exit(int status) {
    tell();
    ((void (*)(int))dlsym(RTLD_NEXT, "_exit"))(status);
    __builtin_unreachable();
}
