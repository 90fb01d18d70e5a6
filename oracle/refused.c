// Refuses one growth of memory: the one of the number REFUSE among the calls of malloc and realloc that the
// program makes itself; those that the C library makes, as for a thread, are left alone. What was called in
// all stands in the file COUNTED behind the run.
#define _GNU_SOURCE
#include <dlfcn.h>
#include <errno.h>
#include <stdatomic.h>
#include <stdio.h>
#include <stdlib.h>
#include <sys/auxv.h>
#include <sys/syscall.h>
#include <unistd.h>

static atomic_long calls;
static long refused;
static void *program;
static void *(*real_malloc)(size_t);
static void *(*real_realloc)(void *, size_t);

__attribute__((constructor)) static void begin(void) {
    real_malloc = (void *(*)(size_t))dlsym(RTLD_NEXT, "malloc");
    real_realloc = (void *(*)(void *, size_t))dlsym(RTLD_NEXT, "realloc");
    Dl_info entry;
    program = dladdr((void *)getauxval(AT_ENTRY), &entry) ? entry.dli_fbase : NULL;
    const char *number = getenv("REFUSE");
    refused = number ? atol(number) : 0;
    calls = 0;
}

static void write_count(void) {
    const char *name = getenv("COUNTED");
    FILE *file = name ? fopen(name, "w") : NULL;
    if (file) {
        fprintf(file, "%ld\n", (long)calls);
        fclose(file);
    }
}

// The program ends by this call.
void _exit(int status) {
    write_count();
    syscall(SYS_exit_group, status);
    __builtin_unreachable();
}

static int is_refused(void *caller) {
    Dl_info place;
    if (!dladdr(caller, &place) || place.dli_fbase != program) return 0;
    if (atomic_fetch_add(&calls, 1) + 1 != refused) return 0;
    errno = ENOMEM;
    return 1;
}

void *malloc(size_t size) {
    if (!real_malloc) begin();
    return is_refused(__builtin_return_address(0)) ? NULL : real_malloc(size);
}

void *realloc(void *old, size_t size) {
    if (!real_realloc) begin();
    return is_refused(__builtin_return_address(0)) ? NULL : real_realloc(old, size);
}
