// Refuses one allocation of the program that this library is loaded into by LD_PRELOAD.
//
// REFUSE_AT is the number of the allocation, from 1; with 0 none is refused. A byte goes to the file descriptor
// REFUSE_REPORT when one is refused. An allocation is a call of malloc or realloc in the program's own code: its allocator
// calls them once for each block, each growth and each shrinking. Calls in the C library and the loader are neither
// counted nor refused.

#define _GNU_SOURCE
#include <dlfcn.h>
#include <stdlib.h>
#include <sys/auxv.h>
#include <unistd.h>

void *__libc_malloc(size_t size);
void *__libc_realloc(void *block, size_t size);

static void *program;
static unsigned long refused, allocations;
static int descriptor = -1;

// Returns the start of the program or the library that has an address in its code.
static void *object_of(void *address) {
    Dl_info found;
    return dladdr(address, &found) ? found.dli_fbase : NULL;
}

__attribute__((constructor)) static void begin(void) {
    const char *at = getenv("REFUSE_AT"), *report = getenv("REFUSE_REPORT");
    refused = at ? strtoul(at, NULL, 10) : 0;
    descriptor = report ? atoi(report) : -1;
    program = object_of((void *)getauxval(AT_ENTRY));
}

static int is_refused(void *caller) {
    if (!program || object_of(caller) != program) return 0;
    if (__atomic_add_fetch(&allocations, 1, __ATOMIC_RELAXED) != refused) return 0;
    if (descriptor >= 0 && write(descriptor, "r", 1) != 1) abort();
    return 1;
}

void *malloc(size_t size) {
    return is_refused(__builtin_return_address(0)) ? NULL : __libc_malloc(size);
}

void *realloc(void *block, size_t size) {
    return is_refused(__builtin_return_address(0)) ? NULL : __libc_realloc(block, size);
}
