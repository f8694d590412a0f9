/* A library to be loaded before a program: it refuses the program's Nth request for memory, N being REFUSE_NTH, and
   makes the file REFUSE_MET then. All calls that give memory are counted: malloc, calloc, realloc and the aligned ones.
   Without REFUSE_NTH nothing is refused. */
#define _GNU_SOURCE
#include <dlfcn.h>
#include <errno.h>
#include <fcntl.h>
#include <stdlib.h>
#include <unistd.h>

static long made;

/* Whether this request is the one to refuse; it is noted that it was met. */
static int refused(void) {
    char *which = getenv("REFUSE_NTH");
    if (!which || ++made != atol(which)) return 0;
    close(open(getenv("REFUSE_MET"), O_CREAT | O_WRONLY, 0600));
    errno = ENOMEM;
    return 1;
}

void *malloc(size_t size) {
    static void *(*real)(size_t);
    if (!real) real = dlsym(RTLD_NEXT, "malloc");
    return refused() ? NULL : real(size);
}

void *calloc(size_t count, size_t size) {
    static void *(*real)(size_t, size_t);
    static int asking;
    if (!real) {
        /* What asks for the real one may itself ask here: it does without. */
        if (asking) return NULL;
        asking = 1;
        real = dlsym(RTLD_NEXT, "calloc");
    }
    return refused() ? NULL : real(count, size);
}

void *realloc(void *old, size_t size) {
    static void *(*real)(void *, size_t);
    if (!real) real = dlsym(RTLD_NEXT, "realloc");
    return refused() ? NULL : real(old, size);
}

int posix_memalign(void **block, size_t align, size_t size) {
    static int (*real)(void **, size_t, size_t);
    if (!real) real = dlsym(RTLD_NEXT, "posix_memalign");
    return refused() ? ENOMEM : real(block, align, size);
}

void *aligned_alloc(size_t align, size_t size) {
    static void *(*real)(size_t, size_t);
    if (!real) real = dlsym(RTLD_NEXT, "aligned_alloc");
    return refused() ? NULL : real(align, size);
}

void *memalign(size_t align, size_t size) {
    static void *(*real)(size_t, size_t);
    if (!real) real = dlsym(RTLD_NEXT, "memalign");
    return refused() ? NULL : real(align, size);
}
