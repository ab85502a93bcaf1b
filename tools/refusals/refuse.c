/* Refuses calls of a program, for `run` and `calls` beside it: cc -shared -fPIC -o refuse.so refuse.c
 *
 * REFUSE names the calls: alloc, start, read or write. REFUSE_AT=N refuses the Nth of them, from 1 on, and with REFUSE_ON=1
 * each later one too. The number of such calls is left in the file that REFUSE_COUNT names, 8 bytes. With REFUSE_BETWEEN=1
 * only those count, and are refused, that are made between the writes to standard output of a line that begins with "begin "
 * and of the next one that begins with "end ". */
#define _GNU_SOURCE
#include <dlfcn.h>
#include <errno.h>
#include <fcntl.h>
#include <pthread.h>
#include <stdatomic.h>
#include <stdlib.h>
#include <string.h>
#include <sys/mman.h>
#include <unistd.h>

extern void *__libc_malloc(size_t size);
extern void *__libc_calloc(size_t count, size_t size);
extern void *__libc_realloc(void *block, size_t size);
extern void *__libc_memalign(size_t align, size_t size);

static const char *refused_calls = "";
static long refused_at;
static int refused_on;
static int between;
static _Atomic int counting = 1;
static _Atomic long own_count;
static _Atomic long *count = &own_count;

__attribute__((constructor)) static void begin(void) {
    const char *calls = getenv("REFUSE");
    const char *at = getenv("REFUSE_AT");
    const char *file = getenv("REFUSE_COUNT");
    if (file) {
        int shared = open(file, O_RDWR | O_CREAT, 0600);
        if (shared >= 0 && ftruncate(shared, 8) == 0) {
            void *page = mmap(0, 8, PROT_READ | PROT_WRITE, MAP_SHARED, shared, 0);
            if (page != MAP_FAILED) count = page;
            *count = 0;
        }
    }
    refused_at = at ? atol(at) : 0;
    refused_on = getenv("REFUSE_ON") != 0;
    if (calls) refused_calls = calls;
    between = getenv("REFUSE_BETWEEN") != 0;
    counting = !between;
}

static int refuses(const char *call) {
    if (!counting || strcmp(call, refused_calls) != 0) return 0;
    long number = atomic_fetch_add(count, 1) + 1;
    return number == refused_at || (refused_on && refused_at > 0 && number > refused_at);
}

void *malloc(size_t size) {
    if (refuses("alloc")) { errno = ENOMEM; return 0; }
    return __libc_malloc(size);
}

void *calloc(size_t count, size_t size) {
    if (between && refuses("alloc")) { errno = ENOMEM; return 0; }
    return __libc_calloc(count, size);
}

void *realloc(void *block, size_t size) {
    if (refuses("alloc")) { errno = ENOMEM; return 0; }
    return __libc_realloc(block, size);
}

void *aligned_alloc(size_t align, size_t size) {
    if (refuses("alloc")) { errno = ENOMEM; return 0; }
    return __libc_memalign(align, size);
}

int posix_memalign(void **block, size_t align, size_t size) {
    if (refuses("alloc")) return ENOMEM;
    *block = __libc_memalign(align, size);
    return *block ? 0 : ENOMEM;
}

int pthread_create(pthread_t *thread, const pthread_attr_t *how, void *(*body)(void *), void *with) {
    static int (*real)(pthread_t *, const pthread_attr_t *, void *(*)(void *), void *);
    if (refuses("start")) return EAGAIN;
    if (!real) real = dlsym(RTLD_NEXT, "pthread_create");
    return real(thread, how, body, with);
}

ssize_t read(int file, void *into, size_t most) {
    static ssize_t (*real)(int, void *, size_t);
    if (refuses("read")) { errno = EIO; return -1; }
    if (!real) real = dlsym(RTLD_NEXT, "read");
    return real(file, into, most);
}

ssize_t write(int file, const void *from, size_t most) {
    static ssize_t (*real)(int, const void *, size_t);
    if (file == 1 && refuses("write")) { errno = EIO; return -1; }
    if (!real) real = dlsym(RTLD_NEXT, "write");
    if (!between) return real(file, from, most);
    if (file == 1 && most >= 4 && memcmp(from, "end ", 4) == 0) counting = 0;
    ssize_t written = real(file, from, most);
    if (file == 1 && most >= 6 && memcmp(from, "begin ", 6) == 0) counting = 1;
    return written;
}
