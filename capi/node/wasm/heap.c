/* The heap of smap.wasm: Doug Lea's malloc, over the memory of the module, which grows. dlmalloc.c is the file
 * of Debian's package emscripten. The kit's code asks for memory by rattle_alloc and the like. */
typedef unsigned long size_t;
typedef unsigned long uintptr_t;
typedef long intptr_t;
typedef long ptrdiff_t;
#define NULL ((void *)0)

/* ---- the system that dlmalloc.c is for */

#define HAVE_MMAP 0
#define HAVE_MREMAP 0
#define MORECORE more
#define MORECORE_CANNOT_TRIM 1
#define MORECORE_CONTIGUOUS 1
#define NO_MALLOC_STATS 1
#define NO_MALLINFO 1
#define USE_LOCKS 0
#define MALLOC_ALIGNMENT 16
#define MALLOC_FAILURE_ACTION
#define ABORT __builtin_trap()
#define LACKS_SYS_TYPES_H
#define LACKS_UNISTD_H
#define LACKS_SYS_PARAM_H
#define LACKS_SYS_MMAN_H
#define LACKS_STRING_H
#define LACKS_STRINGS_H
#define LACKS_STDLIB_H
#define LACKS_ERRNO_H
#define LACKS_TIME_H
#define LACKS_SCHED_H
#define LACKS_FCNTL_H
#define ENOMEM 12
#define EINVAL 22
#define malloc_getpagesize ((size_t)65536)
#define DEFAULT_GRANULARITY ((size_t)65536)
static int nobody_reads;
#define errno nobody_reads

extern unsigned char __heap_base;
static unsigned char *top, *end;
static size_t limit = (size_t)1 << 34;

/* Up to which byte memory may be taken from now on, for tests. */
void js_limit(double bytes)
{
    limit = (size_t)bytes;
}

/* So many bytes behind those that were taken before. */
static void *more(intptr_t n)
{
    if (!top) {
        top = (unsigned char *)(((size_t)&__heap_base + 15) & ~(size_t)15);
        end = (unsigned char *)(__builtin_wasm_memory_size(0) << 16);
    }
    if (n < 0 || (size_t)top > limit || (size_t)n > limit - (size_t)top) return (void *)-1;
    if (n > end - top) {
        /* A sixteenth more, so that a heap of many small blocks doesn't grow page by page. */
        size_t pages = ((size_t)(n - (end - top)) + 65535) >> 16, step = (size_t)end >> 20;
        if (__builtin_wasm_memory_grow(0, pages + step) != (size_t)-1)
            end += (pages + step) << 16;
        else if (__builtin_wasm_memory_grow(0, pages) != (size_t)-1)
            end += pages << 16;
        else
            return (void *)-1;
    }
    unsigned char *was = top;
    top += n;
    return was;
}

void *memcpy(void *to, const void *from, size_t n);
void *memmove(void *to, const void *from, size_t n);
void *memset(void *to, int byte, size_t n);
int memcmp(const void *one, const void *other, size_t n);

#include "dlmalloc.c"

/* ---- what the kit asks for: never NULL, since that is no address of Rattle's */

typedef struct tried {
    _Bool is_done;
    void *at;
} tried;

static unsigned char nothing[16] __attribute__((aligned(16)));

static tried tried_of(void *at)
{
    return (tried){at != NULL, at ? at : nothing};
}

/* The kit asks for no more than the 16 bytes that every block is aligned to. */
tried rattle_alloc(size_t n, size_t align)
{
    return tried_of(dlmalloc(n ? n : align));
}

tried rattle_realloc(void *at, size_t kept, size_t n, size_t align)
{
    (void)kept;
    return tried_of(dlrealloc(at, n ? n : align));
}

void rattle_dealloc(void *at)
{
    dlfree(at);
}

/* ---- what glue.c asks for */

void *malloc(size_t n)
{
    return dlmalloc(n);
}

void *realloc(void *at, size_t n)
{
    return dlrealloc(at, n);
}

void free(void *at)
{
    dlfree(at);
}

/* ---- and clang. The first three are one instruction each. */

void *memcpy(void *to, const void *from, size_t n)
{
    return __builtin_memcpy(to, from, n);
}

void *memmove(void *to, const void *from, size_t n)
{
    return __builtin_memmove(to, from, n);
}

void *memset(void *to, int byte, size_t n)
{
    return __builtin_memset(to, byte, n);
}

int memcmp(const void *one, const void *other, size_t n)
{
    const unsigned char *a = one, *b = other;
    for (; n >= 8; n -= 8, a += 8, b += 8) {
        unsigned long x, y;
        __builtin_memcpy(&x, a, 8);
        __builtin_memcpy(&y, b, 8);
        if (x != y) break;
    }
    for (; n; n--, a++, b++)
        if (*a != *b) return *a - *b;
    return 0;
}
