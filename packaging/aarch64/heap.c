/* The heap for aarch64: what the kit's library `libc` asks of C, as src/heap.rt there describes it, since the kit
 * has it compiled for x86-64 alone. */
#include <stdbool.h>
#include <stdlib.h>

/* A block, which isn't null even where there is none. */
typedef struct {
    bool ok;
    void *block;
} tried;

static tried try(void *block)
{
    static _Alignas(16) char nothing[16];
    return (tried){block != NULL, block ? block : nothing};
}

tried rattle_alloc(size_t size, size_t alignment)
{
    return try(malloc(size ? size : alignment));
}

tried rattle_realloc(void *block, size_t kept, size_t size, size_t alignment)
{
    (void)kept;
    return try(realloc(block, size ? size : alignment));
}

void rattle_dealloc(void *block)
{
    free(block);
}
