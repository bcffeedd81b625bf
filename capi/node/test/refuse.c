/* For the test build alone, which is linked with --wrap=malloc,--wrap=calloc,--wrap=realloc,--wrap=free: one
 * request of the addon or the library for memory is refused, and what they hold is counted. */
#include <malloc.h>

#include "../native/smap_node.h"

static _Thread_local int64_t left = -1;
static _Thread_local int64_t allocated;

void *__real_malloc(size_t size);
void *__real_calloc(size_t count, size_t size);
void *__real_realloc(void *old, size_t size);
void __real_free(void *old);
void *__wrap_malloc(size_t size);
void *__wrap_calloc(size_t count, size_t size);
void *__wrap_realloc(void *old, size_t size);
void __wrap_free(void *old);

static bool is_refused(void)
{
    return left >= 0 && left-- == 0;
}

static void *counted(void *block)
{
    allocated += (int64_t)malloc_usable_size(block);
    return block;
}

void *__wrap_malloc(size_t size)
{
    return is_refused() ? NULL : counted(__real_malloc(size));
}

void *__wrap_calloc(size_t count, size_t size)
{
    return is_refused() ? NULL : counted(__real_calloc(count, size));
}

void *__wrap_realloc(void *old, size_t size)
{
    if (is_refused()) return NULL;
    int64_t was = (int64_t)malloc_usable_size(old);
    void *block = __real_realloc(old, size);
    if (block) allocated += (int64_t)malloc_usable_size(block) - was;
    return block;
}

void __wrap_free(void *old)
{
    allocated -= (int64_t)malloc_usable_size(old);
    __real_free(old);
}

/* refuse(n): the request after the next n of this thread is refused; -1: none is. How many of the n weren't
 * made is returned, or -1 if one was refused. */
static napi_value do_refuse(napi_env env, napi_callback_info info)
{
    napi_value out;
    ARGUMENTS(1);
    int64_t was = left;
    CALL(napi_get_value_int64(env, w[0], &left));
    CALL(napi_create_int64(env, was, &out));
    return out;
}

/* allocated(): how many bytes this thread has allocated and not freed */
static napi_value do_allocated(napi_env env, napi_callback_info info)
{
    napi_value out;
    (void)info;
    CALL(napi_create_int64(env, allocated, &out));
    return out;
}

const call test_calls[] = {
    {"refuse", do_refuse},
    {"allocated", do_allocated},
    {NULL, NULL},
};
