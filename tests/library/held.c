/* smap_held is right within a quarter for maps of several shapes: it is compared with the blocks of malloc
 * that are held while the map is open. Link it with -Wl,--wrap=malloc,--wrap=realloc,--wrap=free. */
#define _DEFAULT_SOURCE
#include "maps.h"

#include <malloc.h>

static size_t taken;
void *__real_malloc(size_t size);
void *__real_realloc(void *old, size_t size);
void __real_free(void *old);
void *__wrap_malloc(size_t size);
void *__wrap_realloc(void *old, size_t size);
void __wrap_free(void *old);

void *__wrap_malloc(size_t size)
{
    void *at = __real_malloc(size);
    taken += malloc_usable_size(at);
    return at;
}

void *__wrap_realloc(void *old, size_t size)
{
    size_t before = malloc_usable_size(old);
    void *at = __real_realloc(old, size);
    if (at) taken = taken - before + malloc_usable_size(at);
    return at;
}

void __wrap_free(void *old)
{
    taken -= malloc_usable_size(old);
    __real_free(old);
}

static char *text_of, *end;

static void put(const char *part)
{
    end = stpcpy(end, part);
}

/* A map: how many sources, names and mappings it has, and how many bytes each content, each name, its root
 * and its URL. Contents have an escape in every 20 bytes. */
typedef struct shape {
    size_t sources, content, names, name, mappings, root, base;
} shape;

static void fill(char with, size_t count)
{
    memset(end, with, count);
    end += count;
}

static void put_content(size_t count)
{
    for (size_t i = 0; i + 20 <= count; i += 20) put("xxxxxxxxxxxxxxxxxxx\\n");
    fill('x', count % 20);
}

static void put_sources(const shape *s)
{
    put("\"sourceRoot\":\"");
    fill('r', s->root);
    put("\",\"sources\":[");
    for (size_t i = 0; i < s->sources; i++) end += sprintf(end, "%s\"src/part/file%zu.js\"", i ? "," : "", i);
    put("],\"sourcesContent\":[");
    for (size_t i = 0; i < s->sources && s->content; i++) {
        put(i ? ",\"" : "\"");
        put_content(s->content);
        put("\"");
    }
    put("],");
}

static void put_map(const shape *s)
{
    end = text_of;
    put("{\"version\":3,");
    put_sources(s);
    put("\"names\":[");
    for (size_t i = 0; i < s->names; i++) {
        end += sprintf(end, "%s\"%zu", i ? "," : "", i);
        fill('n', s->name);
        put("\"");
    }
    put("],\"mappings\":\"");
    for (size_t i = 0; i < s->mappings; i++) put(i % 100 ? ",IAAI" : ";AACA");
    put("\"}");
}

static void compare(shape s)
{
    static char url[20000];
    smap_map map = {0};
    size_t before, held = 0, real;
    put_map(&s);
    end = url;
    put("http://h/");
    fill('b', s.base);
    put("/out.js.map");
    before = taken;
    CHECK(smap_open(&map, text_of, strlen(text_of), url, strlen(url), NULL, NULL) == SMAP_OK);
    CHECK(smap_held(&map, &held) == SMAP_OK);
    real = taken - before;
    printf("%zu sources of %zu bytes, %zu names of %zu, %zu mappings, a root of %zu, a base of %zu: "
           "%zu bytes held, and %zu of malloc\n",
           s.sources, s.content, s.names, s.name, s.mappings, s.root, s.base, held, real);
    CHECK(held * 4 >= real * 3 && held * 4 <= real * 5);
    smap_close(&map);
    CHECK(taken == before);
}

/* Lists have the most room just above a power of two, and groups of sources just above nine times one. */
static void compare_around_powers(void)
{
    for (size_t n = 16; n <= 65536; n *= 4) {
        for (size_t i = n - 1; i <= n + 1; i++) {
            compare((shape){.sources = i});
            compare((shape){.sources = 1, .names = i});
            compare((shape){.sources = 1, .names = i, .name = 25});
            compare((shape){.sources = 9 * i / 8});
            compare((shape){.sources = i, .root = 100});
        }
    }
}

int main(void)
{
    text_of = malloc(1 << 25);
    if (!text_of) return 2;
    compare((shape){.sources = 0});
    compare((shape){.sources = 1});
    compare((shape){.sources = 1, .mappings = 50000});
    compare((shape){.sources = 10, .content = 1000, .names = 500, .mappings = 5000});
    compare((shape){.sources = 300, .content = 20000, .names = 20000, .mappings = 500000});
    compare((shape){.sources = 1000, .content = 5000});
    compare((shape){.sources = 1, .root = 100000});
    compare((shape){.sources = 100, .root = 10000});
    compare((shape){.sources = 1, .base = 10000});
    compare_around_powers();
    free(text_of);
    return failures != 0;
}
