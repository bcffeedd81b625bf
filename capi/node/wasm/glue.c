/* The calls of the addon, over WebAssembly: what calls.js calls of the library.
 *
 * Pointers and lengths are doubles, since JavaScript has no cheap numbers of 64 bits. Answers are in `out`,
 * which stays where it is. Functions return a code unless stated otherwise. Nothing here may be called by a
 * pointer, or have the attribute export_name: either makes a table, and V8 before 13.3 takes none whose size
 * has 64 bits. The linker exports what begins with js_. */
#include <stddef.h>

void *malloc(size_t n);
void *realloc(void *at, size_t n);
void free(void *at);
void *memset(void *to, int byte, size_t n);

#define SMAP_NO_INLINE
#include "../native/library.h"

#define AT(type, at) ((type *)(size_t)(at))

/* The answers. calls.js knows where each field is. */
static struct answers {
    uint32_t found[FOUND]; /* byte 0 */
    double at, len;        /* 32: of a text */
    double counts[5];      /* 48 */
    double number;         /* 88: of a fault, as all below */
    double section[8];     /* 96 */
    uint32_t depth, has_place, line, segment, kind_len, text_len; /* 160 */
    uint32_t yes;          /* 184: not of a fault */
    uint32_t unused;
    char kind[32];         /* 192 */
    char text[264];        /* 224 */
} out;

_Static_assert(__builtin_offsetof(struct answers, counts) == 48, "calls.js");
_Static_assert(__builtin_offsetof(struct answers, section) == 96, "calls.js");
_Static_assert(__builtin_offsetof(struct answers, yes) == 184, "calls.js");
_Static_assert(__builtin_offsetof(struct answers, text) == 224, "calls.js");

static smap_bytes given;
static char *room;
static size_t room_len;

/* ---- memory */

/* Where the answers are. */
double js_out(void)
{
    return (double)(size_t)&out;
}

/* A block, of which the first bytes are zero, as handles have to be; or 0. */
double js_new(double n)
{
    void *at = malloc((size_t)n);
    if (at) memset(at, 0, n < 64 ? (size_t)n : 64);
    return (double)(size_t)at;
}

void js_free(double at)
{
    free(AT(void, at));
}

/* Frees what the last answer lies in. */
void js_done(void)
{
    smap_bytes_free(&given);
    if (room_len <= 1 << 20) return;
    free(room);
    room = NULL;
    room_len = 0;
}

static bool has_room(size_t n)
{
    if (n <= room_len) return true;
    char *more = realloc(room, n);
    if (!more) return false;
    room = more;
    room_len = n;
    return true;
}

/* Answers with the bytes that a call gave. */
static uint32_t give(uint32_t code)
{
    const uint8_t *at;
    size_t len;
    if (code != SMAP_OK) return code;
    smap_bytes_data(&given, &at, &len);
    out.at = (double)(size_t)at;
    out.len = (double)len;
    return SMAP_OK;
}

/* ---- errors */

static void put_words(const char *words)
{
    for (out.kind_len = 0; words[out.kind_len] && out.kind_len < sizeof out.kind; out.kind_len++)
        out.kind[out.kind_len] = words[out.kind_len];
}

/* In `kind` the name of a code, in `text` what it means. */
void js_code(uint32_t code)
{
    size_t len = smap_code_name(code, out.text, sizeof out.text);
    out.text_len = (uint32_t)(len < sizeof out.text ? len : sizeof out.text);
    put_words(code_of(code));
}

static uint32_t put_fault(uint32_t code, const smap_fault *fault)
{
    if (code != SMAP_REFUSED) return code;
    size_t kind_len = smap_fault_name(fault->kind, out.kind, sizeof out.kind);
    out.kind_len = kind_len <= sizeof out.kind ? (uint32_t)kind_len : 0;
    out.has_place = fault->has_place;
    out.line = fault->line;
    out.segment = fault->segment;
    out.number = (double)fault->number;
    out.depth = fault_depth(fault);
    for (uint32_t i = 0; i < out.depth; i++) out.section[i] = (double)fault->section[i];
    out.text_len = (uint32_t)fault_len(fault);
    for (uint32_t i = 0; i < out.text_len; i++) out.text[i] = fault->text[i];
    return code;
}

/* ---- maps
 *
 * A call that changes no map gets a copy of its handle. So the handle stays as it is where the call never
 * returns, since JavaScript's stack, on which it runs, has no room left. */

uint32_t js_open(double box, double text, double len, double url, double url_len, uint32_t items,
                 uint32_t lines, double url_bytes)
{
    smap_limits limits = {items, lines};
    smap_fault fault = {0};
    uint32_t code = open_within(AT(smap_map, box), AT(char, text), (size_t)len, AT(char, url),
                                (size_t)url_len, &limits, (int64_t)url_bytes, &fault);
    return put_fault(code, &fault);
}

void js_close(double box)
{
    smap_close(AT(smap_map, box));
}

uint32_t js_share(double one, double other)
{
    return smap_share(AT(smap_map, one), AT(smap_map, other));
}

uint32_t js_thin(double box, double to)
{
    return smap_thin(AT(smap_map, box), AT(smap_map, to));
}

uint32_t js_only_used(double box, double to)
{
    return smap_only_used(AT(smap_map, box), AT(smap_map, to));
}

/* `inner` points to as many pointers. */
uint32_t js_compose(double outer, double inner, double count, double leads, double leads_count, uint32_t items,
                    double to)
{
    return compose_maps(AT(smap_map, outer), AT(smap_map *, inner), (size_t)count, AT(uint32_t, leads),
                        (size_t)leads_count, items, AT(smap_map, to));
}

/* How many bytes a map holds. */
double js_held(double box)
{
    smap_map map = *AT(smap_map, box);
    return (double)held_by(&map);
}

/* The answer is `yes`. */
uint32_t js_same(double one, double other)
{
    bool same = false;
    smap_map map = *AT(smap_map, one), other_map = *AT(smap_map, other);
    uint32_t code = are_same(&map, one == other ? &map : &other_map, &same);
    out.yes = same;
    return code;
}

uint32_t js_count(double box)
{
    smap_counts counts;
    smap_map map = *AT(smap_map, box);
    uint32_t code = smap_count(&map, &counts);
    if (code != SMAP_OK) return code;
    out.counts[0] = (double)counts.sources;
    out.counts[1] = (double)counts.listed_sources;
    out.counts[2] = (double)counts.names;
    out.counts[3] = (double)counts.mappings;
    out.counts[4] = counts.lines;
    return SMAP_OK;
}

uint32_t js_lookup(double box, uint32_t line, uint32_t column)
{
    smap_map map = *AT(smap_map, box);
    return look_up(&map, line, column, out.found);
}

uint32_t js_listed_at(double box, uint32_t line, uint32_t column)
{
    smap_map map = *AT(smap_map, box);
    return listed_at(&map, line, column, out.found);
}

/* ---- texts of maps: in the order of the numbers that native/getters.c gives them */

static uint32_t get(smap_map *map, uint32_t which, size_t i, char *to, size_t n, size_t *len)
{
    switch (which) {
    case 0: return smap_file(map, to, n, len);
    case 1: return smap_source_url(map, i, to, n, len);
    case 2: return smap_source_content(map, i, to, n, len);
    case 3: return smap_written_source(map, i, to, n, len);
    case 4: return smap_written_root(map, i, to, n, len);
    default: return smap_listed_name(map, i, to, n, len);
    }
}

uint32_t js_text(double box, uint32_t which, uint32_t i)
{
    size_t len = 0;
    smap_map map = *AT(smap_map, box);
    if (!has_room(1024)) return SMAP_MEMORY;
    uint32_t code = get(&map, which, i, room, room_len, &len);
    if (code == SMAP_OK && len > room_len) {
        if (!has_room(len)) return SMAP_MEMORY;
        code = get(&map, which, i, room, room_len, &len);
    }
    out.at = (double)(size_t)room;
    out.len = (double)len;
    return code;
}

/* ---- numbers of maps, from one on, in a block of the caller's */

uint32_t js_flags(double box, uint32_t which, double to, double from, double count)
{
    smap_map map = *AT(smap_map, box);
    return put_flags(&map, which, AT(uint32_t, to), (size_t)from, (size_t)count);
}

uint32_t js_table(double box, double to, double from, double count)
{
    smap_map map = *AT(smap_map, box);
    return put_table(&map, AT(uint32_t, to), (size_t)from, (size_t)count);
}

uint32_t js_is_ignored(double box, uint32_t source)
{
    smap_map map = *AT(smap_map, box);
    return put_flags(&map, 0, &out.yes, source, 1);
}

/* ---- what is written */

uint32_t js_written(double box, uint32_t how)
{
    smap_map map = *AT(smap_map, box);
    switch (how) {
    case 0: return give(smap_canonical(&map, &given));
    case 1: return give(smap_canonical_relative(&map, &given));
    case 2: return give(smap_canonical_mappings(&map, &given));
    default: return give(smap_flatten(&map, &given));
    }
}

uint32_t js_respell(double text, double len)
{
    smap_fault fault = {0};
    return put_fault(give(smap_respell(AT(char, text), (size_t)len, &given, &fault)), &fault);
}

/* The first of `counts` is the index of a mapping that is wrong. */
uint32_t js_spell(double numbers, double mappings)
{
    size_t wrong = 0;
    uint32_t code = smap_spell(AT(uint32_t, numbers), (size_t)mappings, &given, &wrong);
    out.counts[0] = (double)wrong;
    return give(code);
}

/* ---- maps that are built: `has` says whether there is a text, and numbers that are told are `yes` */

uint32_t js_builder_open(double box, double url, double len, uint32_t items, uint32_t lines)
{
    smap_limits limits = {items, lines};
    return smap_builder_open(AT(smap_builder, box), AT(char, url), (size_t)len, &limits);
}

void js_builder_close(double box)
{
    smap_builder_close(AT(smap_builder, box));
}

uint32_t js_builder_file(double box, uint32_t has, double text, double len)
{
    return smap_builder_file(AT(smap_builder, box), has, AT(char, text), (size_t)len);
}

uint32_t js_builder_source(double box, uint32_t has, double url, double len)
{
    return smap_builder_source(AT(smap_builder, box), has, AT(char, url), (size_t)len, &out.yes);
}

uint32_t js_builder_content(double box, uint32_t source, uint32_t has, double text, double len)
{
    return smap_builder_content(AT(smap_builder, box), source, has, AT(char, text), (size_t)len);
}

uint32_t js_builder_ignore(double box, uint32_t source, uint32_t is_ignored)
{
    return smap_builder_ignore(AT(smap_builder, box), source, is_ignored);
}

uint32_t js_builder_name(double box, double text, double len)
{
    return smap_builder_name(AT(smap_builder, box), AT(char, text), (size_t)len, &out.yes);
}

/* The first of `counts` is the index of a mapping that is wrong. */
uint32_t js_builder_add(double box, double numbers, double mappings)
{
    size_t wrong = 0;
    uint32_t code = smap_builder_add(AT(smap_builder, box), AT(uint32_t, numbers), (size_t)mappings, &wrong);
    out.counts[0] = (double)wrong;
    return code;
}

uint32_t js_builder_finish(double box, double to)
{
    return smap_builder_finish(AT(smap_builder, box), AT(smap_map, to));
}

/* ---- traces */

uint32_t js_add_script(double scripts, double url, double len, double box)
{
    return smap_add_script(AT(smap_scripts, scripts), AT(char, url), (size_t)len, AT(smap_map, box));
}

void js_close_scripts(double scripts)
{
    smap_close_scripts(AT(smap_scripts, scripts));
}

uint32_t js_translate(double scripts, double text, double len, uint32_t how)
{
    smap_trace_counts counts;
    uint32_t code = smap_translate(AT(smap_scripts, scripts), AT(char, text), (size_t)len, (uint8_t)how,
                                   &given, &counts);
    if (code != SMAP_OK) return code;
    out.counts[0] = (double)counts.lines;
    out.counts[1] = (double)counts.translated;
    out.counts[2] = (double)counts.dropped;
    return give(code);
}

uint32_t js_frame(double text, double len)
{
    smap_frame_parts parts;
    uint32_t code = smap_frame(AT(char, text), (size_t)len, &parts);
    if (code != SMAP_OK) return code;
    out.counts[0] = (double)parts.url_from;
    out.counts[1] = (double)parts.url_len;
    out.counts[2] = parts.line;
    out.counts[3] = parts.column;
    return SMAP_OK;
}

/* ---- which map belongs to a script */

uint32_t js_inline_map(double url, double len)
{
    return give(smap_data_url(AT(char, url), (size_t)len, &given));
}

uint32_t js_file_url(double path, double len)
{
    return give(smap_file_url(AT(char, path), (size_t)len, &given));
}

uint32_t js_file_path(double url, double len)
{
    return give(smap_file_path(AT(char, url), (size_t)len, &given));
}

uint32_t js_normal_form(double name, double len, uint32_t query)
{
    return give(smap_normal_form(AT(char, name), (size_t)len, query, &given));
}

uint32_t js_resolve_link(double script, double len, double link, double link_len)
{
    return give(smap_resolve(AT(char, script), (size_t)len, AT(char, link), (size_t)link_len, &given));
}

uint32_t js_script_url(double folder, double len, double name, double name_len)
{
    return give(smap_script_url(AT(char, folder), (size_t)len, AT(char, name), (size_t)name_len, &given));
}

uint32_t js_script_name(double folder, double len, double url, double url_len)
{
    return give(smap_script_name(AT(char, folder), (size_t)len, AT(char, url), (size_t)url_len, &given));
}

uint32_t js_script_link(double text, double len, uint32_t css)
{
    size_t n = 0;
    if (!has_room(1024)) return SMAP_MEMORY;
    uint32_t code = smap_script_link(AT(char, text), (size_t)len, css, room, room_len, &n);
    if (code == SMAP_OK && n > room_len) {
        if (!has_room(n)) return SMAP_MEMORY;
        code = smap_script_link(AT(char, text), (size_t)len, css, room, room_len, &n);
    }
    out.at = (double)(size_t)room;
    out.len = (double)n;
    return code;
}

/* What the script names is `yes`. */
uint32_t js_script_map(double folder, double len, double name, double name_len, double text, double text_len,
                       uint32_t tried)
{
    uint32_t kind = 0;
    uint32_t code = give(smap_script_map(AT(char, folder), (size_t)len, AT(char, name), (size_t)name_len,
                                         AT(char, text), (size_t)text_len, tried, &given, &kind));
    out.yes = kind;
    return code;
}

/* The answer is `yes`. */
uint32_t js_are_alike(double one, double len, double other, double other_len)
{
    bool alike = false;
    uint32_t code = smap_alike(AT(char, one), (size_t)len, AT(char, other), (size_t)other_len, &alike);
    out.yes = alike;
    return code;
}

/* ---- the library */

uint32_t js_version(void)
{
    return smap_version();
}
