/* What the addon and ../wasm/glue.c have in common, over smap.h alone. */
#ifndef SMAP_LIBRARY_H
#define SMAP_LIBRARY_H

#include "smap.h"

/* How many numbers a lookup finds. index.js reads them. */
enum { FOUND = 8 };

/* The names of codes, as errors have them. */
static const char *const codes[] = {
    [SMAP_OK] = "SMAP_OK",
    [SMAP_REFUSED] = "SMAP_REFUSED",
    [SMAP_NOT_URL] = "SMAP_NOT_URL",
    [SMAP_LIMITS] = "SMAP_LIMITS",
    [SMAP_MEMORY] = "SMAP_MEMORY",
    [SMAP_CLOSED] = "SMAP_CLOSED",
    [SMAP_NONE] = "SMAP_NONE",
    [SMAP_RANGE] = "SMAP_RANGE",
    [SMAP_URL_BYTES] = "SMAP_URL_BYTES",
    [SMAP_NOT_BASE64] = "SMAP_NOT_BASE64",
    [SMAP_NOT_UTF8] = "SMAP_NOT_UTF8",
    [SMAP_TOO_MANY] = "SMAP_TOO_MANY",
};

static inline const char *code_of(uint32_t code)
{
    return code < sizeof codes / sizeof *codes ? codes[code] : "SMAP_UNKNOWN";
}

/* Opens a map within so many bytes of URLs, or within none if they are less than 0. */
static inline uint32_t open_within(smap_map *map, const char *text, size_t len, const char *url,
                                   size_t url_len, const smap_limits *limits, int64_t url_bytes,
                                   smap_fault *fault)
{
    if (url_bytes < 0) return smap_open(map, text, len, url, url_len, limits, fault);
    return smap_open_within(map, text, len, url, url_len, limits, (size_t)url_bytes, fault);
}

/* The mapping at a position, in the array that index.js reads: line, column, source, source line, source
 * column; as bits whether it has a source, a name, and is ignored; its number; and the listed name. */
static inline uint32_t look_up(smap_map *map, uint32_t line, uint32_t column, uint32_t *found)
{
    size_t i;
    smap_mapping m;
    smap_listed_mapping listed;
    uint32_t code = smap_find(map, line, column, &i);
    if (code == SMAP_OK) code = smap_token(map, i, &m);
    if (code == SMAP_OK) code = smap_listed_token(map, i, &listed);
    if (code != SMAP_OK) return code;
    found[0] = m.line;
    found[1] = m.column;
    found[2] = (uint32_t)m.source;
    found[3] = m.source_line;
    found[4] = m.source_column;
    found[5] = (uint32_t)m.has_source | (uint32_t)m.has_name << 1 | (uint32_t)m.is_ignored << 2;
    found[6] = (uint32_t)i;
    found[7] = listed.name;
    return SMAP_OK;
}

/* A mapping of the listing, in the same array: line, column, listed source, its line and column, listed name;
 * UINT32_MAX for no source or name. */
static inline void put_listed(const smap_listed_mapping *m, uint32_t *found)
{
    found[0] = m->line;
    found[1] = m->column;
    found[2] = m->has_source ? m->source : UINT32_MAX;
    found[3] = m->source_line;
    found[4] = m->source_column;
    found[5] = m->has_name ? m->name : UINT32_MAX;
}

/* Of the mappings at the i-th one's position, the first. There may be many, but mostly the one before is
 * elsewhere, so that is asked for first. */
static inline uint32_t first_there(smap_map *map, size_t i, smap_listed_mapping *m)
{
    smap_listed_mapping one;
    size_t from = 0, middle = i - 1;
    while (from < i) {
        uint32_t code = smap_listed_token(map, middle, &one);
        if (code != SMAP_OK) return code;
        if (one.line == m->line && one.column == m->column) {
            *m = one;
            i = middle;
        } else {
            from = middle + 1;
        }
        middle = from + (i - from) / 2;
    }
    return SMAP_OK;
}

/* The mapping of the listing at a position, the first of those that are at this very one. */
static inline uint32_t listed_at(smap_map *map, uint32_t line, uint32_t column, uint32_t *found)
{
    size_t i;
    smap_listed_mapping m;
    uint32_t code = smap_find(map, line, column, &i);
    if (code == SMAP_OK) code = smap_listed_token(map, i, &m);
    if (code == SMAP_OK && m.column == column) code = first_there(map, i, &m);
    if (code == SMAP_OK) put_listed(&m, found);
    return code;
}

/* A number for each source or listed source: whether it is ignored, or which source the listed one is. */
static inline uint32_t put_flags(smap_map *map, uint32_t which, uint32_t *to, size_t from, size_t count)
{
    for (size_t i = 0; i < count; i++) {
        bool ignored = false;
        size_t source = 0;
        uint32_t code = which ? smap_listed_source(map, from + i, &source)
                              : smap_is_ignored(map, from + i, &ignored);
        if (code != SMAP_OK) return code;
        to[i] = which ? (uint32_t)source : ignored;
    }
    return SMAP_OK;
}

/* The mappings of the listing from one on, as six columns one after another, each of so many. */
static inline uint32_t put_table(smap_map *map, uint32_t *to, size_t from, size_t count)
{
    for (size_t i = 0; i < count; i++) {
        uint32_t row[6];
        smap_listed_mapping m;
        uint32_t code = smap_listed_token(map, from + i, &m);
        if (code != SMAP_OK) return code;
        put_listed(&m, row);
        for (size_t k = 0; k < 6; k++) to[i + k * count] = row[k];
    }
    return SMAP_OK;
}

/* Composes a map with maps of its sources, any of which may be one map. */
static inline uint32_t compose_maps(smap_map *outer, smap_map **inner, size_t count, const uint32_t *leads,
                                    size_t leads_count, uint32_t items, smap_map *out)
{
    smap_limits limits = {items, 0};
    smap_map *shares = malloc((count + 1) * sizeof *shares);
    size_t *numbers = malloc((leads_count + 1) * sizeof *numbers), shared = 0;
    uint32_t code = shares && numbers ? SMAP_OK : SMAP_MEMORY;
    for (; shared < count && code == SMAP_OK; shared++) {
        shares[shared] = (smap_map){0};
        code = smap_share(inner[shared], &shares[shared]);
    }
    for (size_t i = 0; i < leads_count && code == SMAP_OK; i++) numbers[i] = leads[i];
    if (code == SMAP_OK) code = smap_compose(outer, shares, count, numbers, leads_count, &limits, out);
    while (shared > 0) smap_close(&shares[--shared]);
    free(numbers);
    free(shares);
    return code;
}

/* Whether two maps mean the same. They may be one. */
static inline uint32_t are_same(smap_map *one, smap_map *other, bool *same)
{
    smap_counts counts;
    if (one != other) return smap_same(one, other, same);
    *same = true;
    return smap_count(one, &counts);
}

/* About how many bytes a map holds; 0 if it is closed. */
static inline size_t held_by(smap_map *map)
{
    size_t bytes = 0;
    return smap_held(map, &bytes) == SMAP_OK ? bytes : 0;
}

/* Of a fault, how much of the text counts, and of the section. */
static inline size_t fault_len(const smap_fault *fault)
{
    return fault->text_len < sizeof fault->text ? fault->text_len : sizeof fault->text - 1;
}

static inline uint32_t fault_depth(const smap_fault *fault)
{
    return fault->depth < 8 ? (uint32_t)fault->depth : 8;
}

#endif
