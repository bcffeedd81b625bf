/* smap: reads source maps (ECMA-426, version 3), looks positions up in them, puts them into canonical form,
 * and translates stack traces. The library is written in Rattle, and each function's contract is proved.
 *
 *     smap_map map = {0};
 *     smap_fault fault;
 *     smap_mapping found;
 *     if (smap_open(&map, text, text_len, base, base_len, NULL, &fault) == SMAP_OK) {
 *         if (smap_lookup(&map, line, column, &found) == SMAP_OK && found.has_source) ...
 *         smap_close(&map);
 *     }
 *
 * HANDLES. smap_map, smap_bytes and smap_scripts are structs that belong to the caller, and are all zero
 * while they are closed (`= {0}` in C, `= {}` in C++).
 * An open handle owns what it holds until it is closed; a call that puts something into it frees what it
 * held. A handle may be moved (by memcpy or assignment) if only one of the copies is used from then on.
 * Nothing but the functions below may write into one.
 *
 * STRINGS are passed as a pointer and a length in bytes. No input needs to end with a NUL, and no output does
 * unless stated otherwise. A pointer may be NULL if its length is 0. An output string is copied into `out`,
 * which has `room` bytes: as much of it as fits, and the rest of `out` is unchanged. Its full length is
 * returned, so a call with room 0 asks for the length. Buffers that are written must not overlap anything
 * else that is passed in the same call.
 *
 * NUMBERS. Lines and columns count from 0. Columns are those of the map: JavaScript engines and the tools
 * that write maps count UTF-16 code units. Positions of frames in traces count from 1.
 *
 * CODES. Most calls return one of the codes below. Unless stated otherwise, a call whose code isn't SMAP_OK
 * leaves what it would have written unchanged, except that a length becomes 0. Nothing aborts, and nothing is
 * printed.
 *
 * THREADS. While a call runs, nothing else may use its handles, structs and buffers. Calls on different
 * handles may run at once in different threads, even if smap_share has made them share one map. A handle
 * may be passed to another thread, synchronized by a lock or by the start or end of a thread. No call may be
 * made from a signal handler. Memory is taken by malloc, realloc and free.
 *
 * Nothing checks that the caller keeps to this. */
#ifndef SMAP_H
#define SMAP_H

#include <stdbool.h>
#include <stddef.h>
#include <stdint.h>

#ifdef __cplusplus
extern "C" {
#endif

/* ---- the version */

#define SMAP_VERSION_MAJOR 0
#define SMAP_VERSION_MINOR 1
#define SMAP_VERSION_PATCH 0

/* The version of this header: two decimal digits each for the minor and the patch version. */
#define SMAP_VERSION (SMAP_VERSION_MAJOR * 10000 + SMAP_VERSION_MINOR * 100 + SMAP_VERSION_PATCH)

/* The same for the library that is linked. */
uint32_t smap_version(void);

/* ---- codes */

enum {
    SMAP_OK = 0,      /* done */
    SMAP_REFUSED = 1, /* the map, or the mappings string, has an error */
    SMAP_NOT_URL = 2, /* the base is no absolute URL; or a URL isn't UTF-8 */
    SMAP_LIMITS = 3,  /* items above 2147483647, or lines above 16777216 */
    SMAP_MEMORY = 4,  /* out of memory */
    SMAP_CLOSED = 5,  /* a handle is closed */
    SMAP_NONE = 6,    /* nothing there: no mapping, no URL, no content, no name, no file, no frame */
    SMAP_RANGE = 7    /* the number isn't below the count */
};

/* Copies the name of a code into `out`, such as "out of memory", and returns its length, or 0 if the number
 * is no code. */
size_t smap_code_name(uint32_t code, char *out, size_t room);

/* ---- errors of maps */

/* What is wrong with a map. docs/FORMAT.md has the rules, and the order in which errors are looked for. */
enum {
    SMAP_FAULT_PREFIX = 1,           /* the text begins with )]}' and has no line feed */
    SMAP_FAULT_JSON = 2,             /* the text isn't JSON in UTF-8 */
    SMAP_FAULT_NOT_OBJECT = 3,       /* a map or a section isn't an object */
    SMAP_FAULT_VERSION = 4,          /* `version` isn't the integer 3 */
    SMAP_FAULT_FILE = 5,             /* `file` is neither absent nor a string */
    SMAP_FAULT_BOTH = 6,             /* `sections` and `mappings` are both present */
    SMAP_FAULT_SOURCE_ROOT = 7,      /* `sourceRoot` is neither absent nor a string */
    SMAP_FAULT_SOURCES = 8,          /* `sources` is neither absent nor an array of strings and nulls */
    SMAP_FAULT_SOURCES_CONTENT = 9,  /* the same for `sourcesContent` */
    SMAP_FAULT_NAMES = 10,           /* `names` is neither absent nor an array of strings */
    SMAP_FAULT_IGNORE_LIST = 11,     /* `ignoreList` is neither absent nor an array of indices of sources */
    SMAP_FAULT_MAPPINGS = 12,        /* `mappings` isn't a string */
    SMAP_FAULT_SECTIONS = 13,        /* `sections` isn't an array */
    SMAP_FAULT_OFFSET = 14,          /* a section's offset isn't a line and a column */
    SMAP_FAULT_SECTION_MAP = 15,     /* a section's `map` isn't an object */
    SMAP_FAULT_NESTED = 16,          /* sections are nested more than eight levels deep */
    SMAP_FAULT_ORDER = 17,           /* a section's offset is before that of the previous section */
    SMAP_FAULT_OVERLAP = 18,         /* a section begins before a mapping of an earlier section */
    SMAP_FAULT_TOO_MANY = 19,        /* more sources or names than the limits allow */
    SMAP_FAULT_SOURCE_URL = 20,      /* source `number` is no URL */
    SMAP_FAULT_UNSTABLE_URL = 21,    /* source `number` has a URL that doesn't resolve to itself */
    SMAP_FAULT_EMPTY = 22,           /* a segment is empty */
    SMAP_FAULT_UNFINISHED = 23,      /* number `number` of a segment, from 1 (255: or later), is unfinished */
    SMAP_FAULT_CHARACTER = 24,       /* the same: a bad character */
    SMAP_FAULT_TOO_LARGE = 25,       /* the same: 2^32 or more */
    SMAP_FAULT_NEGATIVE_ZERO = 26,   /* the same: negative zero */
    SMAP_FAULT_COUNT = 27,           /* a segment has `number` numbers (255: or more), not 1, 4 or 5 */
    SMAP_FAULT_GENERATED_LINE = 28,  /* a generated line isn't below the limit */
    SMAP_FAULT_COLUMN = 29,          /* a generated column is out of range */
    SMAP_FAULT_SOURCE = 30,          /* a source index is out of range */
    SMAP_FAULT_ORIGINAL_LINE = 31,   /* an original line is out of range */
    SMAP_FAULT_ORIGINAL_COLUMN = 32, /* an original column is out of range */
    SMAP_FAULT_NAME = 33             /* a name index is out of range */
};

/* The first error of a map or of a mappings string. */
typedef struct smap_fault {
    uint32_t kind;     /* SMAP_FAULT_.. */
    uint32_t line;     /* the line of the mappings string, from 0, if has_place; else 0 */
    uint32_t segment;  /* the segment in that line, from 0 */
    bool has_place;
    size_t number;     /* as the kind says, else 0 */
    size_t depth;      /* how many numbers of `section` are used: 0 if the error is in no section */
    size_t section[8]; /* the index of the section at each level, the outermost first, each from 0 */
    size_t text_len;
    char text[264];    /* the message, such as "line 0 segment 1: source index", with a NUL after it */
} smap_fault;

/* ---- maps */

/* A map. Its fields are for the library alone. */
typedef struct smap_map {
    bool is_open;
    void *at;
} smap_map;

/* Limits on a map. For each of the two, 0 stands for the usual limit, 16777216. */
typedef struct smap_limits {
    uint32_t items; /* how many sources a map may list, and how many names; at most 2147483647 */
    uint32_t lines; /* how many generated lines it may have; at most 16777216 */
} smap_limits;

/* Reads a map, whose URL is `base`. The text may be freed afterwards. NULL for `limits` means the usual ones.
 * OK: `map` holds it. REFUSED: *fault says why (`fault` may be NULL). NOT_URL: the base is no absolute URL.
 * LIMITS: a limit is too large, whatever the base is. MEMORY. */
uint32_t smap_open(smap_map *map, const void *text, size_t len, const char *base, size_t base_len,
                   const smap_limits *limits, smap_fault *fault);

/* Closes a handle. The map is freed with the last handle that shares it. A closed handle stays closed. */
void smap_close(smap_map *map);

/* Makes `other` a second handle of the map, for instance for another thread: nothing is copied. The two
 * handles must be different ones. OK; CLOSED: `map` is; MEMORY. */
uint32_t smap_share(smap_map *map, smap_map *other);

/* OK: *out says whether the two maps mean the same, that is, have equal files, sources and mappings, however
 * their texts write them. CLOSED: one of them is. The two handles must be different ones. */
uint32_t smap_same(smap_map *one, smap_map *other, bool *out);

typedef struct smap_counts {
    size_t sources;        /* distinct sources: those with another URL, content or ignored flag */
    size_t listed_sources; /* sources as the map lists them */
    size_t names;          /* names as the map lists them */
    size_t mappings;
    uint32_t lines;        /* one more than the line of the last mapping; 0 without mappings */
} smap_counts;

/* OK, CLOSED. */
uint32_t smap_count(smap_map *map, smap_counts *out);

/* Copies the name of the generated file. OK; NONE: the map has none; CLOSED. */
uint32_t smap_file(smap_map *map, char *out, size_t room, size_t *len);

/* ---- lookups */

typedef struct smap_mapping {
    uint32_t line, column; /* where the mapping begins in the generated text */
    bool has_source;       /* false: it has no original, and the rest is 0 */
    bool has_name;         /* its name: smap_name_at */
    bool is_ignored;       /* its source is ignored: a library, mostly */
    uint32_t source_line, source_column;
    size_t source;         /* the source's number, below `sources` of smap_counts */
} smap_mapping;

/* The mapping for a generated position: the last one of the line whose column isn't greater. The time grows
 * with the logarithm of the number of mappings, and no memory is taken. OK, NONE, CLOSED. */
uint32_t smap_lookup(smap_map *map, uint32_t line, uint32_t column, smap_mapping *out);

/* Copies the name that the mapping there has. OK; NONE: there is no mapping, or it has no name; CLOSED. */
uint32_t smap_name_at(smap_map *map, uint32_t line, uint32_t column, char *out, size_t room, size_t *len);

/* The i-th mapping, in order of line and column. OK, RANGE, CLOSED. */
uint32_t smap_token(smap_map *map, size_t i, smap_mapping *out);

/* ---- sources, by their numbers from 0 */

/* Copies the URL of a source. OK; NONE: it has no URL; RANGE; CLOSED. */
uint32_t smap_source_url(smap_map *map, size_t source, char *out, size_t room, size_t *len);

/* Copies the content of a source. OK; NONE: the map doesn't have it; RANGE; CLOSED. */
uint32_t smap_source_content(smap_map *map, size_t source, char *out, size_t room, size_t *len);

/* OK: *out says whether the source is ignored. RANGE, CLOSED. */
uint32_t smap_is_ignored(smap_map *map, size_t source, bool *out);

/* ---- what the map's text lists, with repeats */

typedef struct smap_listed_mapping {
    uint32_t line, column;
    bool has_source;
    bool has_name;
    uint32_t source_line, source_column;
    uint32_t source;       /* the index in the list of sources, if has_source; else 0 */
    uint32_t name;         /* the index in the list of names, if has_name; else 0 */
} smap_listed_mapping;

/* OK: *out is the number, among the distinct ones, of the i-th source in the list. RANGE, CLOSED. */
uint32_t smap_listed_source(smap_map *map, size_t i, size_t *out);

/* Copies the i-th name in the list. OK, RANGE, CLOSED. */
uint32_t smap_listed_name(smap_map *map, size_t i, char *out, size_t room, size_t *len);

/* The i-th mapping, with indices into the lists, in order of line and column. OK, RANGE, CLOSED. */
uint32_t smap_listed_token(smap_map *map, size_t i, smap_listed_mapping *out);

/* ---- bytes that are written */

/* Bytes that the library wrote. Its fields are for the library alone. */
typedef struct smap_bytes {
    bool is_open;
    void *at;
} smap_bytes;

/* OK: *at points to the bytes, and *len is how many there are. They may be read there until the handle is
 * freed or gets other bytes. CLOSED. */
uint32_t smap_bytes_data(smap_bytes *bytes, const uint8_t **at, size_t *len);

/* Copies the bytes from `from` on into `out`, and returns how many there are in all, or 0 if it is closed. */
size_t smap_bytes_copy(smap_bytes *bytes, size_t from, void *out, size_t room);

/* Frees the bytes. A closed handle stays closed. */
void smap_bytes_free(smap_bytes *bytes);

/* Each of these puts bytes into `out`. OK; CLOSED: `map` is; MEMORY. */

/* The map in canonical form, the same bytes for all maps that mean the same; URLs are absolute. */
uint32_t smap_canonical(smap_map *map, smap_bytes *out);

/* The same, with URLs relative to the map's base if these resolve to the same URLs again. */
uint32_t smap_canonical_relative(smap_map *map, smap_bytes *out);

/* The `mappings` of the canonical form alone. */
uint32_t smap_canonical_mappings(smap_map *map, smap_bytes *out);

/* The map as one flat map, with sources and names as listed. */
uint32_t smap_flatten(smap_map *map, smap_bytes *out);

/* A mappings string, sorted and as short as possible. OK: `out` holds it. REFUSED: *fault says why (`fault`
 * may be NULL). MEMORY. */
uint32_t smap_respell(const char *text, size_t len, smap_bytes *out, smap_fault *fault);

/* ---- stack traces */

/* What became of a line. */
enum { SMAP_KEPT = 0, SMAP_TRANSLATED = 1, SMAP_DROPPED = 2 };

/* Where the URL of a frame is in its line, and the position, which counts from 1. */
typedef struct smap_frame_parts {
    size_t url_from, url_len;
    uint32_t line, column;
} smap_frame_parts;

/* OK: the line, without its line feed, is a frame as V8, Firefox or Safari writes it. NONE: it isn't. */
uint32_t smap_frame(const void *line, size_t len, smap_frame_parts *out);

/* Translates one line, with its line feed if it has one, by the map of the script at `url`. `hide` drops
 * frames in ignored sources. OK: `out` gets the line to write, and *outcome is what became of it. NOT_URL:
 * `url` isn't UTF-8. CLOSED, MEMORY. */
uint32_t smap_translate_line(smap_map *map, const char *url, size_t url_len, const void *line,
                             size_t line_len, bool hide, char *out, size_t room, size_t *len,
                             uint32_t *outcome);

/* Scripts, each a URL and a map. Its fields are for the library alone. */
typedef struct smap_scripts {
    bool is_open;
    void *at;
} smap_scripts;

/* Adds a script; a closed handle is opened by it. The map is shared, so its handle may be closed afterwards.
 * A script with that URL, byte for byte, gets this map in place of its own. OK; NOT_URL: `url` isn't UTF-8;
 * CLOSED: `map` is; MEMORY. */
uint32_t smap_add_script(smap_scripts *scripts, const char *url, size_t url_len, smap_map *map);

/* Closes a handle of scripts. A closed handle stays closed. */
void smap_close_scripts(smap_scripts *scripts);

/* How many lines a trace has, and how many of them were translated and dropped. */
typedef struct smap_trace_counts {
    uint64_t lines, translated, dropped;
} smap_trace_counts;

/* Translates a whole trace. `hide` drops frames in ignored sources. OK: `out` holds the translated trace, and
 * *counts (`counts` may be NULL) says how many lines there were. CLOSED: `scripts` is; MEMORY. */
uint32_t smap_translate(smap_scripts *scripts, const void *trace, size_t len, bool hide, smap_bytes *out,
                        smap_trace_counts *counts);

#ifdef __cplusplus
}
#endif

/* ---- NULL
 *
 * The functions of the library take no NULL. In C and C++ the ones below replace them, which take it for a
 * text or a buffer of length 0, for limits, and for a fault, length, counts or outcome that isn't wanted. */

static const char smap_no_text_[1] = {0};

static inline uint32_t smap_open_(smap_map *map, const void *text, size_t len, const char *base,
                                  size_t base_len, const smap_limits *limits, smap_fault *fault)
{
    const smap_limits usual = {0, 0};
    smap_fault unwanted;
    return smap_open(map, text ? text : smap_no_text_, len, base ? base : smap_no_text_, base_len,
                     limits ? limits : &usual, fault ? fault : &unwanted);
}

static inline size_t smap_code_name_(uint32_t code, char *out, size_t room)
{
    char none;
    return smap_code_name(code, out ? out : &none, room);
}

static inline uint32_t smap_file_(smap_map *map, char *out, size_t room, size_t *len)
{
    char none;
    size_t unwanted;
    return smap_file(map, out ? out : &none, room, len ? len : &unwanted);
}

static inline uint32_t smap_name_at_(smap_map *map, uint32_t line, uint32_t column, char *out, size_t room,
                                     size_t *len)
{
    char none;
    size_t unwanted;
    return smap_name_at(map, line, column, out ? out : &none, room, len ? len : &unwanted);
}

static inline uint32_t smap_source_url_(smap_map *map, size_t source, char *out, size_t room, size_t *len)
{
    char none;
    size_t unwanted;
    return smap_source_url(map, source, out ? out : &none, room, len ? len : &unwanted);
}

static inline uint32_t smap_source_content_(smap_map *map, size_t source, char *out, size_t room, size_t *len)
{
    char none;
    size_t unwanted;
    return smap_source_content(map, source, out ? out : &none, room, len ? len : &unwanted);
}

static inline uint32_t smap_listed_name_(smap_map *map, size_t i, char *out, size_t room, size_t *len)
{
    char none;
    size_t unwanted;
    return smap_listed_name(map, i, out ? out : &none, room, len ? len : &unwanted);
}

static inline size_t smap_bytes_copy_(smap_bytes *bytes, size_t from, void *out, size_t room)
{
    char none;
    return smap_bytes_copy(bytes, from, out ? out : &none, room);
}

static inline uint32_t smap_respell_(const char *text, size_t len, smap_bytes *out, smap_fault *fault)
{
    smap_fault unwanted;
    return smap_respell(text ? text : smap_no_text_, len, out, fault ? fault : &unwanted);
}

static inline uint32_t smap_frame_(const void *line, size_t len, smap_frame_parts *out)
{
    return smap_frame(line ? line : smap_no_text_, len, out);
}

static inline uint32_t smap_translate_line_(smap_map *map, const char *url, size_t url_len, const void *line,
                                            size_t line_len, bool hide, char *out, size_t room, size_t *len,
                                            uint32_t *outcome)
{
    char none;
    size_t unwanted;
    uint32_t ignored;
    return smap_translate_line(map, url ? url : smap_no_text_, url_len, line ? line : smap_no_text_, line_len,
                               hide, out ? out : &none, room, len ? len : &unwanted,
                               outcome ? outcome : &ignored);
}

static inline uint32_t smap_add_script_(smap_scripts *scripts, const char *url, size_t url_len, smap_map *map)
{
    return smap_add_script(scripts, url ? url : smap_no_text_, url_len, map);
}

static inline uint32_t smap_translate_(smap_scripts *scripts, const void *trace, size_t len, bool hide,
                                       smap_bytes *out, smap_trace_counts *counts)
{
    smap_trace_counts unwanted;
    return smap_translate(scripts, trace ? trace : smap_no_text_, len, hide, out,
                          counts ? counts : &unwanted);
}

#define smap_open smap_open_
#define smap_code_name smap_code_name_
#define smap_file smap_file_
#define smap_name_at smap_name_at_
#define smap_source_url smap_source_url_
#define smap_source_content smap_source_content_
#define smap_listed_name smap_listed_name_
#define smap_bytes_copy smap_bytes_copy_
#define smap_respell smap_respell_
#define smap_frame smap_frame_
#define smap_translate_line smap_translate_line_
#define smap_add_script smap_add_script_
#define smap_translate smap_translate_

#endif
