/* smap: reads source maps (ECMA-426, version 3), looks positions up in them, puts them into canonical form,
 * and translates stack traces. The library is written in Rattle, and each function's contract is proved.
 *
 *     smap_map map = {0};
 *     smap_fault fault;
 *     smap_mapping found;
 *     if (smap_open(&map, text, text_len, base, base_len, NULL, &fault) == SMAP_OK) {
 *         if (smap_lookup(&map, line, column, &found) == SMAP_OK && found.has_source) ...
 *         smap_close(&map);
 *     }
 *
 * HANDLES. smap_map, smap_builder, smap_bytes and smap_scripts are structs that belong to the caller, and are
 * all zero while they are closed (`= {0}` in C, `= {}` in C++).
 * An open handle owns what it holds until it is closed; a call that puts something into it frees what it
 * held. A handle may be moved (by memcpy or assignment) if only one of the copies is used from then on.
 * Nothing but the functions below may write into one.
 *
 * STRINGS are passed as a pointer and a length in bytes. No input needs to end with a NUL, and no output does
 * unless stated otherwise. A pointer may be NULL if its length is 0. An output string is copied into `out`,
 * which has `room` bytes: as much of it as fits, and the rest of `out` is unchanged. Its full length is
 * returned, so a call with room 0 asks for the length. Buffers that are written must not overlap anything
 * else that is passed in the same call.
 *
 * NUMBERS. Lines and columns count from 0. Columns are those of the map: JavaScript engines and the tools
 * that write maps count UTF-16 code units. Positions of frames in traces count from 1.
 *
 * CODES. Most calls return one of the codes below. Unless stated otherwise, a call whose code isn't SMAP_OK
 * leaves what it would have written unchanged, except that a length becomes 0. Nothing aborts, and nothing is
 * printed.
 *
 * THREADS. While a call runs, nothing else may use its handles, structs and buffers. Calls on different
 * handles may run at once in different threads, even if smap_share has made them share one map. A handle
 * may be passed to another thread, synchronized by a lock or by the start or end of a thread. No call may be
 * made from a signal handler. Memory is taken by malloc, realloc and free.
 *
 * Nothing checks that the caller keeps to this. */
#ifndef SMAP_H
#define SMAP_H

#include <stdbool.h>
#include <stddef.h>
#include <stdint.h>

#ifdef __cplusplus
extern "C" {
#endif

/* Marks the functions that take a text or fill a buffer. In C and C++ they are inline functions of this
 * header, and allow NULL: for a text or a buffer of length 0, for limits, and for a fault, length, counts or
 * outcome that isn't wanted.
 *
 * The library has functions of the same names, which take no NULL, for other languages. A program that makes
 * bindings out of this header reads declarations of these, and nothing inline, if SMAP_NO_INLINE is defined. */
#ifdef SMAP_NO_INLINE
#define SMAP_INLINE extern
#else
#define SMAP_INLINE static inline
#endif

/* ---- the version */

#define SMAP_VERSION_MAJOR 0
#define SMAP_VERSION_MINOR 3
#define SMAP_VERSION_PATCH 0

/* The version of this header: two decimal digits each for the minor and the patch version. */
#define SMAP_VERSION (SMAP_VERSION_MAJOR * 10000 + SMAP_VERSION_MINOR * 100 + SMAP_VERSION_PATCH)

/* The same for the library that is linked. */
uint32_t smap_version(void);

/* ---- codes */

enum {
    SMAP_OK = 0,         /* done */
    SMAP_REFUSED = 1,    /* the map, or the mappings string, has an error */
    SMAP_NOT_URL = 2,    /* the base is no absolute URL; or a URL isn't UTF-8 */
    SMAP_LIMITS = 3,     /* items above 2147483647, or lines above 16777216 */
    SMAP_MEMORY = 4,     /* out of memory */
    SMAP_CLOSED = 5,     /* a handle is closed */
    SMAP_NONE = 6,       /* nothing there: no mapping, no URL, no content, no name, no file, no frame */
    SMAP_RANGE = 7,      /* the number isn't below the count, or no mapping has such numbers */
    SMAP_URL_BYTES = 8,  /* the URLs of a map's sources take more bytes than they may */
    SMAP_NOT_BASE64 = 9, /* a data: URL says that it is base64, and isn't */
    SMAP_NOT_UTF8 = 10,  /* a path, a URL or a text for a builder isn't UTF-8 */
    SMAP_TOO_MANY = 11   /* a map that is made has more sources or names than the limits allow */
};

/* Copies the name of a code into `out`, such as "out of memory", and returns its length, or 0 if the number
 * is no code. */
SMAP_INLINE size_t smap_code_name(uint32_t code, char *out, size_t room);

/* ---- errors of maps */

/* What is wrong with a map. docs/FORMAT.md has the rules, and the order in which errors are looked for.
 * (tools/write-bindings writes the names and the numbers, out of the definitions.) */
enum {
    SMAP_FAULT_PREFIX = 1,           /* the text begins with )]}' and has no line feed */
    SMAP_FAULT_JSON = 2,             /* the text isn't JSON in UTF-8 */
    SMAP_FAULT_NOT_OBJECT = 3,       /* a map or a section isn't an object */
    SMAP_FAULT_VERSION = 4,          /* `version` isn't the integer 3 */
    SMAP_FAULT_FILE = 5,             /* `file` is neither absent nor a string */
    SMAP_FAULT_BOTH = 6,             /* `sections` and `mappings` are both present */
    SMAP_FAULT_SOURCE_ROOT = 7,      /* `sourceRoot` is neither absent nor a string */
    SMAP_FAULT_SOURCES = 8,          /* `sources` is neither absent nor an array of strings and nulls */
    SMAP_FAULT_SOURCES_CONTENT = 9,  /* the same for `sourcesContent` */
    SMAP_FAULT_NAMES = 10,           /* `names` is neither absent nor an array of strings */
    SMAP_FAULT_IGNORE_LIST = 11,     /* `ignoreList` is neither absent nor an array of indices of sources */
    SMAP_FAULT_MAPPINGS = 12,        /* `mappings` isn't a string */
    SMAP_FAULT_SECTIONS = 13,        /* `sections` isn't an array */
    SMAP_FAULT_OFFSET = 14,          /* a section's offset isn't a line and a column */
    SMAP_FAULT_SECTION_MAP = 15,     /* a section's `map` isn't an object */
    SMAP_FAULT_NESTED = 16,          /* sections are nested more than eight levels deep */
    SMAP_FAULT_ORDER = 17,           /* a section's offset is before that of the previous section */
    SMAP_FAULT_OVERLAP = 18,         /* a section begins before a mapping of an earlier section */
    SMAP_FAULT_TOO_MANY = 19,        /* more sources or names than the limits allow */
    SMAP_FAULT_SOURCE_URL = 20,      /* source `number` is no URL */
    SMAP_FAULT_UNSTABLE_URL = 21,    /* source `number` has a URL that doesn't resolve to itself */
    SMAP_FAULT_EMPTY = 22,           /* a segment is empty */
    SMAP_FAULT_UNFINISHED = 23,      /* number `number` of a segment, from 1 (255: or later), is unfinished */
    SMAP_FAULT_CHARACTER = 24,       /* the same: a bad character */
    SMAP_FAULT_TOO_LARGE = 25,       /* the same: 2^32 or more */
    SMAP_FAULT_NEGATIVE_ZERO = 26,   /* the same: negative zero */
    SMAP_FAULT_COUNT = 27,           /* a segment has `number` numbers (255: or more), not 1, 4 or 5 */
    SMAP_FAULT_GENERATED_LINE = 28,  /* a generated line isn't below the limit */
    SMAP_FAULT_COLUMN = 29,          /* a generated column is out of range */
    SMAP_FAULT_SOURCE = 30,          /* a source index is out of range */
    SMAP_FAULT_ORIGINAL_LINE = 31,   /* an original line is out of range */
    SMAP_FAULT_ORIGINAL_COLUMN = 32, /* an original column is out of range */
    SMAP_FAULT_NAME = 33             /* a name index is out of range */
};

/* Copies the name of a kind of error, as docs/ERRORS.md has it, into `out`, such as "SourceUrl", and returns
 * its length, or 0 if the number is no kind. */
SMAP_INLINE size_t smap_fault_name(uint32_t kind, char *out, size_t room);

/* The first error of a map or of a mappings string. */
typedef struct smap_fault {
    uint32_t kind;     /* SMAP_FAULT_.. */
    uint32_t line;     /* the line of the mappings string, from 0, if has_place; else 0 */
    uint32_t segment;  /* the segment in that line, from 0 */
    bool has_place;
    size_t number;     /* as the kind says, else 0 */
    size_t depth;      /* how many numbers of `section` are used: 0 if the error is in no section */
    size_t section[8]; /* the index of the section at each level, the outermost first, each from 0 */
    size_t text_len;
    char text[264];    /* the message, such as "line 0 segment 1: source index", with a NUL after it */
} smap_fault;

/* ---- maps */

/* A map. Its fields are for the library alone. */
typedef struct smap_map {
    bool is_open;
    void *at;
} smap_map;

/* Limits on a map. For each of the two, 0 stands for the usual limit, 16777216. */
typedef struct smap_limits {
    uint32_t items; /* how many sources a map may list, and how many names; at most 2147483647 */
    uint32_t lines; /* how many generated lines it may have; at most 16777216 */
} smap_limits;

/* Reads a map, whose URL is `base`. The text may be freed afterwards. NULL for `limits` means the usual ones.
 * OK: `map` holds it. REFUSED: *fault says why (`fault` may be NULL). NOT_URL: the base is no absolute URL.
 * LIMITS: a limit is too large, whatever the base is. MEMORY.
 * Beside the map the handle keeps its sources as the text writes them, and a table of its lines, by which
 * lookups are faster. The table takes at most 16 bytes for each mapping and 16 more, and nothing if the
 * number of the last mapping's line is more than twice the number of mappings. */
SMAP_INLINE uint32_t smap_open(smap_map *map, const void *text, size_t len, const char *base,
                               size_t base_len, const smap_limits *limits, smap_fault *fault);

/* Reads a map as smap_open does, unless the URLs of its sources take more than `url_bytes` bytes in all. The
 * `sourceRoot` of a map goes before each of its sources, so that a map of half a megabyte may have URLs of
 * gigabytes: what opens maps of others needs such a bound. SIZE_MAX is none.
 * Each source counts as often as the map lists it, with the bytes of its URL, or of the text that the URL is
 * made from (`sourceRoot` and the source) if that has more. So the time has a bound too: it grows with the
 * length of the text, with `url_bytes`, and for each source with the length of the base.
 * Codes: those of smap_open, and URL_BYTES: the URLs take more, and no memory was taken for them, but for
 * one at a time. It isn't known then whether the map has an error. */
SMAP_INLINE uint32_t smap_open_within(smap_map *map, const void *text, size_t len, const char *base,
                                      size_t base_len, const smap_limits *limits, size_t url_bytes,
                                      smap_fault *fault);

/* Closes a handle. The map is freed with the last handle that shares it. A closed handle stays closed. */
void smap_close(smap_map *map);

/* Makes `other` a second handle of the map, for instance for another thread: nothing is copied. The two
 * handles must be different ones. OK; CLOSED: `map` is; MEMORY. */
uint32_t smap_share(smap_map *map, smap_map *other);

/* OK: *out says whether the two maps mean the same, that is, have equal files, sources and mappings, however
 * their texts write them. CLOSED: one of them is. The two handles must be different ones. */
uint32_t smap_same(smap_map *one, smap_map *other, bool *out);

typedef struct smap_counts {
    size_t sources;        /* distinct sources: those with another URL, content or ignored flag */
    size_t listed_sources; /* sources as the map lists them */
    size_t names;          /* names as the map lists them */
    size_t mappings;
    uint32_t lines;        /* one more than the line of the last mapping; 0 without mappings */
} smap_counts;

/* OK, CLOSED. */
uint32_t smap_count(smap_map *map, smap_counts *out);

/* OK: *out is about how many bytes of memory the map takes, its strings and mappings included. That is what
 * counts in a cache, for instance. Handles that share a map share them. The time grows with the numbers of
 * sources and names, and no memory is taken. CLOSED. */
uint32_t smap_held(smap_map *map, size_t *out);

/* Copies the name of the generated file. OK; NONE: the map has none; CLOSED. */
SMAP_INLINE uint32_t smap_file(smap_map *map, char *out, size_t room, size_t *len);

/* ---- lookups */

typedef struct smap_mapping {
    uint32_t line, column; /* where the mapping begins in the generated text */
    bool has_source;       /* false: it has no original, and the rest is 0 */
    bool has_name;         /* its name: smap_name_at */
    bool is_ignored;       /* its source is ignored: a library, mostly */
    uint32_t source_line, source_column;
    size_t source;         /* the source's number, below `sources` of smap_counts */
} smap_mapping;

/* The mapping for a generated position: the last one of the line whose column isn't greater. The time grows
 * with the logarithm of the number of mappings on that line, or of all mappings without a table of lines
 * (smap_open), and no memory is taken. OK, NONE, CLOSED. */
uint32_t smap_lookup(smap_map *map, uint32_t line, uint32_t column, smap_mapping *out);

/* OK: *out is the number of the mapping that smap_lookup finds there, for smap_token and smap_listed_token.
 * NONE, CLOSED. */
uint32_t smap_find(smap_map *map, uint32_t line, uint32_t column, size_t *out);

/* Copies the name of the mapping for a generated position. OK; NONE: there is no mapping, or it has no name;
 * CLOSED. */
SMAP_INLINE uint32_t smap_name_at(smap_map *map, uint32_t line, uint32_t column, char *out, size_t room,
                                  size_t *len);

/* The i-th mapping, in order of line and column. OK, RANGE, CLOSED. */
uint32_t smap_token(smap_map *map, size_t i, smap_mapping *out);

/* ---- sources, by their numbers from 0 */

/* Copies the URL of a source. OK; NONE: it has no URL; RANGE; CLOSED. */
SMAP_INLINE uint32_t smap_source_url(smap_map *map, size_t source, char *out, size_t room, size_t *len);

/* Copies the content of a source. OK; NONE: the map doesn't have it; RANGE; CLOSED. */
SMAP_INLINE uint32_t smap_source_content(smap_map *map, size_t source, char *out, size_t room, size_t *len);

/* OK: *out says whether a source is ignored. RANGE, CLOSED. */
uint32_t smap_is_ignored(smap_map *map, size_t source, bool *out);

/* ---- what the map's text lists, with repeats */

typedef struct smap_listed_mapping {
    uint32_t line, column;
    bool has_source;
    bool has_name;
    uint32_t source_line, source_column;
    uint32_t source;       /* the index in the list of sources, if has_source; else 0 */
    uint32_t name;         /* the index in the list of names, if has_name; else 0 */
} smap_listed_mapping;

/* OK: *out is the number, among the distinct sources, of the i-th one that the map lists. RANGE, CLOSED. */
uint32_t smap_listed_source(smap_map *map, size_t i, size_t *out);

/* Copies the i-th source that the map lists, as its text writes it: not resolved, and without its
 * `sourceRoot`. OK; NONE: it is null; RANGE; CLOSED. */
SMAP_INLINE uint32_t smap_written_source(smap_map *map, size_t i, char *out, size_t room, size_t *len);

/* Copies the `sourceRoot` that applies to the i-th source that the map lists, which may be empty: in an index
 * map that of the section's map. OK; NONE: there is none; RANGE; CLOSED. */
SMAP_INLINE uint32_t smap_written_root(smap_map *map, size_t i, char *out, size_t room, size_t *len);

/* Copies the i-th name that the map lists. OK, RANGE, CLOSED. */
SMAP_INLINE uint32_t smap_listed_name(smap_map *map, size_t i, char *out, size_t room, size_t *len);

/* The i-th mapping, with indices into the lists, in order of line and column. OK, RANGE, CLOSED. */
uint32_t smap_listed_token(smap_map *map, size_t i, smap_listed_mapping *out);

/* ---- maps made of maps
 *
 * Each of these opens `out` on a map that it makes, with the base of the map that it is made of. No text writes
 * that map: its sources as written are their URLs, without `sourceRoot`. `out` must be another handle than
 * those that are read, which stay as they are. */

/* Composes a map with maps of its sources, where these were generated themselves: docs/FORMAT.md,
 * "Compositions". leads[i] is the index, among the `inner_count` handles at `inner`, of the map of the source
 * with number i; the source has none if that isn't below `inner_count`, as SIZE_MAX, or if i isn't below
 * `leads_count`. smap_share makes handles for the array; they must be different ones, and not `outer`. NULL for
 * `limits` means the usual ones; its `lines` isn't looked at, but must not be too large.
 * OK; LIMITS; CLOSED: one of the handles is; TOO_MANY: the sources that stand for those of `outer`, each as often
 * as it does, or the names that are used, are more than limits->items; MEMORY. */
SMAP_INLINE uint32_t smap_compose(smap_map *outer, smap_map *inner, size_t inner_count, const size_t *leads,
                                  size_t leads_count, const smap_limits *limits, smap_map *out);

/* Makes a map without the mappings that change no position's original. OK, CLOSED, MEMORY. */
uint32_t smap_thin(smap_map *map, smap_map *out);

/* Makes a map without the sources that no mapping has. OK, CLOSED, MEMORY. */
uint32_t smap_only_used(smap_map *map, smap_map *out);

/* ---- maps that are built
 *
 *     smap_builder builder = {0};
 *     uint32_t source;
 *     smap_builder_open(&builder, base, base_len, NULL);
 *     smap_builder_source(&builder, true, "a.ts", 4, &source);
 *     const uint32_t mapping[6] = {0, 7, source, 10, 2, UINT32_MAX};
 *     smap_builder_add(&builder, mapping, 1, NULL);
 *     smap_builder_finish(&builder, &map);
 *
 * Of a call's codes the first counts that its comment has. For a text that is said to be missing, as with
 * `has_file` false, NULL and 0 are passed. */

/* A map that is being built. Its fields are for the library alone. */
typedef struct smap_builder {
    bool is_open;
    void *at;
} smap_builder;

/* Opens a builder that has nothing yet, of a map whose URL is `base`. NULL for `limits` means the usual ones.
 * OK; NOT_URL: the base is no absolute URL; LIMITS: a limit is too large, whatever the base is; MEMORY. */
SMAP_INLINE uint32_t smap_builder_open(smap_builder *builder, const char *base, size_t base_len,
                                       const smap_limits *limits);

/* Gives the generated file this name, or none, which it has at first. OK, NOT_UTF8, CLOSED, MEMORY. */
SMAP_INLINE uint32_t smap_builder_file(smap_builder *builder, bool has_file, const char *file, size_t len);

/* OK: *number is that of the source with this URL, which may be relative to the base, or of the source
 * without a URL. The first such call lists the source, after the others, without content and not ignored;
 * later ones give the same number. `number` may be NULL. NOT_UTF8; CLOSED; NOT_URL: the base and `url` make
 * no URL; TOO_MANY: it would be listed, and there are limits->items sources; MEMORY. */
SMAP_INLINE uint32_t smap_builder_source(smap_builder *builder, bool has_url, const char *url, size_t len,
                                         uint32_t *number);

/* Gives a source this content, or none. OK; NOT_UTF8; CLOSED; RANGE: no source has that number; MEMORY. */
SMAP_INLINE uint32_t smap_builder_content(smap_builder *builder, uint32_t source, bool has_content,
                                          const char *content, size_t len);

/* Says whether a source is ignored. OK; CLOSED; RANGE: no source has that number. */
uint32_t smap_builder_ignore(smap_builder *builder, uint32_t source, bool is_ignored);

/* OK: *number is that of a name, which the first such call lists. `number` may be NULL. NOT_UTF8; CLOSED;
 * TOO_MANY: it would be listed, and there are limits->items names; MEMORY. */
SMAP_INLINE uint32_t smap_builder_name(smap_builder *builder, const char *name, size_t len, uint32_t *number);

/* Adds mappings, in any order. Each has six numbers, as those of smap_spell. OK; CLOSED; RANGE: one of them
 * isn't as smap_spell wants it, or its generated line isn't below limits->lines, or no source or no name has
 * its number. Then none is added, and *wrong is the index of the first such mapping (`wrong` may be NULL).
 * MEMORY: some of the first ones may be added. */
SMAP_INLINE uint32_t smap_builder_add(smap_builder *builder, const uint32_t *numbers, size_t mappings,
                                      size_t *wrong);

/* Closes the builder, and opens `out` on its map, with its base. The mappings are sorted by generated line
 * and column; those at one position are in the order in which they were added. No text writes that map: its
 * sources as written are their URLs, without `sourceRoot`. OK; CLOSED; MEMORY, and the builder is closed. */
uint32_t smap_builder_finish(smap_builder *builder, smap_map *out);

/* Closes a handle. A closed handle stays closed. */
void smap_builder_close(smap_builder *builder);

/* ---- bytes that are written */

/* Bytes that the library wrote. Its fields are for the library alone. */
typedef struct smap_bytes {
    bool is_open;
    void *at;
} smap_bytes;

/* OK: *at points to the bytes, and *len is how many there are. They may be read there until the handle is
 * freed or gets other bytes. CLOSED. */
uint32_t smap_bytes_data(smap_bytes *bytes, const uint8_t **at, size_t *len);

/* Copies the bytes from `from` on into `out`, and returns how many there are in all, or 0 if it is closed. */
SMAP_INLINE size_t smap_bytes_copy(smap_bytes *bytes, size_t from, void *out, size_t room);

/* Frees the bytes. A closed handle stays closed. */
void smap_bytes_free(smap_bytes *bytes);

/* Each of these puts bytes into `out`. OK; CLOSED: `map` is; MEMORY. */

/* The map in canonical form, the same bytes for all maps that mean the same; URLs are absolute. */
uint32_t smap_canonical(smap_map *map, smap_bytes *out);

/* The same, with URLs relative to the map's base if these resolve to the same URLs again. */
uint32_t smap_canonical_relative(smap_map *map, smap_bytes *out);

/* The `mappings` of the canonical form alone. */
uint32_t smap_canonical_mappings(smap_map *map, smap_bytes *out);

/* The map as one flat map, with sources and names as listed. */
uint32_t smap_flatten(smap_map *map, smap_bytes *out);

/* A mappings string, sorted and as short as possible. OK: `out` holds it. REFUSED: *fault says why (`fault`
 * may be NULL). MEMORY. */
SMAP_INLINE uint32_t smap_respell(const char *text, size_t len, smap_bytes *out, smap_fault *fault);

/* The mappings string of mappings, sorted by generated line and column and as short as possible. They may
 * come in any order, and then a sort takes memory; those at one position keep it. Each has six numbers,
 * one after another and each from 0: the generated line and column, the source, its line and column, and
 * the name. 4294967295 stands for none: the last four in a mapping without an original, the last one in
 * one without a name.
 * OK: `out` holds the string. RANGE: a generated line isn't below 16777216, another number is above
 * 2147483647 and not none, or a mapping has no generated column, or a part of an original; *wrong is the
 * index of the first such mapping (`wrong` may be NULL). MEMORY. */
SMAP_INLINE uint32_t smap_spell(const uint32_t *numbers, size_t mappings, smap_bytes *out, size_t *wrong);

/* ---- stack traces */

/* What became of a line. */
enum { SMAP_KEPT = 0, SMAP_TRANSLATED = 1, SMAP_DROPPED = 2 };

/* Where the URL of a frame is in its line, and the position, which counts from 1. */
typedef struct smap_frame_parts {
    size_t url_from, url_len;
    uint32_t line, column;
} smap_frame_parts;

/* OK: the line, without its line feed, is a frame, as engines write it in stack traces. NONE: it isn't. */
SMAP_INLINE uint32_t smap_frame(const void *line, size_t len, smap_frame_parts *out);

/* How a trace is translated: 0, or some of these joined by `|`. Other bits aren't looked at.
 *
 * The parameter used to be `bool hide`. True and false mean what they meant, also where a program that was
 * compiled then passes them. */
enum {
    /* Lines that are frames in ignored sources are dropped. */
    SMAP_HIDE_IGNORED = 1,

    /* Positions are found anywhere in a line, also behind a timestamp, and several of them: wherever the URL
     * of a script stands, with a line and a column behind it. Without this bit only a line that is a frame
     * has a position. The same lines are dropped with and without it. */
    SMAP_ANYWHERE = 2,

    /* The URL of a script may be followed by a query and a fragment, which are replaced with it, as in
     * `out.js?v=3:1:2`. Where the URLs of several scripts fit, the longest counts. */
    SMAP_IGNORE_QUERY = 4,

    /* Frames get the names of functions, where these are sure (docs/LOGS.md, "Names of functions"), by the
     * texts of sources in the maps. Each call reads those that it needs anew, so one call for many lines is
     * faster than one for each. */
    SMAP_NAMES = 8
};

/* Translates one line, with its line feed if it has one, by the map of the script at `url`. OK: `out` gets
 * the line to write, and *outcome is what became of it. NOT_URL: `url` isn't UTF-8. CLOSED, MEMORY. */
SMAP_INLINE uint32_t smap_translate_line(smap_map *map, const char *url, size_t url_len, const void *line,
                                         size_t line_len, uint8_t how, char *out, size_t room, size_t *len,
                                         uint32_t *outcome);

/* Scripts, each a URL and a map. Its fields are for the library alone. */
typedef struct smap_scripts {
    bool is_open;
    void *at;
} smap_scripts;

/* Adds a script; a closed handle is opened by it. The map is shared, so its handle may be closed afterwards.
 * A script with that URL, byte for byte, gets this map in place of its own. OK; NOT_URL: `url` isn't UTF-8;
 * CLOSED: `map` is; MEMORY. */
SMAP_INLINE uint32_t smap_add_script(smap_scripts *scripts, const char *url, size_t url_len, smap_map *map);

/* Closes a handle of scripts. A closed handle stays closed. */
void smap_close_scripts(smap_scripts *scripts);

/* How many lines a trace has, and how many of them were translated and dropped. */
typedef struct smap_trace_counts {
    uint64_t lines, translated, dropped;
} smap_trace_counts;

/* Translates a whole trace. OK: `out` holds the translated trace, and *counts (`counts` may be NULL) says how
 * many lines there were. CLOSED: `scripts` is; MEMORY. */
SMAP_INLINE uint32_t smap_translate(smap_scripts *scripts, const void *trace, size_t len, uint8_t how,
                                    smap_bytes *out, smap_trace_counts *counts);

/* ---- which map belongs to a script (docs/LINKING.md has the rules)
 *
 * A script's name is its URL, or its absolute path: /a/b.js, C:\a\b.js. Each of these that has an `out`
 * puts bytes into it; a fault that a code names leaves it as it was. */

/* Copies the URL of its map that a script, or with `css` a style sheet, names in its last comment, as it
 * stands there. The text is read from its end, and no further than the last line that has more than white
 * space and comments. OK, NONE. */
SMAP_INLINE uint32_t smap_script_link(const void *text, size_t len, bool css, char *out, size_t room,
                                      size_t *url_len);

/* That URL resolved against the script's own. OK; NOT_URL: the script's name is neither a URL nor an absolute
 * path, or the two make no URL; NOT_UTF8; MEMORY. */
SMAP_INLINE uint32_t smap_resolve(const char *script, size_t script_len, const char *url, size_t url_len,
                                  smap_bytes *out);

/* The bytes that a data: URL holds. OK; NONE: it is another URL; NOT_URL: it has no comma; NOT_BASE64;
 * MEMORY. */
SMAP_INLINE uint32_t smap_data_url(const char *url, size_t len, smap_bytes *out);

/* The file: URL of an absolute path. OK; NONE: the path isn't absolute; NOT_UTF8; MEMORY. */
SMAP_INLINE uint32_t smap_file_url(const char *path, size_t len, smap_bytes *out);

/* The path of a file: URL. OK; NONE: it is another URL; NOT_URL: it names another host, or an escape of it
 * stands for a slash or a NUL; NOT_UTF8; MEMORY. */
SMAP_INLINE uint32_t smap_file_path(const char *url, size_t len, smap_bytes *out);

/* The URL of the script with this name below a folder, which has a URL or a path that ends in a slash. OK,
 * MEMORY. */
SMAP_INLINE uint32_t smap_script_url(const char *folder, size_t folder_len, const char *name,
                                     size_t name_len, smap_bytes *out);

/* The name with which smap_script_url makes this URL. OK; NONE: the script isn't below the folder, or its URL
 * is spelled otherwise; MEMORY. */
SMAP_INLINE uint32_t smap_script_name(const char *folder, size_t folder_len, const char *url,
                                      size_t url_len, smap_bytes *out);

/* What a file is by the end of its name. */
enum {
    SMAP_FILE_OTHER = 0,
    SMAP_FILE_SCRIPT = 1,      /* .js, .mjs, .cjs */
    SMAP_FILE_STYLE_SHEET = 2, /* .css */
    SMAP_FILE_MAP = 3          /* .map */
};

SMAP_INLINE uint32_t smap_file_kind(const char *name, size_t len);

/* What a script names for its map. */
enum {
    SMAP_NAMED_UNSAID = 0,  /* nothing, in a text of white space and comments: what is before it would say */
    SMAP_NAMED_NOTHING = 1, /* nothing */
    SMAP_NAMED_INLINE = 2,  /* the map itself, in a data: URL */
    SMAP_NAMED_FILE = 3,    /* a file below the script's folder */
    SMAP_NAMED_GARBLED = 4, /* a data: URL that can't be decoded */
    SMAP_NAMED_NO_NAME = 5, /* an empty URL, or one of more than 65,536 bytes */
    SMAP_NAMED_NOT_URL = 6, /* what makes no URL with the script's */
    SMAP_NAMED_LEAVES = 7   /* a URL of no file below the folder */
};

/* What the script, or the style sheet (.css), with this name below a folder names for its map, as *kind
 * (`kind` may be NULL) says. The folder has a URL or a path that ends in a slash; the text is the script's,
 * or its last lines. OK: `out` holds the map, or its file's name below the folder; NONE: *kind is another;
 * MEMORY. */
SMAP_INLINE uint32_t smap_named_map(const char *folder, size_t folder_len, const char *name,
                                    size_t name_len, const void *text, size_t len, smap_bytes *out,
                                    uint32_t *kind);

/* The next of the maps that a script may have, after so many that can't be had (`tried`): first the one that
 * it names, then the file NAME.map next to it. The first that can be had is its map. The folder, the name, the
 * text and *kind are those of smap_named_map. OK: `out` holds the map, if *kind is SMAP_NAMED_INLINE and
 * `tried` is 0, or else its file's name below the folder; NONE: there are no more; MEMORY. */
SMAP_INLINE uint32_t smap_script_map(const char *folder, size_t folder_len, const char *name,
                                     size_t name_len, const void *text, size_t len, size_t tried,
                                     smap_bytes *out, uint32_t *kind);

/* What all names of a script have in common: those are alike for which these bytes are the same. With
 * `with_query` what those have in common that also have the same query, since a script with another query is
 * another one. OK, MEMORY. */
SMAP_INLINE uint32_t smap_normal_form(const char *name, size_t len, bool with_query, smap_bytes *out);

/* OK: *out says whether two names are alike, that is, differ at most in the query, the fragment, the default
 * port, the capitals of the host, in percent escapes that no character needs, in being a path or its file:
 * URL, and in the case of the drive. MEMORY. */
SMAP_INLINE uint32_t smap_alike(const char *one, size_t one_len, const char *other, size_t other_len,
                                bool *out);

#ifndef SMAP_NO_INLINE

/* ---- texts that end with a NUL (tools/write-bindings writes this part, out of the declarations above)
 *
 * NAME_text is NAME for such texts, without their lengths. NULL stands for an empty one. */

static inline size_t smap_length_(const char *text)
{
    size_t len = 0;
    while (text && text[len]) len++;
    return len;
}

static inline uint32_t smap_open_text(smap_map *map, const char *text, const char *base,
                                      const smap_limits *limits, smap_fault *fault)
{
    return smap_open(map, text, smap_length_(text), base, smap_length_(base), limits, fault);
}

static inline uint32_t smap_open_within_text(smap_map *map, const char *text, const char *base,
                                             const smap_limits *limits, size_t url_bytes,
                                             smap_fault *fault)
{
    return smap_open_within(map, text, smap_length_(text), base, smap_length_(base), limits, url_bytes,
                            fault);
}

static inline uint32_t smap_builder_open_text(smap_builder *builder, const char *base,
                                              const smap_limits *limits)
{
    return smap_builder_open(builder, base, smap_length_(base), limits);
}

static inline uint32_t smap_builder_file_text(smap_builder *builder, bool has_file, const char *file)
{
    return smap_builder_file(builder, has_file, file, smap_length_(file));
}

static inline uint32_t smap_builder_source_text(smap_builder *builder, bool has_url, const char *url,
                                                uint32_t *number)
{
    return smap_builder_source(builder, has_url, url, smap_length_(url), number);
}

static inline uint32_t smap_builder_content_text(smap_builder *builder, uint32_t source, bool has_content,
                                                 const char *content)
{
    return smap_builder_content(builder, source, has_content, content, smap_length_(content));
}

static inline uint32_t smap_builder_name_text(smap_builder *builder, const char *name, uint32_t *number)
{
    return smap_builder_name(builder, name, smap_length_(name), number);
}

static inline uint32_t smap_respell_text(const char *text, smap_bytes *out, smap_fault *fault)
{
    return smap_respell(text, smap_length_(text), out, fault);
}

static inline uint32_t smap_frame_text(const char *line, smap_frame_parts *out)
{
    return smap_frame(line, smap_length_(line), out);
}

static inline uint32_t smap_translate_line_text(smap_map *map, const char *url, const char *line,
                                                uint8_t how, char *out, size_t room, size_t *len,
                                                uint32_t *outcome)
{
    return smap_translate_line(map, url, smap_length_(url), line, smap_length_(line), how, out, room, len,
                               outcome);
}

static inline uint32_t smap_add_script_text(smap_scripts *scripts, const char *url, smap_map *map)
{
    return smap_add_script(scripts, url, smap_length_(url), map);
}

static inline uint32_t smap_translate_text(smap_scripts *scripts, const char *trace, uint8_t how,
                                           smap_bytes *out, smap_trace_counts *counts)
{
    return smap_translate(scripts, trace, smap_length_(trace), how, out, counts);
}

static inline uint32_t smap_script_link_text(const char *text, bool css, char *out, size_t room,
                                             size_t *url_len)
{
    return smap_script_link(text, smap_length_(text), css, out, room, url_len);
}

static inline uint32_t smap_resolve_text(const char *script, const char *url, smap_bytes *out)
{
    return smap_resolve(script, smap_length_(script), url, smap_length_(url), out);
}

static inline uint32_t smap_data_url_text(const char *url, smap_bytes *out)
{
    return smap_data_url(url, smap_length_(url), out);
}

static inline uint32_t smap_file_url_text(const char *path, smap_bytes *out)
{
    return smap_file_url(path, smap_length_(path), out);
}

static inline uint32_t smap_file_path_text(const char *url, smap_bytes *out)
{
    return smap_file_path(url, smap_length_(url), out);
}

static inline uint32_t smap_script_url_text(const char *folder, const char *name, smap_bytes *out)
{
    return smap_script_url(folder, smap_length_(folder), name, smap_length_(name), out);
}

static inline uint32_t smap_script_name_text(const char *folder, const char *url, smap_bytes *out)
{
    return smap_script_name(folder, smap_length_(folder), url, smap_length_(url), out);
}

static inline uint32_t smap_file_kind_text(const char *name)
{
    return smap_file_kind(name, smap_length_(name));
}

static inline uint32_t smap_named_map_text(const char *folder, const char *name, const char *text,
                                           smap_bytes *out, uint32_t *kind)
{
    return smap_named_map(folder, smap_length_(folder), name, smap_length_(name), text,
                          smap_length_(text), out, kind);
}

static inline uint32_t smap_script_map_text(const char *folder, const char *name, const char *text,
                                            size_t tried, smap_bytes *out, uint32_t *kind)
{
    return smap_script_map(folder, smap_length_(folder), name, smap_length_(name), text,
                           smap_length_(text), tried, out, kind);
}

static inline uint32_t smap_normal_form_text(const char *name, bool with_query, smap_bytes *out)
{
    return smap_normal_form(name, smap_length_(name), with_query, out);
}

static inline uint32_t smap_alike_text(const char *one, const char *other, bool *out)
{
    return smap_alike(one, smap_length_(one), other, smap_length_(other), out);
}

/* ---- the functions that are marked SMAP_INLINE
 *
 * NAME_strict is the library's function NAME, which takes no NULL. It has this second name since nothing in C
 * calls a function of a library from an inline function that has its name. */

size_t smap_code_name_strict(uint32_t code, char *out, size_t room);
size_t smap_fault_name_strict(uint32_t kind, char *out, size_t room);
uint32_t smap_open_strict(smap_map *map, const void *text, size_t len, const char *base, size_t base_len,
                          const smap_limits *limits, smap_fault *fault);
uint32_t smap_open_within_strict(smap_map *map, const void *text, size_t len, const char *base,
                                 size_t base_len, const smap_limits *limits, size_t url_bytes,
                                 smap_fault *fault);
uint32_t smap_file_strict(smap_map *map, char *out, size_t room, size_t *len);
uint32_t smap_name_at_strict(smap_map *map, uint32_t line, uint32_t column, char *out, size_t room,
                             size_t *len);
uint32_t smap_source_url_strict(smap_map *map, size_t source, char *out, size_t room, size_t *len);
uint32_t smap_source_content_strict(smap_map *map, size_t source, char *out, size_t room, size_t *len);
uint32_t smap_written_source_strict(smap_map *map, size_t i, char *out, size_t room, size_t *len);
uint32_t smap_written_root_strict(smap_map *map, size_t i, char *out, size_t room, size_t *len);
uint32_t smap_listed_name_strict(smap_map *map, size_t i, char *out, size_t room, size_t *len);
uint32_t smap_compose_strict(smap_map *outer, smap_map *inner, size_t inner_count, const size_t *leads,
                             size_t leads_count, const smap_limits *limits, smap_map *out);
uint32_t smap_builder_open_strict(smap_builder *builder, const char *base, size_t base_len,
                                  const smap_limits *limits);
uint32_t smap_builder_file_strict(smap_builder *builder, bool has_file, const char *file, size_t len);
uint32_t smap_builder_source_strict(smap_builder *builder, bool has_url, const char *url, size_t len,
                                    uint32_t *number);
uint32_t smap_builder_content_strict(smap_builder *builder, uint32_t source, bool has_content,
                                     const char *content, size_t len);
uint32_t smap_builder_name_strict(smap_builder *builder, const char *name, size_t len, uint32_t *number);
uint32_t smap_builder_add_strict(smap_builder *builder, const uint32_t *numbers, size_t mappings,
                                 size_t *wrong);
size_t smap_bytes_copy_strict(smap_bytes *bytes, size_t from, void *out, size_t room);
uint32_t smap_respell_strict(const char *text, size_t len, smap_bytes *out, smap_fault *fault);
uint32_t smap_spell_strict(const uint32_t *numbers, size_t mappings, smap_bytes *out, size_t *wrong);
uint32_t smap_frame_strict(const void *line, size_t len, smap_frame_parts *out);
uint32_t smap_translate_line_strict(smap_map *map, const char *url, size_t url_len, const void *line,
                                    size_t line_len, uint8_t how, char *out, size_t room, size_t *len,
                                    uint32_t *outcome);
uint32_t smap_add_script_strict(smap_scripts *scripts, const char *url, size_t url_len, smap_map *map);
uint32_t smap_translate_strict(smap_scripts *scripts, const void *trace, size_t len, uint8_t how,
                               smap_bytes *out, smap_trace_counts *counts);
uint32_t smap_script_link_strict(const void *text, size_t len, bool css, char *out, size_t room,
                                 size_t *url_len);
uint32_t smap_resolve_strict(const char *script, size_t script_len, const char *url, size_t url_len,
                             smap_bytes *out);
uint32_t smap_data_url_strict(const char *url, size_t len, smap_bytes *out);
uint32_t smap_file_url_strict(const char *path, size_t len, smap_bytes *out);
uint32_t smap_file_path_strict(const char *url, size_t len, smap_bytes *out);
uint32_t smap_script_url_strict(const char *folder, size_t folder_len, const char *name, size_t name_len,
                                smap_bytes *out);
uint32_t smap_script_name_strict(const char *folder, size_t folder_len, const char *url, size_t url_len,
                                 smap_bytes *out);
uint32_t smap_file_kind_strict(const char *name, size_t len);
uint32_t smap_named_map_strict(const char *folder, size_t folder_len, const char *name, size_t name_len,
                               const void *text, size_t len, smap_bytes *out, uint32_t *kind);
uint32_t smap_script_map_strict(const char *folder, size_t folder_len, const char *name, size_t name_len,
                                const void *text, size_t len, size_t tried, smap_bytes *out,
                                uint32_t *kind);
uint32_t smap_normal_form_strict(const char *name, size_t len, bool with_query, smap_bytes *out);
uint32_t smap_alike_strict(const char *one, size_t one_len, const char *other, size_t other_len,
                           bool *out);

static const char smap_no_text_[1] = {0};

static inline size_t smap_code_name(uint32_t code, char *out, size_t room)
{
    char no_out;
    return smap_code_name_strict(code, out ? out : &no_out, room);
}

static inline size_t smap_fault_name(uint32_t kind, char *out, size_t room)
{
    char no_out;
    return smap_fault_name_strict(kind, out ? out : &no_out, room);
}

static inline uint32_t smap_open(smap_map *map, const void *text, size_t len, const char *base,
                                 size_t base_len, const smap_limits *limits, smap_fault *fault)
{
    const smap_limits no_limits = {0, 0};
    smap_fault no_fault;
    return smap_open_strict(map, text ? text : smap_no_text_, len, base ? base : smap_no_text_, base_len,
                            limits ? limits : &no_limits, fault ? fault : &no_fault);
}

static inline uint32_t smap_open_within(smap_map *map, const void *text, size_t len, const char *base,
                                        size_t base_len, const smap_limits *limits, size_t url_bytes,
                                        smap_fault *fault)
{
    const smap_limits no_limits = {0, 0};
    smap_fault no_fault;
    return smap_open_within_strict(map, text ? text : smap_no_text_, len, base ? base : smap_no_text_,
                                   base_len, limits ? limits : &no_limits, url_bytes,
                                   fault ? fault : &no_fault);
}

static inline uint32_t smap_file(smap_map *map, char *out, size_t room, size_t *len)
{
    char no_out;
    size_t no_len;
    return smap_file_strict(map, out ? out : &no_out, room, len ? len : &no_len);
}

static inline uint32_t smap_name_at(smap_map *map, uint32_t line, uint32_t column, char *out, size_t room,
                                    size_t *len)
{
    char no_out;
    size_t no_len;
    return smap_name_at_strict(map, line, column, out ? out : &no_out, room, len ? len : &no_len);
}

static inline uint32_t smap_source_url(smap_map *map, size_t source, char *out, size_t room, size_t *len)
{
    char no_out;
    size_t no_len;
    return smap_source_url_strict(map, source, out ? out : &no_out, room, len ? len : &no_len);
}

static inline uint32_t smap_source_content(smap_map *map, size_t source, char *out, size_t room,
                                           size_t *len)
{
    char no_out;
    size_t no_len;
    return smap_source_content_strict(map, source, out ? out : &no_out, room, len ? len : &no_len);
}

static inline uint32_t smap_written_source(smap_map *map, size_t i, char *out, size_t room, size_t *len)
{
    char no_out;
    size_t no_len;
    return smap_written_source_strict(map, i, out ? out : &no_out, room, len ? len : &no_len);
}

static inline uint32_t smap_written_root(smap_map *map, size_t i, char *out, size_t room, size_t *len)
{
    char no_out;
    size_t no_len;
    return smap_written_root_strict(map, i, out ? out : &no_out, room, len ? len : &no_len);
}

static inline uint32_t smap_listed_name(smap_map *map, size_t i, char *out, size_t room, size_t *len)
{
    char no_out;
    size_t no_len;
    return smap_listed_name_strict(map, i, out ? out : &no_out, room, len ? len : &no_len);
}

static inline uint32_t smap_compose(smap_map *outer, smap_map *inner, size_t inner_count,
                                    const size_t *leads, size_t leads_count, const smap_limits *limits,
                                    smap_map *out)
{
    smap_map no_inner = {0, 0};
    const size_t no_leads = {0};
    const smap_limits no_limits = {0, 0};
    return smap_compose_strict(outer, inner ? inner : &no_inner, inner_count, leads ? leads : &no_leads,
                               leads_count, limits ? limits : &no_limits, out);
}

static inline uint32_t smap_builder_open(smap_builder *builder, const char *base, size_t base_len,
                                         const smap_limits *limits)
{
    const smap_limits no_limits = {0, 0};
    return smap_builder_open_strict(builder, base ? base : smap_no_text_, base_len,
                                    limits ? limits : &no_limits);
}

static inline uint32_t smap_builder_file(smap_builder *builder, bool has_file, const char *file,
                                         size_t len)
{
    return smap_builder_file_strict(builder, has_file, file ? file : smap_no_text_, len);
}

static inline uint32_t smap_builder_source(smap_builder *builder, bool has_url, const char *url,
                                           size_t len, uint32_t *number)
{
    uint32_t no_number;
    return smap_builder_source_strict(builder, has_url, url ? url : smap_no_text_, len,
                                      number ? number : &no_number);
}

static inline uint32_t smap_builder_content(smap_builder *builder, uint32_t source, bool has_content,
                                            const char *content, size_t len)
{
    return smap_builder_content_strict(builder, source, has_content, content ? content : smap_no_text_,
                                       len);
}

static inline uint32_t smap_builder_name(smap_builder *builder, const char *name, size_t len,
                                         uint32_t *number)
{
    uint32_t no_number;
    return smap_builder_name_strict(builder, name ? name : smap_no_text_, len,
                                    number ? number : &no_number);
}

static inline uint32_t smap_builder_add(smap_builder *builder, const uint32_t *numbers, size_t mappings,
                                        size_t *wrong)
{
    const uint32_t no_numbers = {0};
    size_t no_wrong;
    return smap_builder_add_strict(builder, numbers ? numbers : &no_numbers, mappings,
                                   wrong ? wrong : &no_wrong);
}

static inline size_t smap_bytes_copy(smap_bytes *bytes, size_t from, void *out, size_t room)
{
    char no_out;
    return smap_bytes_copy_strict(bytes, from, out ? out : &no_out, room);
}

static inline uint32_t smap_respell(const char *text, size_t len, smap_bytes *out, smap_fault *fault)
{
    smap_fault no_fault;
    return smap_respell_strict(text ? text : smap_no_text_, len, out, fault ? fault : &no_fault);
}

static inline uint32_t smap_spell(const uint32_t *numbers, size_t mappings, smap_bytes *out,
                                  size_t *wrong)
{
    const uint32_t no_numbers = {0};
    size_t no_wrong;
    return smap_spell_strict(numbers ? numbers : &no_numbers, mappings, out, wrong ? wrong : &no_wrong);
}

static inline uint32_t smap_frame(const void *line, size_t len, smap_frame_parts *out)
{
    return smap_frame_strict(line ? line : smap_no_text_, len, out);
}

static inline uint32_t smap_translate_line(smap_map *map, const char *url, size_t url_len,
                                           const void *line, size_t line_len, uint8_t how, char *out,
                                           size_t room, size_t *len, uint32_t *outcome)
{
    char no_out;
    size_t no_len;
    uint32_t no_outcome;
    return smap_translate_line_strict(map, url ? url : smap_no_text_, url_len,
                                      line ? line : smap_no_text_, line_len, how, out ? out : &no_out,
                                      room, len ? len : &no_len, outcome ? outcome : &no_outcome);
}

static inline uint32_t smap_add_script(smap_scripts *scripts, const char *url, size_t url_len,
                                       smap_map *map)
{
    return smap_add_script_strict(scripts, url ? url : smap_no_text_, url_len, map);
}

static inline uint32_t smap_translate(smap_scripts *scripts, const void *trace, size_t len, uint8_t how,
                                      smap_bytes *out, smap_trace_counts *counts)
{
    smap_trace_counts no_counts;
    return smap_translate_strict(scripts, trace ? trace : smap_no_text_, len, how, out,
                                 counts ? counts : &no_counts);
}

static inline uint32_t smap_script_link(const void *text, size_t len, bool css, char *out, size_t room,
                                        size_t *url_len)
{
    char no_out;
    size_t no_url_len;
    return smap_script_link_strict(text ? text : smap_no_text_, len, css, out ? out : &no_out, room,
                                   url_len ? url_len : &no_url_len);
}

static inline uint32_t smap_resolve(const char *script, size_t script_len, const char *url,
                                    size_t url_len, smap_bytes *out)
{
    return smap_resolve_strict(script ? script : smap_no_text_, script_len, url ? url : smap_no_text_,
                               url_len, out);
}

static inline uint32_t smap_data_url(const char *url, size_t len, smap_bytes *out)
{
    return smap_data_url_strict(url ? url : smap_no_text_, len, out);
}

static inline uint32_t smap_file_url(const char *path, size_t len, smap_bytes *out)
{
    return smap_file_url_strict(path ? path : smap_no_text_, len, out);
}

static inline uint32_t smap_file_path(const char *url, size_t len, smap_bytes *out)
{
    return smap_file_path_strict(url ? url : smap_no_text_, len, out);
}

static inline uint32_t smap_script_url(const char *folder, size_t folder_len, const char *name,
                                       size_t name_len, smap_bytes *out)
{
    return smap_script_url_strict(folder ? folder : smap_no_text_, folder_len,
                                  name ? name : smap_no_text_, name_len, out);
}

static inline uint32_t smap_script_name(const char *folder, size_t folder_len, const char *url,
                                        size_t url_len, smap_bytes *out)
{
    return smap_script_name_strict(folder ? folder : smap_no_text_, folder_len, url ? url : smap_no_text_,
                                   url_len, out);
}

static inline uint32_t smap_file_kind(const char *name, size_t len)
{
    return smap_file_kind_strict(name ? name : smap_no_text_, len);
}

static inline uint32_t smap_named_map(const char *folder, size_t folder_len, const char *name,
                                      size_t name_len, const void *text, size_t len, smap_bytes *out,
                                      uint32_t *kind)
{
    uint32_t no_kind;
    return smap_named_map_strict(folder ? folder : smap_no_text_, folder_len, name ? name : smap_no_text_,
                                 name_len, text ? text : smap_no_text_, len, out, kind ? kind : &no_kind);
}

static inline uint32_t smap_script_map(const char *folder, size_t folder_len, const char *name,
                                       size_t name_len, const void *text, size_t len, size_t tried,
                                       smap_bytes *out, uint32_t *kind)
{
    uint32_t no_kind;
    return smap_script_map_strict(folder ? folder : smap_no_text_, folder_len,
                                  name ? name : smap_no_text_, name_len, text ? text : smap_no_text_, len,
                                  tried, out, kind ? kind : &no_kind);
}

static inline uint32_t smap_normal_form(const char *name, size_t len, bool with_query, smap_bytes *out)
{
    return smap_normal_form_strict(name ? name : smap_no_text_, len, with_query, out);
}

static inline uint32_t smap_alike(const char *one, size_t one_len, const char *other, size_t other_len,
                                  bool *out)
{
    return smap_alike_strict(one ? one : smap_no_text_, one_len, other ? other : smap_no_text_, other_len,
                             out);
}

#endif

#ifdef __cplusplus
}
#endif

#endif
