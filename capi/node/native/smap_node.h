/* The Node addon of libsmap, over smap.h and Node-API: what its files share.
 *
 * index.js calls everything here, and checks what users pass. What comes in is a handle that index.js was
 * given, a string without lone surrogates, a Buffer, or a whole number below 2^32. A call that gets anything
 * else throws.
 *
 * The module may be loaded by any number of worker threads. What belongs to one of them is in its
 * `thread_data`; the one static variable is the list of maps on their way from a thread to another. */
#ifndef SMAP_NODE_H
#define SMAP_NODE_H

#define NAPI_VERSION 8
#include <node_api.h>
#include <stdbool.h>
#include <stdint.h>
#include <stdlib.h>
#include <string.h>

#include "library.h"

typedef struct boxed_map boxed_map;

/* What the copy of the module in one thread needs. */
typedef struct thread_data {
    napi_ref error;   /* the class SmapError */
    napi_ref room;    /* a function that makes a Buffer of a length, or throws */
    napi_ref scratch; /* keeps the array of `found` alive */
    uint32_t *found;  /* where a lookup puts its numbers: FOUND of them, read by index.js */
    boxed_map *first; /* the maps of this thread's handles */
    napi_ref witness; /* a weak reference to an object that nothing else has: the next collection takes it */
} thread_data;

/* What a handle of index.js points to. The tag comes first, so that no kind is taken for another. */
enum { MAP_TAG = 0x70616d73, SCRIPTS_TAG = 0x72637373, BUILDER_TAG = 0x6c646273 };

struct boxed_map {
    uint32_t tag;
    smap_map map;
    int64_t held;     /* what V8 was told of it, in bytes */
    napi_ref handle;  /* a weak reference, or NULL */
    thread_data *own; /* whose list it is in, or NULL */
    boxed_map *next;
    boxed_map **link; /* what points to it there */
};

typedef struct boxed_scripts {
    uint32_t tag;
    bool is_closed; /* by the user: it isn't opened again */
    smap_scripts scripts;
    int64_t held; /* what V8 was told of it */
} boxed_scripts;

/* A call of Node-API fails if memory runs out, an exception is pending, a worker is being ended, or a value
 * is of another type. */
#define CALL(call)                                                                                           \
    do {                                                                                                     \
        if ((call) != napi_ok) return failed(env);                                                           \
    } while (0)

/* The arguments, as `w`: undefined where they are missing. */
#define ARGUMENTS(n)                                                                                         \
    napi_value w[n];                                                                                         \
    size_t wn = n;                                                                                           \
    CALL(napi_get_cb_info(env, info, &wn, w, NULL, NULL))

/* ---- errors.c: each of these throws unless an exception is pending, and returns NULL */

napi_value failed(napi_env env);
napi_value throw_code(napi_env env, uint32_t code, const smap_fault *fault);

/* ---- texts.c */

/* A text that came in: a Buffer is read where it is, a short string lies in `room`, a long one is copied. */
typedef struct text_in {
    const char *at;
    size_t len;
    char *owned;
    bool is_string; /* and so ends with a zero byte */
    char room[1024];
} text_in;

/* False if an exception is pending; then there is nothing to free. */
bool text_of(napi_env env, napi_value value, text_in *text);

/* The same for a text that is read after the call: a Buffer is copied, whose memory may be freed, written or
 * taken away by then. */
bool kept_text_of(napi_env env, napi_value value, text_in *text);
void text_done(text_in *text);

/* A string; or throws, as for one that is longer than a string can be. */
napi_value string_out(napi_env env, const char *at, size_t len);

/* A Buffer, which JavaScript makes; or throws. */
napi_value buffer_out(napi_env env, const void *at, size_t len);

/* A string or a Buffer, or throws. The bytes are freed. */
napi_value bytes_out(napi_env env, smap_bytes *bytes, bool as_buffer);

/* The numbers of a typed array, of 32 bits each. False if it is none, and an exception is pending. */
bool words_of(napi_env env, napi_value value, uint32_t **at, size_t *len);

/* An array of these numbers, or throws. */
napi_value numbers_out(napi_env env, const uint64_t *numbers, uint32_t count);

/* An object of numbers, or throws. */
typedef struct named_number {
    const char *name;
    uint64_t number;
} named_number;

napi_value object_out(napi_env env, const named_number *numbers, size_t count);

/* ---- maps.c */

/* What a handle points to that has this tag, or throws that it is none. */
void *boxed_of(napi_env env, napi_value value, uint32_t tag, const char *none);

/* The map or the scripts of a handle, or throws. */
boxed_map *map_of(napi_env env, napi_value value);
boxed_scripts *scripts_of(napi_env env, napi_value value);

/* Lets go of the list of maps, at the end of a thread. Their handles may be freed later. */
void forget_maps(thread_data *own);

/* A closed map, or NULL if there is no memory. */
boxed_map *new_map(void);

/* A handle of an open map, of which V8 is told that it holds so many bytes; or throws, and frees it. */
napi_value map_out(napi_env env, boxed_map *boxed, int64_t held);

/* The greatest number of bytes of URLs that an argument is; -1, for none, if it is undefined. */
bool url_bytes_of(napi_env env, napi_value value, int64_t *url_bytes);

/* Opens a map within such a bound. */
uint32_t open_map(smap_map *map, const text_in *text, const text_in *url, const smap_limits *limits,
                  int64_t url_bytes, smap_fault *fault);

/* Tells V8 that so many bytes more, or fewer, hang on its objects: it sees some ten bytes of a handle, and
 * would have no reason to collect it. */
void tell_held(napi_env env, int64_t more);

/* The arguments and the map, which is the first of them. */
#define MAP_AND(n)                                                                                           \
    ARGUMENTS(n);                                                                                            \
    boxed_map *boxed = map_of(env, w[0]);                                                                    \
    if (!boxed) return NULL

/* ---- making.c */

/* A handle of the map that was made; or throws, and frees it. */
napi_value made_out(napi_env env, boxed_map *made, uint32_t code);

/* ---- questions.c */

/* A string or a Buffer of what a call writes: the arguments are a map and whether a Buffer is wanted. */
napi_value written(napi_env env, napi_callback_info info, uint32_t (*call)(smap_map *map, smap_bytes *out));

/* ---- getters.c */

/* A text of the i-th of a map's sources or names, or of the map itself, whatever i is. */
typedef struct text_getter {
    const char *name;
    uint32_t (*get)(smap_map *map, size_t i, char *out, size_t room, size_t *len);
} text_getter;

/* All of them, which end with one that has no name. Each name is in the module, as a number. */
extern const text_getter text_getters[];

/* ---- what index.js calls */

/* A function, by the name that JavaScript has for it. */
typedef struct call {
    const char *name;
    napi_callback function;
} call;

/* Those of a file, which end with one that has no name. */
extern const call map_calls[], later_calls[], making_calls[], building_calls[], question_calls[];
extern const call getter_calls[], trace_calls[], link_calls[];
#ifdef SMAP_NODE_TEST
extern const call test_calls[];
#endif

#endif
