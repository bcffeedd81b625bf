/* Maps: opened, closed, and handed to other threads. What is asked of them is in questions.c. */
#include <pthread.h>

#include "smap_node.h"

/* ---- handles */

void *boxed_of(napi_env env, napi_value value, uint32_t tag, const char *none)
{
    void *at = NULL;
    if (napi_get_value_external(env, value, &at) == napi_ok && at && *(uint32_t *)at == tag) return at;
    napi_throw_type_error(env, NULL, none);
    return NULL;
}

boxed_map *map_of(napi_env env, napi_value value)
{
    return boxed_of(env, value, MAP_TAG, "not a source map");
}

boxed_map *new_map(void)
{
    boxed_map *boxed = calloc(1, sizeof *boxed);
    if (boxed) boxed->tag = MAP_TAG;
    return boxed;
}

void tell_held(napi_env env, int64_t more)
{
    int64_t now;
    if (more) napi_adjust_external_memory(env, more, &now);
}

static void unlist(boxed_map *boxed)
{
    if (!boxed->own) return;
    *boxed->link = boxed->next;
    if (boxed->next) boxed->next->link = boxed->link;
    boxed->own = NULL;
}

static void enlist(napi_env env, boxed_map *boxed, napi_value handle)
{
    thread_data *own = NULL;
    if (napi_get_instance_data(env, (void **)&own) != napi_ok || !own) return;
    if (napi_create_reference(env, handle, 0, &boxed->handle) != napi_ok) return;
    boxed->own = own;
    boxed->link = &own->first;
    boxed->next = own->first;
    if (boxed->next) boxed->next->link = &boxed->next;
    own->first = boxed;
}

void forget_maps(thread_data *own)
{
    while (own->first) unlist(own->first);
}

static void close_map(napi_env env, boxed_map *boxed)
{
    smap_close(&boxed->map);
    tell_held(env, -boxed->held);
    boxed->held = 0;
}

static void free_map(napi_env env, void *at, void *hint)
{
    boxed_map *boxed = at;
    (void)hint;
    unlist(boxed);
    if (boxed->handle) napi_delete_reference(env, boxed->handle);
    close_map(env, boxed);
    free(boxed);
}

/* Whether the collector has run since this was last asked. */
static bool has_collected(napi_env env, thread_data *own)
{
    napi_value object = NULL;
    if (own->witness) {
        if (napi_get_reference_value(env, own->witness, &object) != napi_ok || object) return false;
        napi_delete_reference(env, own->witness);
        own->witness = NULL;
    }
    if (napi_create_object(env, &object) != napi_ok) return false;
    return napi_create_reference(env, object, 0, &own->witness) == napi_ok;
}

/* Closes the maps whose handles were collected. Node puts their finalizers off until the event loop turns,
 * and a program may open many maps before that. */
static void close_collected(napi_env env, thread_data *own)
{
    napi_handle_scope scope;
    napi_value handle;
    if (napi_open_handle_scope(env, &scope) != napi_ok) return;
    bool may_be = has_collected(env, own);
    for (boxed_map *next, *boxed = may_be ? own->first : NULL; boxed; boxed = next) {
        next = boxed->next;
        if (napi_get_reference_value(env, boxed->handle, &handle) != napi_ok || handle) continue;
        unlist(boxed);
        close_map(env, boxed);
    }
    napi_close_handle_scope(env, scope);
}

/* A handle of an open map. */
napi_value map_out(napi_env env, boxed_map *boxed, int64_t held)
{
    napi_value handle;
    if (napi_create_external(env, boxed, free_map, NULL, &handle) != napi_ok) {
        failed(env);
        smap_close(&boxed->map);
        free(boxed);
        return NULL;
    }
    boxed->held = held;
    tell_held(env, held);
    enlist(env, boxed, handle);
    return handle;
}

/* ---- opening and closing */

bool url_bytes_of(napi_env env, napi_value value, int64_t *url_bytes)
{
    napi_valuetype kind;
    *url_bytes = -1;
    if (napi_typeof(env, value, &kind) == napi_ok &&
        (kind == napi_undefined || napi_get_value_int64(env, value, url_bytes) == napi_ok))
        return true;
    failed(env);
    return false;
}

uint32_t open_map(smap_map *map, const text_in *text, const text_in *url, const smap_limits *limits,
                  int64_t url_bytes, smap_fault *fault)
{
    return open_within(map, text->at, text->len, url->at, url->len, limits, url_bytes, fault);
}

/* Leaves in `found` whether a text that is given as a string may have a word in it. */
static bool look_for(napi_env env, const text_in *text, napi_value value)
{
    text_in word;
    thread_data *own = NULL;
    if (napi_get_instance_data(env, (void **)&own) != napi_ok || !text_of(env, value, &word)) return false;
    bool is_known = text->is_string && word.is_string && !memchr(text->at, 0, text->len);
    own->found[0] = !is_known || strstr(text->at, word.at);
    text_done(&word);
    return true;
}

/* open(text, url, items, lines, urlBytes, word): a handle. If a word is given, `found` has whether the text may
 * have it, which is sooner found out here than in JavaScript. */
static napi_value do_open(napi_env env, napi_callback_info info)
{
    text_in text, url;
    smap_limits limits;
    smap_fault fault = {0};
    thread_data *own = NULL;
    napi_valuetype kind;
    int64_t url_bytes;
    ARGUMENTS(6);
    CALL(napi_get_instance_data(env, (void **)&own));
    CALL(napi_typeof(env, w[5], &kind));
    CALL(napi_get_value_uint32(env, w[2], &limits.items));
    CALL(napi_get_value_uint32(env, w[3], &limits.lines));
    if (!url_bytes_of(env, w[4], &url_bytes) || !text_of(env, w[1], &url)) return NULL;
    if (!text_of(env, w[0], &text)) {
        text_done(&url);
        return NULL;
    }
    close_collected(env, own);
    boxed_map *boxed = new_map();
    uint32_t code = boxed ? open_map(&boxed->map, &text, &url, &limits, url_bytes, &fault) : SMAP_MEMORY;
    bool is_done = kind == napi_undefined || code != SMAP_OK || look_for(env, &text, w[5]);
    text_done(&text);
    text_done(&url);
    if (code == SMAP_OK && is_done) return map_out(env, boxed, (int64_t)held_by(&boxed->map));
    if (code == SMAP_OK) smap_close(&boxed->map);
    free(boxed);
    return is_done ? throw_code(env, code, &fault) : NULL;
}

/* close(map) */
static napi_value do_close(napi_env env, napi_callback_info info)
{
    ARGUMENTS(1);
    boxed_map *boxed = map_of(env, w[0]);
    if (!boxed) return NULL;
    unlist(boxed);
    close_map(env, boxed);
    return NULL;
}

/* told(): how many bytes V8 was told of by all addons, for tests */
static napi_value do_told(napi_env env, napi_callback_info info)
{
    int64_t now = 0;
    napi_value out;
    (void)info;
    CALL(napi_adjust_external_memory(env, 0, &now));
    CALL(napi_create_int64(env, now, &out));
    return out;
}

/* held(map): how many bytes V8 was told of */
static napi_value do_held(napi_env env, napi_callback_info info)
{
    napi_value out;
    ARGUMENTS(1);
    boxed_map *boxed = map_of(env, w[0]);
    if (!boxed) return NULL;
    CALL(napi_create_int64(env, boxed->held, &out));
    return out;
}

/* same(map, other) */
static napi_value do_same(napi_env env, napi_callback_info info)
{
    bool same = false;
    napi_value out;
    ARGUMENTS(2);
    boxed_map *one = map_of(env, w[0]);
    boxed_map *other = one ? map_of(env, w[1]) : NULL;
    if (!other) return NULL;
    uint32_t code = are_same(&one->map, &other->map, &same);
    if (code != SMAP_OK) return throw_code(env, code, NULL);
    CALL(napi_get_boolean(env, same, &out));
    return out;
}

/* ---- sharing
 *
 * A map that is handed to another worker waits in this list, under a number, until that worker takes it. */

typedef struct shared_map {
    smap_map map;
    int64_t held;
    int64_t number;
    struct shared_map *next;
} shared_map;

static pthread_mutex_t shared_lock = PTHREAD_MUTEX_INITIALIZER;
static shared_map *shared_first;
static int64_t shared_last;

static int64_t put_shared(shared_map *one)
{
    pthread_mutex_lock(&shared_lock);
    int64_t number = one->number = ++shared_last;
    one->next = shared_first;
    shared_first = one;
    pthread_mutex_unlock(&shared_lock);
    return number;
}

static shared_map *take_shared(int64_t number)
{
    pthread_mutex_lock(&shared_lock);
    shared_map **at = &shared_first;
    while (*at && (*at)->number != number) at = &(*at)->next;
    shared_map *one = *at;
    if (one) *at = one->next;
    pthread_mutex_unlock(&shared_lock);
    return one;
}

/* share(map): a number */
static napi_value do_share(napi_env env, napi_callback_info info)
{
    napi_value out;
    ARGUMENTS(1);
    boxed_map *boxed = map_of(env, w[0]);
    if (!boxed) return NULL;
    shared_map *one = calloc(1, sizeof *one);
    uint32_t code = one ? smap_share(&boxed->map, &one->map) : SMAP_MEMORY;
    if (code != SMAP_OK) {
        free(one);
        return throw_code(env, code, NULL);
    }
    one->held = boxed->held;
    CALL(napi_create_int64(env, put_shared(one), &out));
    return out;
}

/* take(number): a handle, once */
static napi_value do_take(napi_env env, napi_callback_info info)
{
    int64_t number;
    ARGUMENTS(1);
    CALL(napi_get_value_int64(env, w[0], &number));
    boxed_map *boxed = new_map();
    if (!boxed) return throw_code(env, SMAP_MEMORY, NULL);
    shared_map *one = take_shared(number);
    if (!one) {
        free(boxed);
        return throw_code(env, SMAP_CLOSED, NULL);
    }
    boxed->map = one->map;
    int64_t held = one->held;
    free(one);
    return map_out(env, boxed, held);
}

const call map_calls[] = {
    {"open", do_open},
    {"close", do_close},
    {"told", do_told},
    {"held", do_held},
    {"same", do_same},
    {"share", do_share},
    {"take", do_take},
    {NULL, NULL},
};
