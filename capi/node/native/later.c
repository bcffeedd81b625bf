/* Maps that are opened on a thread of the pool. */
#include "smap_node.h"

/* What the thread reads is all in here: the texts too, since nothing keeps the Buffers of the call. */
typedef struct opening {
    napi_async_work work;
    napi_deferred deferred;
    text_in text;
    text_in url;
    smap_limits limits;
    int64_t url_bytes;
    smap_fault fault;
    boxed_map *boxed;
    uint32_t code;
} opening;

/* Frees what isn't handed on. */
static void free_opening(napi_env env, opening *o)
{
    if (o->work) napi_delete_async_work(env, o->work);
    if (o->boxed) smap_close(&o->boxed->map);
    free(o->boxed);
    text_done(&o->text);
    text_done(&o->url);
    free(o);
}

static void open_runs(napi_env env, void *at)
{
    opening *o = at;
    (void)env;
    o->code = open_map(&o->boxed->map, &o->text, &o->url, &o->limits, o->url_bytes, &o->fault);
}

/* The promise is settled, unless the worker is being ended: then every call fails, and all is freed. */
static void open_ends(napi_env env, napi_status status, void *at)
{
    opening *o = at;
    napi_value out = NULL, error = NULL;
    if (status == napi_ok) {
        if (o->code == SMAP_OK) {
            boxed_map *boxed = o->boxed;
            o->boxed = NULL;
            out = map_out(env, boxed, (int64_t)held_by(&boxed->map));
        } else {
            throw_code(env, o->code, &o->fault);
        }
        if (out)
            napi_resolve_deferred(env, o->deferred, out);
        else if (napi_get_and_clear_last_exception(env, &error) == napi_ok)
            napi_reject_deferred(env, o->deferred, error);
    }
    free_opening(env, o);
}

/* Takes over the arguments text, url, items, lines and urlBytes. */
static bool read_arguments(napi_env env, const napi_value *w, opening *o)
{
    if (napi_get_value_uint32(env, w[2], &o->limits.items) != napi_ok ||
        napi_get_value_uint32(env, w[3], &o->limits.lines) != napi_ok) {
        failed(env);
        return false;
    }
    if (!url_bytes_of(env, w[4], &o->url_bytes)) return false;
    if (!kept_text_of(env, w[1], &o->url) || !kept_text_of(env, w[0], &o->text)) return false;
    o->boxed = new_map();
    if (o->boxed) return true;
    throw_code(env, SMAP_MEMORY, NULL);
    return false;
}

static napi_value start(napi_env env, opening *o)
{
    napi_value promise, name;
    CALL(napi_create_string_utf8(env, "smap", NAPI_AUTO_LENGTH, &name));
    CALL(napi_create_async_work(env, NULL, name, open_runs, open_ends, o, &o->work));
    CALL(napi_create_promise(env, &o->deferred, &promise));
    CALL(napi_queue_async_work(env, o->work));
    return promise;
}

/* openLater(text, url, items, lines, urlBytes): a promise of a handle */
static napi_value do_open_later(napi_env env, napi_callback_info info)
{
    ARGUMENTS(5);
    opening *o = calloc(1, sizeof *o);
    if (!o) return throw_code(env, SMAP_MEMORY, NULL);
    napi_value promise = read_arguments(env, w, o) ? start(env, o) : NULL;
    if (!promise) free_opening(env, o);
    return promise;
}

const call later_calls[] = {
    {"openLater", do_open_later},
    {NULL, NULL},
};
