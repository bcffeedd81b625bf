/* Stack traces. */
#include "smap_node.h"

boxed_scripts *scripts_of(napi_env env, napi_value value)
{
    return boxed_of(env, value, SCRIPTS_TAG, "not scripts");
}

static void free_scripts(napi_env env, void *at, void *hint)
{
    boxed_scripts *boxed = at;
    (void)hint;
    smap_close_scripts(&boxed->scripts);
    tell_held(env, -boxed->held);
    free(boxed);
}

/* scripts(): a handle */
static napi_value do_scripts(napi_env env, napi_callback_info info)
{
    napi_value handle;
    boxed_scripts *boxed = calloc(1, sizeof *boxed);
    (void)info;
    if (!boxed) return throw_code(env, SMAP_MEMORY, NULL);
    boxed->tag = SCRIPTS_TAG;
    if (napi_create_external(env, boxed, free_scripts, NULL, &handle) == napi_ok) return handle;
    free(boxed);
    return failed(env);
}

/* addScript(scripts, url, map, gone): how many bytes the map holds. V8 is told that the scripts hold them in
 * place of the `gone` bytes of the map that the script had; or of nothing, if `gone` is -1. */
static napi_value do_add_script(napi_env env, napi_callback_info info)
{
    text_in url;
    int64_t gone, held;
    napi_value out;
    ARGUMENTS(4);
    boxed_scripts *boxed = scripts_of(env, w[0]);
    boxed_map *map = boxed ? map_of(env, w[2]) : NULL;
    if (!map) return NULL;
    CALL(napi_get_value_int64(env, w[3], &gone));
    if (boxed->is_closed) return throw_code(env, SMAP_CLOSED, NULL);
    if (!text_of(env, w[1], &url)) return NULL;
    uint32_t code = smap_add_script(&boxed->scripts, url.at, url.len, &map->map);
    text_done(&url);
    if (code != SMAP_OK) return throw_code(env, code, NULL);
    held = map->held;
    if (gone >= 0) {
        tell_held(env, held - gone);
        boxed->held += held - gone;
    }
    CALL(napi_create_int64(env, held, &out));
    return out;
}

/* closeScripts(scripts) */
static napi_value do_close_scripts(napi_env env, napi_callback_info info)
{
    ARGUMENTS(1);
    boxed_scripts *boxed = scripts_of(env, w[0]);
    if (!boxed) return NULL;
    smap_close_scripts(&boxed->scripts);
    boxed->is_closed = true;
    tell_held(env, -boxed->held);
    boxed->held = 0;
    return NULL;
}

/* translate(scripts, trace, how, asBuffer): [trace, lines, translated, dropped] */
static napi_value do_translate(napi_env env, napi_callback_info info)
{
    text_in trace;
    bool as_buffer;
    uint32_t how;
    smap_bytes bytes = {0};
    smap_trace_counts counts;
    napi_value all, text;
    ARGUMENTS(4);
    boxed_scripts *boxed = scripts_of(env, w[0]);
    if (!boxed) return NULL;
    CALL(napi_get_value_uint32(env, w[2], &how));
    CALL(napi_get_value_bool(env, w[3], &as_buffer));
    if (!text_of(env, w[1], &trace)) return NULL;
    uint32_t code = smap_translate(&boxed->scripts, trace.at, trace.len, (uint8_t)how, &bytes, &counts);
    text_done(&trace);
    if (code != SMAP_OK) return throw_code(env, code, NULL);
    text = bytes_out(env, &bytes, as_buffer);
    if (!text) return NULL;
    const uint64_t numbers[] = {0, counts.lines, counts.translated, counts.dropped};
    all = numbers_out(env, numbers, 4);
    if (!all) return NULL;
    CALL(napi_set_element(env, all, 0, text));
    return all;
}

/* frame(line): [where its URL begins, and its length, in bytes; line; column], or null */
static napi_value do_frame(napi_env env, napi_callback_info info)
{
    text_in line;
    smap_frame_parts parts;
    napi_value out;
    ARGUMENTS(1);
    if (!text_of(env, w[0], &line)) return NULL;
    uint32_t code = smap_frame(line.at, line.len, &parts);
    text_done(&line);
    if (code == SMAP_OK) {
        const uint64_t numbers[] = {parts.url_from, parts.url_len, parts.line, parts.column};
        return numbers_out(env, numbers, 4);
    }
    CALL(napi_get_null(env, &out));
    return out;
}

const call trace_calls[] = {
    {"scripts", do_scripts},
    {"addScript", do_add_script},
    {"closeScripts", do_close_scripts},
    {"translate", do_translate},
    {"frame", do_frame},
    {NULL, NULL},
};
