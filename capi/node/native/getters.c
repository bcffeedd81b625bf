/* tools/write-bindings writes this out of capi/smap.h: the getters that index.js calls, and texts of maps. */
#include "smap_node.h"

/* canonical(map, asBuffer) */
static napi_value do_canonical(napi_env env, napi_callback_info info)
{
    return written(env, info, smap_canonical);
}

/* canonicalMappings(map, asBuffer) */
static napi_value do_canonical_mappings(napi_env env, napi_callback_info info)
{
    return written(env, info, smap_canonical_mappings);
}

/* canonicalRelative(map, asBuffer) */
static napi_value do_canonical_relative(napi_env env, napi_callback_info info)
{
    return written(env, info, smap_canonical_relative);
}

/* count(map) */
static napi_value do_count(napi_env env, napi_callback_info info)
{
    smap_counts out;
    MAP_AND(1);
    uint32_t code = smap_count(&boxed->map, &out);
    if (code != SMAP_OK) return throw_code(env, code, NULL);
    const named_number numbers[] = {
        {"sources", out.sources}, {"listedSources", out.listed_sources}, {"names", out.names},
        {"mappings", out.mappings}, {"lines", out.lines},
    };
    return object_out(env, numbers, sizeof numbers / sizeof *numbers);
}

/* flatten(map, asBuffer) */
static napi_value do_flatten(napi_env env, napi_callback_info info)
{
    return written(env, info, smap_flatten);
}

/* isIgnored(map, source) */
static napi_value do_is_ignored(napi_env env, napi_callback_info info)
{
    bool out;
    uint32_t source;
    MAP_AND(2);
    CALL(napi_get_value_uint32(env, w[1], &source));
    uint32_t code = smap_is_ignored(&boxed->map, source, &out);
    if (code != SMAP_OK) return throw_code(env, code, NULL);
    napi_value value;
    CALL(napi_get_boolean(env, out, &value));
    return value;
}

const call getter_calls[] = {
    {"canonical", do_canonical},
    {"canonicalMappings", do_canonical_mappings},
    {"canonicalRelative", do_canonical_relative},
    {"count", do_count},
    {"flatten", do_flatten},
    {"isIgnored", do_is_ignored},
    {NULL, NULL},
};

static uint32_t get_file(smap_map *map, size_t i, char *out, size_t room, size_t *len)
{
    (void)i;
    return smap_file(map, out, room, len);
}

const text_getter text_getters[] = {
    {"FILE", get_file},
    {"SOURCE_URL", smap_source_url},
    {"SOURCE_CONTENT", smap_source_content},
    {"WRITTEN_SOURCE", smap_written_source},
    {"WRITTEN_ROOT", smap_written_root},
    {"LISTED_NAME", smap_listed_name},
    {NULL, NULL},
};
