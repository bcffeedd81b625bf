/* Maps that are made of maps. */
#include "smap_node.h"

napi_value made_out(napi_env env, boxed_map *made, uint32_t code)
{
    if (code == SMAP_OK) return map_out(env, made, (int64_t)held_by(&made->map));
    free(made);
    return throw_code(env, code, NULL);
}

static napi_value made_by(napi_env env, napi_callback_info info,
                          uint32_t (*call)(smap_map *map, smap_map *out))
{
    MAP_AND(1);
    boxed_map *made = new_map();
    return made_out(env, made, made ? call(&boxed->map, &made->map) : SMAP_MEMORY);
}

/* thin(map): a handle */
static napi_value do_thin(napi_env env, napi_callback_info info)
{
    return made_by(env, info, smap_thin);
}

/* onlyUsed(map): a handle */
static napi_value do_only_used(napi_env env, napi_callback_info info)
{
    return made_by(env, info, smap_only_used);
}

/* The maps of an array of handles, or throws. */
static bool maps_of(napi_env env, napi_value array, uint32_t count, smap_map **maps)
{
    napi_value one;
    for (uint32_t i = 0; i < count; i++) {
        if (napi_get_element(env, array, i, &one) != napi_ok) {
            failed(env);
            return false;
        }
        boxed_map *boxed = map_of(env, one);
        if (!boxed) return false;
        maps[i] = &boxed->map;
    }
    return true;
}

/* compose(map, maps, leads, items): a handle. `leads` has, for each source of the map, the index of its map. */
static napi_value do_compose(napi_env env, napi_callback_info info)
{
    napi_typedarray_type type;
    uint32_t count, items;
    size_t leads_count;
    void *leads;
    MAP_AND(4);
    CALL(napi_get_array_length(env, w[1], &count));
    CALL(napi_get_typedarray_info(env, w[2], &type, &leads_count, &leads, NULL, NULL));
    CALL(napi_get_value_uint32(env, w[3], &items));
    if (type != napi_uint32_array) {
        napi_throw_type_error(env, NULL, "not an array of numbers of 32 bits");
        return NULL;
    }
    smap_map **maps = calloc((size_t)count + 1, sizeof *maps);
    if (!maps) return throw_code(env, SMAP_MEMORY, NULL);
    if (!maps_of(env, w[1], count, maps)) {
        free(maps);
        return NULL;
    }
    boxed_map *made = new_map();
    uint32_t code = SMAP_MEMORY;
    if (made) code = compose_maps(&boxed->map, maps, count, leads, leads_count, items, &made->map);
    free(maps);
    return made_out(env, made, code);
}

const call making_calls[] = {
    {"thin", do_thin},
    {"onlyUsed", do_only_used},
    {"compose", do_compose},
    {NULL, NULL},
};
