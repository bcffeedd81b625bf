/* The module. */
#include <stdio.h>

#include "smap_node.h"

/* version(): the library's, such as 0.3.0 */
static napi_value do_version(napi_env env, napi_callback_info info)
{
    char text[48];
    uint32_t n = smap_version();
    napi_value out;
    (void)info;
    unsigned major = n / 10000, minor = n / 100 % 100, patch = n % 100;
    snprintf(text, sizeof text, "%u.%u.%u", major, minor, patch);
    CALL(napi_create_string_utf8(env, text, NAPI_AUTO_LENGTH, &out));
    return out;
}

/* Drops a strong reference: what it keeps would outlive the thread. */
static void drop(napi_env env, napi_ref *reference)
{
    if (*reference) napi_delete_reference(env, *reference);
    *reference = NULL;
}

static void free_thread_data(napi_env env, void *at, void *hint)
{
    thread_data *own = at;
    (void)hint;
    drop(env, &own->error);
    drop(env, &own->room);
    drop(env, &own->scratch);
    drop(env, &own->witness);
    forget_maps(own);
    free(own);
}

/* start(SmapError, room): the array in which lookups leave what they found. Called once. */
static napi_value do_start(napi_env env, napi_callback_info info)
{
    thread_data *own = NULL;
    napi_value buffer, out;
    void *found;
    ARGUMENTS(2);
    CALL(napi_get_instance_data(env, (void **)&own));
    if (own->found) {
        napi_throw_error(env, "SMAP_INTERNAL", "started twice");
        return NULL;
    }
    CALL(napi_create_reference(env, w[0], 1, &own->error));
    CALL(napi_create_reference(env, w[1], 1, &own->room));
    CALL(napi_create_arraybuffer(env, FOUND * sizeof *own->found, &found, &buffer));
    CALL(napi_create_typedarray(env, napi_uint32_array, FOUND, buffer, 0, &out));
    CALL(napi_create_reference(env, out, 1, &own->scratch));
    own->found = found;
    return out;
}

static const call module_calls[] = {
    {"start", do_start},
    {"version", do_version},
    {NULL, NULL},
};

static const call *const tables[] = {
    module_calls, map_calls, later_calls, making_calls, building_calls, question_calls, getter_calls,
    trace_calls, link_calls,
#ifdef SMAP_NODE_TEST
    test_calls,
#endif
};

NAPI_MODULE_INIT()
{
    thread_data *own = calloc(1, sizeof *own);
    if (!own) {
        napi_throw_error(env, "SMAP_MEMORY", "out of memory");
        return NULL;
    }
    if (napi_set_instance_data(env, own, free_thread_data, NULL) != napi_ok) {
        free(own);
        return failed(env);
    }
    for (size_t i = 0; i < sizeof tables / sizeof *tables; i++)
        for (const call *c = tables[i]; c->name; c++) {
            napi_value function;
            CALL(napi_create_function(env, c->name, NAPI_AUTO_LENGTH, c->function, own, &function));
            CALL(napi_set_named_property(env, exports, c->name, function));
        }
    for (uint32_t i = 0; text_getters[i].name; i++) {
        napi_value number;
        CALL(napi_create_uint32(env, i, &number));
        CALL(napi_set_named_property(env, exports, text_getters[i].name, number));
    }
    return exports;
}
