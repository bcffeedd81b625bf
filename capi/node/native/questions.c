/* What is asked of maps. */
#include "smap_node.h"

/* lookup(map, line, column): whether there is a mapping. It is in `found` then. */
static napi_value do_lookup(napi_env env, napi_callback_info info)
{
    thread_data *own;
    uint32_t line, column, unread[FOUND];
    napi_value out, w[3];
    size_t wn = 3;
    CALL(napi_get_cb_info(env, info, &wn, w, NULL, (void **)&own));
    boxed_map *boxed = map_of(env, w[0]);
    if (!boxed) return NULL;
    CALL(napi_get_value_uint32(env, w[1], &line));
    CALL(napi_get_value_uint32(env, w[2], &column));
    uint32_t code = look_up(&boxed->map, line, column, own->found ? own->found : unread);
    if (code != SMAP_OK && code != SMAP_NONE) return throw_code(env, code, NULL);
    CALL(napi_get_boolean(env, code == SMAP_OK, &out));
    return out;
}

/* listedAt(map, line, column): whether there is a mapping, of the listing, and the first of those that are at
 * this very position. It is in `found` then. */
static napi_value do_listed_at(napi_env env, napi_callback_info info)
{
    thread_data *own;
    uint32_t line, column, unread[FOUND];
    napi_value out, w[3];
    size_t wn = 3;
    CALL(napi_get_cb_info(env, info, &wn, w, NULL, (void **)&own));
    boxed_map *boxed = map_of(env, w[0]);
    if (!boxed) return NULL;
    CALL(napi_get_value_uint32(env, w[1], &line));
    CALL(napi_get_value_uint32(env, w[2], &column));
    uint32_t code = listed_at(&boxed->map, line, column, own->found ? own->found : unread);
    if (code != SMAP_OK && code != SMAP_NONE) return throw_code(env, code, NULL);
    CALL(napi_get_boolean(env, code == SMAP_OK, &out));
    return out;
}

/* ---- texts that are copied */

/* The text of the map that a number of index.js stands for, or NULL, and an exception is pending. */
static const text_getter *getter_of(napi_env env, napi_value value)
{
    uint32_t which;
    if (napi_get_value_uint32(env, value, &which) == napi_ok)
        for (const text_getter *getter = text_getters; getter->name; getter++)
            if (which-- == 0) return getter;
    napi_throw_type_error(env, NULL, "no text of a map");
    return NULL;
}

/* The text as a string, or null if there is none. */
static napi_value got(napi_env env, smap_map *map, const text_getter *getter, uint32_t i)
{
    char room[1024], *long_room;
    size_t len = 0;
    napi_value out = NULL;
    uint32_t code = getter->get(map, i, room, sizeof room, &len);
    if (code == SMAP_NONE) {
        CALL(napi_get_null(env, &out));
        return out;
    }
    if (code != SMAP_OK) return throw_code(env, code, NULL);
    if (len <= sizeof room) return string_out(env, room, len);
    long_room = malloc(len);
    if (!long_room) return throw_code(env, SMAP_MEMORY, NULL);
    code = getter->get(map, i, long_room, len, &len);
    out = code == SMAP_OK ? string_out(env, long_room, len) : throw_code(env, code, NULL);
    free(long_room);
    return out;
}

/* text(map, which, i): a string or null */
static napi_value do_text(napi_env env, napi_callback_info info)
{
    uint32_t i;
    MAP_AND(3);
    const text_getter *getter = getter_of(env, w[1]);
    if (!getter) return NULL;
    CALL(napi_get_value_uint32(env, w[2], &i));
    return got(env, &boxed->map, getter, i);
}

/* texts(map, which, count): the texts of the numbers below `count` */
static napi_value do_texts(napi_env env, napi_callback_info info)
{
    uint32_t count;
    napi_value out;
    napi_handle_scope scope;
    MAP_AND(3);
    const text_getter *getter = getter_of(env, w[1]);
    if (!getter) return NULL;
    CALL(napi_get_value_uint32(env, w[2], &count));
    CALL(napi_create_array_with_length(env, count, &out));
    for (uint32_t i = 0; i < count; i++) {
        CALL(napi_open_handle_scope(env, &scope));
        napi_value one = got(env, &boxed->map, getter, i);
        napi_status status = one ? napi_set_element(env, out, i, one) : napi_pending_exception;
        if (status != napi_ok) failed(env);
        napi_close_handle_scope(env, scope);
        if (status != napi_ok) return NULL;
    }
    return out;
}

/* ---- numbers, into arrays that index.js made: there is no memory to be had here */

/* flags(map, which, to): a number for each source or listed source: 0, whether it is ignored; 1, which source
 * the listed one is */
static napi_value do_flags(napi_env env, napi_callback_info info)
{
    uint32_t which, *to;
    size_t count;
    MAP_AND(3);
    CALL(napi_get_value_uint32(env, w[1], &which));
    if (!words_of(env, w[2], &to, &count)) return NULL;
    uint32_t code = put_flags(&boxed->map, which, to, 0, count);
    return code == SMAP_OK ? NULL : throw_code(env, code, NULL);
}

/* table(map, to): the mappings of the listing as six columns one after another. As many as there is room
 * for. */
static napi_value do_table(napi_env env, napi_callback_info info)
{
    size_t n;
    uint32_t *to;
    MAP_AND(2);
    if (!words_of(env, w[1], &to, &n)) return NULL;
    uint32_t code = put_table(&boxed->map, to, 0, n / 6);
    return code == SMAP_OK ? NULL : throw_code(env, code, NULL);
}

/* ---- what is written */

napi_value written(napi_env env, napi_callback_info info, uint32_t (*call)(smap_map *map, smap_bytes *out))
{
    bool as_buffer;
    smap_bytes bytes = {0};
    MAP_AND(2);
    CALL(napi_get_value_bool(env, w[1], &as_buffer));
    uint32_t code = call(&boxed->map, &bytes);
    if (code != SMAP_OK) return throw_code(env, code, NULL);
    return bytes_out(env, &bytes, as_buffer);
}

/* respell(text) */
static napi_value do_respell(napi_env env, napi_callback_info info)
{
    text_in text;
    smap_bytes bytes = {0};
    smap_fault fault = {0};
    ARGUMENTS(1);
    if (!text_of(env, w[0], &text)) return NULL;
    uint32_t code = smap_respell(text.at, text.len, &bytes, &fault);
    text_done(&text);
    if (code != SMAP_OK) return throw_code(env, code, &fault);
    return bytes_out(env, &bytes, false);
}

/* spell(numbers): a string, or the index of the first mapping that is wrong */
static napi_value do_spell(napi_env env, napi_callback_info info)
{
    uint32_t *numbers;
    size_t len, wrong;
    napi_value index;
    smap_bytes bytes = {0};
    ARGUMENTS(1);
    if (!words_of(env, w[0], &numbers, &len)) return NULL;
    uint32_t code = smap_spell(numbers, len / 6, &bytes, &wrong);
    if (code == SMAP_OK) return bytes_out(env, &bytes, false);
    if (code != SMAP_RANGE) return throw_code(env, code, NULL);
    CALL(napi_create_int64(env, (int64_t)wrong, &index));
    return index;
}

const call question_calls[] = {
    {"lookup", do_lookup},
    {"listedAt", do_listed_at},
    {"text", do_text},
    {"texts", do_texts},
    {"flags", do_flags},
    {"table", do_table},
    {"respell", do_respell},
    {"spell", do_spell},
    {NULL, NULL},
};
