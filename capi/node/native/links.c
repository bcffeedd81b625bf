/* Which map belongs to a script: calls that need no map. Unless stated otherwise, each gives a Buffer, or
 * null where the library says that there is nothing. */
#include "smap_node.h"

/* What a call that puts bytes into a handle came to. */
static napi_value given(napi_env env, uint32_t code, smap_bytes *bytes)
{
    napi_value out;
    if (code == SMAP_OK) return bytes_out(env, bytes, true);
    if (code != SMAP_NONE) return throw_code(env, code, NULL);
    CALL(napi_get_null(env, &out));
    return out;
}

typedef uint32_t call_of_one(const char *at, size_t len, smap_bytes *out);
typedef uint32_t call_of_two(const char *one, size_t one_len, const char *other, size_t other_len,
                             smap_bytes *out);

static napi_value of_one(napi_env env, napi_callback_info info, call_of_one *call)
{
    text_in text;
    smap_bytes bytes = {0};
    ARGUMENTS(1);
    if (!text_of(env, w[0], &text)) return NULL;
    uint32_t code = call(text.at, text.len, &bytes);
    text_done(&text);
    return given(env, code, &bytes);
}

/* Takes over two texts, or none of them. */
static bool two_texts_of(napi_env env, const napi_value *w, text_in *one, text_in *other)
{
    if (!text_of(env, w[0], one)) return false;
    if (text_of(env, w[1], other)) return true;
    text_done(one);
    return false;
}

static napi_value of_two(napi_env env, napi_callback_info info, call_of_two *call)
{
    text_in one, other;
    smap_bytes bytes = {0};
    ARGUMENTS(2);
    if (!two_texts_of(env, w, &one, &other)) return NULL;
    uint32_t code = call(one.at, one.len, other.at, other.len, &bytes);
    text_done(&one);
    text_done(&other);
    return given(env, code, &bytes);
}

/* inlineMap(url) */
static napi_value do_inline_map(napi_env env, napi_callback_info info)
{
    return of_one(env, info, smap_data_url);
}

/* fileUrl(path) */
static napi_value do_file_url(napi_env env, napi_callback_info info)
{
    return of_one(env, info, smap_file_url);
}

/* filePath(url) */
static napi_value do_file_path(napi_env env, napi_callback_info info)
{
    return of_one(env, info, smap_file_path);
}

/* normalForm(name, query) */
static napi_value do_normal_form(napi_env env, napi_callback_info info)
{
    text_in text;
    bool query;
    smap_bytes bytes = {0};
    ARGUMENTS(2);
    CALL(napi_get_value_bool(env, w[1], &query));
    if (!text_of(env, w[0], &text)) return NULL;
    uint32_t code = smap_normal_form(text.at, text.len, query, &bytes);
    text_done(&text);
    return given(env, code, &bytes);
}

/* resolveLink(script, link) */
static napi_value do_resolve_link(napi_env env, napi_callback_info info)
{
    return of_two(env, info, smap_resolve);
}

/* scriptUrl(folder, name) */
static napi_value do_script_url(napi_env env, napi_callback_info info)
{
    return of_two(env, info, smap_script_url);
}

/* scriptName(folder, url) */
static napi_value do_script_name(napi_env env, napi_callback_info info)
{
    return of_two(env, info, smap_script_name);
}

/* The URL that a text names. All of the text has been read when the Buffer is made, since JavaScript, which
 * makes it, could take the text away. */
static napi_value link_in(napi_env env, const text_in *text, bool css)
{
    char room[1024], *long_room;
    size_t len = 0;
    uint32_t code = smap_script_link(text->at, text->len, css, room, sizeof room, &len);
    if (code != SMAP_OK) return given(env, code, NULL);
    if (len <= sizeof room) return buffer_out(env, room, len);
    long_room = malloc(len);
    if (!long_room) return throw_code(env, SMAP_MEMORY, NULL);
    smap_script_link(text->at, text->len, css, long_room, len, &len);
    napi_value out = buffer_out(env, long_room, len);
    free(long_room);
    return out;
}

/* scriptLink(text, css) */
static napi_value do_script_link(napi_env env, napi_callback_info info)
{
    text_in text;
    bool css;
    ARGUMENTS(2);
    CALL(napi_get_value_bool(env, w[1], &css));
    if (!text_of(env, w[0], &text)) return NULL;
    napi_value out = link_in(env, &text, css);
    text_done(&text);
    return out;
}

/* areAlike(one, other): a boolean */
static napi_value do_are_alike(napi_env env, napi_callback_info info)
{
    text_in one, other;
    bool alike = false;
    napi_value out;
    ARGUMENTS(2);
    if (!two_texts_of(env, w, &one, &other)) return NULL;
    uint32_t code = smap_alike(one.at, one.len, other.at, other.len, &alike);
    text_done(&one);
    text_done(&other);
    if (code != SMAP_OK) return throw_code(env, code, NULL);
    CALL(napi_get_boolean(env, alike, &out));
    return out;
}

/* Takes over three texts, or none of them. */
static bool three_texts_of(napi_env env, const napi_value *w, text_in *one, text_in *other, text_in *third)
{
    if (!two_texts_of(env, w, one, other)) return false;
    if (text_of(env, w[2], third)) return true;
    text_done(one);
    text_done(other);
    return false;
}

/* scriptMap(folder, name, text, tried): what the script names, as a number, and the next map, or null */
static napi_value do_script_map(napi_env env, napi_callback_info info)
{
    text_in folder, name, text;
    uint32_t tried, kind = 0;
    smap_bytes bytes = {0};
    napi_value out, number, map;
    ARGUMENTS(4);
    CALL(napi_get_value_uint32(env, w[3], &tried));
    if (!three_texts_of(env, w, &folder, &name, &text)) return NULL;
    uint32_t code = smap_script_map(folder.at, folder.len, name.at, name.len, text.at, text.len, tried, &bytes,
                                    &kind);
    text_done(&folder);
    text_done(&name);
    text_done(&text);
    map = given(env, code, &bytes);
    if (!map) return NULL;
    CALL(napi_create_uint32(env, kind, &number));
    CALL(napi_create_array_with_length(env, 2, &out));
    CALL(napi_set_element(env, out, 0, number));
    CALL(napi_set_element(env, out, 1, map));
    return out;
}

const call link_calls[] = {
    {"inlineMap", do_inline_map},
    {"fileUrl", do_file_url},
    {"filePath", do_file_path},
    {"normalForm", do_normal_form},
    {"resolveLink", do_resolve_link},
    {"scriptUrl", do_script_url},
    {"scriptName", do_script_name},
    {"scriptLink", do_script_link},
    {"scriptMap", do_script_map},
    {"areAlike", do_are_alike},
    {NULL, NULL},
};
