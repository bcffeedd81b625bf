/* Texts and numbers that come in and go out. */
#include "smap_node.h"

bool text_of(napi_env env, napi_value value, text_in *text)
{
    bool is_buffer = false;
    text->owned = NULL;
    text->is_string = false;
    if (napi_is_buffer(env, value, &is_buffer) == napi_ok && is_buffer) {
        if (napi_get_buffer_info(env, value, (void **)&text->at, &text->len) == napi_ok) return true;
        failed(env);
        return false;
    }
    text->is_string = true;
    text->at = text->room;
    if (napi_get_value_string_utf8(env, value, text->room, sizeof text->room, &text->len) != napi_ok) {
        failed(env);
        return false;
    }
    /* Four bytes of room that are left mean that no character was left out. */
    if (text->len < sizeof text->room - 4) return true;
    size_t room = 0;
    napi_status status = napi_get_value_string_utf8(env, value, NULL, 0, &room);
    if (status == napi_ok) {
        text->owned = malloc(room + 1);
        if (!text->owned) {
            throw_code(env, SMAP_MEMORY, NULL);
            return false;
        }
        text->at = text->owned;
        status = napi_get_value_string_utf8(env, value, text->owned, room + 1, &text->len);
    }
    if (status == napi_ok) return true;
    failed(env);
    text_done(text);
    return false;
}

bool kept_text_of(napi_env env, napi_value value, text_in *text)
{
    if (!text_of(env, value, text)) return false;
    if (text->is_string) return true;
    text->owned = malloc(text->len + 1);
    if (!text->owned) {
        throw_code(env, SMAP_MEMORY, NULL);
        return false;
    }
    if (text->len) memcpy(text->owned, text->at, text->len);
    text->at = text->owned;
    return true;
}

void text_done(text_in *text)
{
    free(text->owned);
    text->owned = NULL;
}

napi_value string_out(napi_env env, const char *at, size_t len)
{
    bool pending = false;
    napi_value out = NULL;
    if (napi_create_string_utf8(env, at, len, &out) == napi_ok) return out;
    napi_is_exception_pending(env, &pending);
    if (!pending) napi_throw_range_error(env, "SMAP_TOO_LONG", "longer than a string can be");
    return NULL;
}

/* JavaScript makes it, which throws where there is no memory: Node-API would end the process. */
napi_value buffer_out(napi_env env, const void *at, size_t len)
{
    thread_data *own = NULL;
    napi_value make, this, word, out;
    void *to = NULL;
    size_t room = 0;
    CALL(napi_get_instance_data(env, (void **)&own));
    CALL(napi_get_reference_value(env, own->room, &make));
    CALL(napi_get_undefined(env, &this));
    CALL(napi_create_double(env, (double)len, &word));
    CALL(napi_call_function(env, this, make, 1, &word, &out));
    CALL(napi_get_buffer_info(env, out, &to, &room));
    if (room != len) {
        napi_throw_error(env, "SMAP_INTERNAL", "a Buffer of another length");
        return NULL;
    }
    if (len) memcpy(to, at, len);
    return out;
}

napi_value bytes_out(napi_env env, smap_bytes *bytes, bool as_buffer)
{
    const uint8_t *at = NULL;
    size_t len = 0;
    napi_value out;
    smap_bytes_data(bytes, &at, &len);
    out = as_buffer ? buffer_out(env, at, len) : string_out(env, (const char *)at, len);
    smap_bytes_free(bytes);
    return out;
}

bool words_of(napi_env env, napi_value value, uint32_t **at, size_t *len)
{
    napi_typedarray_type type;
    if (napi_get_typedarray_info(env, value, &type, len, (void **)at, NULL, NULL) == napi_ok &&
        (type == napi_uint32_array || type == napi_int32_array) && (*at || !*len))
        return true;
    napi_throw_type_error(env, NULL, "not an array of numbers of 32 bits");
    return false;
}

napi_value numbers_out(napi_env env, const uint64_t *numbers, uint32_t count)
{
    napi_value out, one;
    CALL(napi_create_array_with_length(env, count, &out));
    for (uint32_t i = 0; i < count; i++) {
        CALL(napi_create_int64(env, (int64_t)numbers[i], &one));
        CALL(napi_set_element(env, out, i, one));
    }
    return out;
}

napi_value object_out(napi_env env, const named_number *numbers, size_t count)
{
    napi_value out, one;
    CALL(napi_create_object(env, &out));
    for (size_t i = 0; i < count; i++) {
        CALL(napi_create_int64(env, (int64_t)numbers[i].number, &one));
        CALL(napi_set_named_property(env, out, numbers[i].name, one));
    }
    return out;
}
