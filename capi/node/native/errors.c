/* Errors, which are thrown as JavaScript objects. */
#include "smap_node.h"

napi_value failed(napi_env env)
{
    bool pending = false;
    const napi_extended_error_info *info = NULL;
    napi_get_last_error_info(env, &info);
    napi_is_exception_pending(env, &pending);
    if (!pending) {
        const char *why = info && info->error_message ? info->error_message : "the call failed";
        napi_throw_error(env, "SMAP_INTERNAL", why);
    }
    return NULL;
}

/* The words of SmapError that a fault gives: the message, the kind, the line, the segment, and the number. */
static napi_value put_fault(napi_env env, const smap_fault *fault, napi_value *words)
{
    char kind[32];
    CALL(napi_create_string_utf8(env, fault->text, fault_len(fault), &words[1]));
    size_t kind_len = smap_fault_name(fault->kind, kind, sizeof kind);
    if (kind_len && kind_len <= sizeof kind) CALL(napi_create_string_utf8(env, kind, kind_len, &words[2]));
    if (fault->has_place) {
        CALL(napi_create_uint32(env, fault->line, &words[3]));
        CALL(napi_create_uint32(env, fault->segment, &words[4]));
    }
    CALL(napi_create_int64(env, (int64_t)fault->number, &words[5]));
    return words[5];
}

static napi_value section_out(napi_env env, const smap_fault *fault)
{
    uint64_t section[8];
    uint32_t depth = fault_depth(fault);
    for (uint32_t i = 0; i < depth; i++) section[i] = fault->section[i];
    return numbers_out(env, section, depth);
}

/* Throws `new SmapError(code, message, kind, line, segment, number, section)`. */
napi_value throw_code(napi_env env, uint32_t code, const smap_fault *fault)
{
    thread_data *own = NULL;
    napi_value words[7], class, error;
    CALL(napi_get_instance_data(env, (void **)&own));
    CALL(napi_get_null(env, &words[2]));
    words[3] = words[4] = words[5] = words[6] = words[2];
    CALL(napi_create_string_utf8(env, code_of(code), NAPI_AUTO_LENGTH, &words[0]));
    if (code == SMAP_REFUSED && fault) {
        if (!put_fault(env, fault, words)) return NULL;
        words[6] = section_out(env, fault);
        if (!words[6]) return NULL;
    } else {
        char text[64];
        size_t len = smap_code_name(code, text, sizeof text);
        CALL(napi_create_string_utf8(env, text, len < sizeof text ? len : sizeof text, &words[1]));
    }
    CALL(napi_get_reference_value(env, own->error, &class));
    CALL(napi_new_instance(env, class, 7, words, &error));
    CALL(napi_throw(env, error));
    return NULL;
}
