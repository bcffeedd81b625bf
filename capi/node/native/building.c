/* Maps that are built. */
#include "smap_node.h"

typedef struct boxed_builder {
    uint32_t tag;
    smap_builder builder;
    int64_t held;      /* what V8 was told of it */
    uint32_t contents; /* of sources from this number on no content was told */
} boxed_builder;

/* The arguments and the builder, which is the first of them. */
#define BUILDER_AND(n)                                                                                       \
    ARGUMENTS(n);                                                                                            \
    boxed_builder *boxed = boxed_of(env, w[0], BUILDER_TAG, "not a builder");                                \
    if (!boxed) return NULL

/* Tells V8 of bytes that the builder took. */
static void hold(napi_env env, boxed_builder *boxed, size_t more)
{
    boxed->held += (int64_t)more;
    tell_held(env, (int64_t)more);
}

static void close_builder(napi_env env, boxed_builder *boxed)
{
    smap_builder_close(&boxed->builder);
    tell_held(env, -boxed->held);
    boxed->held = 0;
}

static void free_builder(napi_env env, void *at, void *hint)
{
    (void)hint;
    close_builder(env, at);
    free(at);
}

/* builderOpen(url, items, lines): a handle */
static napi_value do_builder_open(napi_env env, napi_callback_info info)
{
    text_in url;
    smap_limits limits;
    napi_value handle;
    ARGUMENTS(3);
    CALL(napi_get_value_uint32(env, w[1], &limits.items));
    CALL(napi_get_value_uint32(env, w[2], &limits.lines));
    if (!text_of(env, w[0], &url)) return NULL;
    boxed_builder *boxed = calloc(1, sizeof *boxed);
    uint32_t code = boxed ? smap_builder_open(&boxed->builder, url.at, url.len, &limits) : SMAP_MEMORY;
    text_done(&url);
    if (code == SMAP_OK) {
        boxed->tag = BUILDER_TAG;
        if (napi_create_external(env, boxed, free_builder, NULL, &handle) == napi_ok) return handle;
        smap_builder_close(&boxed->builder);
    }
    free(boxed);
    return code == SMAP_OK ? failed(env) : throw_code(env, code, NULL);
}

/* builderClose(builder) */
static napi_value do_builder_close(napi_env env, napi_callback_info info)
{
    BUILDER_AND(1);
    close_builder(env, boxed);
    return NULL;
}

/* A text, or null, of which `has` says that there is none. */
static bool text_or_null(napi_env env, napi_value value, text_in *text, bool *has)
{
    napi_valuetype kind;
    *has = napi_typeof(env, value, &kind) != napi_ok || kind != napi_null;
    if (*has) return text_of(env, value, text);
    text->at = text->owned = NULL;
    text->len = 0;
    return true;
}

static napi_value nothing_out(napi_env env, uint32_t code)
{
    return code == SMAP_OK ? NULL : throw_code(env, code, NULL);
}

static napi_value number_out(napi_env env, uint32_t code, uint32_t number)
{
    napi_value out;
    if (code != SMAP_OK) return throw_code(env, code, NULL);
    CALL(napi_create_uint32(env, number, &out));
    return out;
}

/* builderFile(builder, file): a text or null */
static napi_value do_builder_file(napi_env env, napi_callback_info info)
{
    text_in file;
    bool has;
    BUILDER_AND(2);
    if (!text_or_null(env, w[1], &file, &has)) return NULL;
    uint32_t code = smap_builder_file(&boxed->builder, has, file.at, file.len);
    text_done(&file);
    return nothing_out(env, code);
}

/* builderSource(builder, url): the number of the source with a URL, or, for null, of that without one */
static napi_value do_builder_source(napi_env env, napi_callback_info info)
{
    text_in url;
    bool has;
    uint32_t number;
    BUILDER_AND(2);
    if (!text_or_null(env, w[1], &url, &has)) return NULL;
    uint32_t code = smap_builder_source(&boxed->builder, has, url.at, url.len, &number);
    text_done(&url);
    return number_out(env, code, number);
}

/* builderContent(builder, source, content): a text or null */
static napi_value do_builder_content(napi_env env, napi_callback_info info)
{
    text_in content;
    bool has;
    uint32_t source;
    BUILDER_AND(3);
    CALL(napi_get_value_uint32(env, w[1], &source));
    if (!text_or_null(env, w[2], &content, &has)) return NULL;
    uint32_t code = smap_builder_content(&boxed->builder, source, has, content.at, content.len);
    if (code == SMAP_OK && has && source >= boxed->contents) {
        hold(env, boxed, content.len);
        boxed->contents = source + 1;
    }
    text_done(&content);
    return nothing_out(env, code);
}

/* builderIgnore(builder, source, isIgnored) */
static napi_value do_builder_ignore(napi_env env, napi_callback_info info)
{
    uint32_t source;
    bool is_ignored;
    BUILDER_AND(3);
    CALL(napi_get_value_uint32(env, w[1], &source));
    CALL(napi_get_value_bool(env, w[2], &is_ignored));
    return nothing_out(env, smap_builder_ignore(&boxed->builder, source, is_ignored));
}

/* builderName(builder, name): its number */
static napi_value do_builder_name(napi_env env, napi_callback_info info)
{
    text_in name;
    uint32_t number;
    BUILDER_AND(2);
    if (!text_of(env, w[1], &name)) return NULL;
    uint32_t code = smap_builder_name(&boxed->builder, name.at, name.len, &number);
    text_done(&name);
    return number_out(env, code, number);
}

/* builderAdd(builder, numbers): nothing, or the index of the first mapping that is wrong */
static napi_value do_builder_add(napi_env env, napi_callback_info info)
{
    uint32_t *numbers;
    size_t len, wrong;
    napi_value index;
    BUILDER_AND(2);
    if (!words_of(env, w[1], &numbers, &len)) return NULL;
    uint32_t code = smap_builder_add(&boxed->builder, numbers, len / 6, &wrong);
    if (code == SMAP_OK) hold(env, boxed, len * sizeof *numbers);
    if (code != SMAP_RANGE) return nothing_out(env, code);
    CALL(napi_create_int64(env, (int64_t)wrong, &index));
    return index;
}

/* builderFinish(builder): a handle of its map. The builder is closed. */
static napi_value do_builder_finish(napi_env env, napi_callback_info info)
{
    BUILDER_AND(1);
    boxed_map *made = new_map();
    uint32_t code = made ? smap_builder_finish(&boxed->builder, &made->map) : SMAP_MEMORY;
    close_builder(env, boxed);
    return made_out(env, made, code);
}

const call building_calls[] = {
    {"builderOpen", do_builder_open},
    {"builderClose", do_builder_close},
    {"builderFile", do_builder_file},
    {"builderSource", do_builder_source},
    {"builderContent", do_builder_content},
    {"builderIgnore", do_builder_ignore},
    {"builderName", do_builder_name},
    {"builderAdd", do_builder_add},
    {"builderFinish", do_builder_finish},
    {NULL, NULL},
};
