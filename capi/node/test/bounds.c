/* For the build under the sanitizers alone, which is linked with --wrap for each function here, by the name
 * that smap.h calls. The library isn't built with them. So what it is given to read is read here, before and
 * after the call, and what it is given to write into is written, as far as it may be. */
#include "../native/smap_node.h"

static void read_all(const void *at, size_t len)
{
    for (size_t i = 0; i < len; i++) (void)((const volatile char *)at)[i];
}

static void write_all(void *at, size_t len)
{
    for (size_t i = 0; i < len; i++) ((volatile char *)at)[i] = 'x';
}

uint32_t __real_smap_open_strict(smap_map *map, const void *text, size_t len, const char *base,
                                 size_t base_len, const smap_limits *limits, smap_fault *fault);
uint32_t __wrap_smap_open_strict(smap_map *map, const void *text, size_t len, const char *base,
                                 size_t base_len, const smap_limits *limits, smap_fault *fault);

uint32_t __wrap_smap_open_strict(smap_map *map, const void *text, size_t len, const char *base,
                                 size_t base_len, const smap_limits *limits, smap_fault *fault)
{
    read_all(text, len);
    read_all(base, base_len);
    uint32_t code = __real_smap_open_strict(map, text, len, base, base_len, limits, fault);
    read_all(text, len);
    read_all(base, base_len);
    return code;
}

uint32_t __real_smap_open_within_strict(smap_map *map, const void *text, size_t len, const char *base,
                                        size_t base_len, const smap_limits *limits, size_t url_bytes,
                                        smap_fault *fault);
uint32_t __wrap_smap_open_within_strict(smap_map *map, const void *text, size_t len, const char *base,
                                        size_t base_len, const smap_limits *limits, size_t url_bytes,
                                        smap_fault *fault);

uint32_t __wrap_smap_open_within_strict(smap_map *map, const void *text, size_t len, const char *base,
                                        size_t base_len, const smap_limits *limits, size_t url_bytes,
                                        smap_fault *fault)
{
    read_all(text, len);
    read_all(base, base_len);
    uint32_t code = __real_smap_open_within_strict(map, text, len, base, base_len, limits, url_bytes, fault);
    read_all(text, len);
    read_all(base, base_len);
    return code;
}

uint32_t __real_smap_respell_strict(const char *text, size_t len, smap_bytes *out, smap_fault *fault);
uint32_t __wrap_smap_respell_strict(const char *text, size_t len, smap_bytes *out, smap_fault *fault);

uint32_t __wrap_smap_respell_strict(const char *text, size_t len, smap_bytes *out, smap_fault *fault)
{
    read_all(text, len);
    uint32_t code = __real_smap_respell_strict(text, len, out, fault);
    read_all(text, len);
    return code;
}

uint32_t __real_smap_spell_strict(const uint32_t *numbers, size_t mappings, smap_bytes *out, size_t *wrong);
uint32_t __wrap_smap_spell_strict(const uint32_t *numbers, size_t mappings, smap_bytes *out, size_t *wrong);

uint32_t __wrap_smap_spell_strict(const uint32_t *numbers, size_t mappings, smap_bytes *out, size_t *wrong)
{
    read_all(numbers, 24 * mappings);
    uint32_t code = __real_smap_spell_strict(numbers, mappings, out, wrong);
    read_all(numbers, 24 * mappings);
    return code;
}

uint32_t __real_smap_builder_content_strict(smap_builder *builder, uint32_t source, bool has_content,
                                            const char *content, size_t len);
uint32_t __wrap_smap_builder_content_strict(smap_builder *builder, uint32_t source, bool has_content,
                                            const char *content, size_t len);

uint32_t __wrap_smap_builder_content_strict(smap_builder *builder, uint32_t source, bool has_content,
                                            const char *content, size_t len)
{
    read_all(content, len);
    return __real_smap_builder_content_strict(builder, source, has_content, content, len);
}

uint32_t __real_smap_builder_add_strict(smap_builder *builder, const uint32_t *numbers, size_t mappings,
                                        size_t *wrong);
uint32_t __wrap_smap_builder_add_strict(smap_builder *builder, const uint32_t *numbers, size_t mappings,
                                        size_t *wrong);

uint32_t __wrap_smap_builder_add_strict(smap_builder *builder, const uint32_t *numbers, size_t mappings,
                                        size_t *wrong)
{
    read_all(numbers, 24 * mappings);
    uint32_t code = __real_smap_builder_add_strict(builder, numbers, mappings, wrong);
    read_all(numbers, 24 * mappings);
    return code;
}

uint32_t __real_smap_frame_strict(const void *line, size_t len, smap_frame_parts *out);
uint32_t __wrap_smap_frame_strict(const void *line, size_t len, smap_frame_parts *out);

uint32_t __wrap_smap_frame_strict(const void *line, size_t len, smap_frame_parts *out)
{
    read_all(line, len);
    return __real_smap_frame_strict(line, len, out);
}

uint32_t __real_smap_add_script_strict(smap_scripts *scripts, const char *url, size_t url_len,
                                       smap_map *map);
uint32_t __wrap_smap_add_script_strict(smap_scripts *scripts, const char *url, size_t url_len,
                                       smap_map *map);

uint32_t __wrap_smap_add_script_strict(smap_scripts *scripts, const char *url, size_t url_len, smap_map *map)
{
    read_all(url, url_len);
    return __real_smap_add_script_strict(scripts, url, url_len, map);
}

uint32_t __real_smap_translate_strict(smap_scripts *scripts, const void *trace, size_t len, uint8_t how,
                                      smap_bytes *out, smap_trace_counts *counts);
uint32_t __wrap_smap_translate_strict(smap_scripts *scripts, const void *trace, size_t len, uint8_t how,
                                      smap_bytes *out, smap_trace_counts *counts);

uint32_t __wrap_smap_translate_strict(smap_scripts *scripts, const void *trace, size_t len, uint8_t how,
                                      smap_bytes *out, smap_trace_counts *counts)
{
    read_all(trace, len);
    uint32_t code = __real_smap_translate_strict(scripts, trace, len, how, out, counts);
    read_all(trace, len);
    return code;
}

uint32_t __real_smap_file_strict(smap_map *map, char *out, size_t room, size_t *len);
uint32_t __wrap_smap_file_strict(smap_map *map, char *out, size_t room, size_t *len);

uint32_t __wrap_smap_file_strict(smap_map *map, char *out, size_t room, size_t *len)
{
    write_all(out, room);
    return __real_smap_file_strict(map, out, room, len);
}

/* The texts that have a number: one function like the other. */
#define WRAPPED(name)                                                                                        \
    uint32_t __real_##name(smap_map *map, size_t i, char *out, size_t room, size_t *len);                    \
    uint32_t __wrap_##name(smap_map *map, size_t i, char *out, size_t room, size_t *len);                    \
    uint32_t __wrap_##name(smap_map *map, size_t i, char *out, size_t room, size_t *len)                     \
    {                                                                                                        \
        write_all(out, room);                                                                                \
        return __real_##name(map, i, out, room, len);                                                        \
    }

WRAPPED(smap_source_url_strict)
WRAPPED(smap_source_content_strict)
WRAPPED(smap_listed_name_strict)
WRAPPED(smap_written_source_strict)
WRAPPED(smap_written_root_strict)

uint32_t __real_smap_script_link_strict(const void *text, size_t len, bool css, char *out, size_t room,
                                        size_t *url_len);
uint32_t __wrap_smap_script_link_strict(const void *text, size_t len, bool css, char *out, size_t room,
                                        size_t *url_len);

uint32_t __wrap_smap_script_link_strict(const void *text, size_t len, bool css, char *out, size_t room,
                                        size_t *url_len)
{
    read_all(text, len);
    write_all(out, room);
    uint32_t code = __real_smap_script_link_strict(text, len, css, out, room, url_len);
    read_all(text, len);
    return code;
}

uint32_t __real_smap_alike_strict(const char *one, size_t one_len, const char *other, size_t other_len,
                                  bool *out);
uint32_t __wrap_smap_alike_strict(const char *one, size_t one_len, const char *other, size_t other_len,
                                  bool *out);

uint32_t __wrap_smap_alike_strict(const char *one, size_t one_len, const char *other, size_t other_len,
                                  bool *out)
{
    read_all(one, one_len);
    read_all(other, other_len);
    return __real_smap_alike_strict(one, one_len, other, other_len, out);
}

/* What is made of one text, and of two. */
#define WRAPPED_ONE(name)                                                                                    \
    uint32_t __real_##name(const char *text, size_t len, smap_bytes *out);                                   \
    uint32_t __wrap_##name(const char *text, size_t len, smap_bytes *out);                                   \
    uint32_t __wrap_##name(const char *text, size_t len, smap_bytes *out)                                    \
    {                                                                                                        \
        read_all(text, len);                                                                                 \
        return __real_##name(text, len, out);                                                                \
    }

#define WRAPPED_TWO(name)                                                                                    \
    uint32_t __real_##name(const char *one, size_t one_len, const char *other, size_t other_len,             \
                           smap_bytes *out);                                                                 \
    uint32_t __wrap_##name(const char *one, size_t one_len, const char *other, size_t other_len,             \
                           smap_bytes *out);                                                                 \
    uint32_t __wrap_##name(const char *one, size_t one_len, const char *other, size_t other_len,             \
                           smap_bytes *out)                                                                  \
    {                                                                                                        \
        read_all(one, one_len);                                                                              \
        read_all(other, other_len);                                                                          \
        return __real_##name(one, one_len, other, other_len, out);                                           \
    }

WRAPPED_ONE(smap_data_url_strict)
WRAPPED_ONE(smap_file_url_strict)
WRAPPED_ONE(smap_file_path_strict)
WRAPPED_TWO(smap_resolve_strict)
WRAPPED_TWO(smap_script_url_strict)
WRAPPED_TWO(smap_script_name_strict)

uint32_t __real_smap_normal_form_strict(const char *name, size_t len, bool with_query, smap_bytes *out);
uint32_t __wrap_smap_normal_form_strict(const char *name, size_t len, bool with_query, smap_bytes *out);

uint32_t __wrap_smap_normal_form_strict(const char *name, size_t len, bool with_query, smap_bytes *out)
{
    read_all(name, len);
    return __real_smap_normal_form_strict(name, len, with_query, out);
}
