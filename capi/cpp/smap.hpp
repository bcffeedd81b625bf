/* Owners of the handles of smap.h for C++11 and later: they close what they hold, and can be moved and not
 * copied. Calls answer a code of smap.h, and the rest of smap.h is called on `handle()`. */
#ifndef SMAP_HPP
#define SMAP_HPP

#include "smap.h"

#include <string>
#include <utility>
#include <vector>

namespace smap {

/* An owner of a handle that Close closes. */
template <typename Handle, void (*Close)(Handle *)>
class Owner {
public:
    Owner() noexcept : handle_() {}
    ~Owner() { Close(&handle_); }
    Owner(const Owner &) = delete;
    Owner &operator=(const Owner &) = delete;
    Owner(Owner &&other) noexcept : handle_(other.handle_) { other.handle_ = Handle(); }
    Owner &operator=(Owner &&other) noexcept
    {
        std::swap(handle_, other.handle_);
        return *this;
    }
    Handle *handle() noexcept { return &handle_; }
    bool is_open() const noexcept { return handle_.is_open; }

private:
    Handle handle_;
};

typedef Owner<smap_map, smap_close> Map;
typedef Owner<smap_bytes, smap_bytes_free> Bytes;
typedef Owner<smap_scripts, smap_close_scripts> Scripts;
typedef Owner<smap_builder, smap_builder_close> Builder;

/* The name of a code. */
inline std::string code_name(uint32_t code)
{
    char name[64];
    return std::string(name, smap_code_name(code, name, sizeof name));
}

/* The name of a kind of error. */
inline std::string fault_name(uint32_t kind)
{
    char name[64];
    return std::string(name, smap_fault_name(kind, name, sizeof name));
}

/* The bytes as a string. */
inline std::string text(Bytes &bytes)
{
    const uint8_t *at;
    size_t len;
    if (smap_bytes_data(bytes.handle(), &at, &len) != SMAP_OK) return std::string();
    return std::string(reinterpret_cast<const char *>(at), len);
}

/* Opens a map, as smap_open does. */
inline uint32_t open(Map &map, const std::string &text, const std::string &base, smap_fault *fault = nullptr,
                     const smap_limits *limits = nullptr)
{
    return smap_open(map.handle(), text.data(), text.size(), base.data(), base.size(), limits, fault);
}

/* The same, unless the URLs of its sources take more than `url_bytes` bytes, as smap_open_within does. */
inline uint32_t open_within(Map &map, const std::string &text, const std::string &base, size_t url_bytes,
                            smap_fault *fault = nullptr, const smap_limits *limits = nullptr)
{
    return smap_open_within(map.handle(), text.data(), text.size(), base.data(), base.size(), limits,
                            url_bytes, fault);
}

/* Makes `out` the string that a call copies into a buffer; it is empty if the code isn't OK. */
template <typename Call>
uint32_t copied(Call call, std::string &out)
{
    size_t len = 0;
    uint32_t code = call(nullptr, 0, &len);
    out.resize(len);
    return len ? call(&out[0], len, &len) : code;
}

/* The same of a call on a map. */
template <typename Call, typename... Which>
uint32_t copied_of(Map &map, std::string &out, Call call, Which... which)
{
    smap_map *handle = map.handle();
    return copied([=](char *at, size_t n, size_t *len) { return call(handle, which..., at, n, len); }, out);
}

/* ---- texts of maps: tools/write-bindings writes this out of capi/smap.h */

/* The name of the generated file. */
inline uint32_t file(Map &map, std::string &out)
{
    return copied_of(map, out, smap_file);
}

/* The name of the mapping for a generated position. */
inline uint32_t name_at(Map &map, uint32_t line, uint32_t column, std::string &out)
{
    return copied_of(map, out, smap_name_at, line, column);
}

/* The URL of a source. */
inline uint32_t source_url(Map &map, size_t source, std::string &out)
{
    return copied_of(map, out, smap_source_url, source);
}

/* The content of a source. */
inline uint32_t source_content(Map &map, size_t source, std::string &out)
{
    return copied_of(map, out, smap_source_content, source);
}

/* The i-th source that the map lists, as its text writes it: not resolved, and without its
 * `sourceRoot`. */
inline uint32_t written_source(Map &map, size_t i, std::string &out)
{
    return copied_of(map, out, smap_written_source, i);
}

/* The `sourceRoot` that applies to the i-th source that the map lists, which may be empty: in an index
 * map that of the section's map. */
inline uint32_t written_root(Map &map, size_t i, std::string &out)
{
    return copied_of(map, out, smap_written_root, i);
}

/* The i-th name that the map lists. */
inline uint32_t listed_name(Map &map, size_t i, std::string &out)
{
    return copied_of(map, out, smap_listed_name, i);
}

/* ---- scripts and logs */

/* Adds a script, as smap_add_script does. The map may be closed afterwards. */
inline uint32_t add_script(Scripts &scripts, const std::string &url, Map &map)
{
    return smap_add_script(scripts.handle(), url.data(), url.size(), map.handle());
}

/* Translates a whole trace, as smap_translate does. */
inline uint32_t translate(Scripts &scripts, const std::string &trace, uint8_t how, Bytes &out,
                          smap_trace_counts *counts = nullptr)
{
    return smap_translate(scripts.handle(), trace.data(), trace.size(), how, out.handle(), counts);
}

/* The URL of its map that a script, or with `css` a style sheet, names in its last comment. */
inline uint32_t script_link(const std::string &text, std::string &out, bool css = false)
{
    return copied(
        [&](char *at, size_t n, size_t *len) {
            return smap_script_link(text.data(), text.size(), css, at, n, len);
        },
        out);
}

/* That URL resolved against the script's own. */
inline uint32_t resolve(const std::string &script, const std::string &url, Bytes &out)
{
    return smap_resolve(script.data(), script.size(), url.data(), url.size(), out.handle());
}

/* The bytes that a data: URL holds. */
inline uint32_t data_url(const std::string &url, Bytes &out)
{
    return smap_data_url(url.data(), url.size(), out.handle());
}

/* The file: URL of an absolute path. */
inline uint32_t file_url(const std::string &path, Bytes &out)
{
    return smap_file_url(path.data(), path.size(), out.handle());
}

/* The path of a file: URL. */
inline uint32_t file_path(const std::string &url, Bytes &out)
{
    return smap_file_path(url.data(), url.size(), out.handle());
}

/* The URL of the script with this name below a folder. */
inline uint32_t script_url(const std::string &folder, const std::string &name, Bytes &out)
{
    return smap_script_url(folder.data(), folder.size(), name.data(), name.size(), out.handle());
}

/* The name of the script with this URL below a folder. */
inline uint32_t script_name(const std::string &folder, const std::string &url, Bytes &out)
{
    return smap_script_name(folder.data(), folder.size(), url.data(), url.size(), out.handle());
}

/* What the script with this name below a folder names for its map: `kind`, and the map or its file's name. */
inline uint32_t named_map(const std::string &folder, const std::string &name, const std::string &text,
                          Bytes &out, uint32_t &kind)
{
    return smap_named_map(folder.data(), folder.size(), name.data(), name.size(), text.data(), text.size(),
                          out.handle(), &kind);
}

/* The next of the maps that this script may have, after so many that can't be had: the first that can is its
 * map. */
inline uint32_t script_map(const std::string &folder, const std::string &name, const std::string &text,
                           size_t tried, Bytes &out, uint32_t &kind)
{
    return smap_script_map(folder.data(), folder.size(), name.data(), name.size(), text.data(), text.size(),
                           tried, out.handle(), &kind);
}

/* What a file is by the end of its name, one of SMAP_FILE_... */
inline uint32_t file_kind(const std::string &name)
{
    return smap_file_kind(name.data(), name.size());
}

/* What all names of a script have in common, or with_query those that have the same query too. */
inline uint32_t normal_form(const std::string &name, Bytes &out, bool with_query = false)
{
    return smap_normal_form(name.data(), name.size(), with_query, out.handle());
}

/* Whether two names are alike. */
inline uint32_t alike(const std::string &one, const std::string &other, bool &out)
{
    return smap_alike(one.data(), one.size(), other.data(), other.size(), &out);
}

/* ---- mappings strings */

/* The mappings string of mappings, six numbers each, as smap_spell writes it. */
inline uint32_t spell(const std::vector<uint32_t> &numbers, Bytes &out, size_t *wrong = nullptr)
{
    return smap_spell(numbers.data(), numbers.size() / 6, out.handle(), wrong);
}

/* ---- maps made of maps */

/* Composes a map with maps of its sources, as smap_compose does. */
inline uint32_t compose(Map &outer, std::vector<Map> &inner, const std::vector<size_t> &leads, Map &out,
                        const smap_limits *limits = nullptr)
{
    std::vector<smap_map> handles;
    for (Map &map : inner) handles.push_back(*map.handle());
    uint32_t code = smap_compose(outer.handle(), handles.data(), handles.size(), leads.data(), leads.size(),
                                 limits, out.handle());
    for (size_t i = 0; i < inner.size(); i++) *inner[i].handle() = handles[i];
    return code;
}

/* ---- maps that are built. A null source, and what is taken away again, are asked for by smap.h. */

/* Opens a builder, as smap_builder_open does. */
inline uint32_t builder_open(Builder &builder, const std::string &base, const smap_limits *limits = nullptr)
{
    return smap_builder_open(builder.handle(), base.data(), base.size(), limits);
}

/* Gives the generated file this name. */
inline uint32_t builder_file(Builder &builder, const std::string &file)
{
    return smap_builder_file(builder.handle(), true, file.data(), file.size());
}

/* The number of the source with this URL. */
inline uint32_t builder_source(Builder &builder, const std::string &url, uint32_t &number)
{
    return smap_builder_source(builder.handle(), true, url.data(), url.size(), &number);
}

/* Gives a source this content. */
inline uint32_t builder_content(Builder &builder, uint32_t source, const std::string &content)
{
    return smap_builder_content(builder.handle(), source, true, content.data(), content.size());
}

/* The number of a name. */
inline uint32_t builder_name(Builder &builder, const std::string &name, uint32_t &number)
{
    return smap_builder_name(builder.handle(), name.data(), name.size(), &number);
}

/* Adds mappings, six numbers each, as smap_builder_add does. */
inline uint32_t builder_add(Builder &builder, const std::vector<uint32_t> &numbers, size_t *wrong = nullptr)
{
    return smap_builder_add(builder.handle(), numbers.data(), numbers.size() / 6, wrong);
}

/* Closes the builder, and opens `out` on its map. */
inline uint32_t builder_finish(Builder &builder, Map &out)
{
    return smap_builder_finish(builder.handle(), out.handle());
}

} // namespace smap

#endif
