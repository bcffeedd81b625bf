/* The owners for C++ close what they hold, and can be moved. */
#include "smap.hpp"

#include <cstdio>

static int failures;

#define CHECK(holds) ((holds) ? (void)0 : (void)(failures++, std::printf("line %d: %s\n", __LINE__, #holds)))

int main()
{
    const std::string text = "{\"version\":3,\"file\":\"out.js\",\"sources\":[\"a.js\"],\"sourcesContent\":"
                             "[\"x\"],\"names\":[\"f\"],\"mappings\":\"AAUEA\"}";
    const std::string base = "http://h/m/out.js.map";
    smap::Map map, moved;
    smap::Bytes bytes;
    smap::Scripts scripts, kept;
    smap_trace_counts counts = smap_trace_counts();
    std::string out = "old";
    smap_mapping found = smap_mapping();
    smap_fault fault;
    CHECK(smap::open(map, text, base) == SMAP_OK && map.is_open());
    CHECK(smap::open_within(map, text, base, 14, &fault) == SMAP_URL_BYTES && map.is_open());
    CHECK(smap::open_within(map, text, base, 15) == SMAP_OK && map.is_open());
    CHECK(smap::code_name(SMAP_URL_BYTES) == "too many bytes of URLs");
    moved = std::move(map);
    CHECK(!map.is_open() && moved.is_open());
    smap::Map last(std::move(moved));
    CHECK(smap_lookup(last.handle(), 0, 7, &found) == SMAP_OK && found.source_line == 10);
    CHECK(smap::source_url(last, found.source, out) == SMAP_OK && out == "http://h/m/a.js");
    CHECK(smap::source_url(last, 1, out) == SMAP_RANGE && out == "");
    CHECK(smap::source_content(last, 0, out) == SMAP_OK && out == "x");
    CHECK(smap::name_at(last, 0, 1, out) == SMAP_OK && out == "f");
    CHECK(smap::listed_name(last, 0, out) == SMAP_OK && out == "f");
    CHECK(smap::written_source(last, 0, out) == SMAP_OK && out == "a.js");
    CHECK(smap::written_root(last, 0, out) == SMAP_NONE && out == "");
    CHECK(smap::file(last, out) == SMAP_OK && out == "out.js" && smap::file(map, out) == SMAP_CLOSED);
    CHECK(smap_canonical_mappings(last.handle(), bytes.handle()) == SMAP_OK && smap::text(bytes) == "AAUEA");
    CHECK(smap::translate(scripts, "@u:1:2\n", false, bytes) == SMAP_CLOSED && smap::text(bytes) == "AAUEA");
    CHECK(smap::add_script(scripts, "u", last) == SMAP_OK);
    CHECK(smap::add_script(scripts, "v", map) == SMAP_CLOSED);
    kept = std::move(scripts);
    CHECK(smap::translate(kept, "@u:1:2\n@v:1:2", false, bytes, &counts) == SMAP_OK);
    CHECK(smap::text(bytes) == "@http://h/m/a.js:11:3\n@v:1:2");
    CHECK(counts.lines == 2 && counts.translated == 1 && counts.dropped == 0);
    CHECK(smap::translate(kept, "9:00 u?v=3:1:2 {", SMAP_ANYWHERE | SMAP_IGNORE_QUERY, bytes) == SMAP_OK);
    CHECK(smap::text(bytes) == "9:00 http://h/m/a.js:11:3 {");
    CHECK(smap::code_name(SMAP_CLOSED) == "closed handle");
    CHECK(smap::fault_name(SMAP_FAULT_NOT_OBJECT) == "NotObject" && smap::fault_name(0) == "");
    CHECK(smap::open(last, "[]", base, &fault) == SMAP_REFUSED && std::string(fault.text) == "not an object");
    std::vector<smap::Map> inner(1);
    const std::string one = "{\"version\":3,\"sources\":[\"a.ts\"],\"mappings\":\";;;;;;;;;;AACA\"}";
    CHECK(smap::open(inner[0], one, base) == SMAP_OK);
    CHECK(smap::compose(last, inner, std::vector<size_t>(1, 0), map) == SMAP_OK && inner[0].is_open());
    CHECK(smap_canonical_mappings(map.handle(), bytes.handle()) == SMAP_OK && smap::text(bytes) == "AACAA");
    CHECK(smap::compose(last, inner, std::vector<size_t>(), map) == SMAP_OK);
    CHECK(smap_canonical_mappings(map.handle(), bytes.handle()) == SMAP_OK && smap::text(bytes) == "AAUEA");
    size_t wrong = 99;
    const uint32_t none = UINT32_MAX;
    const std::vector<uint32_t> numbers = {0, 4, 0, 2, 1, 0, 0, 1, none, none, none, none};
    CHECK(smap::spell(numbers, bytes) == SMAP_OK && smap::text(bytes) == "C,GAECA");
    CHECK(smap::spell(std::vector<uint32_t>(), bytes, &wrong) == SMAP_OK && smap::text(bytes) == "");
    CHECK(smap::spell(std::vector<uint32_t>(6, none), bytes, &wrong) == SMAP_RANGE && wrong == 0);
    smap::Builder builder, rest;
    uint32_t source = 9, name = 9;
    CHECK(smap::builder_file(builder, "out.js") == SMAP_CLOSED);
    CHECK(smap::builder_open(builder, "out.js.map") == SMAP_NOT_URL && !builder.is_open());
    CHECK(smap::builder_open(builder, base) == SMAP_OK && builder.is_open());
    CHECK(smap::builder_file(builder, "out.js") == SMAP_OK);
    CHECK(smap_builder_source(builder.handle(), false, nullptr, 0, &source) == SMAP_OK && source == 0);
    CHECK(smap::builder_source(builder, "a.ts", source) == SMAP_OK && source == 1);
    CHECK(smap::builder_content(builder, source, "x") == SMAP_OK);
    CHECK(smap::builder_content(builder, 2, "x") == SMAP_RANGE);
    CHECK(smap::builder_name(builder, "f", name) == SMAP_OK && name == 0);
    rest = std::move(builder);
    CHECK(smap::builder_add(rest, {0, 4, source, 2, 1, name, 0, 1, none, none, none, none}) == SMAP_OK);
    CHECK(smap::builder_add(rest, {0, 4, 2, 2, 1, none}, &wrong) == SMAP_RANGE && wrong == 0);
    CHECK(smap::builder_finish(rest, map) == SMAP_OK && !rest.is_open());
    CHECK(smap_canonical(map.handle(), bytes.handle()) == SMAP_OK);
    CHECK(smap::text(bytes) == "{\"file\":\"out.js\",\"mappings\":\"C,GCECA\",\"names\":[\"f\"],\"sources\":"
                               "[null,\"http://h/m/a.ts\"],\"sourcesContent\":[null,\"x\"],\"version\":3}");
    bool alike = false;
    CHECK(smap::script_link("//# sourceMappingURL=a.map\n", out) == SMAP_OK && out == "a.map");
    CHECK(smap::script_link("//# sourceMappingURL=a.map", out, true) == SMAP_NONE && out == "");
    CHECK(smap::resolve("http://h/m/a.js", "a.map", bytes) == SMAP_OK);
    CHECK(smap::text(bytes) == "http://h/m/a.map");
    CHECK(smap::data_url("data:;base64,e30", bytes) == SMAP_OK && smap::text(bytes) == "{}");
    CHECK(smap::file_url("/a b.js", bytes) == SMAP_OK && smap::text(bytes) == "file:///a%20b.js");
    CHECK(smap::file_path("file:///a%20b.js", bytes) == SMAP_OK && smap::text(bytes) == "/a b.js");
    CHECK(smap::script_url("http://h/", "a b.js", bytes) == SMAP_OK);
    CHECK(smap::text(bytes) == "http://h/a%20b.js");
    CHECK(smap::script_name("http://h/", "http://h/a%20b.js", bytes) == SMAP_OK);
    CHECK(smap::text(bytes) == "a b.js");
    uint32_t kind = 99;
    CHECK(smap::named_map("/s/", "a.js", "//# sourceMappingURL=b%20c.map", bytes, kind) == SMAP_OK);
    CHECK(kind == SMAP_NAMED_FILE && smap::text(bytes) == "b c.map");
    CHECK(smap::script_map("/s/", "a.js", "", 0, bytes, kind) == SMAP_OK);
    CHECK(kind == SMAP_NAMED_UNSAID && smap::text(bytes) == "a.js.map");
    CHECK(smap::file_kind("a.css") == SMAP_FILE_STYLE_SHEET);
    CHECK(smap::normal_form("HTTP://H:80/a.js?x", bytes) == SMAP_OK && smap::text(bytes) == "http://h/a.js");
    std::string query;
    CHECK(smap::normal_form("HTTP://H:80/a.js?x#y", bytes, true) == SMAP_OK);
    query = smap::text(bytes);
    CHECK(smap::normal_form("http://h/a.js?x", bytes, true) == SMAP_OK && smap::text(bytes) == query);
    CHECK(smap::normal_form("http://h/a.js?z", bytes, true) == SMAP_OK && smap::text(bytes) != query);
    CHECK(smap::alike("/a.js", "file:///a.js", alike) == SMAP_OK && alike);
    return failures != 0;
}
