/* Makes each call that takes memory with each of its allocations refused in turn. It is done, or answers
 * that memory ran out and leaves its handles as they were; and once more it is done. Link it with
 * -Wl,--wrap=malloc,--wrap=realloc. */
#include "maps.h"

static long left = -1;
void *__real_malloc(size_t size);
void *__real_realloc(void *old, size_t size);
void *__wrap_malloc(size_t size);
void *__wrap_realloc(void *old, size_t size);

static bool is_refused(void)
{
    return left >= 0 && left-- == 0;
}

void *__wrap_malloc(size_t size)
{
    return is_refused() ? NULL : __real_malloc(size);
}

void *__wrap_realloc(void *old, size_t size)
{
    return is_refused() ? NULL : __real_realloc(old, size);
}

static smap_map map, inner, other;
static smap_bytes out;
static smap_scripts scripts, empty;
static smap_fault fault;
static char room[256];
static size_t len;
static uint32_t outcome;
static uint8_t how;

static uint32_t open_map(void)
{
    return open_text(&other, text, &fault);
}

static uint32_t open_broken(void)
{
    return open_text(&other, broken, &fault);
}

/* The sources take 45 bytes. */
static uint32_t open_within(void)
{
    return smap_open_within(&other, text, strlen(text), base, strlen(base), NULL, 45, &fault);
}

static uint32_t open_beyond(void)
{
    return smap_open_within(&other, text, strlen(text), base, strlen(base), NULL, 44, &fault);
}

static uint32_t share(void)
{
    return smap_share(&map, &other);
}

static uint32_t compose(void)
{
    static const size_t leads[1] = {0};
    return smap_compose(&map, &inner, 1, leads, 1, NULL, &other);
}

static uint32_t thin(void)
{
    return smap_thin(&map, &other);
}

static uint32_t only_used(void)
{
    return smap_only_used(&map, &other);
}

static uint32_t canonical(void)
{
    return smap_canonical(&map, &out);
}

static uint32_t relative(void)
{
    return smap_canonical_relative(&map, &out);
}

static uint32_t mappings(void)
{
    return smap_canonical_mappings(&map, &out);
}

static uint32_t flatten(void)
{
    return smap_flatten(&map, &out);
}

static uint32_t respell(void)
{
    return smap_respell("E,D", 3, &out, &fault);
}

static uint32_t respell_broken(void)
{
    return smap_respell("E,", 2, &out, &fault);
}

static uint32_t spell(void)
{
    static const uint32_t numbers[12] = {0, 1, 0, 0, 0, 0, 0, 2, 0, 0, 0, 0};
    return smap_spell(numbers, 2, &out, NULL);
}

static uint32_t spell_unsorted(void)
{
    static const uint32_t numbers[12] = {1, 0, 0, 0, 0, 0, 0, 2, 0, 0, 0, 0};
    return smap_spell(numbers, 2, &out, NULL);
}

static uint32_t build(void)
{
    static const uint32_t numbers[12] = {1, 0, 0, 0, 0, 0, 0, 2, 0, 0, 0, 0};
    smap_builder builder = {0};
    uint32_t source = 9, name = 9, code = smap_builder_open(&builder, base, strlen(base), NULL);
    CHECK((code == SMAP_OK) == builder.is_open);
    if (code == SMAP_OK) code = smap_builder_file(&builder, true, "out.js", 6);
    if (code == SMAP_OK) code = smap_builder_source(&builder, true, "a.ts", 4, &source);
    CHECK((code == SMAP_OK) == (source == 0));
    if (code == SMAP_OK) code = smap_builder_content(&builder, source, true, "x", 1);
    if (code == SMAP_OK) code = smap_builder_name(&builder, "f", 1, &name);
    CHECK((code == SMAP_OK) == (name == 0));
    if (code == SMAP_OK) code = smap_builder_add(&builder, numbers, 2, NULL);
    CHECK(builder.is_open || source == 9);
    if (code == SMAP_OK) {
        code = smap_builder_finish(&builder, &other);
        CHECK(!builder.is_open);
    }
    smap_builder_close(&builder);
    return code;
}

static uint32_t line(void)
{
    return smap_translate_line(&map, script, strlen(script), frame_line, strlen(frame_line), how, room,
                               sizeof room, &len, &outcome);
}

static uint32_t add(void)
{
    return smap_add_script(&scripts, script, strlen(script), &map);
}

static uint32_t add_first(void)
{
    uint32_t code = smap_add_script(&empty, script, strlen(script), &map);
    CHECK((code == SMAP_OK) == empty.is_open);
    smap_close_scripts(&empty);
    return code;
}

static uint32_t translate(void)
{
    return smap_translate(&scripts, frame_line, strlen(frame_line), how, &out, NULL);
}

static uint32_t data_url(void)
{
    return smap_data_url("data:;base64,e3%30", 18, &out);
}

static uint32_t file_url(void)
{
    return smap_file_url("C:\\a b.js", 9, &out);
}

static uint32_t file_path(void)
{
    return smap_file_path("file:///C:/a%20b.js", 19, &out);
}

static uint32_t script_url(void)
{
    return smap_script_url("http://h/", 9, "a b.js", 6, &out);
}

static uint32_t script_name(void)
{
    return smap_script_name("http://h/", 9, "http://h/a%20b.js", 17, &out);
}

/* What a script names that is below a folder with this URL. */
static uint32_t named(const char *url, uint32_t wanted)
{
    char text[64];
    uint32_t kind = 8, code;
    int len = snprintf(text, sizeof text, "//# sourceMappingURL=%s", url);
    code = smap_named_map("http://h/", 9, "a b.js", 6, text, (size_t)len, &out, &kind);
    CHECK(kind == (code == SMAP_MEMORY ? 8 : wanted));
    return code;
}

static uint32_t named_inline(void)
{
    return named("data:;base64,e3%30", SMAP_NAMED_INLINE);
}

static uint32_t named_file(void)
{
    return named("%61.map", SMAP_NAMED_FILE);
}

static uint32_t named_elsewhere(void)
{
    return named("http://k/a.map", SMAP_NAMED_LEAVES);
}

/* The map of a script below a folder with this URL, which names this one, after so many that can't be had. */
static uint32_t script_map(const char *url, size_t tried)
{
    char text[64];
    uint32_t kind = 99, code;
    int len = snprintf(text, sizeof text, "//# sourceMappingURL=%s", url);
    code = smap_script_map("http://h/", 9, "a b.js", 6, text, (size_t)len, tried, &out, &kind);
    CHECK((kind == 99) == (code == SMAP_MEMORY));
    return code;
}

static uint32_t map_named(void)
{
    return script_map("%61.map", 0);
}

static uint32_t map_beside(void)
{
    return script_map("%61.map", 1);
}

static uint32_t map_inline(void)
{
    return script_map("data:;base64,e3%30", 0);
}

static uint32_t no_more_maps(void)
{
    return script_map("%61.map", 2);
}

static uint32_t resolve(void)
{
    return smap_resolve("/a b.js", 7, "a.map", 5, &out);
}

static uint32_t normal_form(void)
{
    return smap_normal_form("/a b.js", 7, true, &out);
}

static uint32_t alike(void)
{
    bool is = false;
    uint32_t code = smap_alike("/a.js", 5, "file:///a.js", 12, &is);
    CHECK(is == (code == SMAP_OK));
    return code;
}

/* Makes the call with the allocation of each number refused, and counts them. */
static void refuse(const char *name, uint32_t (*call)(void), uint32_t wanted)
{
    long n = 0, refused = 0;
    for (bool all = false; !all; n++) {
        smap_counts counts;
        uint32_t code;
        left = n;
        code = call();
        all = left >= 0;
        left = -1;
        refused += code == SMAP_MEMORY;
        CHECK(code == wanted || (code == SMAP_MEMORY && !all && !out.is_open && !other.is_open));
        CHECK(smap_count(&map, &counts) == SMAP_OK && counts.mappings == 4);
        smap_bytes_free(&out);
        smap_close(&other);
        CHECK(call() == wanted);
        smap_bytes_free(&out);
        smap_close(&other);
    }
    CHECK(refused > 0);
    printf("%s: %ld allocations, %ld times out of memory\n", name, n - 1, refused);
}

int main(void)
{
    CHECK(open_text(&map, text, NULL) == SMAP_OK);
    refuse("open", open_map, SMAP_OK);
    refuse("open a broken map", open_broken, SMAP_REFUSED);
    refuse("open within a bound", open_within, SMAP_OK);
    refuse("open beyond a bound", open_beyond, SMAP_URL_BYTES);
    refuse("share", share, SMAP_OK);
    CHECK(smap_share(&map, &inner) == SMAP_OK);
    refuse("compose", compose, SMAP_OK);
    smap_close(&inner);
    refuse("thin", thin, SMAP_OK);
    refuse("only used", only_used, SMAP_OK);
    refuse("canonical", canonical, SMAP_OK);
    refuse("canonical, relative", relative, SMAP_OK);
    refuse("canonical mappings", mappings, SMAP_OK);
    refuse("flatten", flatten, SMAP_OK);
    refuse("respell", respell, SMAP_OK);
    refuse("respell a broken text", respell_broken, SMAP_REFUSED);
    refuse("spell", spell, SMAP_OK);
    refuse("spell, unsorted", spell_unsorted, SMAP_OK);
    refuse("build", build, SMAP_OK);
    refuse("a data: URL", data_url, SMAP_OK);
    refuse("the URL of a file", file_url, SMAP_OK);
    refuse("the path of a URL", file_path, SMAP_OK);
    refuse("the URL of a script", script_url, SMAP_OK);
    refuse("the name of a script", script_name, SMAP_OK);
    refuse("a map within a script", named_inline, SMAP_OK);
    refuse("the file that a script names", named_file, SMAP_OK);
    refuse("a script that names no file of its folder", named_elsewhere, SMAP_NONE);
    refuse("the map that a script names", map_named, SMAP_OK);
    refuse("the map next to a script", map_beside, SMAP_OK);
    refuse("the map that a script holds", map_inline, SMAP_OK);
    refuse("no more maps of a script", no_more_maps, SMAP_NONE);
    refuse("resolve", resolve, SMAP_OK);
    refuse("a normal form", normal_form, SMAP_OK);
    refuse("names that are alike", alike, SMAP_OK);
    refuse("translate a line", line, SMAP_OK);
    how = SMAP_ANYWHERE | SMAP_IGNORE_QUERY;
    refuse("translate a line anywhere", line, SMAP_OK);
    how = 0;
    refuse("add the first script", add_first, SMAP_OK);
    CHECK(smap_add_script(&scripts, "u", 1, &map) == SMAP_OK);
    refuse("add a script", add, SMAP_OK);
    CHECK(smap_add_script(&scripts, script, strlen(script), &map) == SMAP_OK);
    refuse("translate", translate, SMAP_OK);
    for (char url[] = "a"; url[0] < 'g'; url[0]++) CHECK(smap_add_script(&scripts, url, 1, &map) == SMAP_OK);
    refuse("translate by many", translate, SMAP_OK);
    how = SMAP_ANYWHERE | SMAP_IGNORE_QUERY;
    refuse("translate anywhere by many", translate, SMAP_OK);
    smap_close_scripts(&scripts);
    smap_close(&map);
    return failures != 0;
}
