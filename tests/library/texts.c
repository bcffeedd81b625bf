/* The functions of the header for texts that end with a NUL, and those that it takes NULL for, also when they
 * are called by their address, as tables of functions do. */
#include "maps.h"

static bool holds(smap_bytes *bytes, const char *wanted)
{
    const uint8_t *at;
    size_t len;
    return smap_bytes_data(bytes, &at, &len) == SMAP_OK && len == strlen(wanted) &&
           memcmp(at, wanted, len) == 0;
}

static void maps(smap_map *map)
{
    smap_limits limits = {2, 0};
    smap_fault fault;
    smap_bytes out = {0};
    CHECK(smap_open_text(map, "[", base, NULL, &fault) == SMAP_REFUSED && fault.kind == SMAP_FAULT_JSON);
    CHECK(smap_open_text(map, NULL, base, NULL, NULL) == SMAP_REFUSED);
    CHECK(smap_open_text(map, text, NULL, NULL, NULL) == SMAP_NOT_URL);
    CHECK(smap_open_text(map, text, base, &limits, &fault) == SMAP_REFUSED);
    CHECK(fault.kind == SMAP_FAULT_TOO_MANY && !map->is_open);
    CHECK(smap_open_within_text(map, text, base, NULL, 44, NULL) == SMAP_URL_BYTES && !map->is_open);
    CHECK(smap_open_within_text(map, text, base, NULL, 45, NULL) == SMAP_OK && map->is_open);
    CHECK(smap_open_text(map, text, base, NULL, NULL) == SMAP_OK && map->is_open);
    CHECK(smap_respell_text("E,D", &out, NULL) == SMAP_OK && holds(&out, "C,C"));
    CHECK(smap_respell_text(NULL, &out, NULL) == SMAP_OK && holds(&out, ""));
    smap_bytes_free(&out);
}

static void traces(smap_map *map)
{
    smap_scripts scripts = {0};
    smap_bytes out = {0};
    smap_trace_counts counts;
    smap_frame_parts parts;
    char room[64];
    size_t len;
    uint32_t outcome;
    CHECK(smap_frame_text("@http://h/m/out.js:1:2", &parts) == SMAP_OK && parts.url_from == 1);
    CHECK(smap_frame_text(frame_line, &parts) == SMAP_NONE && smap_frame_text(NULL, &parts) == SMAP_NONE);
    CHECK(smap_translate_line_text(map, script, frame_line, 0, room, 64, &len, &outcome) == SMAP_OK);
    CHECK(outcome == SMAP_TRANSLATED && len == 32);
    CHECK(memcmp(room, "    at f (http://h/m/a.js:11:3)\n", 32) == 0);
    CHECK(smap_translate_line_text(map, NULL, NULL, 0, NULL, 0, NULL, NULL) == SMAP_OK);
    CHECK(smap_add_script_text(&scripts, script, map) == SMAP_OK);
    CHECK(smap_add_script_text(&scripts, "\xff", map) == SMAP_NOT_URL);
    CHECK(smap_translate_text(&scripts, frame_line, 0, &out, &counts) == SMAP_OK && counts.translated == 1);
    CHECK(holds(&out, "    at f (http://h/m/a.js:11:3)\n"));
    CHECK(smap_translate_text(&scripts, NULL, 0, &out, NULL) == SMAP_OK && holds(&out, ""));
    smap_close_scripts(&scripts);
    smap_bytes_free(&out);
}

static void links(void)
{
    smap_bytes out = {0};
    char room[8] = ".......";
    size_t len;
    bool flag = false;
    CHECK(smap_script_link_text("//# sourceMappingURL=a.map", false, room, 8, &len) == SMAP_OK && len == 5);
    CHECK(memcmp(room, "a.map..", 8) == 0);
    CHECK(smap_script_link_text(NULL, false, NULL, 0, NULL) == SMAP_NONE);
    CHECK(smap_resolve_text("http://h/m/a.js?x", "../a.map", &out) == SMAP_OK);
    CHECK(holds(&out, "http://h/a.map"));
    CHECK(smap_data_url_text("data:;base64,e30", &out) == SMAP_OK && holds(&out, "{}"));
    CHECK(smap_file_url_text("/a b/x.js", &out) == SMAP_OK && holds(&out, "file:///a%20b/x.js"));
    CHECK(smap_file_path_text("file:///C:/a%20b.js", &out) == SMAP_OK && holds(&out, "C:\\a b.js"));
    CHECK(smap_script_url_text("http://h/", "a b.js", &out) == SMAP_OK && holds(&out, "http://h/a%20b.js"));
    CHECK(smap_script_name_text("/s/", "/s/a b.js", &out) == SMAP_OK && holds(&out, "a b.js"));
    CHECK(smap_named_map_text("/s/", "a.js", "//# sourceMappingURL=%61", &out, NULL) == SMAP_OK);
    CHECK(holds(&out, "a"));
    CHECK(smap_script_map_text("/s/", "a.js", "//# sourceMappingURL=%61", 1, &out, NULL) == SMAP_OK);
    CHECK(holds(&out, "a.js.map"));
    CHECK(smap_file_kind_text("a.mjs") == SMAP_FILE_SCRIPT && smap_file_kind_text(NULL) == SMAP_FILE_OTHER);
    CHECK(smap_normal_form_text("HTTP://H:80/a.js?x#y", false, &out) == SMAP_OK);
    CHECK(holds(&out, "http://h/a.js"));
    CHECK(smap_alike_text("c:\\a.js", "file:///C:/a.js", &flag) == SMAP_OK && flag);
    CHECK(smap_alike_text("/a.js", NULL, &flag) == SMAP_OK && !flag);
    smap_bytes_free(&out);
}

enum { GIVEN = 4 };
#define NO_NUMBER UINT32_MAX

/* Where the numbers of mappings are none of a mapping: the index of the first, in this many. */
static void wrong_numbers(void)
{
    static const uint32_t rows[][12] = {
        {16777215, 0, 0, 0, 0, 0, 16777216, 0, 0, 0, 0, 0},
        {0, 2147483647, 0, 0, 0, 0, 0, 2147483648, 0, 0, 0, 0},
        {0, 0, 2147483647, 0, 0, 0, 0, 0, 2147483648, 0, 0, 0},
        {0, 0, 0, 2147483647, 0, 0, 0, 0, 0, 2147483648, 0, 0},
        {0, 0, 0, 0, 2147483647, 0, 0, 0, 0, 0, 2147483648, 0},
        {0, 0, 0, 0, 0, 2147483647, 0, 0, 0, 0, 0, 2147483648},
        {0, 0, NO_NUMBER, NO_NUMBER, NO_NUMBER, NO_NUMBER, 0, 0, NO_NUMBER, NO_NUMBER, NO_NUMBER, 0},
        {0, 0, 0, 0, 0, NO_NUMBER, 0, 0, 0, 0, NO_NUMBER, NO_NUMBER},
        {0, 0, 0, 0, 0, NO_NUMBER, 0, 0, 0, NO_NUMBER, 0, NO_NUMBER},
        {0, 0, 0, 0, 0, NO_NUMBER, 0, 0, NO_NUMBER, 0, 0, NO_NUMBER},
        {0, 0, 0, 0, 0, NO_NUMBER, 0, NO_NUMBER, 0, 0, 0, 0},
        {0, 0, 0, 0, 0, NO_NUMBER, NO_NUMBER, 0, 0, 0, 0, 0},
    };
    smap_bytes out = {0};
    size_t wrong;
    for (size_t i = 0; i < sizeof rows / sizeof *rows; i++) {
        wrong = 9;
        CHECK(smap_spell(rows[i], 1, &out, &wrong) == SMAP_OK && wrong == 9 && out.is_open);
        smap_bytes_free(&out);
        CHECK(smap_spell(rows[i], 2, &out, &wrong) == SMAP_RANGE && wrong == 1 && !out.is_open);
    }
}

static void spellings(void)
{
    /* The first in order is AAECA: column 0, source 0, line 2, column 1, name 0. On line 1 ICFD is column 4 and
     * 1, -2, -1 more; ADKA the same column and -1, 5, 0 more. On line 6 E is column 2. */
    uint32_t numbers[6 * GIVEN] = {
        1, 4, 1, 0, 0, NO_NUMBER, 0, 0, 0, 2, 1, 0,
        1, 4, 0, 5, 0, NO_NUMBER, 6, 2, NO_NUMBER, NO_NUMBER, NO_NUMBER, NO_NUMBER,
    };
    uint32_t (*const spell)(const uint32_t *, size_t, smap_bytes *, size_t *) = smap_spell;
    smap_bytes out = {0};
    size_t wrong = 9;
    CHECK(smap_spell(NULL, 0, &out, NULL) == SMAP_OK && holds(&out, ""));
    CHECK(smap_spell(numbers, GIVEN, &out, &wrong) == SMAP_OK && holds(&out, "AAECA;ICFD,ADKA;;;;;E"));
    CHECK(wrong == 9);
    numbers[2 * 6 + 1] = 2147483648;
    CHECK(smap_spell(numbers, GIVEN, &out, &wrong) == SMAP_RANGE && wrong == 2);
    CHECK(spell(numbers, GIVEN, &out, NULL) == SMAP_RANGE && holds(&out, "AAECA;ICFD,ADKA;;;;;E"));
    CHECK(spell(numbers, 2, &out, NULL) == SMAP_OK && holds(&out, "AAECA;ICFD"));
    smap_bytes_free(&out);
    wrong_numbers();
}

static void builders(void)
{
    smap_builder builder = {0};
    smap_map map = {0};
    smap_bytes out = {0};
    uint32_t source = 9, name = 9;
    CHECK(smap_builder_open_text(&builder, NULL, NULL) == SMAP_NOT_URL);
    CHECK(smap_builder_open_text(&builder, base, NULL) == SMAP_OK);
    CHECK(smap_builder_file_text(&builder, true, "out.js") == SMAP_OK);
    CHECK(smap_builder_source_text(&builder, false, NULL, NULL) == SMAP_OK);
    CHECK(smap_builder_source_text(&builder, true, "a.ts", &source) == SMAP_OK && source == 1);
    CHECK(smap_builder_content_text(&builder, source, true, "x") == SMAP_OK);
    CHECK(smap_builder_content_text(&builder, 0, true, NULL) == SMAP_OK);
    CHECK(smap_builder_name_text(&builder, "f", &name) == SMAP_OK && name == 0);
    CHECK(smap_builder_name_text(&builder, "f", NULL) == SMAP_OK);
    uint32_t numbers[6] = {0, 4, source, 2, 1, name};
    CHECK(smap_builder_add(&builder, numbers, 1, NULL) == SMAP_OK);
    CHECK(smap_builder_finish(&builder, &map) == SMAP_OK && smap_flatten(&map, &out) == SMAP_OK);
    CHECK(holds(&out, "{\"file\":\"out.js\",\"mappings\":\"ICECA\",\"names\":[\"f\"],\"sources\":"
                      "[null,\"http://h/m/a.ts\"],\"sourcesContent\":[\"\",\"x\"],\"version\":3}"));
    smap_bytes_free(&out);
    smap_close(&map);
}

/* What a program may have kept the address of takes NULL too. */
static void by_address(smap_map *map)
{
    uint32_t (*const open)(smap_map *, const void *, size_t, const char *, size_t, const smap_limits *,
                           smap_fault *) = smap_open;
    uint32_t (*const url)(smap_map *, size_t, char *, size_t, size_t *) = &smap_source_url;
    size_t (*const code_name)(uint32_t, char *, size_t) = smap_code_name;
    CHECK(open(map, NULL, 0, base, strlen(base), NULL, NULL) == SMAP_REFUSED);
    CHECK(open(map, text, strlen(text), base, strlen(base), NULL, NULL) == SMAP_OK);
    CHECK(url(map, 0, NULL, 0, NULL) == SMAP_OK && code_name(SMAP_MEMORY, NULL, 0) == strlen("out of memory"));
}

/* The library's own functions, without NULL. */
static void strictly(smap_map *map)
{
    const smap_limits usual = {0, 0};
    smap_fault fault;
    char url[16];
    size_t len;
    CHECK(smap_open_strict(map, text, strlen(text), base, strlen(base), &usual, &fault) == SMAP_OK);
    CHECK(smap_source_url_strict(map, 0, url, sizeof url, &len) == SMAP_OK && len == 15);
    CHECK(memcmp(url, "http://h/m/a.js", 15) == 0);
    smap_map inner = {0}, made = {0};
    CHECK(smap_share(map, &inner) == SMAP_OK);
    CHECK(smap_compose_strict(map, &inner, 1, &len, 1, &usual, &made) == SMAP_OK && made.is_open);
    smap_close(&inner);
    smap_close(&made);
}

int main(void)
{
    smap_map map = {0};
    maps(&map);
    traces(&map);
    links();
    spellings();
    builders();
    by_address(&map);
    strictly(&map);
    smap_close(&map);
    printf("%d checks\n", checks);
    return failures != 0;
}
