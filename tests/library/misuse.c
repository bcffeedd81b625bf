/* What C allows and a caller may get wrong has its code: closed handles, closing twice, room 0 and buffers
 * that are too small, numbers past the end, texts that aren't UTF-8, NULL. And each call as it is meant. */
#include "maps.h"

static void closed_handles(void)
{
    smap_map closed = {0}, open = {0}, other = {0};
    smap_bytes bytes = {0};
    smap_mapping m = {0};
    smap_listed_mapping listed;
    smap_counts counts;
    const uint8_t *at = NULL;
    bool flag = true;
    size_t len = 7, number;
    uint32_t outcome;
    CHECK(open_text(&open, text, NULL) == SMAP_OK);
    CHECK(smap_lookup(&closed, 0, 0, &m) == SMAP_CLOSED);
    CHECK(smap_find(&closed, 0, 0, &number) == SMAP_CLOSED);
    CHECK(smap_token(&closed, 0, &m) == SMAP_CLOSED);
    CHECK(smap_listed_token(&closed, 0, &listed) == SMAP_CLOSED);
    CHECK(smap_listed_source(&closed, 0, &number) == SMAP_CLOSED);
    CHECK(smap_listed_name(&closed, 0, NULL, 0, &len) == SMAP_CLOSED && len == 0);
    CHECK(smap_written_source(&closed, 0, NULL, 0, NULL) == SMAP_CLOSED);
    CHECK(smap_written_root(&closed, 0, NULL, 0, NULL) == SMAP_CLOSED);
    CHECK(smap_count(&closed, &counts) == SMAP_CLOSED);
    CHECK(smap_held(&closed, &number) == SMAP_CLOSED);
    CHECK(smap_file(&closed, NULL, 0, NULL) == SMAP_CLOSED);
    CHECK(smap_name_at(&closed, 0, 0, NULL, 0, &len) == SMAP_CLOSED && len == 0);
    CHECK(smap_source_url(&closed, 0, NULL, 0, NULL) == SMAP_CLOSED);
    CHECK(smap_source_content(&closed, 0, NULL, 0, NULL) == SMAP_CLOSED);
    CHECK(smap_is_ignored(&closed, 0, &flag) == SMAP_CLOSED && flag);
    CHECK(smap_canonical(&closed, &bytes) == SMAP_CLOSED);
    CHECK(smap_canonical_relative(&closed, &bytes) == SMAP_CLOSED);
    CHECK(smap_canonical_mappings(&closed, &bytes) == SMAP_CLOSED);
    CHECK(smap_flatten(&closed, &bytes) == SMAP_CLOSED && !bytes.is_open);
    CHECK(smap_translate_line(&closed, NULL, 0, NULL, 0, false, NULL, 0, NULL, &outcome) == SMAP_CLOSED);
    CHECK(smap_share(&closed, &open) == SMAP_CLOSED && open.is_open);
    CHECK(smap_compose(&closed, NULL, 0, NULL, 0, NULL, &open) == SMAP_CLOSED && open.is_open);
    CHECK(smap_compose(&open, &closed, 1, NULL, 0, NULL, &other) == SMAP_CLOSED && !other.is_open);
    CHECK(smap_thin(&closed, &open) == SMAP_CLOSED && open.is_open);
    CHECK(smap_only_used(&closed, &open) == SMAP_CLOSED && open.is_open);
    CHECK(smap_same(&closed, &open, &flag) == SMAP_CLOSED && open.is_open);
    CHECK(smap_same(&open, &closed, &flag) == SMAP_CLOSED && open.is_open && flag);
    CHECK(smap_bytes_data(&bytes, &at, &len) == SMAP_CLOSED && len == 0 && at == NULL);
    CHECK(smap_bytes_copy(&bytes, 0, NULL, 0) == 0);
    smap_bytes_free(&bytes);
    smap_close(&open);
    smap_close(&open);
    CHECK(!open.is_open);
    CHECK(smap_lookup(&open, 0, 0, &m) == SMAP_CLOSED);
}

static void buffers(smap_map *map)
{
    char room[64];
    size_t len;
    memset(room, '.', sizeof room);
    CHECK(smap_source_url(map, 0, NULL, 0, &len) == SMAP_OK && len == 15);
    CHECK(smap_source_url(map, 0, room, 7, &len) == SMAP_OK && len == 15);
    CHECK(memcmp(room, "http://....", 11) == 0);
    CHECK(smap_source_url(map, 0, room, sizeof room, NULL) == SMAP_OK);
    CHECK(memcmp(room, "http://h/m/a.js..", 17) == 0);
    CHECK(smap_file(map, room, sizeof room, &len) == SMAP_OK && len == 6 && memcmp(room, "out.js/h", 8) == 0);
    CHECK(smap_source_content(map, 0, room, sizeof room, &len) == SMAP_OK && len == 1 && room[0] == 'x');
    CHECK(smap_name_at(map, 0, 1, room, 0, &len) == SMAP_OK && len == 1 && room[0] == 'x');
    CHECK(smap_code_name(SMAP_MEMORY, room, 3) == 13 && memcmp(room, "out.js", 6) == 0);
    CHECK(smap_code_name(SMAP_NONE + 100, NULL, 0) == 0);
    for (uint32_t code = SMAP_OK; code <= SMAP_TOO_MANY; code++) CHECK(smap_code_name(code, NULL, 0) > 3);
    CHECK(smap_fault_name(SMAP_FAULT_OVERLAP, room, sizeof room) == 7 && memcmp(room, "Overlap", 7) == 0);
    CHECK(smap_fault_name(SMAP_FAULT_SOURCE_URL, room, 3) == 9 && memcmp(room, "Sourlap", 7) == 0);
    uint32_t kinds = 0;
    while (smap_fault_name(kinds + 1, NULL, 0) >= 4) kinds++;
    CHECK(kinds >= SMAP_FAULT_NAME);
    CHECK(smap_fault_name(0, NULL, 0) == 0 && smap_fault_name(kinds + 1, NULL, 0) == 0);
    CHECK(smap_fault_name(kinds + 100, NULL, 0) == 0);
}

/* The source a.js has 10:2, for which its map has a.ts 1:0; and 12:2, for which it has nothing. */
static void made_of(smap_map *map)
{
    smap_map inner[2] = {{0}}, out = {0};
    smap_limits limits = {3, 0};
    smap_counts counts;
    smap_mapping m = {0};
    size_t leads[3] = {1, SIZE_MAX, 2}, n = 9;
    bool same = false;
    CHECK(open_text(&inner[1], "{\"version\":3,\"sources\":[\"a.ts\",\"c.ts\"],\"mappings\":"
                               "\";;;;;;;;;;AACA\"}", NULL) == SMAP_OK);
    CHECK(smap_compose(map, inner, 2, leads, 3, NULL, &out) == SMAP_CLOSED && inner[1].is_open);
    CHECK(smap_share(&inner[1], &inner[0]) == SMAP_OK);
    CHECK(smap_compose(map, inner, 2, leads, 3, &limits, &out) == SMAP_TOO_MANY && !out.is_open);
    limits.lines = 16777217;
    CHECK(smap_compose(map, inner, 2, leads, 3, &limits, &out) == SMAP_LIMITS && !out.is_open);
    limits = (smap_limits){4, 1};
    CHECK(smap_compose(map, inner, 2, leads, 3, &limits, &out) == SMAP_OK && out.is_open);
    CHECK(inner[0].is_open && inner[1].is_open && map->is_open);
    CHECK(smap_count(&out, &counts) == SMAP_OK && counts.sources == 4 && counts.mappings == 4);
    CHECK(smap_lookup(&out, 0, 3, &m) == SMAP_OK && m.source == 0 && m.source_line == 1 && m.has_name);
    CHECK(smap_lookup(&out, 0, 4, &m) == SMAP_OK && !m.has_source);
    CHECK(smap_written_source(&out, 1, NULL, 0, &n) == SMAP_OK && n == strlen("http://h/m/c.ts"));
    CHECK(smap_written_source(&out, 3, NULL, 0, &n) == SMAP_NONE && n == 0);
    CHECK(smap_written_source(&out, 4, NULL, 0, &n) == SMAP_RANGE && n == 0);
    CHECK(smap_written_root(&out, 3, NULL, 0, &n) == SMAP_NONE && n == 0);
    CHECK(smap_written_root(&out, 4, NULL, 0, &n) == SMAP_RANGE);
    /* As for another map, without sources as written: the base; "out.js", three URLs, "f" alone of names. */
    CHECK(smap_held(&out, &n) == SMAP_OK);
    CHECK(n == (648 + 24) + 5 * 24 + (784 + 4 * 8 + 4 * 24 + 4 * 32) + 3 * 8);
    CHECK(smap_only_used(&out, &inner[0]) == SMAP_OK && smap_count(&inner[0], &counts) == SMAP_OK);
    CHECK(counts.sources == 2);
    CHECK(smap_thin(&out, &inner[0]) == SMAP_OK && smap_count(&inner[0], &counts) == SMAP_OK);
    CHECK(counts.sources == 4 && counts.mappings == 4);
    CHECK(smap_compose(map, inner, 2, leads, 0, NULL, &out) == SMAP_OK);
    CHECK(smap_same(map, &out, &same) == SMAP_OK && same);
    CHECK(smap_compose(map, NULL, 0, leads, 3, NULL, &out) == SMAP_OK);
    CHECK(smap_same(map, &out, &same) == SMAP_OK && same);
    for (size_t i = 0; i < 2; i++) smap_close(&inner[i]);
    smap_close(&out);
}

/* ---- maps that are built */

#define NONE UINT32_MAX

static void closed_builders(void)
{
    smap_builder builder = {0};
    smap_map out = {0};
    uint32_t number = 9;
    size_t wrong = 9;
    CHECK(smap_builder_file(&builder, true, "x", 1) == SMAP_CLOSED);
    CHECK(smap_builder_file(&builder, true, "\xff", 1) == SMAP_NOT_UTF8);
    CHECK(smap_builder_source(&builder, true, "http://[", 8, &number) == SMAP_CLOSED && number == 9);
    CHECK(smap_builder_content(&builder, 0, false, NULL, 0) == SMAP_CLOSED);
    CHECK(smap_builder_ignore(&builder, 0, true) == SMAP_CLOSED);
    CHECK(smap_builder_name(&builder, "f", 1, &number) == SMAP_CLOSED && number == 9);
    CHECK(smap_builder_add(&builder, NULL, 0, &wrong) == SMAP_CLOSED && wrong == 9);
    CHECK(open_text(&out, text, NULL) == SMAP_OK);
    CHECK(smap_builder_finish(&builder, &out) == SMAP_CLOSED && out.is_open && !builder.is_open);
    smap_builder_close(&builder);
    CHECK(!builder.is_open);
    smap_close(&out);
}

static uint32_t open_builder(smap_builder *builder, const smap_limits *limits)
{
    return smap_builder_open(builder, base, strlen(base), limits);
}

static void opened_builders(void)
{
    smap_builder builder = {0};
    smap_limits limits = {0, 16777216};
    CHECK(smap_builder_open(&builder, NULL, 0, NULL) == SMAP_NOT_URL && !builder.is_open);
    CHECK(smap_builder_open(&builder, "out.js.map", 10, NULL) == SMAP_NOT_URL);
    CHECK(smap_builder_open(&builder, "http://h/\xff", 10, NULL) == SMAP_NOT_URL);
    CHECK(open_builder(&builder, &limits) == SMAP_OK && builder.is_open);
    limits.lines++;
    CHECK(open_builder(&builder, &limits) == SMAP_LIMITS && builder.is_open);
    CHECK(smap_builder_open(&builder, NULL, 0, &limits) == SMAP_LIMITS && builder.is_open);
    limits = (smap_limits){2147483648u, 0};
    CHECK(open_builder(&builder, &limits) == SMAP_LIMITS && builder.is_open);
    CHECK(open_builder(&builder, NULL) == SMAP_OK && builder.is_open);
    smap_builder_close(&builder);
    smap_builder_close(&builder);
    CHECK(!builder.is_open && builder.at == NULL);
}

/* Two sources, of which one has no URL, and two names, of which one is empty: as many as may be. */
static void listed_by(smap_builder *builder)
{
    static const struct {
        const char *url;
        uint32_t code, number;
    } rows[] = {
        {"a.ts", SMAP_OK, 0}, {NULL, SMAP_OK, 1}, {"http://h/m/./a.ts", SMAP_OK, 0}, {NULL, SMAP_OK, 1},
        {"b.ts", SMAP_TOO_MANY, 9}, {"", SMAP_TOO_MANY, 9}, {"http://[", SMAP_NOT_URL, 9},
        {"\xff", SMAP_NOT_UTF8, 9},
    };
    uint32_t number;
    for (size_t i = 0; i < sizeof rows / sizeof *rows; i++) {
        const char *url = rows[i].url;
        number = 9;
        CHECK(smap_builder_source(builder, url != NULL, url, url ? strlen(url) : 0, &number) == rows[i].code);
        CHECK(number == rows[i].number);
    }
    CHECK(smap_builder_source(builder, true, "a.ts", 4, NULL) == SMAP_OK);
    CHECK(smap_builder_name(builder, "f", 1, &number) == SMAP_OK && number == 0);
    CHECK(smap_builder_name(builder, NULL, 0, &number) == SMAP_OK && number == 1);
    CHECK(smap_builder_name(builder, "f", 1, NULL) == SMAP_OK);
    CHECK(smap_builder_name(builder, "g", 1, &number) == SMAP_TOO_MANY && number == 1);
    CHECK(smap_builder_name(builder, "\xff", 1, &number) == SMAP_NOT_UTF8 && number == 1);
}

/* What is given last counts; what is refused changes nothing. */
static void given_to(smap_builder *builder)
{
    CHECK(smap_builder_file(builder, true, "x", 1) == SMAP_OK);
    CHECK(smap_builder_file(builder, false, NULL, 0) == SMAP_OK);
    CHECK(smap_builder_file(builder, true, "out.js", 6) == SMAP_OK);
    CHECK(smap_builder_file(builder, true, "\xff", 1) == SMAP_NOT_UTF8);
    CHECK(smap_builder_content(builder, 0, true, "y", 1) == SMAP_OK);
    CHECK(smap_builder_content(builder, 0, false, NULL, 0) == SMAP_OK);
    CHECK(smap_builder_content(builder, 1, true, "B", 1) == SMAP_OK);
    CHECK(smap_builder_content(builder, 1, true, "\xff", 1) == SMAP_NOT_UTF8);
    CHECK(smap_builder_content(builder, 2, true, "B", 1) == SMAP_RANGE);
    CHECK(smap_builder_content(builder, UINT32_MAX, false, NULL, 0) == SMAP_RANGE);
    CHECK(smap_builder_ignore(builder, 0, true) == SMAP_OK);
    CHECK(smap_builder_ignore(builder, 0, false) == SMAP_OK);
    CHECK(smap_builder_ignore(builder, 1, true) == SMAP_OK);
    CHECK(smap_builder_ignore(builder, 2, true) == SMAP_RANGE);
}

/* Of two mappings the second is refused, and the first isn't added either. */
static void refused_by(smap_builder *builder)
{
    static const uint32_t rows[][6] = {
        {2, 0, 0, 0, 0, 0}, {0, 2147483648, 0, 0, 0, 0}, {0, 0, 2, 0, 0, 0}, {0, 0, 0, 2147483648, 0, 0},
        {0, 0, 0, 0, 2147483648, 0}, {0, 0, 0, 0, 0, 2}, {0, 0, NONE, NONE, NONE, 0}, {0, 0, 0, NONE, 0, 0},
        {NONE, 0, NONE, NONE, NONE, NONE},
    };
    uint32_t both[12] = {0, 0, NONE, NONE, NONE, NONE};
    for (size_t i = 0; i < sizeof rows / sizeof *rows; i++) {
        size_t wrong = 9;
        memcpy(both + 6, rows[i], sizeof rows[i]);
        CHECK(smap_builder_add(builder, both, 2, &wrong) == SMAP_RANGE && wrong == 1);
        CHECK(smap_builder_add(builder, both + 6, 1, NULL) == SMAP_RANGE);
    }
}

static void built(void)
{
    /* On line 1 the first comes before the third, which is at the same position. */
    static const uint32_t mappings[] = {
        1, 4, 1, 0, 0, NONE, 0, 0, 0, 2, 1, 0, 1, 4, 0, 5, 0, NONE,
    };
    smap_builder builder = {0};
    smap_limits limits = {2, 2};
    smap_map out = {0}, wanted = {0};
    smap_bytes bytes = {0};
    size_t wrong = 9;
    bool same = false;
    CHECK(open_builder(&builder, &limits) == SMAP_OK);
    CHECK(smap_builder_add(&builder, mappings, 1, &wrong) == SMAP_RANGE && wrong == 0);
    listed_by(&builder);
    given_to(&builder);
    refused_by(&builder);
    wrong = 9;
    CHECK(smap_builder_add(&builder, NULL, 0, &wrong) == SMAP_OK && wrong == 9);
    CHECK(smap_builder_add(&builder, mappings, 3, &wrong) == SMAP_OK && wrong == 9);
    CHECK(smap_builder_finish(&builder, &out) == SMAP_OK && out.is_open && !builder.is_open);
    CHECK(smap_flatten(&out, &bytes) == SMAP_OK && smap_bytes_copy(&bytes, 0, NULL, 0) > 0);
    CHECK(open_text(&wanted, "{\"version\":3,\"file\":\"out.js\",\"sources\":[\"a.ts\",null],"
                             "\"sourcesContent\":[null,\"B\"],\"ignoreList\":[1],\"names\":[\"f\",\"\"],"
                             "\"mappings\":\"AAECA;ICFD,ADKA\"}", NULL) == SMAP_OK);
    CHECK(smap_same(&out, &wanted, &same) == SMAP_OK && same);
    CHECK(smap_listed_name(&out, 1, NULL, 0, &wrong) == SMAP_OK && wrong == 0);
    CHECK(smap_written_source(&out, 0, NULL, 0, &wrong) == SMAP_OK && wrong == strlen("http://h/m/a.ts"));
    CHECK(smap_canonical_relative(&out, &bytes) == SMAP_OK);
    CHECK(open_builder(&builder, NULL) == SMAP_OK && smap_builder_finish(&builder, &out) == SMAP_OK);
    CHECK(smap_canonical_mappings(&out, &bytes) == SMAP_OK && smap_bytes_copy(&bytes, 0, NULL, 0) == 0);
    smap_bytes_free(&bytes);
    smap_close(&wanted);
    smap_close(&out);
}

static void numbers(smap_map *map)
{
    smap_counts counts;
    smap_mapping m = {0};
    smap_listed_mapping listed;
    bool flag;
    size_t n = 9;
    CHECK(smap_count(map, &counts) == SMAP_OK);
    CHECK(counts.sources == 3 && counts.listed_sources == 4 && counts.names == 3);
    CHECK(counts.mappings == 4 && counts.lines == 2);
    /* A string of up to 24 bytes has a block of 24: the base; "out.js", two URLs, a content and three names.
     * Nine sources, four listed ones and four names fit without growing; four mappings. Four sources as
     * written, of which three have a text, and no root; a table of two lines. */
    CHECK(smap_held(map, &n) == SMAP_OK);
    CHECK(n == (648 + 24) + 7 * 24 + (784 + 4 * 8 + 4 * 24 + 4 * 32) + (4 * 40 + 3 * 24 + 32) + 3 * 8);
    CHECK(smap_token(map, 4, &m) == SMAP_RANGE && smap_token(map, SIZE_MAX, &m) == SMAP_RANGE && m.line == 0);
    CHECK(smap_token(map, 2, &m) == SMAP_OK && m.line == 1 && m.source == 1 && m.has_name && m.is_ignored);
    CHECK(smap_listed_token(map, 2, &listed) == SMAP_OK && listed.source == 1 && listed.name == 2);
    CHECK(smap_listed_token(map, 3, &listed) == SMAP_OK && !listed.has_source && listed.column == 2);
    CHECK(smap_listed_token(map, 4, &listed) == SMAP_RANGE);
    CHECK(smap_listed_source(map, 2, &n) == SMAP_OK && n == 0);
    CHECK(smap_listed_source(map, 3, &n) == SMAP_OK && n == 2);
    CHECK(smap_listed_source(map, 4, &n) == SMAP_RANGE && n == 2);
    CHECK(smap_listed_name(map, 2, NULL, 0, &n) == SMAP_OK && n == 1);
    CHECK(smap_listed_name(map, 3, NULL, 0, &n) == SMAP_RANGE && n == 0);
    CHECK(smap_source_url(map, 2, NULL, 0, NULL) == SMAP_NONE);
    CHECK(smap_source_url(map, 3, NULL, 0, NULL) == SMAP_RANGE);
    CHECK(smap_source_content(map, 1, NULL, 0, NULL) == SMAP_NONE);
    CHECK(smap_source_content(map, 3, NULL, 0, NULL) == SMAP_RANGE);
    CHECK(smap_is_ignored(map, 1, &flag) == SMAP_OK && flag);
    CHECK(smap_is_ignored(map, 2, &flag) == SMAP_OK && !flag);
    CHECK(smap_is_ignored(map, 3, &flag) == SMAP_RANGE);
    CHECK(smap_lookup(map, 0, 4, &m) == SMAP_OK && m.column == 4 && m.source_line == 12 && !m.has_name);
    CHECK(smap_lookup(map, UINT32_MAX, UINT32_MAX, &m) == SMAP_NONE);
    CHECK(smap_find(map, 0, 3, &n) == SMAP_OK && n == 0 && smap_find(map, 0, 4, &n) == SMAP_OK && n == 1);
    CHECK(smap_find(map, 1, UINT32_MAX, &n) == SMAP_OK && n == 3);
    CHECK(smap_find(map, UINT32_MAX, 0, &n) == SMAP_NONE && n == 3);
    CHECK(smap_lookup(map, 1, UINT32_MAX, &m) == SMAP_OK && !m.has_source);
    CHECK(smap_name_at(map, 0, 4, NULL, 0, NULL) == SMAP_NONE);
}

/* Sources as they are written, in an index map with a root of its own for each section. */
static void written_sources(smap_map *map)
{
    const char sections[] =
        "{\"version\":3,\"sections\":[{\"offset\":{\"line\":0,\"column\":0},\"map\":{\"version\":3,"
        "\"sourceRoot\":\"r\",\"sources\":[\"../a.js\",null],\"mappings\":\"\"}},"
        "{\"offset\":{\"line\":1,\"column\":0},\"map\":{\"version\":3,\"sourceRoot\":\"\","
        "\"sources\":[\"b.js\"],\"mappings\":\"\"}}]}";
    smap_map index = {0};
    char room[8];
    size_t len = 7;
    memset(room, '.', sizeof room);
    CHECK(smap_written_source(map, 2, room, sizeof room, &len) == SMAP_OK && len == 4);
    CHECK(memcmp(room, "a.js....", 8) == 0);
    CHECK(smap_written_source(map, 3, room, sizeof room, &len) == SMAP_NONE && len == 0);
    CHECK(smap_written_root(map, 0, NULL, 0, NULL) == SMAP_NONE);
    CHECK(smap_written_source(map, 4, NULL, 0, NULL) == SMAP_RANGE);
    CHECK(smap_written_root(map, 4, NULL, 0, NULL) == SMAP_RANGE);
    CHECK(open_text(&index, sections, NULL) == SMAP_OK);
    CHECK(smap_written_source(&index, 0, room, sizeof room, &len) == SMAP_OK && len == 7);
    CHECK(memcmp(room, "../a.js.", 8) == 0);
    CHECK(smap_written_source(&index, 1, NULL, 0, NULL) == SMAP_NONE);
    CHECK(smap_written_root(&index, 1, room, sizeof room, &len) == SMAP_OK && len == 1 && room[0] == 'r');
    CHECK(smap_written_root(&index, 2, NULL, 0, &len) == SMAP_OK && len == 0);
    smap_close(&index);
}

static void faults(void)
{
    smap_map map = {0};
    smap_fault fault = {0};
    smap_limits limits = {2147483648u, 0};
    smap_bytes bytes = {0};
    const char no_url[] = "{\"version\":3,\"sources\":[\"a\",\"http://:\"],\"mappings\":\"\"}";
    const char words[] = "section 0: line 1 segment 1: source index";
    CHECK(open_text(&map, broken, &fault) == SMAP_REFUSED && !map.is_open);
    CHECK(fault.kind == SMAP_FAULT_SOURCE && fault.has_place && fault.line == 1 && fault.segment == 1);
    CHECK(fault.depth == 1 && fault.section[0] == 0 && fault.number == 0);
    CHECK(fault.text_len == strlen(words) && strcmp(fault.text, words) == 0);
    CHECK(open_text(&map, no_url, &fault) == SMAP_REFUSED);
    CHECK(fault.kind == SMAP_FAULT_SOURCE_URL && fault.number == 1 && !fault.has_place && fault.depth == 0);
    CHECK(open_text(&map, "", &fault) == SMAP_REFUSED && fault.kind == SMAP_FAULT_JSON);
    CHECK(smap_open(&map, NULL, 0, base, strlen(base), NULL, NULL) == SMAP_REFUSED);
    CHECK(smap_open(&map, text, strlen(text), NULL, 0, NULL, &fault) == SMAP_NOT_URL);
    CHECK(smap_open(&map, text, strlen(text), "http://h/\xff", 10, NULL, &fault) == SMAP_NOT_URL);
    CHECK(smap_open(&map, text, strlen(text), base, strlen(base), &limits, &fault) == SMAP_LIMITS);
    limits.items = 0;
    limits.lines = 16777217;
    CHECK(smap_open(&map, text, strlen(text), base, strlen(base), &limits, &fault) == SMAP_LIMITS);
    limits.lines = 1;
    CHECK(smap_open(&map, text, strlen(text), base, strlen(base), &limits, &fault) == SMAP_REFUSED);
    CHECK(fault.kind == SMAP_FAULT_GENERATED_LINE);
    limits.items = 3;
    CHECK(smap_open(&map, text, strlen(text), base, strlen(base), &limits, &fault) == SMAP_REFUSED);
    CHECK(fault.kind == SMAP_FAULT_TOO_MANY && !map.is_open);
    CHECK(smap_respell(NULL, 0, &bytes, NULL) == SMAP_OK && smap_bytes_copy(&bytes, 0, NULL, 0) == 0);
    CHECK(smap_respell("A,BAAA", 6, &bytes, &fault) == SMAP_REFUSED && bytes.is_open);
    CHECK(fault.kind == SMAP_FAULT_NEGATIVE_ZERO && fault.number == 1 && fault.segment == 1);
    CHECK(smap_respell("AA", 2, &bytes, &fault) == SMAP_REFUSED);
    CHECK(fault.kind == SMAP_FAULT_COUNT && fault.number == 2);
    CHECK(smap_respell("E,D", 3, &bytes, &fault) == SMAP_OK && smap_bytes_copy(&bytes, 0, NULL, 0) == 3);
    smap_bytes_free(&bytes);
}

/* Opens a map whose sources may take so many bytes. */
static uint32_t open_within(smap_map *map, const char *words, size_t url_bytes, smap_fault *fault)
{
    return smap_open_within(map, words, strlen(words), base, strlen(base), NULL, url_bytes, fault);
}

/* How many bytes the sources take together, which is known by hand: one less, and the map isn't opened. */
static void bytes_of_urls(void)
{
    static const struct {
        const char *text;
        size_t bytes;
    } rows[] = {
        {"{\"version\":3,\"mappings\":\"\"}", 0},
        {"{\"version\":3,\"sources\":[null,null],\"sourceRoot\":\"r\",\"mappings\":\"\"}", 0},
        /* http://h/m/a.js, twice */
        {"{\"version\":3,\"sources\":[\"a.js\",\"a.js\"],\"mappings\":\"\"}", 30},
        /* http://h/m/r/%20x and http://h/m/r/%C3%BC */
        {"{\"version\":3,\"sources\":[\" x\",\"\xc3\xbc\"],\"sourceRoot\":\"r\",\"mappings\":\"\"}",
         17 + 19},
        /* 27 bytes that lead to http://h/m/a.js */
        {"{\"version\":3,\"sources\":[\"../../x/../x/../x/../m/a.js\"],\"mappings\":\"\"}", 27},
        /* http://h/m/r/a.js in one section, http://h/m/b.js in two of the other */
        {"{\"version\":3,\"sections\":[{\"offset\":{\"line\":0,\"column\":0},\"map\":{\"version\":3,"
         "\"sourceRoot\":\"r\",\"sources\":[\"a.js\",null],\"mappings\":\"\"}},"
         "{\"offset\":{\"line\":1,\"column\":0},\"map\":{\"version\":3,\"sections\":["
         "{\"offset\":{\"line\":0,\"column\":0},\"map\":{\"version\":3,\"sources\":[\"b.js\"],"
         "\"mappings\":\"\"}},{\"offset\":{\"line\":1,\"column\":0},\"map\":{\"version\":3,"
         "\"sources\":[\"b.js\"],\"mappings\":\"\"}}]}}]}",
         17 + 15 + 15},
    };
    const char late[] = "{\"version\":3,\"sources\":[\"a.js\"],\"mappings\":\"!\"}";
    const smap_limits none = {1, 1};
    smap_map map = {0};
    smap_fault fault;
    for (size_t i = 0; i < sizeof rows / sizeof *rows; i++) {
        CHECK(open_within(&map, rows[i].text, rows[i].bytes, NULL) == SMAP_OK && map.is_open);
        smap_close(&map);
        if (rows[i].bytes == 0) continue;
        CHECK(open_within(&map, rows[i].text, rows[i].bytes - 1, NULL) == SMAP_URL_BYTES && !map.is_open);
        CHECK(open_within(&map, rows[i].text, 0, NULL) == SMAP_URL_BYTES);
        CHECK(open_within(&map, rows[i].text, SIZE_MAX, NULL) == SMAP_OK);
        smap_close(&map);
    }
    /* the bytes come before an error of the map, but not before one of its JSON */
    memset(&fault, '.', sizeof fault);
    CHECK(open_within(&map, late, 14, &fault) == SMAP_URL_BYTES && fault.text[0] == '.');
    CHECK(open_within(&map, late, 15, &fault) == SMAP_REFUSED && fault.kind == SMAP_FAULT_CHARACTER);
    CHECK(open_within(&map, "{", 0, &fault) == SMAP_REFUSED && fault.kind == SMAP_FAULT_JSON);
    CHECK(smap_open_within(&map, text, strlen(text), base, strlen(base), &none, 0, NULL) == SMAP_URL_BYTES);
    CHECK(smap_open_within(&map, text, strlen(text), base, strlen(base), &none, 45, &fault) == SMAP_REFUSED);
    CHECK(fault.kind == SMAP_FAULT_TOO_MANY);
    CHECK(smap_open_within(&map, NULL, 0, NULL, 0, NULL, 0, NULL) == SMAP_NOT_URL);
    CHECK(open_text(&map, text, NULL) == SMAP_OK);
    CHECK(open_within(&map, text, 44, NULL) == SMAP_URL_BYTES && map.is_open);
    CHECK(open_within(&map, text, 45, NULL) == SMAP_OK && map.is_open);
    smap_close(&map);
}

/* A map of half a megabyte whose URLs take eight gigabytes: they aren't made. */
static void many_times_a_root(void)
{
    enum { ROOT = 200000, SOURCES = 40000 };
    char *words = malloc(ROOT + 9 * SOURCES), *end = words;
    smap_map map = {0};
    if (!words) exit(3);
    end += sprintf(end, "{\"version\":3,\"mappings\":\"\",\"sourceRoot\":\"");
    memset(end, 'r', ROOT);
    end += ROOT;
    end += sprintf(end, "\",\"sources\":[\"0\"");
    for (int i = 1; i < SOURCES; i++) end += sprintf(end, ",\"%d\"", i);
    sprintf(end, "]}");
    CHECK(open_within(&map, words, 1 << 20, NULL) == SMAP_URL_BYTES && !map.is_open);
    free(words);
}

static void bytes_of(smap_map *map)
{
    smap_bytes bytes = {0};
    char room[8];
    const uint8_t *at;
    size_t len;
    memset(room, '.', sizeof room);
    CHECK(smap_canonical_mappings(map, &bytes) == SMAP_OK);
    CHECK(smap_bytes_copy(&bytes, 0, NULL, 0) == 18);
    CHECK(smap_bytes_data(&bytes, &at, &len) == SMAP_OK && len == 18);
    CHECK(memcmp(at, "AAUEA,IAEA;ACAAA,E", 18) == 0);
    CHECK(smap_bytes_copy(&bytes, 16, room, 8) == 18 && memcmp(room, at + 16, 2) == 0 && room[2] == '.');
    CHECK(smap_bytes_copy(&bytes, 18, room, 8) == 18 && smap_bytes_copy(&bytes, SIZE_MAX, room, 8) == 18);
    CHECK(memcmp(room + 2, "......", 6) == 0);
    CHECK(smap_flatten(map, &bytes) == SMAP_OK && smap_bytes_copy(&bytes, 0, NULL, 0) > 18);
    smap_bytes_free(&bytes);
    smap_bytes_free(&bytes);
}

static void traces(smap_map *map)
{
    smap_frame_parts parts = {0};
    char room[64];
    size_t len;
    uint32_t outcome = 9;
    size_t n = strlen(frame_line), url = strlen(script);
    CHECK(smap_frame(frame_line, n - 1, &parts) == SMAP_OK && parts.line == 1 && parts.column == 2);
    CHECK(parts.url_len == url && memcmp(frame_line + parts.url_from, script, url) == 0);
    CHECK(smap_frame(frame_line, n, &parts) == SMAP_NONE && smap_frame(NULL, 0, &parts) == SMAP_NONE);
    CHECK(smap_translate_line(map, script, url, frame_line, n, false, room, 64, &len, &outcome) == SMAP_OK);
    CHECK(outcome == SMAP_TRANSLATED && len == 32);
    CHECK(memcmp(room, "    at f (http://h/m/a.js:11:3)\n", 32) == 0);
    CHECK(smap_translate_line(map, "\xff", 1, frame_line, n, false, room, 64, &len, NULL) == SMAP_NOT_URL);
    CHECK(smap_translate_line(map, "u", 1, frame_line, n, false, NULL, 0, &len, &outcome) == SMAP_OK);
    CHECK(outcome == SMAP_KEPT && len == n);
    CHECK(smap_translate_line(map, "u", 1, "@u:2:1", 6, true, NULL, 0, &len, &outcome) == SMAP_OK);
    CHECK(outcome == SMAP_DROPPED && len == 0);
    CHECK(smap_translate_line(map, NULL, 0, NULL, 0, true, NULL, 0, NULL, NULL) == SMAP_OK);
}

static void scripts_of(smap_map *map)
{
    smap_scripts scripts = {0};
    smap_map closed = {0}, other = {0};
    smap_bytes out = {0};
    smap_trace_counts counts = {7, 7, 7};
    const char trace[] = "Error\n@http://h/m/out.js:1:2\n@v:2:1\n@w:1:2";
    const char told[] = "Error\n@http://h/m/a.js:11:3\n@w:1:2";
    char room[64];
    CHECK(smap_translate(&scripts, trace, strlen(trace), false, &out, &counts) == SMAP_CLOSED);
    CHECK(counts.lines == 7 && !out.is_open);
    CHECK(smap_add_script(&scripts, script, strlen(script), &closed) == SMAP_CLOSED && !scripts.is_open);
    CHECK(smap_add_script(&scripts, "\xff", 1, map) == SMAP_NOT_URL && !scripts.is_open);
    CHECK(smap_add_script(&scripts, script, strlen(script), map) == SMAP_OK && scripts.is_open);
    CHECK(smap_share(map, &other) == SMAP_OK && smap_add_script(&scripts, "v", 1, &other) == SMAP_OK);
    smap_close(&other);
    CHECK(smap_add_script(&scripts, "v", 1, &closed) == SMAP_CLOSED && scripts.is_open);
    CHECK(smap_translate(&scripts, trace, strlen(trace), true, &out, &counts) == SMAP_OK);
    CHECK(counts.lines == 4 && counts.translated == 1 && counts.dropped == 1);
    CHECK(smap_bytes_copy(&out, 0, room, sizeof room) == strlen(told));
    CHECK(memcmp(room, told, strlen(told)) == 0);
    CHECK(open_text(&other, "{\"version\":3,\"mappings\":\"\"}", NULL) == SMAP_OK);
    CHECK(smap_add_script(&scripts, "v", 1, &other) == SMAP_OK);
    CHECK(smap_translate(&scripts, trace, strlen(trace), true, &out, &counts) == SMAP_OK);
    CHECK(counts.translated == 1 && counts.dropped == 0);
    CHECK(smap_translate(&scripts, NULL, 0, false, &out, NULL) == SMAP_OK);
    CHECK(smap_bytes_copy(&out, 0, NULL, 0) == 0);
    CHECK(smap_add_script(&scripts, NULL, 0, map) == SMAP_OK);
    smap_close_scripts(&scripts);
    smap_close_scripts(&scripts);
    CHECK(!scripts.is_open);
    smap_close(&other);
    smap_bytes_free(&out);
}

static bool holds(smap_bytes *bytes, const char *text)
{
    const uint8_t *at;
    size_t len;
    return smap_bytes_data(bytes, &at, &len) == SMAP_OK && len == strlen(text) && memcmp(at, text, len) == 0;
}

#define STRING(text) text, strlen(text)

/* ---- what a script named a.js below http://h/m/ names, and what is then in the handle */

static const struct {
    const char *text;
    uint32_t code, kind;
    const char *held;
} names[] = {
    {"//# sourceMappingURL=maps/a%20b.map?x#y", SMAP_OK, SMAP_NAMED_FILE, "maps/a b.map"},
    {"//# sourceMappingURL=../m/a.map\n\n// x\n", SMAP_OK, SMAP_NAMED_FILE, "a.map"},
    {"/*@ sourceMappingURL=http://h/m/a.map */", SMAP_OK, SMAP_NAMED_FILE, "a.map"},
    {"//# sourceMappingURL=data:;base64,e30", SMAP_OK, SMAP_NAMED_INLINE, "{}"},
    {"//# sourceMappingURL=data:,", SMAP_OK, SMAP_NAMED_INLINE, ""},
    {"", SMAP_NONE, SMAP_NAMED_UNSAID, "-"},
    {"\n// x\n/* sourceMappingURL=a.map */ \n", SMAP_NONE, SMAP_NAMED_UNSAID, "-"},
    {"f()", SMAP_NONE, SMAP_NAMED_NOTHING, "-"},
    {"//# sourceMappingURL=a.map\nf()\n//", SMAP_NONE, SMAP_NAMED_NOTHING, "-"},
    {"//# sourceMappingURL=data:;base64,e-_0", SMAP_NONE, SMAP_NAMED_GARBLED, "-"},
    {"//# sourceMappingURL=data:x", SMAP_NONE, SMAP_NAMED_GARBLED, "-"},
    {"//# sourceMappingURL=", SMAP_NONE, SMAP_NAMED_NO_NAME, "-"},
    {"//# sourceMappingURL=http://[", SMAP_NONE, SMAP_NAMED_NOT_URL, "-"},
    {"//# sourceMappingURL=\xff.map", SMAP_NONE, SMAP_NAMED_NOT_URL, "-"},
    {"//# sourceMappingURL=../a.map", SMAP_NONE, SMAP_NAMED_LEAVES, "-"},
    {"//# sourceMappingURL=/n/a.map", SMAP_NONE, SMAP_NAMED_LEAVES, "-"},
    {"//# sourceMappingURL=b%2Fa.map", SMAP_NONE, SMAP_NAMED_LEAVES, "-"},
    {"//# sourceMappingURL=http://k/m/a.map", SMAP_NONE, SMAP_NAMED_LEAVES, "-"},
    {"//# sourceMappingURL=%ff.map", SMAP_NONE, SMAP_NAMED_LEAVES, "-"},
};

static void named_maps(void)
{
    static char text[21 + 65537 + 1] = "//# sourceMappingURL=";
    smap_bytes out = {0};
    for (size_t i = 0; i < sizeof names / sizeof names[0]; i++) {
        uint32_t kind = 99;
        CHECK(smap_data_url(STRING("data:,-"), &out) == SMAP_OK);
        CHECK(smap_named_map(STRING("http://h/m/"), STRING("a.js"), STRING(names[i].text), &out, &kind) ==
              names[i].code);
        CHECK(kind == names[i].kind && holds(&out, names[i].held));
        CHECK(smap_named_map(STRING("http://h/m/"), STRING("a.js"), STRING(names[i].text), &out, NULL) ==
              names[i].code);
    }
    for (size_t len = 65536; len <= 65537; len++) {
        uint32_t kind = 99;
        memset(text + 21, 'x', len);
        CHECK(smap_named_map(STRING("/"), STRING("a.js"), text, 21 + len, &out, &kind) ==
              (len > 65536 ? SMAP_NONE : SMAP_OK));
        CHECK(kind == (len > 65536 ? SMAP_NAMED_NO_NAME : SMAP_NAMED_FILE));
    }
    uint32_t kind = 99;
    CHECK(smap_named_map(STRING("/"), STRING("a.css"), STRING("//# sourceMappingURL=a.map"), &out, &kind) ==
          SMAP_NONE);
    CHECK(kind == SMAP_NAMED_NOTHING);
    CHECK(smap_named_map(NULL, 0, NULL, 0, STRING("//# sourceMappingURL=a.map"), &out, &kind) == SMAP_NONE);
    CHECK(kind == SMAP_NAMED_NOT_URL);
    CHECK(smap_named_map(NULL, 0, NULL, 0, NULL, 0, &out, NULL) == SMAP_NONE);
    smap_bytes_free(&out);
}

/* ---- the maps that the same script may have: the one that it names, if any, and the file next to it */

static void script_maps(void)
{
    smap_bytes out = {0};
    for (size_t i = 0; i < sizeof names / sizeof names[0]; i++) {
        size_t named = names[i].code == SMAP_OK;
        for (size_t tried = 0; tried < 4; tried++) {
            bool is_there = tried <= named;
            uint32_t kind = 99;
            CHECK(smap_data_url(STRING("data:,-"), &out) == SMAP_OK);
            CHECK(smap_script_map(STRING("http://h/m/"), STRING("a.js"), STRING(names[i].text), tried, &out,
                                  &kind) == (is_there ? SMAP_OK : SMAP_NONE));
            CHECK(kind == names[i].kind);
            CHECK(holds(&out, tried < named ? names[i].held : is_there ? "a.js.map" : "-"));
        }
    }
    CHECK(smap_script_map(STRING("/"), STRING("l/a.css"), STRING("/*# sourceMappingURL=b */"), 0, &out,
                          NULL) == SMAP_OK);
    CHECK(holds(&out, "l/b"));
    CHECK(smap_script_map(NULL, 0, NULL, 0, NULL, 0, 0, &out, NULL) == SMAP_OK && holds(&out, ".map"));
    CHECK(smap_script_map(NULL, 0, NULL, 0, NULL, 0, SIZE_MAX, &out, NULL) == SMAP_NONE);
    smap_bytes_free(&out);
}

static void file_kinds(void)
{
    CHECK(smap_file_kind(STRING("a.js")) == SMAP_FILE_SCRIPT);
    CHECK(smap_file_kind(STRING("d/a.b.mjs")) == SMAP_FILE_SCRIPT);
    CHECK(smap_file_kind(STRING(".cjs")) == SMAP_FILE_SCRIPT);
    CHECK(smap_file_kind(STRING("a.css")) == SMAP_FILE_STYLE_SHEET);
    CHECK(smap_file_kind(STRING("a.js.map")) == SMAP_FILE_MAP);
    CHECK(smap_file_kind(STRING("a.jsx")) == SMAP_FILE_OTHER);
    CHECK(smap_file_kind(STRING("a.JS")) == SMAP_FILE_OTHER);
    CHECK(smap_file_kind(STRING("js")) == SMAP_FILE_OTHER);
    CHECK(smap_file_kind(NULL, 0) == SMAP_FILE_OTHER);
}

static void links(void)
{
    smap_bytes out = {0};
    char room[8] = ".......";
    size_t len = 7;
    bool flag = true;
    CHECK(smap_script_link(STRING("f()\n//# sourceMappingURL=a.map\n\n"), false, room, 8, &len) == SMAP_OK);
    CHECK(len == 5 && memcmp(room, "a.map..", 8) == 0);
    CHECK(smap_script_link(STRING("/*# sourceMappingURL=a.css.map */"), true, room, 2, &len) == SMAP_OK);
    CHECK(len == 9 && memcmp(room, "a.map..", 8) == 0);
    CHECK(smap_script_link(STRING("//# sourceMappingURL=a.map"), true, room, 8, &len) == SMAP_NONE);
    CHECK(len == 0);
    CHECK(smap_script_link(NULL, 0, false, NULL, 0, NULL) == SMAP_NONE);
    CHECK(smap_data_url(STRING("a.map"), &out) == SMAP_NONE && !out.is_open);
    CHECK(smap_data_url(NULL, 0, &out) == SMAP_NONE && !out.is_open);
    CHECK(smap_data_url(STRING("data:;base64,e30"), &out) == SMAP_OK && holds(&out, "{}"));
    CHECK(smap_data_url(STRING("data:,%7b%7D%4"), &out) == SMAP_OK && holds(&out, "{}%4"));
    CHECK(smap_data_url(STRING("data:;base64,e-_0"), &out) == SMAP_NOT_BASE64 && holds(&out, "{}%4"));
    CHECK(smap_data_url(STRING("data:application/json"), &out) == SMAP_NOT_URL && holds(&out, "{}%4"));
    CHECK(smap_file_url(STRING("/a b/x.js"), &out) == SMAP_OK && holds(&out, "file:///a%20b/x.js"));
    CHECK(smap_file_url(STRING("x.js"), &out) == SMAP_NONE && smap_file_url(NULL, 0, &out) == SMAP_NONE);
    CHECK(smap_file_url(STRING("/\xff"), &out) == SMAP_NOT_UTF8 && holds(&out, "file:///a%20b/x.js"));
    CHECK(smap_file_path(STRING("file:///C:/a%20b.js"), &out) == SMAP_OK && holds(&out, "C:\\a b.js"));
    CHECK(smap_file_path(STRING("http://h/a.js"), &out) == SMAP_NONE);
    CHECK(smap_file_path(NULL, 0, &out) == SMAP_NONE);
    CHECK(smap_file_path(STRING("file://h/a.js"), &out) == SMAP_NOT_URL);
    CHECK(smap_file_path(STRING("file:///a%2Fb.js"), &out) == SMAP_NOT_URL);
    CHECK(smap_file_path(STRING("file:///%ff"), &out) == SMAP_NOT_UTF8 && holds(&out, "C:\\a b.js"));
    CHECK(smap_script_url(STRING("http://h/"), STRING("a b.js"), &out) == SMAP_OK);
    CHECK(holds(&out, "http://h/a%20b.js"));
    CHECK(smap_script_url(NULL, 0, NULL, 0, &out) == SMAP_OK && holds(&out, ""));
    CHECK(smap_script_name(STRING("/s/"), STRING("/s/a b.js"), &out) == SMAP_OK && holds(&out, "a b.js"));
    CHECK(smap_script_name(STRING("/s/"), STRING("/s/../b.js"), &out) == SMAP_NONE && holds(&out, "a b.js"));
    CHECK(smap_script_name(NULL, 0, NULL, 0, &out) == SMAP_NONE);
    CHECK(smap_resolve(STRING("http://h/m/a.js?x"), STRING("../a.map"), &out) == SMAP_OK);
    CHECK(holds(&out, "http://h/a.map"));
    CHECK(smap_resolve(STRING("a.js"), STRING("a.map"), &out) == SMAP_NOT_URL);
    CHECK(smap_resolve(STRING("http://h/a.js"), STRING("\xff"), &out) == SMAP_NOT_UTF8);
    CHECK(smap_resolve(NULL, 0, NULL, 0, &out) == SMAP_NOT_URL && holds(&out, "http://h/a.map"));
    CHECK(smap_normal_form(STRING("HTTP://H:80/a.js?x#y"), false, &out) == SMAP_OK);
    CHECK(holds(&out, "http://h/a.js"));
    CHECK(smap_normal_form(NULL, 0, false, &out) == SMAP_OK && holds(&out, ""));
    CHECK(smap_alike(STRING("/a.js"), STRING("file:///b.js"), &flag) == SMAP_OK && !flag);
    CHECK(smap_alike(STRING("c:\\a.js"), STRING("file:///C:/a.js"), &flag) == SMAP_OK && flag);
    CHECK(smap_alike(NULL, 0, NULL, 0, &flag) == SMAP_OK && flag);
    smap_bytes_free(&out);
}

/* ---- how a trace is translated: by each bit, by several, and by bits that mean nothing */

static const struct {
    const char *line;
    uint8_t how;
    uint32_t outcome;
    const char *told;
} ways[] = {
    {"9:00 at f (http://h/m/out.js:1:2) {\n", 0, SMAP_KEPT, "9:00 at f (http://h/m/out.js:1:2) {\n"},
    {"9:00 at f (http://h/m/out.js:1:2) {\n", SMAP_ANYWHERE, SMAP_TRANSLATED,
     "9:00 at f (http://h/m/a.js:11:3) {\n"},
    {"9:00 at f (http://h/m/out.js:1:2) {\n", SMAP_HIDE_IGNORED | SMAP_IGNORE_QUERY, SMAP_KEPT,
     "9:00 at f (http://h/m/out.js:1:2) {\n"},
    {"9:00 at f (http://h/m/out.js:1:2) {\n", 0xf5, SMAP_KEPT, "9:00 at f (http://h/m/out.js:1:2) {\n"},
    {"http://h/m/out.js:1:2 and http://h/m/out.js:1:5", SMAP_ANYWHERE, SMAP_TRANSLATED,
     "http://h/m/a.js:11:3 and http://h/m/a.js:13:3"},
    {"@http://h/m/out.js?v=3:1:2", SMAP_HIDE_IGNORED | SMAP_ANYWHERE, SMAP_KEPT,
     "@http://h/m/out.js?v=3:1:2"},
    {"@http://h/m/out.js?v=3:1:2", SMAP_IGNORE_QUERY, SMAP_TRANSLATED, "@http://h/m/a.js:11:3"},
    {"9:00 http://h/m/out.js?v=3:1:2,", SMAP_IGNORE_QUERY, SMAP_KEPT, "9:00 http://h/m/out.js?v=3:1:2,"},
    {"9:00 http://h/m/out.js?v=3:1:2,", SMAP_ANYWHERE | SMAP_IGNORE_QUERY, SMAP_TRANSLATED,
     "9:00 http://h/m/a.js:11:3,"},
    {"@http://h/m/out.js:2:1\n", SMAP_ANYWHERE, SMAP_TRANSLATED, "@http://h/m/b.js:13:3\n"},
    {"@http://h/m/out.js:2:1\n", SMAP_HIDE_IGNORED, SMAP_DROPPED, ""},
    {"@http://h/m/out.js:2:1\n", 0xf1, SMAP_DROPPED, ""},
    {"@http://h/m/out.js:2:1\n", SMAP_HIDE_IGNORED | SMAP_ANYWHERE, SMAP_DROPPED, ""},
    {"9:00 http://h/m/out.js:2:1 {\n", SMAP_HIDE_IGNORED | SMAP_ANYWHERE, SMAP_TRANSLATED,
     "9:00 http://h/m/b.js:13:3 {\n"},
    {"@http://h/m/out.js?v=3:2:1", SMAP_HIDE_IGNORED | SMAP_ANYWHERE | SMAP_IGNORE_QUERY, SMAP_DROPPED, ""},
};

/* Translates the row's line by itself, and as a trace. */
static void way_of(smap_map *map, smap_scripts *scripts, size_t i)
{
    const char *line = ways[i].line, *told = ways[i].told;
    size_t n = strlen(line), told_len = strlen(told), len = 0;
    uint32_t outcome = 9;
    smap_bytes out = {0};
    smap_trace_counts counts = {7, 7, 7};
    char room[64];
    CHECK(smap_translate_line(map, script, strlen(script), line, n, ways[i].how, room, sizeof room, &len,
                              &outcome) == SMAP_OK);
    CHECK(outcome == ways[i].outcome);
    CHECK(len == told_len && memcmp(room, told, told_len) == 0);
    CHECK(smap_translate(scripts, line, n, ways[i].how, &out, &counts) == SMAP_OK);
    CHECK(smap_bytes_copy(&out, 0, room, sizeof room) == told_len && memcmp(room, told, told_len) == 0);
    CHECK(counts.lines == 1);
    CHECK(counts.translated == (ways[i].outcome == SMAP_TRANSLATED));
    CHECK(counts.dropped == (ways[i].outcome == SMAP_DROPPED));
    smap_bytes_free(&out);
}

static void ways_of(smap_map *map)
{
    smap_scripts scripts = {0};
    CHECK(smap_add_script(&scripts, script, strlen(script), map) == SMAP_OK);
    for (size_t i = 0; i < sizeof ways / sizeof *ways; i++) {
        int before = failures;
        way_of(map, &scripts, i);
        if (failures > before) printf("  %s by %d\n", ways[i].line, ways[i].how);
    }
    smap_close_scripts(&scripts);
}

/* A frame gets the name of a function in a line by itself, and in a trace. */
static void names_of(void)
{
    static const char line[] = "@u:1:1\n", told[] = "total@http://h/m/a.js:1:20\n";
    smap_map map = {0};
    smap_scripts scripts = {0};
    smap_bytes out = {0};
    char room[64];
    size_t len, told_len = strlen(told);
    uint32_t outcome;
    CHECK(open_text(&map, "{\"version\":3,\"sources\":[\"a.js\"],\"mappings\":\"AAAmB\","
                          "\"sourcesContent\":[\"function total() { f(); }\"]}", NULL) == SMAP_OK);
    CHECK(smap_translate_line(&map, "u", 1, line, strlen(line), SMAP_NAMES, room, sizeof room, &len,
                              &outcome) == SMAP_OK);
    CHECK(outcome == SMAP_TRANSLATED && len == told_len && memcmp(room, told, len) == 0);
    CHECK(smap_add_script(&scripts, "u", 1, &map) == SMAP_OK);
    CHECK(smap_translate(&scripts, line, strlen(line), SMAP_NAMES, &out, NULL) == SMAP_OK);
    CHECK(smap_bytes_copy(&out, 0, room, sizeof room) == told_len && memcmp(room, told, told_len) == 0);
    smap_bytes_free(&out);
    smap_close_scripts(&scripts);
    smap_close(&map);
}

/* The two functions of the library as version 0.1 declared them, which what was compiled then still calls. */
extern uint32_t line_by_bool(smap_map *map, const char *url, size_t url_len, const void *line,
                             size_t line_len, bool hide, char *out, size_t room, size_t *len,
                             uint32_t *outcome) __asm__("smap_translate_line");
extern uint32_t trace_by_bool(smap_scripts *scripts, const void *trace, size_t len, bool hide,
                              smap_bytes *out, smap_trace_counts *counts) __asm__("smap_translate");

static void callers_with_bool(smap_map *map)
{
    static const char lines[] = "@u:2:1\n9:00 u:2:1 {\n";
    smap_scripts scripts = {0};
    smap_bytes out = {0};
    smap_trace_counts counts;
    CHECK(smap_add_script(&scripts, "u", 1, map) == SMAP_OK);
    for (int i = 0; i < 2; i++) {
        volatile bool hide = i;
        char room[64];
        size_t len;
        uint32_t outcome;
        CHECK(line_by_bool(map, "u", 1, lines, 7, hide, room, sizeof room, &len, &outcome) == SMAP_OK);
        CHECK(outcome == (hide ? SMAP_DROPPED : SMAP_TRANSLATED) && len == (hide ? 0 : 22));
        CHECK(hide || memcmp(room, "@http://h/m/b.js:13:3\n", len) == 0);
        CHECK(trace_by_bool(&scripts, lines, strlen(lines), hide, &out, &counts) == SMAP_OK);
        CHECK(counts.lines == 2 && counts.translated == !hide && counts.dropped == hide);
    }
    smap_bytes_free(&out);
    smap_close_scripts(&scripts);
}

int main(void)
{
    smap_map map = {0}, other = {0};
    bool same = false;
    CHECK(smap_version() == SMAP_VERSION);
    closed_handles();
    CHECK(open_text(&map, text, NULL) == SMAP_OK);
    buffers(&map);
    numbers(&map);
    written_sources(&map);
    bytes_of(&map);
    traces(&map);
    scripts_of(&map);
    links();
    named_maps();
    script_maps();
    file_kinds();
    ways_of(&map);
    names_of();
    callers_with_bool(&map);
    faults();
    bytes_of_urls();
    many_times_a_root();
    made_of(&map);
    closed_builders();
    opened_builders();
    built();
    CHECK(smap_share(&map, &other) == SMAP_OK && smap_same(&map, &other, &same) == SMAP_OK && same);
    CHECK(open_text(&other, "{\"version\":3,\"mappings\":\"\"}", NULL) == SMAP_OK);
    CHECK(smap_same(&map, &other, &same) == SMAP_OK && !same);
    CHECK(open_text(&other, broken, NULL) == SMAP_REFUSED && other.is_open);
    smap_close(&map);
    smap_close(&other);
    printf("%d checks\n", checks);
    return failures != 0;
}
