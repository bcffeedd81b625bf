/* Each field of each struct of smap.h: where it lies, and what the library writes there or reads from there.
 * The places, in places.h, are what the layout rules of 64-bit systems give for the fields in the order of the
 * header. The values are worked out by hand from the texts below, and within a struct all numbers differ, so
 * fields that change places, here or in the library, are seen. */
#include "maps.h"

/* ---- where the fields lie */

typedef struct place {
    const char *name;
    size_t at, size, wanted_at, wanted_size;
} place;

#define FIELD(type, field, at, size) \
    {#type "." #field, offsetof(type, field), sizeof(((type *)0)->field), at, size}
#define WHOLE(type, size) {#type, 0, sizeof(type), 0, size}

static const place places[] = {
#include "places.h"
};

static void places_of_fields(void)
{
    for (size_t i = 0; i < sizeof places / sizeof *places; i++) {
        const place *p = &places[i];
        if (!CHECK(p->at == p->wanted_at && p->size == p->wanted_size))
            printf("  %s is at %zu with %zu bytes, not at %zu with %zu\n", p->name, p->at, p->size,
                   p->wanted_at, p->wanted_size);
    }
}

/* ---- what the library writes: each struct lies between bytes that it must leave alone */

enum { UNWRITTEN = 0xa5, ROOM = 64 };

#define GUARDED(type) struct { unsigned char before[ROOM]; type it; unsigned char after[ROOM]; }
#define UNWRITE(guarded) memset(&(guarded), UNWRITTEN, sizeof(guarded))
#define IS_WITHIN(guarded) (is_unwritten((guarded).before) && is_unwritten((guarded).after))

static bool is_unwritten(const unsigned char *bytes)
{
    for (int i = 0; i < ROOM; i++)
        if (bytes[i] != UNWRITTEN) return false;
    return true;
}

/* Six sources are listed, of which a.js, b.js, c.js and d.js are distinct, with the numbers 0 to 3 in this
 * order, and c.js, the fourth in the list, is ignored. There are seven names, five mappings and nine lines. A
 * segment has the differences to the one before it, of the column (on its line), the source, the line, the
 * column and the name:
 *
 *     line 6   oG I wM 4S K   100, 4, 200, 300, 5
 *              w+B D kD 9B    1000, -1, 50, -30
 *     line 8   O              7
 *              iC F tO zP     33, -2, -230, -249
 *              kD E W Y C     50, 2, 11, 12, 1 */
static const char map_text[] =
    "{\"version\":3,\"sources\":[\"a.js\",\"b.js\",\"a.js\",\"c.js\",\"d.js\",\"a.js\"],\"ignoreList\":[3],"
    "\"names\":[\"n0\",\"n1\",\"n2\",\"n3\",\"n4\",\"n5\",\"n6\"],"
    "\"mappings\":\";;;;;;oGIwM4SK,w+BDkD9B;;O,iCFtOzP,kDEWYC\"}";

/* The mappings, by the number of their source among the distinct ones. */
static const smap_mapping mappings[] = {
    {6, 100, true, true, false, 200, 300, 3},
    {6, 1100, true, false, true, 250, 270, 2},
    {8, 7, false, false, false, 0, 0, 0},
    {8, 40, true, false, false, 20, 21, 1},
    {8, 90, true, true, true, 31, 33, 2},
};

/* The same by the source's index in the list, and the name's. */
static const smap_listed_mapping listed[] = {
    {6, 100, true, true, 200, 300, 4, 5},
    {6, 1100, true, false, 250, 270, 3, 0},
    {8, 7, false, false, 0, 0, 0, 0},
    {8, 40, true, false, 20, 21, 1, 0},
    {8, 90, true, true, 31, 33, 3, 6},
};

enum { COUNT = 5 };

static bool is_mapping(const smap_mapping *m, const smap_mapping *wanted)
{
    return CHECK(m->line == wanted->line) & CHECK(m->column == wanted->column) &
           CHECK(m->has_source == wanted->has_source) & CHECK(m->has_name == wanted->has_name) &
           CHECK(m->is_ignored == wanted->is_ignored) & CHECK(m->source_line == wanted->source_line) &
           CHECK(m->source_column == wanted->source_column) & CHECK(m->source == wanted->source);
}

static bool is_listed(const smap_listed_mapping *m, const smap_listed_mapping *wanted)
{
    return CHECK(m->line == wanted->line) & CHECK(m->column == wanted->column) &
           CHECK(m->has_source == wanted->has_source) & CHECK(m->has_name == wanted->has_name) &
           CHECK(m->source_line == wanted->source_line) & CHECK(m->source_column == wanted->source_column) &
           CHECK(m->source == wanted->source) & CHECK(m->name == wanted->name);
}

static void mappings_of(smap_map *map)
{
    GUARDED(smap_mapping) found;
    GUARDED(smap_listed_mapping) in_lists;
    for (size_t i = 0; i < COUNT; i++) {
        UNWRITE(found);
        CHECK(smap_token(map, i, &found.it) == SMAP_OK && IS_WITHIN(found));
        if (!is_mapping(&found.it, &mappings[i])) printf("  smap_token, mapping %zu\n", i);
        UNWRITE(found);
        CHECK(smap_lookup(map, mappings[i].line, mappings[i].column + 1, &found.it) == SMAP_OK);
        if (!is_mapping(&found.it, &mappings[i])) printf("  smap_lookup, mapping %zu\n", i);
        CHECK(IS_WITHIN(found));
        UNWRITE(in_lists);
        CHECK(smap_listed_token(map, i, &in_lists.it) == SMAP_OK && IS_WITHIN(in_lists));
        if (!is_listed(&in_lists.it, &listed[i])) printf("  smap_listed_token, mapping %zu\n", i);
    }
    CHECK(smap_token(map, COUNT, &found.it) == SMAP_RANGE);
}

static void counts_of(smap_map *map)
{
    GUARDED(smap_counts) counts;
    UNWRITE(counts);
    CHECK(smap_count(map, &counts.it) == SMAP_OK && IS_WITHIN(counts));
    CHECK(counts.it.sources == 4);
    CHECK(counts.it.listed_sources == 6);
    CHECK(counts.it.names == 7);
    CHECK(counts.it.mappings == 5);
    CHECK(counts.it.lines == 9);
}

/* ---- limits, which the library reads: the map has seven names and nine lines */

static void limits(void)
{
    static const struct {
        smap_limits limits;
        uint32_t code, kind;
    } rows[] = {
        {{7, 9}, SMAP_OK, 0},
        {{6, 9}, SMAP_REFUSED, SMAP_FAULT_TOO_MANY},
        {{7, 8}, SMAP_REFUSED, SMAP_FAULT_GENERATED_LINE},
        {{9, 7}, SMAP_REFUSED, SMAP_FAULT_GENERATED_LINE},
    };
    for (size_t i = 0; i < sizeof rows / sizeof *rows; i++) {
        smap_map map = {0};
        smap_fault fault = {0};
        CHECK(smap_open(&map, map_text, strlen(map_text), base, strlen(base), &rows[i].limits, &fault) ==
              rows[i].code);
        CHECK(fault.kind == rows[i].kind);
        smap_close(&map);
    }
}

/* ---- faults */

static char nested[1 << 14];

static void put(const char *words)
{
    strcat(nested, words);
}

/* Writes an index map of eight levels, in which the sections before the last one of each level have no
 * mappings: eleven on the first level, and one more on each further level. */
static void nest(const char *innermost)
{
    nested[0] = 0;
    for (int before = 11; before <= 18; before++) {
        put("{\"version\":3,\"sections\":[");
        for (int i = 0; i < before; i++)
            put("{\"offset\":{\"line\":0,\"column\":0},\"map\":{\"version\":3,\"mappings\":\"\"}},");
        put("{\"offset\":{\"line\":0,\"column\":0},\"map\":");
    }
    put(innermost);
    for (int level = 0; level < 8; level++) put("}]}");
}

/* The third number of the seventh segment of line 5 has a bad character. */
static const char bad_character[] = "{\"version\":3,\"mappings\":\";;;;;A,A,A,A,A,A,AA!A\"}";
static const char bad_words[] = "section 11.12.13.14.15.16.17.18: line 5 segment 6: number 3: bad character";
static const char no_url[] = "{\"version\":3,\"sources\":[\"a\",\"http://:\"],\"mappings\":\"\"}";
static const char no_url_words[] = "source 1 is no URL";

static void faults(void)
{
    smap_map map = {0};
    GUARDED(smap_fault) fault;
    nest(bad_character);
    UNWRITE(fault);
    CHECK(open_text(&map, nested, &fault.it) == SMAP_REFUSED && IS_WITHIN(fault));
    CHECK(fault.it.kind == 24);
    CHECK(fault.it.line == 5);
    CHECK(fault.it.segment == 6);
    CHECK(fault.it.has_place);
    CHECK(fault.it.number == 3);
    CHECK(fault.it.depth == 8);
    for (size_t i = 0; i < 8; i++) CHECK(fault.it.section[i] == 11 + i);
    CHECK(fault.it.text_len == 74 && fault.it.text_len == strlen(bad_words));
    CHECK(memcmp(fault.it.text, bad_words, sizeof bad_words) == 0);
    UNWRITE(fault);
    CHECK(open_text(&map, no_url, &fault.it) == SMAP_REFUSED && IS_WITHIN(fault));
    CHECK(fault.it.kind == 20);
    CHECK(fault.it.line == 0);
    CHECK(fault.it.segment == 0);
    CHECK(!fault.it.has_place);
    CHECK(fault.it.number == 1);
    CHECK(fault.it.depth == 0);
    for (size_t i = 0; i < 8; i++) CHECK(fault.it.section[i] == 0);
    CHECK(fault.it.text_len == 18 && fault.it.text_len == strlen(no_url_words));
    CHECK(memcmp(fault.it.text, no_url_words, sizeof no_url_words) == 0);
}

/* ---- frames and traces */

/* Ten bytes stand before the URL, which has seventeen. */
static const char line_of_frame[] = "    at f (http://h/m/out.js:70:900)";

static void frames(void)
{
    GUARDED(smap_frame_parts) parts;
    UNWRITE(parts);
    CHECK(smap_frame(line_of_frame, strlen(line_of_frame), &parts.it) == SMAP_OK && IS_WITHIN(parts));
    CHECK(parts.it.url_from == 10);
    CHECK(parts.it.url_len == 17);
    CHECK(parts.it.line == 70);
    CHECK(parts.it.column == 900);
}

/* Seven lines, of which three fall to the first mapping, in d.js, and two to the second, in c.js, which is
 * ignored. */
static const char trace[] = "Error\n@u:7:101\n@u:7:102\n@u:7:1101\n@u:7:103\n@u:7:1102\nend\n";

static void traces(smap_map *map)
{
    smap_scripts scripts = {0};
    smap_bytes out = {0};
    GUARDED(smap_trace_counts) counts;
    UNWRITE(counts);
    CHECK(smap_add_script(&scripts, "u", 1, map) == SMAP_OK);
    CHECK(smap_translate(&scripts, trace, strlen(trace), true, &out, &counts.it) == SMAP_OK);
    CHECK(IS_WITHIN(counts));
    CHECK(counts.it.lines == 7);
    CHECK(counts.it.translated == 3);
    CHECK(counts.it.dropped == 2);
    smap_bytes_free(&out);
    smap_close_scripts(&scripts);
}

/* ---- handles: all zero while they are closed, and else open with a pointer */

#define IS_CLOSED(handle) (!(handle).it.is_open && (handle).it.at == NULL && IS_WITHIN(handle))
#define IS_OPEN(handle) ((handle).it.is_open && (handle).it.at != NULL && IS_WITHIN(handle))

static void handles(void)
{
    GUARDED(smap_map) map;
    GUARDED(smap_bytes) bytes;
    GUARDED(smap_scripts) scripts;
    GUARDED(smap_builder) builder;
    UNWRITE(map);
    UNWRITE(bytes);
    UNWRITE(scripts);
    UNWRITE(builder);
    memset(&map.it, 0, sizeof map.it);
    memset(&bytes.it, 0, sizeof bytes.it);
    memset(&scripts.it, 0, sizeof scripts.it);
    memset(&builder.it, 0, sizeof builder.it);
    CHECK(open_text(&map.it, map_text, NULL) == SMAP_OK && IS_OPEN(map));
    CHECK(smap_canonical(&map.it, &bytes.it) == SMAP_OK && IS_OPEN(map) && IS_OPEN(bytes));
    CHECK(smap_add_script(&scripts.it, "u", 1, &map.it) == SMAP_OK && IS_OPEN(map) && IS_OPEN(scripts));
    CHECK(smap_builder_open(&builder.it, base, strlen(base), NULL) == SMAP_OK && IS_OPEN(builder));
    smap_close(&map.it);
    smap_bytes_free(&bytes.it);
    smap_close_scripts(&scripts.it);
    smap_builder_close(&builder.it);
    CHECK(IS_CLOSED(map));
    CHECK(IS_CLOSED(bytes));
    CHECK(IS_CLOSED(scripts));
    CHECK(IS_CLOSED(builder));
}

int main(void)
{
    smap_map map = {0};
    places_of_fields();
    CHECK(open_text(&map, map_text, NULL) == SMAP_OK);
    mappings_of(&map);
    counts_of(&map);
    traces(&map);
    smap_close(&map);
    limits();
    faults();
    frames();
    handles();
    printf("%d checks\n", checks);
    return failures != 0;
}
