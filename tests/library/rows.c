/* The commands of the program smap that ask one map or one mappings text, or translate a bundle, over the C
 * library, or compose a chain: the tables of tests/rows/ are run over this (tests/library/run). */
#include "smap.h"

#include <stdio.h>
#include <stdlib.h>
#include <string.h>

static char *read_input(size_t *len)
{
    size_t room = 1 << 16, n;
    char *text = malloc(room);
    *len = 0;
    while (text && (n = fread(text + *len, 1, room - *len, stdin)) > 0)
        if ((*len += n) == room) text = realloc(text, room *= 2);
    if (!text) exit(4);
    return text;
}

static int fail(uint32_t code)
{
    char name[64];
    size_t len = smap_code_name(code, name, sizeof name);
    fprintf(stderr, "%.*s\n", (int)len, name);
    return code == SMAP_MEMORY ? 4 : 2;
}

static int refuse(const smap_fault *fault)
{
    printf("refused: %s\n", fault->text);
    return 1;
}

/* Writes the bytes, and frees them. */
static int write_bytes(uint32_t code, smap_bytes *bytes)
{
    const uint8_t *at;
    size_t len;
    if (code != SMAP_OK || smap_bytes_data(bytes, &at, &len) != SMAP_OK) return fail(code);
    fwrite(at, 1, len, stdout);
    smap_bytes_free(bytes);
    return 0;
}

static int respell(void)
{
    smap_bytes out = {0};
    smap_fault fault;
    size_t len;
    char *text = read_input(&len);
    uint32_t code = smap_respell(text, len - (len && text[len - 1] == '\n'), &out, &fault);
    free(text);
    if (code == SMAP_REFUSED) return refuse(&fault);
    if (write_bytes(code, &out)) return 4;
    putchar('\n');
    return 0;
}

/* Adds the script of an entry, `map URL BASE LENGTH` and the map below it, and answers what is left. */
static char *add_entry(smap_scripts *scripts, char *entry)
{
    smap_map map = {0};
    char *url = strchr(entry, ' ') + 1, *base = strchr(url, ' ') + 1, *number = strchr(base, ' ') + 1, *text;
    size_t len = strtoul(number, &text, 10);
    text++;
    if (smap_open(&map, text, len, base, (size_t)(number - base - 1), NULL, NULL) != SMAP_OK ||
        smap_add_script(scripts, url, (size_t)(base - url - 1), &map) != SMAP_OK)
        exit(3);
    smap_close(&map);
    return text + len + 1;
}

static int translate(uint8_t how)
{
    smap_scripts scripts = {0};
    smap_bytes out = {0};
    size_t len;
    char *text = read_input(&len), *rest = text;
    int status;
    while (strncmp(rest, "trace\n", 6) != 0) rest = add_entry(&scripts, rest);
    rest += 6;
    len -= (size_t)(rest - text);
    if (scripts.is_open)
        status = write_bytes(smap_translate(&scripts, rest, len, how, &out, NULL), &out);
    else
        status = fwrite(rest, 1, len, stdout) != len;
    smap_close_scripts(&scripts);
    free(text);
    return status;
}

/* The bits of the flags of `translate`. */
static uint8_t how_by(int argc, char **argv)
{
    uint8_t how = 0;
    for (int i = 2; i < argc; i++) {
        if (!strcmp(argv[i], "--hide-ignored")) how |= SMAP_HIDE_IGNORED;
        if (!strcmp(argv[i], "--anywhere")) how |= SMAP_ANYWHERE;
        if (!strcmp(argv[i], "--ignore-query")) how |= SMAP_IGNORE_QUERY;
        if (!strcmp(argv[i], "--names")) how |= SMAP_NAMES;
    }
    return how;
}

/* The maps of a chain, each with the URL of its script. */
enum { LINKS = 8 };
static const char *urls[LINKS];
static size_t url_lens[LINKS];
static smap_map links[LINKS];

static char *add_link(size_t i, char *entry)
{
    char *url = strchr(entry, ' ') + 1, *base = strchr(url, ' ') + 1, *number = strchr(base, ' ') + 1, *text;
    size_t len = strtoul(number, &text, 10);
    urls[i] = url;
    url_lens[i] = (size_t)(base - url - 1);
    if (smap_open(&links[i], text + 1, len, base, (size_t)(number - base - 1), NULL, NULL) != SMAP_OK) exit(3);
    return text + 1 + len + 1;
}

/* The index, among the links behind the i-th, of the first whose script a source of this one is. */
static size_t lead(size_t i, size_t count, size_t source)
{
    char url[256];
    size_t len, k = i + 1;
    if (smap_source_url(&links[i], source, url, sizeof url, &len) != SMAP_OK) return SIZE_MAX;
    while (k < count && (len != url_lens[k] || memcmp(url, urls[k], len))) k++;
    return k - (i + 1);
}

/* Puts the composition of a link with those behind it in its place. */
static void close_link(size_t i, size_t count)
{
    size_t leads[LINKS];
    smap_counts counts;
    smap_map out = {0};
    if (smap_count(&links[i], &counts) != SMAP_OK || counts.sources > LINKS) exit(3);
    for (size_t k = 0; k < counts.sources; k++) leads[k] = lead(i, count, k);
    if (smap_compose(&links[i], &links[i + 1], count - i - 1, leads, counts.sources, NULL, &out) != SMAP_OK)
        exit(3);
    smap_close(&links[i]);
    links[i] = out;
}

/* Puts what a call makes of the first link in its place. */
static void remake(uint32_t (*call)(smap_map *map, smap_map *out))
{
    smap_map out = {0};
    if (call(&links[0], &out) != SMAP_OK) exit(3);
    smap_close(&links[0]);
    links[0] = out;
}

static int compose(int argc, char **argv)
{
    smap_bytes out = {0};
    bool relative = false;
    size_t len, count = 0;
    char *text = read_input(&len), *rest = text;
    while (strncmp(rest, "end\n", 4) != 0 && count + 1 < LINKS) rest = add_link(count++, rest);
    for (size_t i = count; i > 0; i--) close_link(i - 1, count);
    for (int i = 2; i < argc; i++) {
        if (!strcmp(argv[i], "--thin")) remake(smap_thin);
        if (!strcmp(argv[i], "--used")) remake(smap_only_used);
        if (!strcmp(argv[i], "--relative")) relative = true;
    }
    int status = write_bytes(relative ? smap_canonical_relative(&links[0], &out)
                                      : smap_canonical(&links[0], &out), &out);
    for (size_t i = 0; i < count; i++) smap_close(&links[i]);
    free(text);
    return status;
}

static int check(smap_map *map)
{
    smap_counts counts;
    smap_bytes out = {0};
    const uint8_t *at;
    size_t len;
    uint32_t code = smap_count(map, &counts);
    if (code != SMAP_OK || (code = smap_canonical_mappings(map, &out)) != SMAP_OK) return fail(code);
    smap_bytes_data(&out, &at, &len);
    smap_bytes_free(&out);
    printf("accepted: %zu sources, %zu names, %zu mappings, %u lines\n", counts.sources, counts.names,
           counts.mappings, counts.lines);
    printf("canonical mappings: %zu bytes, at most %zu\n", len, 36 * counts.mappings + counts.lines);
    return 0;
}

/* Writes a name as JSON does. */
static void write_name(const char *name, size_t len)
{
    static const char plain[] = "\"\\\b\f\n\r\t", letters[] = "\"\\bfnrt";
    const char *found;
    fputs(" \"", stdout);
    for (size_t i = 0; i < len; i++)
        if ((found = name[i] ? strchr(plain, name[i]) : NULL))
            printf("\\%c", letters[found - plain]);
        else if ((unsigned char)name[i] < 32)
            printf("\\u%04x", name[i]);
        else
            putchar(name[i]);
    putchar('"');
}

static int lookup(smap_map *map, const char *line, const char *column)
{
    smap_mapping m;
    static char text[1 << 20];
    size_t len;
    uint32_t at_line = (uint32_t)strtoul(line, NULL, 10), at_column = (uint32_t)strtoul(column, NULL, 10);
    uint32_t code = smap_lookup(map, at_line, at_column, &m);
    if (code == SMAP_NONE) return puts("none"), 0;
    if (code != SMAP_OK) return fail(code);
    printf("%u:%u ", m.line, m.column);
    if (!m.has_source) return puts("unmapped"), 0;
    code = smap_source_url(map, m.source, text, sizeof text, &len);
    printf("%.*s:%u:%u", code == SMAP_NONE ? 4 : (int)len, code == SMAP_NONE ? "null" : text, m.source_line,
           m.source_column);
    if (m.has_name && smap_name_at(map, m.line, m.column, text, sizeof text, &len) == SMAP_OK)
        write_name(text, len);
    putchar('\n');
    return 0;
}

static int run(smap_map *map, int argc, char **argv, bool relative)
{
    smap_bytes out = {0};
    if (!strcmp(argv[1], "check")) return check(map);
    if (!strcmp(argv[1], "lookup")) return argc == 5 ? lookup(map, argv[3], argv[4]) : 2;
    if (!strcmp(argv[1], "flatten")) return write_bytes(smap_flatten(map, &out), &out);
    return write_bytes(relative ? smap_canonical_relative(map, &out) : smap_canonical(map, &out), &out);
}

int main(int argc, char **argv)
{
    smap_map map = {0};
    smap_fault fault;
    size_t len;
    uint32_t code;
    int status;
    bool relative = argc > 3 && !strcmp(argv[2], "--relative");
    const char *base = argv[relative ? 3 : 2];
    char *text;
    if (argc == 2 && !strcmp(argv[1], "respell")) return respell();
    if (argc > 1 && !strcmp(argv[1], "compose")) return compose(argc, argv);
    if (argc > 1 && !strcmp(argv[1], "translate")) return translate(how_by(argc, argv));
    if (argc < 3) return 2;
    text = read_input(&len);
    code = smap_open(&map, text, len, base, strlen(base), NULL, &fault);
    free(text);
    if (code == SMAP_REFUSED) return refuse(&fault);
    if (code != SMAP_OK) return fail(code);
    status = run(&map, argc, argv, relative);
    smap_close(&map);
    return status;
}
