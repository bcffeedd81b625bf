/* lookup BASE MAP LINE COLUMN: where a position of the generated text comes from, and the line of the source
 * there, where the map holds its text. LINE and COLUMN count from 0.
 *
 *     cc -o lookup lookup.c -lsmap */
#include "smap.h"

#include <stdio.h>
#include <stdlib.h>
#include <string.h>

/* The whole of a file, or NULL. */
static char *read_file(const char *path, size_t *len)
{
    FILE *file = fopen(path, "rb");
    char *text = NULL;
    long end;
    if (file && fseek(file, 0, SEEK_END) == 0 && (end = ftell(file)) >= 0) {
        rewind(file);
        text = malloc((size_t)end + 1);
        if (text && fread(text, 1, (size_t)end, file) != (size_t)end) {
            free(text);
            text = NULL;
        }
        *len = (size_t)end;
    }
    if (file) fclose(file);
    return text;
}

/* A text of a source, for which the caller pays with free; NULL where there is none. */
static char *text_of(uint32_t (*call)(smap_map *, size_t, char *, size_t, size_t *), smap_map *map,
                     size_t source, size_t *len)
{
    char *text;
    if (call(map, source, NULL, 0, len) != SMAP_OK || !(text = malloc(*len + 1))) return NULL;
    call(map, source, text, *len, len);
    return text;
}

/* Prints the line with this number, from 0. */
static void print_line(const char *text, size_t len, uint32_t line)
{
    const char *end = text + len, *feed;
    while (line > 0 && (feed = memchr(text, '\n', (size_t)(end - text)))) {
        text = feed + 1;
        line--;
    }
    feed = memchr(text, '\n', (size_t)(end - text));
    if (line == 0) printf("    %.*s\n", (int)((feed ? feed : end) - text), text);
}

static void print_mapping(smap_map *map, uint32_t line, uint32_t column)
{
    smap_mapping found;
    size_t len;
    char *text;
    if (smap_lookup(map, line, column, &found) != SMAP_OK || !found.has_source) {
        puts("nowhere");
        return;
    }
    text = text_of(smap_source_url, map, found.source, &len);
    printf("%.*s:%u:%u\n", text ? (int)len : 7, text ? text : "no URL,", found.source_line + 1,
           found.source_column + 1);
    free(text);
    text = text_of(smap_source_content, map, found.source, &len);
    if (text) print_line(text, len, found.source_line);
    free(text);
}

int main(int argc, char **argv)
{
    smap_map map = {0};
    smap_fault fault;
    size_t len;
    char *text, name[32];
    uint32_t code;
    if (argc != 5) return fputs("usage: lookup BASE MAP LINE COLUMN\n", stderr), 2;
    if (!(text = read_file(argv[2], &len))) return perror(argv[2]), 3;
    code = smap_open(&map, text, len, argv[1], strlen(argv[1]), NULL, &fault);
    free(text);
    if (code == SMAP_REFUSED) return fprintf(stderr, "%s: %s\n", argv[2], fault.text), 1;
    if (code != SMAP_OK) {
        size_t n = smap_code_name(code, name, sizeof name);
        return fprintf(stderr, "%s: %.*s\n", argv[2], (int)n, name), (int)code;
    }
    print_mapping(&map, (uint32_t)strtoul(argv[3], NULL, 10), (uint32_t)strtoul(argv[4], NULL, 10));
    smap_close(&map);
    return 0;
}
