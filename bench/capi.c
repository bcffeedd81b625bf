/* capi MAP BASE LOG URL: times the C library over a map, and over a log with frames in the script at URL. A
 * line of its output is a name, how often it was done, and the processor time in seconds. */
#define _POSIX_C_SOURCE 200809L
#include "smap.h"

#include <stdio.h>
#include <stdlib.h>
#include <string.h>
#include <time.h>

static double seconds(void)
{
    struct timespec now;
    clock_gettime(CLOCK_PROCESS_CPUTIME_ID, &now);
    return (double)now.tv_sec + (double)now.tv_nsec / 1e9;
}

static char *read_file(const char *path, size_t *len)
{
    FILE *file = fopen(path, "rb");
    char *text;
    if (!file || fseek(file, 0, SEEK_END)) exit(3);
    *len = (size_t)ftell(file);
    rewind(file);
    text = malloc(*len + 1);
    if (!text || fread(text, 1, *len, file) != *len) exit(3);
    fclose(file);
    return text;
}

static void time_opens(const char *text, size_t len, const char *base)
{
    smap_map map = {0};
    double start = seconds();
    long n = 0;
    while (n < 3 || seconds() - start < 1) {
        if (smap_open(&map, text, len, base, strlen(base), NULL, NULL) != SMAP_OK) exit(1);
        n++;
    }
    printf("opens\t%ld\t%.6f\n", n, seconds() - start);
    smap_close(&map);
}

/* Looks up the positions of mappings, whose numbers rise by `step` and past the end begin anew. */
static void time_lookups(const char *name, smap_map *map, size_t mappings, size_t step)
{
    enum { LOOKUPS = 2000000 };
    uint32_t(*places)[2] = malloc(LOOKUPS * sizeof *places);
    smap_mapping m;
    long found = 0;
    double start;
    if (!places) exit(4);
    for (size_t i = 0; i < LOOKUPS; i++) {
        smap_token(map, i * step % mappings, &m);
        places[i][0] = m.line;
        places[i][1] = m.column + 1;
    }
    start = seconds();
    for (size_t i = 0; i < LOOKUPS; i++) found += smap_lookup(map, places[i][0], places[i][1], &m) == SMAP_OK;
    printf("%s\t%ld\t%.6f\n", name, found, seconds() - start);
    free(places);
}

static void time_lines(smap_map *map, const char *log, size_t len, const char *url)
{
    char out[4096];
    long n = 0;
    double start = seconds();
    for (size_t at = 0, end; at < len; at = end, n++) {
        const char *feed = memchr(log + at, '\n', len - at);
        size_t told;
        uint32_t code;
        end = feed ? (size_t)(feed - log) + 1 : len;
        code = smap_translate_line(map, url, strlen(url), log + at, end - at, false, out, sizeof out, &told,
                                   NULL);
        if (code != SMAP_OK) exit(1);
    }
    printf("lines\t%ld\t%.6f\n", n, seconds() - start);
}

int main(int argc, char **argv)
{
    smap_map map = {0};
    smap_counts counts;
    size_t len, log_len;
    char *text, *log;
    if (argc != 5) return 2;
    text = read_file(argv[1], &len);
    log = read_file(argv[3], &log_len);
    if (smap_open(&map, text, len, argv[2], strlen(argv[2]), NULL, NULL) != SMAP_OK) return 1;
    smap_count(&map, &counts);
    time_opens(text, len, argv[2]);
    time_lookups("rising lookups", &map, counts.mappings, 1);
    time_lookups("random lookups", &map, counts.mappings, 1000003);
    time_lines(&map, log, log_len, argv[4]);
    smap_close(&map);
    return 0;
}
