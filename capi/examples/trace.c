/* trace URL=MAP .. <LOG: a crash log with the positions of the sources, as smap-trace writes it; the
 * standard error says how many lines were translated. MAP is the map of the script at URL, and its own URL is
 * URL.map. A log that grows may go through smap_translate in pieces, each of whole lines.
 *
 *     cc -o trace trace.c -lsmap */
#include "smap.h"

#include <stdio.h>
#include <stdlib.h>
#include <string.h>

/* The whole of a file, which the caller frees; NULL if there is no file or no memory. */
static char *read_all(FILE *file, size_t *len)
{
    size_t room = 1 << 16, n;
    char *text = file ? malloc(room) : NULL, *more;
    *len = 0;
    while (text && (n = fread(text + *len, 1, room - *len, file)) > 0)
        if ((*len += n) == room) {
            if (!(more = realloc(text, room *= 2))) free(text);
            text = more;
        }
    return text;
}

/* Adds the script of `URL=MAP`. The file's name begins after the last `=`. */
static uint32_t add_script(smap_scripts *scripts, const char *word, smap_fault *fault)
{
    const char *equals = strrchr(word, '=');
    size_t url_len = equals ? (size_t)(equals - word) : 0, len;
    FILE *file = equals ? fopen(equals + 1, "rb") : NULL;
    char *text = read_all(file, &len), *base = malloc(url_len + 4);
    smap_map map = {0};
    uint32_t code = SMAP_NONE;
    if (text && base) {
        memcpy(base, word, url_len);
        memcpy(base + url_len, ".map", 4);
        code = smap_open(&map, text, len, base, url_len + 4, NULL, fault);
        if (code == SMAP_OK) code = smap_add_script(scripts, word, url_len, &map);
    }
    smap_close(&map); /* the scripts share the map */
    if (file) fclose(file);
    free(text);
    free(base);
    return code;
}

int main(int argc, char **argv)
{
    smap_scripts scripts = {0};
    smap_bytes out = {0};
    smap_trace_counts counts;
    smap_fault fault = {0};
    const uint8_t *at;
    size_t len;
    char *log;
    if (argc < 2) return fputs("usage: trace URL=MAP .. <LOG\n", stderr), 2;
    for (int i = 1; i < argc; i++)
        if (add_script(&scripts, argv[i], &fault) != SMAP_OK)
            return fprintf(stderr, "trace: %s: %s\n", argv[i], fault.kind ? fault.text : "cannot be used"), 1;
    log = read_all(stdin, &len);
    if (!log || smap_translate(&scripts, log, len, false, &out, &counts) != SMAP_OK)
        return fputs("trace: out of memory\n", stderr), 4;
    smap_bytes_data(&out, &at, &len);
    fwrite(at, 1, len, stdout);
    fprintf(stderr, "%llu lines, %llu translated\n", (unsigned long long)counts.lines,
            (unsigned long long)counts.translated);
    free(log);
    smap_bytes_free(&out);
    smap_close_scripts(&scripts);
    return 0;
}
