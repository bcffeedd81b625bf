/* Times the normal forms of 110,000 names of scripts, as of 100,000 maps and a log of 10,000 scripts: what it
 * takes to find those that are alike, but for a look into a table for each.
 *
 *   cc -O2 -I capi/out -o names bench/names.c capi/out/libsmap.a && ./names
 *
 * Prints the milliseconds of the fastest of five runs; the status is 1 if a form is wrong. */
#include "smap.h"

#include <stdio.h>
#include <string.h>
#include <time.h>

#define NAMES 110000

/* Whether all names have the forms that they should have. */
static int forms_are_right(void)
{
    char name[128], form[128];
    smap_bytes out = {0};
    for (int i = 0; i < NAMES; i++) {
        int len = sprintf(name, "HTTPS://shop.example:443/a/%d/../static/%d.js?v=1", i, i);
        int wanted = sprintf(form, "https://shop.example/a/static/%d.js", i);
        const uint8_t *at = NULL;
        size_t got = 0;
        if (smap_normal_form(name, (size_t)len, false, &out) != SMAP_OK) return 0;
        if (smap_bytes_data(&out, &at, &got) != SMAP_OK) return 0;
        if (got != (size_t)wanted || memcmp(at, form, got)) return 0;
    }
    smap_bytes_free(&out);
    return 1;
}

static double milliseconds(void)
{
    struct timespec now;
    clock_gettime(CLOCK_MONOTONIC, &now);
    return (double)now.tv_sec * 1e3 + (double)now.tv_nsec / 1e6;
}

int main(void)
{
    double best = 0;
    for (int run = 0; run < 5; run++) {
        double start = milliseconds();
        if (!forms_are_right()) return 1;
        double taken = milliseconds() - start;
        if (run == 0 || taken < best) best = taken;
    }
    printf("%d names: %.0f ms\n", NAMES, best);
    return 0;
}
