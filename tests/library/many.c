/* Opens, uses and closes a map 100,000 times, in constant memory. */
#define _DEFAULT_SOURCE
#include "maps.h"

#include <sys/resource.h>

static long peak(void)
{
    struct rusage usage;
    getrusage(RUSAGE_SELF, &usage);
    return usage.ru_maxrss;
}

int main(void)
{
    smap_map map = {0}, other = {0};
    smap_bytes out = {0};
    long before = 0;
    for (int i = 0; i < 100000; i++) {
        CHECK(open_text(&map, text, NULL) == SMAP_OK);
        CHECK(smap_share(&map, &other) == SMAP_OK);
        CHECK(smap_canonical(i % 2 ? &map : &other, &out) == SMAP_OK);
        CHECK(open_text(&map, broken, NULL) == SMAP_REFUSED);
        if (i % 3) smap_close(&map);
        if (i % 5) smap_bytes_free(&out);
        if (i == 1000) before = peak();
    }
    smap_close(&map);
    smap_close(&other);
    smap_bytes_free(&out);
    CHECK(peak() - before < 1024);
    printf("%ld KiB after 1,000 rounds, %ld after 100,000\n", before, peak());
    return failures != 0;
}
