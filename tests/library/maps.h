/* What the tests of the C library share: a map, its base, and a check that says where it failed. */
#include "smap.h"

#include <stdio.h>
#include <stdlib.h>
#include <string.h>

static const char text[] =
    "{\"version\":3,\"file\":\"out.js\",\"sources\":[\"a.js\",\"b.js\",\"a.js\",null],"
    "\"sourcesContent\":[\"x\",null,\"x\"],\"ignoreList\":[1],\"names\":[\"f\",\"g\",\"f\"],"
    "\"mappings\":\"AAUEA,IAEA;ACAAE,E\"}";
static const char base[] = "http://h/m/out.js.map";
static const char script[] = "http://h/m/out.js";
static const char broken[] =
    "{\"version\":3,\"sections\":[{\"offset\":{\"line\":0,\"column\":0},"
    "\"map\":{\"version\":3,\"sources\":[\"a.js\"],\"mappings\":\"AAAA;AAAA,CCAA\"}}]}";
static const char frame_line[] = "    at f (http://h/m/out.js:1:2)\n";

static int failures, checks;

#define CHECK(holds) check_that(holds, #holds, __LINE__)

static inline bool check_that(bool holds, const char *what, int line)
{
    checks++;
    if (!holds) {
        failures++;
        printf("line %d: %s\n", line, what);
    }
    return holds;
}

static inline uint32_t open_text(smap_map *map, const char *map_text, smap_fault *fault)
{
    return smap_open(map, map_text, strlen(map_text), base, strlen(base), NULL, fault);
}
