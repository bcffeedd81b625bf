/* Two maps in eight threads, each with handles of its own: random calls, the same for each number of rounds,
 * which are answered as they are where there is one thread. Handles are shared, closed, opened, and passed on
 * from thread to thread. */
#define _DEFAULT_SOURCE
#include "maps.h"

#include <pthread.h>

/* A map that handles share is freed after the last use by any of them: closing one lowers a count by one
 * locked instruction, which the thread sanitizer can't see in the archive. Here it is told of that order, by a
 * lock that handles are closed under. */
#if defined(__SANITIZE_THREAD__) && !defined(ORDER_UNTOLD)
static pthread_mutex_t order = PTHREAD_MUTEX_INITIALIZER;
#define BEGIN_ORDER() pthread_mutex_lock(&order)
#define END_ORDER() pthread_mutex_unlock(&order)
#else
#define BEGIN_ORDER() ((void)0)
#define END_ORDER() ((void)0)
#endif

enum { THREADS = 8, HELD = 4, COMMON = 4, MAPS = 2, NUMBERS = 4, ROOM = 512 };

enum {
    LOOKUP, FIND, TOKEN, LISTED, COUNT, HELD_BYTES, FILE_NAME, NAME_AT, URL, CONTENT, WRITTEN, LISTED_NAME,
    IGNORED, CANONICAL, MAPPINGS, FLAT, LINE, TRACE, CALLS
};

static const char *const texts[MAPS] = {
    text,
    "{\"version\":3,\"sourceRoot\":\"r\",\"sources\":[\"c.js\"],\"names\":[\"h\"],"
    "\"mappings\":\"AAAAA;C\"}"
};

/* A handle, and which map it is one of. */
typedef struct held {
    smap_map map;
    uint32_t of;
} held;

typedef struct answer {
    uint32_t code;
    size_t len;
    char text[ROOM];
} answer;

static answer known[MAPS][CALLS][NUMBERS];
static held common[COMMON];
static pthread_mutex_t common_lock = PTHREAD_MUTEX_INITIALIZER;
static int rounds = 20000;

static void put_bytes(answer *a, smap_bytes *bytes)
{
    a->len = smap_bytes_copy(bytes, 0, a->text, ROOM);
    smap_bytes_free(bytes);
}

static void ask_trace(smap_map *map, answer *a)
{
    static const char trace[] = "Error\n@http://h/m/out.js:1:2\n@v:2:1\n";
    smap_scripts scripts = {0};
    smap_bytes bytes = {0};
    a->code = smap_add_script(&scripts, script, strlen(script), map) ||
              smap_add_script(&scripts, "v", 1, map) ||
              smap_translate(&scripts, trace, strlen(trace), SMAP_HIDE_IGNORED, &bytes, NULL);
    put_bytes(a, &bytes);
    BEGIN_ORDER();
    smap_close_scripts(&scripts);
    END_ORDER();
}

/* What a call says of a map: its code, and what it writes, numbers as text. */
static void ask(smap_map *map, int call, uint32_t i, answer *a)
{
    smap_mapping m = {0};
    smap_listed_mapping l = {0};
    smap_counts c = {0};
    smap_bytes bytes = {0};
    size_t n = 0;
    bool flag = false;
    char *out = a->text;
    memset(a, 0, sizeof *a);
    switch (call) {
    case LOOKUP: a->code = smap_lookup(map, i / 2, 5 * (i % 2), &m); break;
    case FIND: a->code = smap_find(map, i / 2, 5 * (i % 2), &n); break;
    case TOKEN: a->code = smap_token(map, i, &m); break;
    case LISTED: a->code = smap_listed_token(map, i, &l); break;
    case COUNT: a->code = smap_count(map, &c); break;
    case HELD_BYTES: a->code = smap_held(map, &n); break;
    case FILE_NAME: a->code = smap_file(map, out, ROOM, &a->len); return;
    case NAME_AT: a->code = smap_name_at(map, i / 2, 5 * (i % 2), out, ROOM, &a->len); return;
    case URL: a->code = smap_source_url(map, i, out, ROOM, &a->len); return;
    case CONTENT: a->code = smap_source_content(map, i, out, ROOM, &a->len); return;
    case WRITTEN: a->code = smap_written_source(map, i, out, ROOM, &a->len); return;
    case LISTED_NAME: a->code = smap_listed_name(map, i, out, ROOM, &a->len); return;
    case IGNORED: a->code = smap_is_ignored(map, i, &flag); break;
    case CANONICAL: a->code = smap_canonical(map, &bytes); put_bytes(a, &bytes); return;
    case MAPPINGS: a->code = smap_canonical_mappings(map, &bytes); put_bytes(a, &bytes); return;
    case FLAT: a->code = smap_flatten(map, &bytes); put_bytes(a, &bytes); return;
    case LINE:
        a->code = smap_translate_line(map, script, strlen(script), frame_line, strlen(frame_line), 0, out,
                                      ROOM, &a->len, NULL);
        return;
    default: ask_trace(map, a); return;
    }
    snprintf(out, ROOM, "%u %u %u %u %zu %u %u %zu %zu %d", m.line, m.column, m.source_line, m.source_column,
             m.source, l.column, l.source, c.mappings, n, flag);
}

static uint32_t roll(uint32_t *dice, uint32_t below)
{
    *dice ^= *dice << 13;
    *dice ^= *dice >> 17;
    *dice ^= *dice << 5;
    return *dice % below;
}

/* Makes a handle a second one of a map that all threads have in common. */
static bool take(held *one, uint32_t at)
{
    pthread_mutex_lock(&common_lock);
    bool is_done = smap_share(&common[at].map, &one->map) == SMAP_OK;
    one->of = common[at].of;
    pthread_mutex_unlock(&common_lock);
    return is_done;
}

/* Swaps a handle for one of those that all threads have in common. */
static void pass_on(held *one, uint32_t at)
{
    held mine = *one;
    pthread_mutex_lock(&common_lock);
    *one = common[at];
    common[at] = mine;
    pthread_mutex_unlock(&common_lock);
}

/* A random call for some handles of one thread. Whether it is answered as it should. */
static bool is_right(held *mine, uint32_t *dice)
{
    held *one = &mine[roll(dice, HELD)], *other = &mine[roll(dice, HELD)];
    int call = (int)roll(dice, CALLS);
    uint32_t i = roll(dice, NUMBERS), code;
    answer found;
    switch (roll(dice, 8)) {
    case 0:
        if (one == other) break;
        other->of = one->of;
        BEGIN_ORDER();
        code = smap_share(&one->map, &other->map);
        END_ORDER();
        return code == SMAP_OK;
    case 1:
        BEGIN_ORDER();
        smap_close(&one->map);
        END_ORDER();
        one->of = i % MAPS;
        return open_text(&one->map, texts[one->of], NULL) == SMAP_OK;
    case 2:
        pass_on(one, i);
        break;
    }
    ask(&one->map, call, i, &found);
    return memcmp(&found, &known[one->of][call][i], sizeof found) == 0;
}

static void *run(void *number)
{
    held mine[HELD] = {{{0}, 0}};
    uint32_t dice = 1 + *(uint32_t *)number;
    long wrong = 0;
    for (uint32_t i = 0; i < HELD; i++) wrong += !take(&mine[i], i);
    for (int i = 0; i < rounds; i++) wrong += !is_right(mine, &dice);
    BEGIN_ORDER();
    for (uint32_t i = 0; i < HELD; i++) smap_close(&mine[i].map);
    END_ORDER();
    return (void *)wrong;
}

/* What one thread is answered, some of which is known by hand. */
static void ask_all(void)
{
    for (uint32_t of = 0; of < MAPS; of++) {
        smap_map map = {0};
        CHECK(open_text(&map, texts[of], NULL) == SMAP_OK);
        for (int call = 0; call < CALLS; call++) {
            for (uint32_t i = 0; i < NUMBERS; i++) {
                ask(&map, call, i, &known[of][call][i]);
                CHECK(known[of][call][i].len < ROOM);
            }
        }
        smap_close(&map);
    }
    CHECK(strcmp(known[0][URL][1].text, "http://h/m/b.js") == 0);
    CHECK(strcmp(known[0][LOOKUP][1].text, "0 4 12 2 0 0 0 0 0 0") == 0);
    CHECK(strcmp(known[0][MAPPINGS][0].text, "AAUEA,IAEA;ACAAA,E") == 0);
    CHECK(strcmp(known[0][TRACE][0].text, "Error\n@http://h/m/a.js:11:3\n") == 0);
    CHECK(strcmp(known[1][URL][0].text, "http://h/m/r/c.js") == 0);
    CHECK(known[1][URL][1].code == SMAP_RANGE);
}

int main(int argc, char **argv)
{
    pthread_t threads[THREADS];
    uint32_t numbers[THREADS];
    if (argc > 1) rounds = atoi(argv[1]);
    ask_all();
    for (uint32_t i = 0; i < COMMON; i++) {
        common[i].of = i % MAPS;
        CHECK(i < MAPS ? open_text(&common[i].map, texts[i], NULL) == SMAP_OK
                       : smap_share(&common[i - MAPS].map, &common[i].map) == SMAP_OK);
    }
    for (uint32_t k = 0; k < THREADS; k++) {
        numbers[k] = k;
        CHECK(pthread_create(&threads[k], NULL, run, &numbers[k]) == 0);
    }
    for (int k = 0; k < THREADS; k++) {
        void *wrong;
        pthread_join(threads[k], &wrong);
        CHECK(wrong == NULL);
    }
    for (int i = 0; i < COMMON; i++) smap_close(&common[i].map);
    printf("%d threads, %d rounds each\n", THREADS, rounds);
    return failures != 0;
}
