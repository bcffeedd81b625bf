/* What smap-test.wasm has besides: the heap called at random, and a stack that is overrun. wasm.test.js calls
 * it. */
typedef unsigned long u64;
typedef unsigned char u8;

typedef struct tried {
    _Bool is_done;
    u8 *at;
} tried;

tried rattle_alloc(u64 n, u64 align);
tried rattle_realloc(void *at, u64 kept, u64 n, u64 align);
void rattle_dealloc(void *at);

/* ---- blocks, each filled with a byte of its own, which is looked at when it is resized or given back */

enum { SLOTS = 4096 };

static u8 *at[SLOTS], mark[SLOTS];
static u64 size[SLOTS], state, held, most;

static u64 next(void)
{
    state ^= state << 13;
    state ^= state >> 7;
    state ^= state << 17;
    return state;
}

/* Small ones mostly, as the library's, and some of many pages. */
static u64 some(void)
{
    u64 r = next();
    if (r % 100 < 80) return 1 + (r >> 8) % 200;
    return 1 + (r >> 8) % (r % 100 < 97 ? 20000 : 2000000);
}

static _Bool is_filled(const u8 *block, u64 n, u8 byte)
{
    for (u64 k = 0; k < n; k += n < 64 ? 1 : n / 61 + 1)
        if (block[k] != byte) return 0;
    return block[n - 1] == byte && ((u64)block & 15) == 0;
}

static void fill(u64 i, u8 *block, u64 n)
{
    held += n - size[i];
    if (held > most) most = held;
    at[i] = block;
    size[i] = n;
    mark[i] = (u8)next();
    for (u64 k = 0; k < n; k++) block[k] = mark[i];
}

static _Bool step(u64 i)
{
    if (at[i] && !is_filled(at[i], size[i], mark[i])) return 0;
    if (at[i] && next() % 3) {
        rattle_dealloc(at[i]);
        held -= size[i];
        at[i] = 0;
        size[i] = 0;
        return 1;
    }
    u64 n = some(), kept = n < size[i] ? n : size[i];
    tried t = at[i] ? rattle_realloc(at[i], size[i], n, 8) : rattle_alloc(n, 8);
    if (!t.is_done || (at[i] && !is_filled(t.at, kept, mark[i]))) return 0;
    fill(i, t.at, n);
    return 1;
}

/* 0, or the step at which something was wrong. All blocks are given back in the end. */
double js_test_heap(double seed, double steps)
{
    state = (u64)seed;
    for (double i = 1; i <= steps; i++)
        if (!step(next() % SLOTS)) return i;
    for (u64 i = 0; i < SLOTS; i++)
        if (at[i] && !is_filled(at[i], size[i], mark[i])) return -1;
    for (u64 i = 0; i < SLOTS; i++) {
        if (at[i]) rattle_dealloc(at[i]);
        at[i] = 0;
        size[i] = held = 0;
    }
    return 0;
}

/* How many bytes were in use at most. */
double js_test_most(void)
{
    return (double)most;
}

/* ---- the stack */

static volatile u64 data = 0x5a5a5a5a5a5a5a5a;

/* Frames of 64 KiB, as the library has, so many that each is written. The data lies above them. */
__attribute__((noinline)) double js_test_stack(double frames)
{
    volatile u8 frame[65536];
    for (u64 i = 0; i < sizeof frame; i += 512) frame[i] = (u8)frames;
    double below = frames > 0 ? js_test_stack(frames - 1) : 0;
    return below + (frame[512] == (u8)frames);
}

double js_test_data(void)
{
    return data == 0x5a5a5a5a5a5a5a5a;
}
