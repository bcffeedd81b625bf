/* The system for aarch64: what the programs ask of the kit's library `os`, as src/c.rt there describes it, since the
 * kit has it compiled for x86-64 alone. */
#define _GNU_SOURCE
#include <errno.h>
#include <fcntl.h>
#include <string.h>
#include <sys/types.h>

static size_t count;
static char **words;

/* glibc passes constructors what it passes to main. */
__attribute__((constructor)) static void keep(int given, char **from)
{
    count = (size_t)given;
    words = from;
}

ssize_t rattle_arg(size_t i, char *buf, size_t room)
{
    if (i >= count || !words[i]) return -1;
    size_t len = strlen(words[i]);
    memcpy(buf, words[i], len < room ? len : room);
    return len <= room ? (ssize_t)len : -2;
}

int rattle_errno(void)
{
    return errno;
}

void rattle_set_errno(int error)
{
    errno = error;
}

int rattle_open_dir_at(int dir, const char *name)
{
    return openat(dir, name, O_RDONLY | O_DIRECTORY | O_NOFOLLOW | O_CLOEXEC);
}
