/* C's open has a mode only where it may make the file, and so takes any number of arguments, which WebAssembly
 * passes in memory. The host is given all three. */
int host_open(const char *path, int flags, int mode);

int open(const char *path, int flags, ...)
{
    __builtin_va_list rest;
    __builtin_va_start(rest, flags);
    int mode = __builtin_va_arg(rest, int);
    __builtin_va_end(rest);
    return host_open(path, flags, mode);
}
