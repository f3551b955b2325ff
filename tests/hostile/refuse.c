/* Refuses memory to the program that it is loaded into (LD_PRELOAD), or to the system that opens its files, and tells in a file whether it did.

   REFUSE_AT=K        the request K is refused, counted from 1
   REFUSE_FROM=K      all requests from K on are
   REFUSE_AFTER=FILE  no request is counted while FILE is not there
   REFUSE_TELLS=FILE  FILE is made by the first request that is refused
   REFUSE_OPEN=FILE   the system has no memory to open or make FILE
*/
#define _GNU_SOURCE
#include <dlfcn.h>
#include <errno.h>
#include <fcntl.h>
#include <stdarg.h>
#include <stddef.h>
#include <stdlib.h>
#include <string.h>
#include <sys/syscall.h>
#include <unistd.h>

extern void *__libc_malloc(size_t);
extern void *__libc_calloc(size_t, size_t);
extern void *__libc_realloc(void *, size_t);
extern void *__libc_memalign(size_t, size_t);

static unsigned long asked, at, from;
static const char *after, *tells;
static int is_read, has_told;

static void read_settings(void)
{
    const char *text;
    is_read = 1;
    if ((text = getenv("REFUSE_AT"))) at = strtoul(text, NULL, 10);
    if ((text = getenv("REFUSE_FROM"))) from = strtoul(text, NULL, 10);
    after = getenv("REFUSE_AFTER");
    tells = getenv("REFUSE_TELLS");
}

static int is_refused(void)
{
    int error = errno;
    if (!is_read) read_settings();
    if (after && access(after, F_OK) != 0) {
        errno = error;
        return 0;
    }
    asked++;
    if (asked != at && (from == 0 || asked < from)) {
        errno = error;
        return 0;
    }
    if (tells && !has_told) {
        int file = open(tells, O_WRONLY | O_CREAT, 0600);
        if (file >= 0) close(file);
        has_told = 1;
    }
    errno = ENOMEM;
    return 1;
}

void *malloc(size_t size)
{
    return is_refused() ? NULL : __libc_malloc(size);
}

void *calloc(size_t count, size_t size)
{
    return is_refused() ? NULL : __libc_calloc(count, size);
}

void *realloc(void *old, size_t size)
{
    return is_refused() ? NULL : __libc_realloc(old, size);
}

void *aligned_alloc(size_t alignment, size_t size)
{
    return is_refused() ? NULL : __libc_memalign(alignment, size);
}

void *memalign(size_t alignment, size_t size)
{
    return is_refused() ? NULL : __libc_memalign(alignment, size);
}

int posix_memalign(void **result, size_t alignment, size_t size)
{
    void *made;
    if (is_refused() || !(made = __libc_memalign(alignment, size))) return ENOMEM;
    *result = made;
    return 0;
}

/* Opens a file, or refuses it, and a draft for it, for want of memory. */
static int open_file(int folder, const char *path, int flags, mode_t mode)
{
    const char *refused = getenv("REFUSE_OPEN");
    size_t length = refused ? strlen(refused) : 0;
    if (refused && strncmp(path, refused, length) == 0 && (path[length] == 0 || strncmp(path + length, ".part", 5) == 0)) {
        errno = ENOMEM;
        return -1;
    }
    return (int)syscall(SYS_openat, folder, path, flags, mode);
}

int open(const char *path, int flags, ...)
{
    va_list more;
    va_start(more, flags);
    mode_t mode = flags & O_CREAT ? va_arg(more, mode_t) : 0;
    va_end(more);
    return open_file(AT_FDCWD, path, flags, mode);
}

int openat(int folder, const char *path, int flags, ...)
{
    va_list more;
    va_start(more, flags);
    mode_t mode = flags & O_CREAT ? va_arg(more, mode_t) : 0;
    va_end(more);
    return open_file(folder, path, flags, mode);
}
