/* A library to be loaded before a program: it refuses one request for memory, the one whose number REFUSE_AT says
   (from 1, over malloc, calloc and realloc together), and then makes the file that REFUSE_MARK names, so that whoever
   runs the program knows that something was refused. bench/refused.py compiles and uses it. */
#include <errno.h>
#include <fcntl.h>
#include <stdatomic.h>
#include <stdlib.h>
#include <unistd.h>

extern void *__libc_malloc(size_t size);
extern void *__libc_calloc(size_t count, size_t size);
extern void *__libc_realloc(void *block, size_t size);

static atomic_long asked;

static int is_refused(void)
{
    static long at = -1;
    if (at < 0) {
        const char *number = getenv("REFUSE_AT");
        at = number ? strtol(number, NULL, 10) : 0;
    }
    if (atomic_fetch_add(&asked, 1) + 1 != at)
        return 0;
    const char *mark = getenv("REFUSE_MARK");
    int file = mark ? open(mark, O_CREAT | O_WRONLY, 0600) : -1;
    if (file >= 0)
        close(file);
    errno = ENOMEM;
    return 1;
}

void *malloc(size_t size)
{
    return is_refused() ? NULL : __libc_malloc(size);
}

void *calloc(size_t count, size_t size)
{
    return is_refused() ? NULL : __libc_calloc(count, size);
}

void *realloc(void *block, size_t size)
{
    return is_refused() ? NULL : __libc_realloc(block, size);
}
