/* The three functions by which the archive takes memory, over malloc. Another allocator may stand here. */
#include <stdbool.h>
#include <stddef.h>
#include <stdlib.h>

struct tried {
    bool ok;
    void *at;
};

static char nothing;

static struct tried tried(void *at)
{
    return (struct tried){at != NULL, at ? at : &nothing};
}

#ifdef SWS_REFUSES
/* For tests: the request with the number sws_refused, counted from 1 since sws_asked was 0, is refused. */
_Thread_local unsigned long sws_refused, sws_asked;
#define REFUSED (++sws_asked == sws_refused)
#else
#define REFUSED 0
#endif

struct tried rattle_alloc(size_t bytes, size_t align)
{
    return REFUSED ? tried(NULL) : tried(malloc(bytes ? bytes : align));
}

struct tried rattle_realloc(void *at, size_t kept, size_t bytes, size_t align)
{
    (void)kept;
    return REFUSED ? tried(NULL) : tried(realloc(at, bytes ? bytes : align));
}

void rattle_dealloc(void *at)
{
    free(at);
}
