/* What the library asks of a heap, over the C library's. Blocks of malloc and realloc are aligned to 16. */
#include <stdbool.h>
#include <stddef.h>
#include <stdlib.h>

/* A block, or none. */
struct tried {
    bool ok;
    void *at;
};

static char nothing;

static struct tried tried(void *at) {
    return at ? (struct tried){true, at} : (struct tried){false, &nothing};
}

struct tried rattle_alloc(size_t size, size_t align);
struct tried rattle_realloc(void *at, size_t kept, size_t size, size_t align);
void rattle_dealloc(void *at);

struct tried rattle_alloc(size_t size, size_t align) {
    return tried(malloc(size ? size : align));
}

struct tried rattle_realloc(void *at, size_t kept, size_t size, size_t align) {
    (void)kept;
    return tried(realloc(at, size ? size : align));
}

void rattle_dealloc(void *at) {
    free(at);
}
