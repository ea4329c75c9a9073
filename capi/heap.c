/* The heap of the proved code: malloc, realloc and free of the program. `least` is given in place of the size 0. If there is no memory, the pointer is
 * that of an octet that nobody uses. */
#include <stddef.h>

void *malloc(size_t size);
void *realloc(void *at, size_t size);
void free(void *at);

struct tried {
    unsigned char is_given;
    void *at;
};

static unsigned char nothing;

static struct tried tried(void *at) {
    struct tried t;
    t.is_given = at != NULL;
    t.at = at != NULL ? at : &nothing;
    return t;
}

struct tried rattle_alloc(size_t size, size_t least);
struct tried rattle_realloc(void *at, size_t kept, size_t size, size_t least);
void rattle_dealloc(void *at);

struct tried rattle_alloc(size_t size, size_t least) { return tried(malloc(size != 0 ? size : least)); }

struct tried rattle_realloc(void *at, size_t kept, size_t size, size_t least) {
    (void)kept;
    return tried(realloc(at, size != 0 ? size : least));
}

void rattle_dealloc(void *at) { free(at); }
