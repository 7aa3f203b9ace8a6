/* The heap of the library, over the C library's malloc: the three calls that compiled Rattle makes. */
#include <stdlib.h>

/* What is answered: whether there was memory, and where it is. */
typedef struct {
    size_t ok;
    void *at;
} tried;

/* The place of a block without bytes, where none was made. */
static char nothing;

static tried tried_at(void *at) {
    return (tried){at != NULL, at ? at : &nothing};
}

/* The alignment is at most that of every block of malloc. */
tried rattle_alloc(size_t count, size_t alignment) {
    return tried_at(malloc(count ? count : alignment));
}

tried rattle_realloc(void *at, size_t kept, size_t count, size_t alignment) {
    (void)kept;
    return tried_at(realloc(at, count ? count : alignment));
}

void rattle_dealloc(void *at) {
    free(at);
}
