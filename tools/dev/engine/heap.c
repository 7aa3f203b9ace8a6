/* The heap of the WebAssembly module: the functions by which compiled Rattle allocates memory, over the blocks of blocks.h. c/heap.c is the same over malloc. */
typedef __SIZE_TYPE__ size_t;

extern unsigned char __heap_base; /* the first byte that neither stack nor data has: the linker defines it */
#define MEMORY ((size_t)0)
#define HEAP_START ((size_t)&__heap_base)

#define PAGE ((size_t)65536)
#define STEP ((size_t)4) /* pages: the memory grows by a multiple of them, so that it grows seldom */
#define MOST ((size_t)65536 * PAGE)

/* The offset that the memory reaches after it has grown to reach `end`, 0 if it can't. */
static size_t memory_up_to(size_t end) {
    size_t now = __builtin_wasm_memory_size(0) * PAGE;
    if (end <= now) return now;
    if (end > MOST) return 0;
    size_t pages = (end - now + PAGE - 1) / PAGE, rounded = (pages + STEP - 1) / STEP * STEP;
    if (__builtin_wasm_memory_grow(0, rounded) == (size_t)-1 && __builtin_wasm_memory_grow(0, pages) == (size_t)-1) return 0;
    return __builtin_wasm_memory_size(0) * PAGE;
}

#include "blocks.h"

/* The result of an allocation: whether there was memory, and where the block is. */
typedef struct {
    size_t ok;
    void *at;
} Tried;

/* The place of a block without bytes, for which nothing is allocated. */
static char nothing;

static Tried tried(void *at) {
    return (Tried){at != (void *)0, at ? at : &nothing};
}

/* The alignment `a` is at most 16, which every block has. */
Tried rattle_alloc(size_t n, size_t a) {
    return tried(heap_take(n ? n : a));
}

Tried rattle_realloc(void *at, size_t kept, size_t n, size_t a) {
    return tried(heap_resize(at, kept, n ? n : a));
}

void rattle_dealloc(void *at) {
    heap_give(at);
}

/* A block for whoever calls the module, 0 if there is no memory, and its return. */
__attribute__((export_name("room_take"))) void *room_take(size_t n) {
    return heap_take(n);
}

__attribute__((export_name("room_give"))) void room_give(void *at) {
    heap_give(at);
}
