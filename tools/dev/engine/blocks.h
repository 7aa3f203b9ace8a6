/* A heap in one memory that only grows: segregated free lists, with coalescing. heap.c includes it for the module, tests/lib/heap_asking.c for its test.

   The memory is a row of blocks. A block is a header of 8 bytes and its data, which is aligned to 16; the data of a free block begins with the links of its list.
   Free blocks of one size class are a list: each size below 512 bytes is a class, and each power of two from there on has 16. A bit map of the lists that aren't
   empty leads to the first one whose blocks are large enough, so a call takes the same time however many blocks there are. A block that is given back is joined
   with its free neighbours at once, and a block grows in place if the next one is free or the memory ends there.

   The file that includes it defines size_t; MEMORY, the address of offset 0; HEAP_START, the offset at which the heap begins, above 0; and the function
   `static size_t memory_up_to(size_t end)`, which lets the memory reach the offset `end` at least and returns the one that it reaches, 0 if it can't. */
typedef __UINT32_TYPE__ u32; /* an offset or a size: the memory has at most 4 GiB */
typedef __UINT64_TYPE__ u64;

typedef struct {
    u32 before;         /* the size of the block in front of it, 0 for the first one */
    u32 size;           /* of the block with its header, a multiple of 16; plus USED */
    u32 next, previous; /* in the list of a free block, 0 at an end */
} block;

#define HEADER ((size_t)8)
#define GRAIN ((size_t)16)
#define USED ((u32)1)
#define FINE_BITS 4 /* each power of two has 16 classes */
#define CLASSES 400
#define WORD_BITS 64
#define WORDS ((CLASSES + WORD_BITS - 1) / WORD_BITS)
#define LARGEST ((size_t)0xffffff00) /* more bytes are refused */

static u32 lists[CLASSES]; /* the first block of each, 0 if there is none */
static u64 filled[WORDS];
static u32 row_end; /* the offset of the header that ends the row, which is a used block without data; 0 before the first call */

static inline block *block_at(u32 place) {
    return (block *)(MEMORY + place);
}

static inline u32 place_of(const block *it) {
    return (u32)((size_t)it - MEMORY);
}

static inline u32 size_of(const block *it) {
    return it->size & ~USED;
}

static inline int is_free(const block *it) {
    return !(it->size & USED);
}

static inline block *after(const block *it) {
    return block_at(place_of(it) + size_of(it));
}

static inline u32 class_of(u32 size) {
    u32 grains = size / GRAIN;
    u32 coarse = grains >> FINE_BITS ? (u32)(31 - FINE_BITS - __builtin_clz(grains)) : 0;
    return (coarse << FINE_BITS) + (grains >> coarse);
}

/* Makes a place a free block of this size, whose neighbours aren't free. */
static inline void list_free(block *it, u32 size) {
    u32 place = place_of(it), class = class_of(size);
    it->size = size;
    after(it)->before = size;
    it->next = lists[class];
    it->previous = 0;
    if (it->next) block_at(it->next)->previous = place;
    lists[class] = place;
    filled[class / WORD_BITS] |= (u64)1 << class % WORD_BITS;
}

static inline void unlist(const block *it) {
    if (it->next) block_at(it->next)->previous = it->previous;
    if (it->previous) {
        block_at(it->previous)->next = it->next;
        return;
    }
    u32 class = class_of(it->size);
    lists[class] = it->next;
    if (!it->next) filled[class / WORD_BITS] &= ~((u64)1 << class % WORD_BITS);
}

/* Makes a place a free block of this size, joined with its neighbours that are free. */
static inline void join_free(block *it, u32 size) {
    const block *behind = block_at(place_of(it) + size);
    if (is_free(behind)) {
        unlist(behind);
        size += behind->size;
    }
    block *front = block_at(place_of(it) - it->before);
    if (it->before && is_free(front)) {
        unlist(front);
        size += front->size;
        it = front;
    }
    list_free(it, size);
}

/* A listed block of at least this size, NULL if there is none. */
static inline block *found(u32 size) {
    u32 class = class_of(size), head = lists[class];
    if (head && block_at(head)->size >= size) return block_at(head);
    class++; /* any block of a greater class is large enough */
    u32 word = class / WORD_BITS;
    u64 bits = filled[word] & ~(u64)0 << class % WORD_BITS;
    while (!bits && ++word < WORDS) bits = filled[word];
    return bits ? block_at(lists[word * WORD_BITS + (u32)__builtin_ctzll(bits)]) : (block *)0;
}

/* Lets the row end with a free block that has this many bytes more than it has now. Whether there was memory. */
static int grow(size_t count) {
    size_t first = (HEAP_START + GRAIN - 1) / GRAIN * GRAIN + HEADER;
    size_t end = memory_up_to((row_end ? row_end : first) + count + HEADER);
    if (!end) return 0;
    if (!row_end) {
        row_end = (u32)first;
        block_at(row_end)->before = 0;
    }
    block *last = block_at(row_end);
    row_end = (u32)(end / GRAIN * GRAIN - HEADER);
    block_at(row_end)->size = USED;
    join_free(last, row_end - place_of(last));
    return 1;
}

/* The size of a block for so many bytes, 0 if there can be none. */
static inline u32 size_for(size_t count) {
    if (count <= HEADER) return (u32)GRAIN;
    return count > LARGEST ? 0 : (u32)((count + HEADER + GRAIN - 1) & ~(GRAIN - 1));
}

/* The size of the free block that ends the row, 0 if it ends with a used one. */
static inline u32 free_at_end(void) {
    u32 last = row_end ? block_at(row_end)->before : 0;
    return last && is_free(block_at(row_end - last)) ? last : 0;
}

/* Makes a free block a used one of this size, and what it has beyond it a free one. */
static inline void use(block *it, u32 size) {
    u32 rest = it->size - size;
    it->size = size | USED;
    if (!rest) return;
    block *cut = after(it);
    cut->before = size;
    list_free(cut, rest);
}

/* Makes a block larger in place, if the bytes behind it are free; or if the row ends there, unless another free block is large enough. Whether it is larger. */
static inline int extend(block *it, u32 size) {
    const block *behind = after(it);
    u32 room = size_of(it) + (is_free(behind) ? behind->size : 0);
    if (room < size) {
        if (place_of(it) + room != row_end || found(size) || !grow(size - room)) return 0;
        room = size_of(it) + behind->size;
    }
    unlist(behind);
    it->size = room;
    after(it)->before = room;
    use(it, size);
    return 1;
}

/* `count` bytes, aligned to 16, NULL if there is no memory. */
static void *heap_take(size_t count) {
    u32 size = size_for(count);
    if (!size) return (void *)0;
    block *it = found(size);
    if (!it) {
        if (!grow(size - free_at_end())) return (void *)0;
        it = block_at(row_end - block_at(row_end)->before);
    }
    unlist(it);
    use(it, size);
    return (char *)it + HEADER;
}

static void heap_give(void *at) {
    block *it = (block *)((char *)at - HEADER);
    join_free(it, size_of(it));
}

/* A block with the first `kept` bytes of one, which is given back unless it is the same, and `count` bytes; NULL if there is no memory. */
static void *heap_resize(void *at, size_t kept, size_t count) {
    block *it = (block *)((char *)at - HEADER);
    u32 size = size_for(count), whole = size_of(it);
    if (!size) return (void *)0;
    if (size <= whole) {
        it->size = size | USED;
        if (size < whole) {
            after(it)->before = size;
            join_free(after(it), whole - size);
        }
        return at;
    }
    if (extend(it, size)) return at;
    void *moved = heap_take(count);
    if (!moved) return (void *)0;
    __builtin_memcpy(moved, at, kept < count ? kept : count);
    heap_give(at);
    return moved;
}
