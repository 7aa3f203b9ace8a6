/* Tests tools/dev/engine/blocks.h, the heap of the WebAssembly module, on this machine: in a memory of 64 MiB that can be made smaller. Prints each failure; status 1
   if there is one. */
#include <stdint.h>
#include <stdio.h>
#include <stdlib.h>
#include <string.h>

#define PAGE ((size_t)65536)
#define WHOLE ((size_t)1 << 26)
#define HEAP_START ((size_t)8) /* not aligned, as the end of the data may be */
#define MEMORY ((size_t)memory)

static _Alignas(65536) uint8_t memory[WHOLE];
static size_t reached, most = WHOLE; /* bytes */

static size_t memory_up_to(size_t end) {
    if (end > most) return 0;
    if (end > reached) reached = (end + PAGE - 1) / PAGE * PAGE;
    return reached;
}

#include "blocks.h"

#define SLOTS 500
#define ROUNDS 400000
#define LARGE ((size_t)100000)

typedef struct {
    uint8_t *at;
    size_t count;
    uint8_t mark; /* of its bytes */
} slot;

static slot slots[SLOTS];
static int failures;

static void require(int holds, const char *what) {
    if (!holds && failures++ < 10) printf("%s\n", what);
}

static uint32_t drawn(void) {
    static uint32_t state = 1;
    state ^= state << 13;
    state ^= state >> 17;
    return state ^= state << 5;
}

/* Mostly small sizes, and some up to LARGE. */
static size_t any_count(void) {
    uint32_t kind = drawn() % 100;
    return drawn() % (kind < 60 ? 64 : kind < 90 ? 1024 : kind < 99 ? 8192 : LARGE);
}

static int has_mark(const slot *it, size_t count) {
    for (size_t i = 0; i < count; i++) {
        if (it->at[i] != it->mark) return 0;
    }
    return 1;
}

static void mark(slot *it, void *at, size_t count) {
    *it = (slot){at, count, (uint8_t)drawn()};
    require((size_t)at % 16 == 0, "a block isn't aligned to 16");
    require(it->at >= memory && it->at + count <= memory + reached, "a block is outside the memory");
    memset(at, it->mark, count);
}

static void give(slot *it) {
    require(has_mark(it, it->count), "a block has other bytes when it is given back");
    heap_give(it->at);
    it->at = NULL;
}

static void resize(slot *it, size_t count) {
    size_t kept = count < it->count ? count : it->count;
    uint8_t *at = heap_resize(it->at, it->count, count);
    require(at != NULL, "there is no memory for a larger block");
    if (!at) return;
    it->at = at;
    require(has_mark(it, kept), "a block has other bytes in another size");
    mark(it, at, count);
}

/* Whether a free block is in the list of its class, which is marked as filled. */
static int is_listed(const block *it) {
    u32 class = class_of(it->size);
    if (!(filled[class / WORD_BITS] >> class % WORD_BITS & 1)) return 0;
    for (u32 place = lists[class]; place; place = block_at(place)->next) {
        if (block_at(place) == it) return 1;
    }
    return 0;
}

/* Goes over the row of blocks. The number of free ones. */
static size_t free_blocks(void) {
    size_t free_ones = 0, before = 0;
    int was_free = 0;
    const block *it = block_at((u32)(16 + HEADER));
    for (; place_of(it) < row_end; it = after(it)) {
        require(it->before == before, "a block has a wrong size of the one in front of it");
        require(!was_free || !is_free(it), "two free blocks are neighbours");
        require(!is_free(it) || is_listed(it), "a free block isn't in its list");
        before = size_of(it);
        was_free = is_free(it);
        free_ones += (size_t)was_free;
    }
    require(place_of(it) == row_end && row_end == reached - HEADER && it->before == before, "the blocks don't fill the memory");
    return free_ones;
}

static void give_all(void) {
    for (slot *it = slots; it < slots + SLOTS; it++) {
        if (it->at) give(it);
    }
    require(free_blocks() == 1, "when all is given back, the memory isn't one free block");
}

static void try_any_calls(void) {
    size_t live = 0, peak = 0;
    for (long round = 0; round < ROUNDS; round++) {
        slot *it = &slots[drawn() % SLOTS];
        live -= it->at ? it->count : 0;
        if (!it->at) {
            size_t count = any_count();
            void *at = heap_take(count);
            require(at != NULL, "there is no memory for a block");
            if (at) mark(it, at, count);
        } else if (drawn() % 2) {
            give(it);
        } else {
            resize(it, any_count());
        }
        live += it->at ? it->count : 0;
        peak = live > peak ? live : peak;
        if (round % 10000 == 0) free_blocks();
    }
    require(reached < peak + peak / 2, "the memory is half as large again as what was in use at once");
    give_all();
}

/* A vector that grows at the end of the memory, and one into a block that was given back. */
static void try_growing_in_place(void) {
    char *fence = heap_take(most / 4), *first = heap_take(1000), *second = heap_take(5000), *last = heap_take(16);
    require(fence && first && second && last, "there is no memory for four blocks");
    heap_give(second);
    require(heap_resize(first, 1000, 5000) == first, "a block moves though the next one is free");
    size_t count = 16;
    char *grown = heap_resize(last, count, reached); /* beyond what the memory has now */
    for (count = reached; grown && count < most / 2; count += count / 8) require(heap_resize(grown, count, count) == grown, "the last block moves");
    heap_give(grown);
    heap_give(first);
    heap_give(fence);
    require(free_blocks() == 1, "blocks that have grown aren't given back whole");
}

/* As many blocks as there is memory for, each of which stays as it is. */
static void try_full(void) {
    most = reached;
    size_t taken = 0;
    for (size_t count = most; count >= 16; count /= 2) {
        for (void *at; taken < SLOTS && (at = heap_take(count)); taken++) mark(&slots[taken], at, count);
    }
    require(taken < SLOTS, "the memory has no end");
    require(!heap_take(most) && !heap_take(SIZE_MAX) && !heap_take((size_t)1 << 32), "there are blocks larger than the memory");
    require(!heap_resize(slots[0].at, slots[0].count, most) && !heap_resize(slots[0].at, slots[0].count, SIZE_MAX), "a block grows beyond the memory");
    give_all();
    void *whole = heap_take(reached - 48);
    require(whole != NULL, "the whole memory isn't one block");
    heap_give(whole);
}

int main(void) {
    require(heap_take(WHOLE) == NULL, "there is memory for a block as large as all memory");
    try_any_calls();
    try_growing_in_place();
    try_full();
    return failures != 0;
}
