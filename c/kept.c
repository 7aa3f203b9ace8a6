/* Answers of any length, each computed once: cell_ask and cell_forget of cell.h, over cell_answer. The text goes into a range of addresses that is larger than
   any answer; the system gives memory only to the pages that are written. */
#define _DEFAULT_SOURCE
#include "cell.h"
#include <sys/mman.h>

#define SEEN __attribute__((visibility("default")))
#define PAGE ((size_t)4096)
#define MOST ((size_t)1 << 36) /* bytes of addresses */

static size_t pages_for(size_t count) {
    return count ? (count + PAGE - 1) / PAGE * PAGE : PAGE;
}

/* A range of at least `least` bytes, and of `*size` bytes if the limits of the process allow it; NULL if there is none. Puts its size into `*size`. */
static uint8_t *reserved(size_t least, size_t *size) {
    for (; *size >= least; *size /= 2) {
        void *at = mmap(NULL, *size, PROT_READ | PROT_WRITE, MAP_PRIVATE | MAP_ANONYMOUS | MAP_NORESERVE, -1, 0);
        if (at == MAP_FAILED) continue;
        madvise(at, *size, MADV_NOHUGEPAGE); /* most answers are short */
        return at;
    }
    return NULL;
}

SEEN uint32_t cell_ask(const uint8_t *words, size_t words_count, const uint8_t *files, size_t files_count, const uint8_t **text, size_t *count) {
    size_t size = MOST, least = PAGE;
    for (;;) {
        uint8_t *at = reserved(least, &size);
        *text = NULL;
        *count = 0;
        if (!at) return CELL_NO_MEMORY;
        uint32_t status = cell_answer(words, words_count, files, files_count, at, size, count);
        if (status != CELL_NO_ROOM) {
            size_t kept = pages_for(*count);
            if (kept < size) munmap(at + kept, size - kept);
            *text = at;
            return status;
        }
        munmap(at, size); /* the limits of the process left it too small */
        size = least = pages_for(*count);
    }
}

SEEN void cell_forget(const uint8_t *text, size_t count) {
    if (text) munmap((void *)(uintptr_t)text, pages_for(count));
}
