/* The library: words and files go in, a text and an exit status come out, as of the programs `cell`, `hunt` and run_trace. docs/guide/embedding.md has the words.
   Link libcell.a and heap.c, and kept.c for cell_ask; or the shared library that tools/dev/library makes of them. */
#ifndef CELL_H
#define CELL_H
#include <stddef.h>
#include <stdint.h>

#ifdef __cplusplus
extern "C" {
#endif

/* What cell_answer answers: the exit statuses of the programs. */
enum cell_status {
    CELL_DONE = 0,
    CELL_FOUND = 1,       /* a race, or what a hunt is made for */
    CELL_MISUSED = 2,     /* the words are no form, or the files aren't in theirs */
    CELL_NOT_READ = 3,    /* a file that isn't among those that were given */
    CELL_NO_ROOM = 4,     /* the text is longer than `room`: ask again, with `*written` bytes */
    CELL_FAULTY = 5,      /* a file is too long or has a faulty line, which the text names */
    CELL_NO_RUN = 6,      /* a record isn't one of the machine file, or its run isn't settled */
    CELL_NO_MEMORY = 7
};

/* Does what the words ask for, with these files. The words stand one on a line; behind the last one the line feed may be missing, unless it is empty. Each file is
   its name, a line feed, its number of bytes in decimal, a line feed, and its bytes; the next one comes right behind it.

   Puts the output, or for a status above 1 the line that says why there is none, into `out`, of `room` bytes, and its length into `*written`. Where it is longer
   than `room`, nothing is put, and `*written` is its length all the same. It reads no file of the disk, prints nothing, and keeps nothing between two calls: it
   may be called from several threads at once. No two of the four ranges may overlap. */
uint32_t cell_answer(const uint8_t *words, size_t words_count, const uint8_t *files, size_t files_count, uint8_t *out, size_t room, size_t *written);

/* The same for an answer of any length, which is computed once: puts the place of its text into `*text` and its length into `*count`. The text stays until
   cell_forget is called with both. Without memory for it the status is 7, and `*text` is NULL. Both functions are in kept.c, for Linux; the proof is of cell_answer. */
uint32_t cell_ask(const uint8_t *words, size_t words_count, const uint8_t *files, size_t files_count, const uint8_t **text, size_t *count);
void cell_forget(const uint8_t *text, size_t count);

#ifdef __cplusplus
}
#endif
#endif
