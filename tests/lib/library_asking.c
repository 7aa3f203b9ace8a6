/* Asks the library all questions of standard input, one after the other, and prints the answers: tests/lib/questions.py says how both are packed. With the word
   `failing`, each allocation of each answer fails in turn, and it prints whether that was answered as memory that ran out. With `kept`, it prints whether cell_ask
   gives the answer of cell_answer with as many allocations: that program is built with c/kept.c. */
#include "cell.h"
#include <stdio.h>
#include <stdlib.h>
#include <string.h>

#define ROOM ((size_t)1 << 24)
#define WHOLE 3 /* so many answers to which nothing failed any more end the trial */

/* ---- the heap, of which the allocation with this number fails */

typedef struct {
    size_t ok;
    void *at;
} tried;

static char nothing;
static long failing, made;

static tried tried_at(void *at) {
    return (tried){at != NULL, at ? at : &nothing};
}

tried rattle_alloc(size_t count, size_t alignment) {
    return ++made == failing ? tried_at(NULL) : tried_at(malloc(count ? count : alignment));
}

tried rattle_realloc(void *at, size_t kept, size_t count, size_t alignment) {
    (void)kept;
    return ++made == failing ? tried_at(NULL) : tried_at(realloc(at, count ? count : alignment));
}

void rattle_dealloc(void *at) {
    free(at);
}

/* ---- questions and answers */

typedef struct {
    size_t words_count, files_count;
    uint8_t *words, *files;
} question;

typedef struct {
    uint32_t status;
    size_t count;
} answer;

static int read_question(question *asked) {
    if (scanf("%zu %zu", &asked->words_count, &asked->files_count) != 2 || getchar() != '\n') return 0;
    asked->words = malloc(asked->words_count + 1);
    asked->files = malloc(asked->files_count + 1);
    return fread(asked->words, 1, asked->words_count, stdin) == asked->words_count && fread(asked->files, 1, asked->files_count, stdin) == asked->files_count;
}

static answer ask(const question *asked, uint8_t *out) {
    answer given;
    made = 0;
    given.status = cell_answer(asked->words, asked->words_count, asked->files, asked->files_count, out, ROOM, &given.count);
    return given;
}

/* Whether each want of memory of an answer is told, and leaves the answer to the same question as it was. */
static int fails_well(const question *asked, uint8_t *out, uint8_t *again) {
    static const char line[] = "cell: out of memory\n";
    failing = 0;
    answer wanted = ask(asked, out);
    int whole = 0;
    for (long number = 1; whole < WHOLE; number++) {
        failing = number;
        answer found = ask(asked, again);
        if (made < number && found.status == wanted.status && found.count == wanted.count && !memcmp(out, again, found.count)) {
            whole++;
        } else if (found.status != CELL_NO_MEMORY || found.count != strlen(line) || memcmp(again, line, found.count)) {
            printf("allocation %ld fails, and the status is %u: %.*s\n", number, (unsigned)found.status, (int)asked->words_count, (const char *)asked->words);
            return 0;
        }
    }
    return 1;
}

#pragma weak cell_ask
#pragma weak cell_forget

/* Whether cell_ask answers as cell_answer does, and computes it once. */
static int keeps_well(const question *asked, uint8_t *out) {
    const uint8_t *text;
    size_t count;
    answer wanted = ask(asked, out);
    long once = made;
    made = 0;
    uint32_t status = cell_ask(asked->words, asked->words_count, asked->files, asked->files_count, &text, &count);
    int is_same = status == wanted.status && count == wanted.count && text && !memcmp(out, text, count) && made == once;
    if (!is_same) printf("status %u, %zu bytes, %ld of %ld allocations: %.*s\n", (unsigned)status, count, made, once, (int)asked->words_count, (const char *)asked->words);
    cell_forget(text, count);
    return is_same;
}

int main(int count, char **words) {
    int is_failing = count > 1 && !strcmp(words[1], "failing"), is_keeping = count > 1 && !strcmp(words[1], "kept"), is_well = 1;
    uint8_t *out = malloc(ROOM), *again = malloc(ROOM);
    question asked;
    while (read_question(&asked)) {
        if (is_failing) {
            is_well &= fails_well(&asked, out, again);
        } else if (is_keeping) {
            is_well &= keeps_well(&asked, out);
        } else {
            answer given = ask(&asked, out);
            printf("%u %zu\n", (unsigned)given.status, given.count);
            fwrite(out, 1, given.count, stdout);
        }
        free(asked.words);
        free(asked.files);
    }
    return is_well ? 0 : 1;
}
