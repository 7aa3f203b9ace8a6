/* Runs a small emulator of one SPU in lockstep with the log of a run, and reports the first difference.
 *
 *     cc -o lockstep examples/lockstep/lockstep.c
 *     ./lockstep [--bug] IMAGE LOG
 *
 * IMAGE is the output of `./cell asm SOURCE`, and LOG that of `tools/log MACHINE RECORD`. SPU 0 is followed. The emulator executes each of its
 * instructions, and the result is compared with what the log says that this instruction changed: the program counter, each register, the bytes of the local
 * store, the value that goes to a channel. What comes from outside is taken from the log: the values of channel reads, and the bytes that the MFC writes into the
 * local store. So both see the same bytes, in whatever order the MFC moved them.
 *
 * The emulator has the ten instructions of examples/dma.s. With --bug, `ai` takes its immediate as unsigned: a bug for this program to find.
 *
 * Exit status: 0 if all instructions agree, 1 at the first difference, 2 if a file can't be read or has an instruction that the emulator doesn't have. */
#include <stdbool.h>
#include <stdint.h>
#include <stdio.h>
#include <stdlib.h>
#include <string.h>

enum { REGISTERS = 128, QUAD = 16, STORE = 262144, LONGEST = 4096, AGREED = 0, DIFFERS = 1, REFUSED = 2 };

typedef struct {
    uint32_t pc;
    uint8_t reg[REGISTERS][QUAD];
    uint8_t store[STORE];
    bool stopped;
} Spu;

/* A value that went through a channel; none if `channel` is negative. */
typedef struct {
    long channel;
    uint32_t value;
} Passed;

/* What a line of the log says of channels. */
typedef struct {
    Passed read, written;
} Line;

/* The emulator: its state, and the value that its latest instruction wrote to a channel. */
typedef struct {
    Spu spu;
    Passed written;
    bool bug;
} Emulator;

static const Passed NONE = {-1, 0};
static Emulator emulator; /* the emulator that is tried */
static Spu told;          /* the same SPU as the log tells it */

/* ---- texts */

static void refuse(const char *file, long number, const char *why) {
    fprintf(stderr, "lockstep: %s:%ld: %s\n", file, number, why);
    exit(REFUSED);
}

static FILE *opened(const char *name) {
    FILE *file = fopen(name, "r");
    if (!file) {
        fprintf(stderr, "lockstep: %s: it can't be read\n", name);
        exit(REFUSED);
    }
    return file;
}

/* The next line of a file without its end, or false after the last one. */
static bool next_line(FILE *file, const char *name, long *number, char *line) {
    if (!fgets(line, LONGEST, file)) {
        return false;
    }
    ++*number;
    char *end = strchr(line, '\n');
    if (!end) {
        refuse(name, *number, "the line is too long or has no end");
    }
    *end = 0;
    return true;
}

/* Puts bytes, each of two hexadecimal digits, into a place with room for `room`; false if the text isn't such bytes. */
static bool put_bytes(const char *text, uint8_t *place, size_t room) {
    size_t digits = strspn(text, "0123456789abcdef");
    if (text[digits] || digits % 2 || digits / 2 > room) {
        return false;
    }
    for (size_t k = 0; k < digits / 2; k++) {
        unsigned byte;
        sscanf(text + 2 * k, "%2x", &byte);
        place[k] = (uint8_t)byte;
    }
    return true;
}

/* Puts bytes into a local store from an address on. */
static bool put_store(Spu *spu, uint32_t at, const char *text) {
    return at < STORE && put_bytes(text, spu->store + at, STORE - at);
}

/* ---- the emulator */

static uint32_t word_of(const uint8_t *bytes) {
    return (uint32_t)bytes[0] << 24 | (uint32_t)bytes[1] << 16 | (uint32_t)bytes[2] << 8 | bytes[3];
}

static void put_word(uint8_t *bytes, uint32_t word) {
    for (int k = 0; k < 4; k++) {
        bytes[k] = (uint8_t)(word >> (24 - 8 * k));
    }
}

/* A field of an instruction: `width` bits, of which the last is bit `last`. */
static uint32_t field(uint32_t word, int last, int width) {
    return word >> (31 - last) & ((1u << width) - 1);
}

/* The same as a signed number. */
static uint32_t signed_field(uint32_t word, int last, int width) {
    uint32_t sign = 1u << (width - 1);
    return (field(word, last, width) ^ sign) - sign;
}

static void splat(uint8_t *reg, uint32_t word) {
    for (int k = 0; k < QUAD; k += 4) {
        put_word(reg + k, word);
    }
}

static void add(uint8_t *rt, const uint8_t *ra, const uint8_t *rb) {
    for (int k = 0; k < QUAD; k += 4) {
        put_word(rt + k, word_of(ra + k) + word_of(rb + k));
    }
}

static void add_immediate(uint8_t *rt, const uint8_t *ra, uint32_t immediate) {
    uint8_t operand[QUAD];
    splat(operand, immediate);
    add(rt, ra, operand);
}

/* Executes an instruction that goes on with the next one; a channel read gets `arrived`. False if the emulator doesn't have it. */
static bool execute_plain(Emulator *e, uint32_t word, uint32_t arrived) {
    Spu *spu = &e->spu;
    uint8_t *rt = spu->reg[field(word, 31, 7)];
    const uint8_t *ra = spu->reg[field(word, 24, 7)], *rb = spu->reg[field(word, 17, 7)];
    uint32_t address = (word_of(ra) + 16 * signed_field(word, 17, 10)) & 0x3fff0;
    if (field(word, 6, 7) == 0x21) { /* ila */
        splat(rt, field(word, 24, 18));
    } else if (field(word, 8, 9) == 0x081) { /* il */
        splat(rt, signed_field(word, 24, 16));
    } else if (field(word, 10, 11) == 0x0c0) { /* a */
        add(rt, ra, rb);
    } else if (field(word, 7, 8) == 0x1c) { /* ai */
        add_immediate(rt, ra, e->bug ? field(word, 17, 10) : signed_field(word, 17, 10));
    } else if (field(word, 7, 8) == 0x34) { /* lqd */
        memcpy(rt, spu->store + address, QUAD);
    } else if (field(word, 7, 8) == 0x24) { /* stqd */
        memcpy(spu->store + address, rt, QUAD);
    } else if (field(word, 10, 11) == 0x10d) { /* wrch */
        e->written = (Passed){field(word, 24, 7), word_of(rt)};
    } else if (field(word, 10, 11) == 0x00d) { /* rdch */
        memset(rt, 0, QUAD);
        put_word(rt, arrived);
    } else {
        return false;
    }
    return true;
}

/* Executes the instruction at the program counter. False if the emulator doesn't have it. */
static bool execute(Emulator *e, uint32_t arrived) {
    Spu *spu = &e->spu;
    uint32_t word = word_of(spu->store + spu->pc), next = spu->pc + 4;
    e->written = NONE;
    if (field(word, 8, 9) == 0x042) { /* brnz */
        next = word_of(spu->reg[field(word, 31, 7)]) ? spu->pc + 4 * signed_field(word, 24, 16) : next;
    } else if (field(word, 10, 11) == 0x000) { /* stop */
        spu->stopped = true;
    } else if (!execute_plain(e, word, arrived)) {
        return false;
    }
    spu->pc = next % STORE;
    return true;
}

/* ---- the log */

/* Takes a field of a line of the log into the state that the log tells, if it is of SPU 0. The bytes that the MFC writes go into the emulator's store, too. */
static bool take_field(char *text, Line *line, bool is_instruction) {
    unsigned spe, r, at;
    int end = 0;
    if (sscanf(text, "pc %u 0x%x", &spe, &at) == 2) {
        told.pc = spe ? told.pc : at;
    } else if (sscanf(text, "reg %u %u %n", &spe, &r, &end) == 2) {
        return spe || (r < REGISTERS && put_bytes(text + end, told.reg[r], QUAD));
    } else if (sscanf(text, "ls %u 0x%x %n", &spe, &at, &end) == 2) {
        return spe || (put_store(&told, at, text + end) && (is_instruction || put_store(&emulator.spu, at, text + end)));
    } else if (sscanf(text, "spe %u %n", &spe, &end) == 1) {
        told.stopped = told.stopped || !spe;
    } else if (sscanf(text, "rdch %ld %u", &line->read.channel, &at) == 2) {
        line->read.value = at;
    } else if (sscanf(text, "wrch %ld %u", &line->written.channel, &at) == 2) {
        line->written.value = at;
    }
    return true;
}

/* Takes all fields of a line, each of which follows a bar. False if one is faulty. */
static bool take_line(char *text, Line *line, bool is_instruction) {
    for (char *bar = strstr(text, " | "); bar; bar = strstr(bar, " | ")) {
        bar += 3;
        char *next = strstr(bar, " | ");
        if (next) {
            *next = 0;
        }
        if (!take_field(bar, line, is_instruction)) {
            return false;
        }
        if (next) {
            *next = ' ';
        }
    }
    return true;
}

/* ---- the comparison */

static void print_bytes(const uint8_t *bytes) {
    for (int k = 0; k < QUAD; k++) {
        printf("%02x", bytes[k]);
    }
}

/* Prints two values of 16 bytes, if they differ. */
static bool quads_differ(const char *where, const char *what, long number, const uint8_t *mine, const uint8_t *wanted) {
    if (!memcmp(mine, wanted, QUAD)) {
        return false;
    }
    printf("%s: %s %ld is ", where, what, number);
    print_bytes(mine);
    printf(", and in the log ");
    print_bytes(wanted);
    printf("\n");
    return true;
}

static bool registers_differ(const char *where, const Spu *mine) {
    for (int r = 0; r < REGISTERS; r++) {
        if (quads_differ(where, "register", r, mine->reg[r], told.reg[r])) {
            return true;
        }
    }
    return false;
}

static bool stores_differ(const char *where, const Spu *mine) {
    if (!memcmp(mine->store, told.store, STORE)) {
        return false;
    }
    long at = 0;
    while (!quads_differ(where, "the quadword of the local store at", at, mine->store + at, told.store + at)) {
        at += QUAD;
    }
    return true;
}

static bool channels_differ(const char *where, Passed mine, Passed wanted) {
    if (mine.channel == wanted.channel && mine.value == wanted.value) {
        return false;
    }
    printf("%s: channel %ld gets %u, and in the log channel %ld gets %u\n", where, mine.channel, mine.value, wanted.channel, wanted.value);
    return true;
}

static const char *ending(const Spu *spu) {
    return spu->stopped ? ", stopped" : "";
}

static bool counters_differ(const char *where, const Spu *mine) {
    if (mine->pc == told.pc && mine->stopped == told.stopped) {
        return false;
    }
    printf("%s: the program counter is 0x%05x%s, and in the log 0x%05x%s\n", where, mine->pc, ending(mine), told.pc, ending(&told));
    return true;
}

/* Prints what differs after an instruction; false if nothing does. */
static bool differs(const char *where, const Line *line) {
    const Spu *mine = &emulator.spu;
    return registers_differ(where, mine) || stores_differ(where, mine) || channels_differ(where, emulator.written, line->written) || counters_differ(where, mine);
}

/* ---- the run */

static void read_image(const char *name) {
    FILE *file = opened(name);
    char line[LONGEST];
    long number = 0;
    while (next_line(file, name, &number, line)) {
        unsigned at;
        int end = 0;
        bool is_entry = sscanf(line, "entry 0x%x", &at) == 1;
        bool has_bytes = sscanf(line, "code 0x%x %n", &at, &end) == 1 || sscanf(line, "bytes 0x%x %n", &at, &end) == 1;
        if (is_entry) {
            emulator.spu.pc = at % STORE;
        } else if (!has_bytes || !put_store(&emulator.spu, at, line + end)) {
            refuse(name, number, "it isn't a line of an image: print one by ./cell asm SOURCE");
        }
    }
    fclose(file);
}

/* Executes the instruction of a line of the log; true if something differs after it. */
static bool differs_after(const char *name, long number, const Line *line) {
    char where[LONGEST];
    uint32_t pc = emulator.spu.pc, word = word_of(emulator.spu.store + pc);
    if (!execute(&emulator, line->read.value)) {
        refuse(name, number, "the emulator doesn't have this instruction");
    }
    snprintf(where, sizeof where, "%s:%ld: after the instruction at 0x%05x, word %08x", name, number, pc, word);
    return differs(where, line);
}

/* Follows the log to its end, or to the first instruction after which something differs. */
static int follow(const char *name) {
    FILE *file = opened(name);
    char text[LONGEST];
    long number = 0, instructions = 0;
    while (next_line(file, name, &number, text)) {
        Line line = {NONE, NONE};
        bool is_instruction = !strncmp(text, "x 0 ", 4);
        if (!take_line(text, &line, is_instruction)) {
            refuse(name, number, "a field is faulty: print the log by tools/log MACHINE RECORD");
        }
        if (is_instruction && differs_after(name, number, &line)) {
            return DIFFERS;
        }
        instructions += is_instruction;
    }
    fclose(file);
    printf("%ld instructions agree\n", instructions);
    return AGREED;
}

int main(int count, char **words) {
    emulator.bug = count == 4 && !strcmp(words[1], "--bug");
    if (count != 3 && !emulator.bug) {
        fprintf(stderr, "lockstep: usage: lockstep [--bug] IMAGE LOG\n");
        return REFUSED;
    }
    read_image(words[count - 2]);
    told = emulator.spu;
    return follow(words[count - 1]);
}
