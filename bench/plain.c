/* A plain interpreter of one processor, to measure `cell run` against: it decodes each word anew, records each step, and prints the record and the states.

   cc -O2 -o plain bench/plain.c && ./cell asm bench/arithmetic.s | ./plain 1000000

   It knows the instructions of bench/arithmetic.s and bench/memory.s (SPU ISA 1.2), and ends with status 1 at any other. Nothing of it is proved: what
   it prints is compared with what `cell run` prints by bench/run.py. */
#include <inttypes.h>
#include <stdint.h>
#include <stdio.h>
#include <stdlib.h>
#include <string.h>

enum { STORE = 262144, REGISTERS = 128 };

/* A register: its bytes, the most significant first. */
typedef struct {
    uint8_t byte[16];
} quad;

/* A step of a record; an instruction has no command, element or part. */
typedef struct {
    uint8_t kind, spe;
    uint16_t element, part;
    uint32_t command;
} step;

typedef struct {
    uint32_t pc;
    quad reg[REGISTERS];
    uint8_t store[STORE];
} processor;

_Noreturn static void fail(const char *why) {
    fprintf(stderr, "plain: %s\n", why);
    exit(1);
}

/* ---- lanes */

static uint32_t word_at(const uint8_t *from) {
    uint32_t word;
    memcpy(&word, from, sizeof word);
    return __builtin_bswap32(word);
}

static void put_word(uint8_t *to, uint32_t word) {
    word = __builtin_bswap32(word);
    memcpy(to, &word, sizeof word);
}

static uint32_t lane(const quad *of, int number) {
    return word_at(of->byte + 4 * number);
}

static quad four(uint32_t a, uint32_t b, uint32_t c, uint32_t d) {
    quad made;
    put_word(made.byte, a);
    put_word(made.byte + 4, b);
    put_word(made.byte + 8, c);
    put_word(made.byte + 12, d);
    return made;
}

static quad splat(uint32_t word) {
    return four(word, word, word, word);
}

/* Of each of the four words, or sixteen bytes, of the result: the value, in terms of those of a and b, which are x and y. */
#define EACH_WORD(value)                                             \
    for (int n = 0; n < 4; n++) {                                    \
        uint32_t x = lane(&a, n), y = lane(&b, n);                   \
        (void)x, (void)y;                                            \
        put_word(out.byte + 4 * n, (uint32_t)(value));               \
    }

#define EACH_BYTE(value)                                             \
    for (int n = 0; n < 16; n++) {                                   \
        uint8_t x = a.byte[n], y = b.byte[n];                        \
        (void)x, (void)y;                                            \
        out.byte[n] = (uint8_t)(value);                              \
    }

static uint32_t low_half(uint32_t word) {
    return (uint32_t)(int32_t)(int16_t)word;
}

/* The sums of the four bytes of the words of b and of a, in the halfwords of a word (SUMB). */
static uint32_t sums(uint32_t a, uint32_t b) {
    uint32_t of_a = 0, of_b = 0;
    for (int at = 0; at < 32; at += 8) {
        of_a += a >> at & 0xff;
        of_b += b >> at & 0xff;
    }
    return of_b << 16 | of_a;
}

/* The byte that a byte of a shuffle's pattern chooses (SHUFB). */
static uint8_t chosen(const quad *a, const quad *b, uint8_t by) {
    if (by >= 0xe0) return 0x80;
    if (by >= 0xc0) return 0xff;
    if (by >= 0x80) return 0;
    return by & 0x10 ? b->byte[by & 15] : a->byte[by & 15];
}

static quad *quad_at(processor *spe, uint32_t address) {
    return (quad *)(spe->store + (address & (STORE - 16)));
}

/* ---- the fields of a word */

static int32_t i10(uint32_t word) {
    return (int32_t)(word << 8) >> 22;
}

static int32_t i16(uint32_t word) {
    return (int32_t)(word << 9) >> 16;
}

static uint32_t branched(uint32_t pc, uint32_t word) {
    return (pc + 4 * (uint32_t)i16(word)) & (STORE - 4);
}

/* ---- instructions. The first eleven bits of a word tell the operation; a shorter one leaves the rest of them to its operands. */

#define BITS_9(op) (op) << 2 ... ((op) << 2) + 3
#define BITS_8(op) (op) << 3 ... ((op) << 3) + 7
#define BITS_7(op) (op) << 4 ... ((op) << 4) + 15
#define BITS_4(op) (op) << 7 ... ((op) << 7) + 127

static void execute(processor *spe) {
    uint32_t word = word_at(spe->store + spe->pc), next = (spe->pc + 4) & (STORE - 4), number = (uint32_t)i10(word);
    quad a = spe->reg[word >> 7 & 127], b = spe->reg[word >> 14 & 127], c = spe->reg[word & 127], out;
    quad *to = &spe->reg[word & 127];
    switch (word >> 21) {
    case 0x0c0: EACH_WORD(x + y) break;
    case 0x040: EACH_WORD(y - x) break;
    case 0x3c4: EACH_WORD(low_half(x) * low_half(y)) break;
    case 0x3c5: EACH_WORD(((x >> 16) * (y & 0xffff)) << 16) break;
    case 0x340: EACH_WORD(x + y + (lane(&c, n) & 1)) break;
    case 0x0c2: EACH_WORD(((uint64_t)x + y) >> 32) break;
    case 0x3d0: EACH_BYTE(x == y ? 0xff : 0) break;
    case 0x2c8: EACH_WORD((x >> 16 > y >> 16 ? 0xffff0000 : 0) | ((x & 0xffff) > (y & 0xffff) ? 0xffff : 0)) break;
    case 0x2a5: EACH_WORD(x ? __builtin_clz(x) : 32) break;
    case 0x2b4: EACH_BYTE(__builtin_popcount(x)) break;
    case 0x0d3: EACH_BYTE((x + y + 1) >> 1) break;
    case 0x253: EACH_WORD(sums(x, y)) break;
    case 0x0c9: EACH_BYTE(~(x & y)) break;
    case 0x241: EACH_BYTE(x ^ y) break;
    case 0x05b: EACH_WORD((y & 63) < 32 ? x << (y & 63) : 0) break;
    case 0x1fc: for (int n = 0; n < 16; n++) out.byte[n] = a.byte[(n + (word >> 14 & 15)) & 15]; break;
    case 0x1c4: out = *quad_at(spe, lane(&a, 0) + lane(&b, 0)); break;
    case BITS_8(0x1c): EACH_WORD(x + number) break;
    case BITS_8(0x46): EACH_BYTE(x ^ number) break;
    case BITS_8(0x4c): EACH_WORD((int32_t)x > (int32_t)number ? 0xffffffff : 0) break;
    case BITS_8(0x34): out = *quad_at(spe, lane(&a, 0) + 16 * number); break;
    case BITS_9(0x081): out = splat((uint32_t)i16(word)); break;
    case BITS_9(0x082): out = splat((uint32_t)i16(word) << 16); break;
    case BITS_9(0x066): out = four(next, 0, 0, 0), next = branched(spe->pc, word); break;
    case BITS_7(0x21): out = splat(word >> 7 & 0x3ffff); break;
    case BITS_4(0x8): to = &spe->reg[word >> 21 & 127]; EACH_BYTE((x & ~c.byte[n]) | (y & c.byte[n])) break;
    case BITS_4(0xb): to = &spe->reg[word >> 21 & 127]; EACH_BYTE(chosen(&a, &b, c.byte[n])) break;
    case BITS_8(0x24): to = quad_at(spe, lane(&a, 0) + 16 * number), out = c; break;
    case BITS_9(0x064): next = branched(spe->pc, word), out = c; break;
    case BITS_9(0x042): next = lane(&c, 0) ? branched(spe->pc, word) : next, out = c; break;
    case 0x128: next = lane(&c, 0) ? next : lane(&a, 0) & (STORE - 4), out = c; break;
    case 0x1a8: next = lane(&a, 0) & (STORE - 4), out = c; break;
    default: fail("an instruction that it doesn't know");
    }
    *to = out;
    spe->pc = next;
}

/* ---- files and texts */

/* Reads what `cell asm` prints: lines of code and data, each with its address and bytes, and the entry. */
static void read_image(processor *spe) {
    char line[256], bytes[128];
    uint32_t at;
    while (fgets(line, sizeof line, stdin)) {
        if (sscanf(line, "entry %" SCNx32, &spe->pc) == 1) continue;
        if (sscanf(line, "%*[a-z] %" SCNx32 " %127s", &at, bytes) != 2) fail("a line that cell asm doesn't print");
        for (size_t n = 0; n + 1 < strlen(bytes) && at < STORE; n += 2, at++) sscanf(bytes + n, "%2" SCNx8, &spe->store[at]);
    }
}

/* Makes so many steps, and records them. */
static step *run(processor *spe, size_t budget) {
    size_t room = 1024;
    step *made = malloc(room * sizeof *made);
    for (size_t n = 0; made && n < budget; n++) {
        if (n == room) made = realloc(made, (room *= 2) * sizeof *made);
        if (!made) break;
        execute(spe);
        made[n] = (step){.kind = 'x', .spe = 0};
    }
    if (!made) fail("no memory");
    return made;
}

/* Prints the record: steps of one processor that follow one another are one line. */
static void print_record(const step *made, size_t count) {
    puts("cell-record 2");
    for (size_t first = 0, next; first < count; first = next) {
        for (next = first + 1; next < count && made[next].kind == made[first].kind && made[next].spe == made[first].spe; next++) {}
        printf("%c %u %zu\n", made[first].kind, made[first].spe, next - first);
    }
}

static void print_states(const processor *spe, size_t count) {
    printf("steps %zu\nend Budget\nspe 0 running pc 0x%05" PRIx32 " queued 0\n", count, spe->pc);
    for (int number = 0; number < REGISTERS; number++) {
        static const quad zero;
        const quad *of = &spe->reg[number];
        if (!memcmp(of, &zero, sizeof zero)) continue;
        printf("r%d %08" PRIx32 "%08" PRIx32 "%08" PRIx32 "%08" PRIx32 "\n", number, lane(of, 0), lane(of, 1), lane(of, 2), lane(of, 3));
    }
    puts("host 0 of 0");
}

int main(int words, char **word) {
    if (words != 2) fail("usage: plain BUDGET, with what cell asm prints on standard input");
    size_t budget = strtoull(word[1], NULL, 10);
    processor *spe = calloc(1, sizeof *spe);
    if (!spe) fail("no memory");
    read_image(spe);
    step *made = run(spe, budget);
    print_record(made, budget);
    print_states(spe, budget);
    free(made);
    free(spe);
    return 0;
}
