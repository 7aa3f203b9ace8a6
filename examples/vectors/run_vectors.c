/* Runs the vectors of instructions on an emulator, whose `step` you put in place of the one here:
   cc run_vectors.c -o run_vectors && ./run_vectors FOLDER/rows/a.json ..   With -DPLANTED the stand-in has a bug, which the vectors find. */
#include <stdint.h>
#include <stdio.h>
#include <stdlib.h>
#include <string.h>

#define STORE 0x40000u
typedef struct { char status[32]; uint32_t pc; uint8_t reg[128][16], ls[STORE]; } spu;

static uint32_t get(const uint8_t *at) { return (uint32_t)at[0] << 24 | at[1] << 16 | at[2] << 8 | at[3]; }
static void put(uint8_t *at, uint32_t value) { for (int k = 0; k < 4; k++) at[k] = (uint8_t)(value >> (24 - 8 * k)); }

/* A stand-in for an emulator: it knows `a`, `ai` and `il`. */
static int step(spu *s, uint32_t word) {
    uint32_t rt = word & 127, ra = word >> 7 & 127, rb = word >> 14 & 127, sum;
    uint32_t ten = ((word >> 14 & 1023) ^ 512) - 512, half = ((word >> 7 & 0xFFFF) ^ 0x8000) - 0x8000;
    for (int k = 0; k < 16; k += 4) {
        if (word >> 21 == 0x0C0) sum = get(&s->reg[ra][k]) + get(&s->reg[rb][k]);
        else if (word >> 24 == 0x1C) sum = get(&s->reg[ra][k]) + ten;
        else if (word >> 23 == 0x081) sum = half;
        else return 0;
#ifdef PLANTED
        if (word >> 21 == 0x0C0) sum -= (uint32_t)((get(&s->reg[ra][k]) & 0xFFFF) + (get(&s->reg[rb][k]) & 0xFFFF) > 0xFFFF) << 16; /* drops a carry */
#endif
        put(&s->reg[rt][k], sum);
    }
    s->pc = (s->pc + 4) % STORE;
    return 1;
}

/* Reads pairs [[N,"HEX"],..]: puts each HEX at base + N * stride, or returns how many differ from what is there. */
static int pairs(const char **at, uint8_t *base, size_t stride, int is_after) {
    int wrong = 0;
    for (*at = strchr(*at, '[') + 1; **at == '[' || **at == ','; *at = strchr(*at, ']') + 1) {
        char *hex;
        uint8_t value[16];
        size_t number = strtoul(*at + (**at == ',' ? 2 : 1), &hex, 10);
        for (int k = 0; k < 16; k++) sscanf(hex + 2 + 2 * k, "%2hhx", &value[k]);
        wrong += is_after && memcmp(base + number * stride, value, 16) != 0;
        if (!is_after) memcpy(base + number * stride, value, 16);
    }
    return wrong;
}

static int passes(const char *line, spu *s) {
    static char status[32];
    const char *at = strstr(line, "\"pc\":");
    strcpy(s->status, "running");
    s->pc = (uint32_t)strtoul(at + 5, NULL, 10);
    pairs(&at, s->reg[0], 16, 0);
    pairs(&at, s->ls, 1, 0);
    int wrong = !step(s, (uint32_t)strtoul(line + strlen("{\"word\":\""), NULL, 16));
    at = strstr(at, "\"status\":\"");
    sscanf(at, "\"status\":\"%31[^\"]", status);
    at = strstr(at, "\"pc\":");
    wrong += strcmp(s->status, status) != 0 || s->pc != strtoul(at + 5, NULL, 10);
    wrong += pairs(&at, s->reg[0], 16, 1);
    return wrong + pairs(&at, s->ls, 1, 1) == 0;
}

int main(int count, char **names) {
    static spu s;
    static char line[4096];
    int failed = 0;
    for (int k = 1; k < count; k++) {
        int cases = 0, wrong = 0;
        FILE *file = fopen(names[k], "r");
        if (!file) return perror(names[k]), 2;
        while (fgets(line, sizeof line, file))
            if (!strncmp(line, "{\"word\":", 8)) cases++, wrong += !passes(line, &s);
        fclose(file);
        printf("%s: %d cases, %d failed\n", names[k], cases, wrong);
        failed += wrong;
    }
    return failed ? 1 : 0;
}
