/* Two processors put a number into the same place of main memory. Do their steps race? */
#include "cell.h"
#include <stdio.h>
#include <string.h>

static const char machine[] =
    "cell-machine 1\n"
    "lines 1\n"
    "budget 1000\n"
    "spe\n"
    "source writer.s\n"
    "spe\n"
    "source writer.s\n";
static const char writer[] =
    "_start: il   $3,16\n"
    "        wrch $ch19,$3    # the size\n"
    "        il   $4,0x20     # PUT, of the 16 bytes from 0 on\n"
    "        wrch $ch21,$4\n"
    "        stop 1\n";

int main(void) {
    static uint8_t out[65536];
    const char *words = "hunt\npair.cell\n20"; /* one on a line */
    char files[2048];
    int count = snprintf(files, sizeof files, "pair.cell\n%zu\n%swriter.s\n%zu\n%s", strlen(machine), machine, strlen(writer), writer);
    size_t written;
    uint32_t status = cell_answer((const uint8_t *)words, strlen(words), (const uint8_t *)files, (size_t)count, out, sizeof out, &written);
    if (status == CELL_NO_ROOM) {
        fprintf(stderr, "the answer has %zu bytes\n", written);
        return 1;
    }
    printf("status %u\n%.*s", (unsigned)status, (int)written, (const char *)out);
    return 0;
}
