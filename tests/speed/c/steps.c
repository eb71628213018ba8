/*
 * The calls and the schedule of tests/speed/steps/steps.rs through the C header: card K's program with eight processes, each called again as soon as its
 * operation returned. usage: steps COUNT; the shared cells are printed at the end, read off the block by crates/block/specs/Layout, which is no
 * part of the header.
 */
#include <stdint.h>
#include <stdio.h>
#include <stdlib.h>

#include "lace_card.h"

static const char card[] = "card,8,1,1,1000000000000000000\nvar,7\nsheet,4\nins,1,0,0,0\nins,3,1,0,0\nins,4,0,0,0\nins,11,0,1,0\n";
static uint64_t block[LACE_BLOCK_WORDS];
static uint64_t loan[LACE_LOAN_WORDS(8, 2)];

static void show_cells(void)
{
    static const char *const flags[] = { "done", "active", "exit" };
    const uint64_t *gate = block + 5, *record = block + 80;
    if (gate[0])
        printf("gate,%d,%llu\n", (int)gate[0] - 1, (unsigned long long)gate[1]);
    else
        printf("gate,none,%llu\n", (unsigned long long)gate[1]);
    for (int process = 0; process < 8; process++) {
        const uint64_t *a = block + 8 + 9 * process;
        printf("announcement,%d,%d,%llu,%s,%llu,%llu,%llu,%llu,%llu,%d\n", process, (int)a[0], (unsigned long long)a[2], flags[a[1]],
               (unsigned long long)a[3], (unsigned long long)a[4], (unsigned long long)a[5], (unsigned long long)a[6],
               (unsigned long long)a[7], (int)a[8]);
    }
    printf("record,0,%llu,%llu,%d,%llu\n", (unsigned long long)record[0], (unsigned long long)record[1], (int)record[2],
           (unsigned long long)record[3]);
}

int main(int words, char **argument)
{
    uint64_t count = words > 1 ? strtoull(argument[1], NULL, 10) : 1000000;
    uint64_t x = UINT64_C(88172645463325252);
    uint64_t out[LACE_STEP_WORDS];
    if (lace_open((const uint8_t *)card, sizeof card - 1, block, LACE_BLOCK_WORDS, NULL, 0) != LACE_TAKEN)
        return 1;
    for (uint32_t process = 0; process < 8; process++)
        lace_call(block, LACE_BLOCK_WORDS, process, 0, process, 0, 0, 0);
    for (uint64_t k = 0; k < count; k++) {
        x ^= x << 13;
        x ^= x >> 7;
        x ^= x << 17;
        lace_step(block, LACE_BLOCK_WORDS, loan, sizeof loan / sizeof *loan, (uint32_t)(x % 8), out, LACE_STEP_WORDS);
        if (out[LACE_KIND] != LACE_RUN)
            lace_call(block, LACE_BLOCK_WORDS, (uint32_t)(x % 8), 0, (uint32_t)k, 0, 0, 0);
    }
    show_cells();
    return 0;
}
