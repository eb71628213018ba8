/*
 * Two machines on one processor through the header alone, and the same requests to each machine alone.
 * usage: machines FOLDER
 * FOLDER has a card for each machine, card0.txt and card1.txt, and calls.txt: the commands of bench call, wish, step and look with the machine's number behind
 * the verb, and `turn`. A turn has 20 steps; machine 0 has share 14 and ceiling 16, machine 1 share 2 and ceiling 20. Prints the answer to each line as
 * bench does, with the machine's number. A request that is not refused with 19 is made once more, on a block and a loan of its machine alone: its
 * status, its numbers and in the end all blocks and loans must be the same, else a line tells so.
 */
#include <stdint.h>
#include <stdio.h>
#include <string.h>

#include "lace_card.h"

enum { MACHINES = 2, STRIDE = LACE_PROCESSES * LACE_WEIGHT * 3, GUARD = 8 };

static uint64_t allowance[LACE_ALLOWANCE_WORDS + GUARD];
static uint64_t blocks[MACHINES * LACE_BLOCK_WORDS + GUARD], loans[MACHINES * STRIDE + GUARD];
static uint64_t alone[MACHINES * LACE_BLOCK_WORDS], lent[MACHINES * STRIDE];
static const uint64_t terms[MACHINES * LACE_TERM_WORDS] = { 14, 16, 2, 20 };
static const uint64_t guard = UINT64_C(6510615555426900570);
static int failures;

static void expect(int right, const char *what)
{
    if (!right) {
        printf("does not hold: %s\n", what);
        failures++;
    }
}

static size_t read_file(const char *folder, const char *name, char *bytes, size_t room)
{
    char path[1000];
    FILE *file;
    size_t length = 0;
    snprintf(path, sizeof path, "%s/%s", folder, name);
    file = fopen(path, "rb");
    expect(file != NULL, path);
    if (file) {
        length = fread(bytes, 1, room - 1, file);
        fclose(file);
    }
    bytes[length] = 0;
    return length;
}

static void open_all(const char *folder)
{
    static char text[LACE_TEXT_BYTES];
    for (uint32_t m = 0; m < MACHINES; m++) {
        size_t length = read_file(folder, m == 0 ? "card0.txt" : "card1.txt", text, sizeof text);
        expect(lace_machines_open_card(blocks, MACHINES * LACE_BLOCK_WORDS, m, (uint8_t *)text, length, NULL, 0) == LACE_TAKEN, "a card opens");
        expect(lace_open((uint8_t *)text, length, alone + m * LACE_BLOCK_WORDS, LACE_BLOCK_WORDS, NULL, 0) == LACE_TAKEN, "it opens alone");
    }
    expect(lace_machines_open(allowance, LACE_ALLOWANCE_WORDS, MACHINES, 20, terms, MACHINES * LACE_TERM_WORDS) == LACE_TAKEN, "the machines open");
}

/* one line: its answer, and that of its machine alone */
static void answer(const char *line)
{
    uint32_t m = 0, x[6] = { 0 }, status = 0, other = 0;
    uint64_t out[LACE_STEP_WORDS] = { 0 }, own[LACE_STEP_WORDS] = { 0 };
    char verb[8] = "";
    const size_t an = LACE_ALLOWANCE_WORDS, bn = MACHINES * LACE_BLOCK_WORDS, ln = MACHINES * STRIDE, wn = LACE_BLOCK_WORDS;
    uint64_t *block = alone;
    sscanf(line, "%7[a-z],%u,%u,%u,%u,%u,%u,%u", verb, &m, &x[0], &x[1], &x[2], &x[3], &x[4], &x[5]);
    if (strcmp(verb, "turn") == 0) {
        lace_machines_turn(allowance, an);
        printf("turn,taken\n");
        return;
    }
    block += (m < MACHINES ? m : 0) * LACE_BLOCK_WORDS;
    printf("%s,%u,%u,", verb, m, x[0]);
    if (strcmp(verb, "call") == 0) {
        status = lace_machines_call(allowance, an, blocks, bn, m, x[0], x[1], x[2], x[3], x[4], x[5]);
        other = m < MACHINES ? lace_call(block, wn, x[0], x[1], x[2], x[3], x[4], x[5]) : LACE_NO_PROCESS;
    } else if (strcmp(verb, "wish") == 0) {
        status = lace_machines_request_exit(allowance, an, blocks, bn, m, x[0]);
        other = m < MACHINES ? lace_request_exit(block, wn, x[0]) : LACE_NO_PROCESS;
    } else if (strcmp(verb, "look") == 0) {
        status = lace_machines_read(allowance, an, blocks, bn, m, x[0], out, 1);
        other = m < MACHINES ? lace_read(block, wn, x[0], own, 1) : LACE_NO_PROCESS;
    } else {
        status = lace_machines_step(allowance, an, blocks, bn, loans, ln, STRIDE, m, x[0], out, LACE_STEP_WORDS);
        other = status;
        if (m >= MACHINES)
            other = LACE_NO_PROCESS;
        else if (status != LACE_NO_ALLOWANCE)
            other = lace_step(block, wn, lent + m * STRIDE, STRIDE, x[0], own, LACE_STEP_WORDS);
    }
    if (status != LACE_TAKEN)
        printf("refused,%u\n", status);
    else if (strcmp(verb, "look") == 0)
        printf("%llu\n", (unsigned long long)out[LACE_VALUE]);
    else if (strcmp(verb, "step") != 0)
        printf("taken\n");
    else if (out[LACE_KIND] == LACE_RUN)
        printf("run\n");
    else if (out[LACE_KIND] == LACE_EXITED)
        printf("exited,%llu\n", (unsigned long long)out[LACE_OWN_STEPS]);
    else
        printf("%s,%llu,%llu,%llu,%llu,%llu,%llu\n", out[LACE_KIND] == LACE_DONE ? "done" : "fault", (unsigned long long)out[LACE_GATE_NUMBER],
               (unsigned long long)out[LACE_OUTPUT], (unsigned long long)out[LACE_OUTPUT + 1], (unsigned long long)out[LACE_OUTPUT + 2],
               (unsigned long long)out[LACE_OUTPUT + 3], (unsigned long long)out[LACE_OWN_STEPS]);
    expect(status == other && memcmp(out, own, sizeof own) == 0, "a machine answers as it would alone");
}

int main(int words, char **argument)
{
    static char calls[65536];
    if (words != 2) {
        fprintf(stderr, "usage: machines FOLDER\n");
        return 2;
    }
    for (size_t k = 0; k < GUARD; k++)
        allowance[LACE_ALLOWANCE_WORDS + k] = blocks[MACHINES * LACE_BLOCK_WORDS + k] = loans[MACHINES * STRIDE + k] = guard;
    open_all(argument[1]);
    read_file(argument[1], "calls.txt", calls, sizeof calls);
    for (char *line = strtok(calls, "\n"); line; line = strtok(NULL, "\n"))
        answer(line);
    expect(memcmp(blocks, alone, sizeof alone) == 0, "the blocks are those of each machine alone");
    expect(memcmp(loans, lent, sizeof lent) == 0, "the loans are those of each machine alone");
    for (size_t k = 0; k < GUARD; k++)
        expect(allowance[LACE_ALLOWANCE_WORDS + k] == guard && blocks[MACHINES * LACE_BLOCK_WORDS + k] == guard && loans[MACHINES * STRIDE + k] == guard,
               "the words behind are kept");
    return failures != 0;
}
